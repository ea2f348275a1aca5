//! What a replica under test received and heard: lines of a file next to the event log, in the order
//! in which it happened, as `service/receipts.py` reads them.

use std::fs::{File, OpenOptions};
use std::io::Write;
use std::path::Path;

use themis_engine::{tx, Note};

use crate::exit::{Exit, Failure};

/// The file of one replica.
pub struct ReceiptLog {
    file: File,
    lines: String,
    has_failed: bool,
}

impl ReceiptLog {
    /// A file that notes a start.
    pub fn open(path: &Path) -> Result<ReceiptLog, Failure> {
        let file = OpenOptions::new().append(true).create(true).open(path);
        let file = file.map_err(|it| Failure::new(Exit::Config, it))?;
        Ok(ReceiptLog { file, lines: "start\n".to_owned(), has_failed: false })
    }

    /// Something was received or heard.
    pub fn put(&mut self, note: Note) {
        let tx = match note {
            Note::Received(tx) => {
                self.lines.push_str("received ");
                tx
            }
            Note::Heard(peer, tx) => {
                self.lines += &format!("heard {peer} ");
                tx
            }
        };
        tx::write(&tx, &mut self.lines);
        self.lines.push('\n');
    }

    /// Writes what was put.
    pub fn flush(&mut self) {
        if self.lines.is_empty() {
            return;
        }
        if let Err(cause) = self.file.write_all(self.lines.as_bytes()) {
            if !std::mem::replace(&mut self.has_failed, true) {
                tracing::warn!(%cause, "receipts are not written");
            }
        }
        self.lines.clear();
    }
}

#[cfg(test)]
mod tests {
    use super::*;
    use themis_engine::tx::Tx;

    #[test]
    fn lines_in_their_order() {
        let name = format!("themisd-{}.receipts", std::process::id());
        let path = std::env::temp_dir().join(name);
        for number in 0..2 {
            let mut log = ReceiptLog::open(&path).unwrap();
            log.put(Note::Received(Tx { client: 1, number, payload: 9 }));
            log.put(Note::Heard(2, Tx { client: 3, number, payload: 0 }));
            log.flush();
        }
        let text = std::fs::read_to_string(&path).unwrap();
        assert_eq!(
            text,
            "start\nreceived 1.0.9\nheard 2 3.0.0\nstart\nreceived 1.1.9\nheard 2 3.1.0\n"
        );
        std::fs::remove_file(path).unwrap();
    }
}
