mod again;
mod before;
mod crashes;
mod damage;
mod ends;
mod figures;
mod reads;

use std::path::{Path, PathBuf};

use themis_engine::tx::Tx;
use themis_engine::window::Windows;

use crate::rows::bytes_of;
use crate::*;

/// A folder that goes with the test.
struct Folder(PathBuf);

impl Folder {
    fn new(name: &str) -> Folder {
        let name = format!("themis-store-{}-{name}", std::process::id());
        let path = std::env::temp_dir().join(name);
        std::fs::create_dir_all(&path).unwrap();
        Folder(path)
    }

    /// The file of the store.
    fn file(&self) -> PathBuf {
        self.0.join("0.store")
    }

    /// A new store.
    fn store(&self) -> Store {
        Store::create(&self.file(), &owner(), 0, "first", &keys(0), None).unwrap();
        Store::open(&self.file(), &owner()).unwrap()
    }

    fn reader(&self) -> Reader {
        Reader::open(&self.file(), &owner()).unwrap()
    }
}

impl Drop for Folder {
    fn drop(&mut self) {
        let _ = std::fs::remove_dir_all(&self.0);
    }
}

fn owner() -> Identity {
    Identity { cluster: [8; 32], replica: 3 }
}

fn keys(session: u32) -> PublicKeys {
    vec![Some([session as u8; 60]), None, Some([9; 60])]
}

fn tx(client: u32, number: u32) -> Tx {
    Tx { client, number, payload: u64::from(number) << 40 }
}

/// How sessions end, one after the other.
struct Made {
    session: u32,
    first: usize,
    batches: Vec<Vec<Tx>>,
    digest: Sha,
    carried: Vec<Tx>,
    setting: String,
    keys: PublicKeys,
    is_closed: bool,
}

impl Made {
    /// The session after those, with these batches.
    fn after(before: &[Made], batches: Vec<Vec<Tx>>) -> Made {
        let session = before.len() as u32;
        let (first, mut digest) =
            before.last().map_or((0, [0; 32]), |it| (it.first + it.batches.len(), it.digest));
        for it in &batches {
            digest = chain(&digest, &bytes_of(it));
        }
        let setting = format!("setting {session}");
        let carried = vec![tx(70, session + 1), tx(71, 1)];
        let (keys, is_closed) = (keys(session + 1), false);
        Made { session, first, batches, digest, carried, setting, keys, is_closed }
    }

    fn ended(&self) -> Ended<'_> {
        Ended {
            session: self.session,
            first: self.first,
            batches: &self.batches,
            digest: self.digest,
            carried: &self.carried,
            setting: &self.setting,
            keys: &self.keys,
            is_closed: self.is_closed,
        }
    }

    /// Opens the session, and ends it.
    fn run(&self, store: &mut Store) {
        store.mark_opened(self.session).unwrap();
        store.end(&self.ended()).unwrap();
    }
}

/// Batches of that many sessions, one to three transactions each, and the marker last.
fn sessions(count: u32, batches: u32) -> Vec<Made> {
    let mut made = Vec::new();
    for session in 0..count {
        let mut list = Vec::new();
        for at in session * batches..(session + 1) * batches {
            list.push((0..=at % 3).map(|client| tx(client + 1, at + 1)).collect());
        }
        list.push(vec![tx(0, session)]);
        made.push(Made::after(&made, list));
    }
    made
}

/// All batches of these sessions.
fn all(made: &[Made]) -> Vec<Vec<Tx>> {
    made.iter().flat_map(|it| it.batches.clone()).collect()
}

/// What a start reads, the whole list, and its digest.
type Contents = (History, Vec<Vec<Tx>>, Option<Sha>);

/// All that a store tells, for comparison.
fn contents(path: &Path) -> Result<Contents, Error> {
    let store = Store::open(path, &owner())?;
    let reader = Reader::open(path, &owner())?;
    let mut batches = Vec::new();
    loop {
        let more = reader.batches(batches.len(), 7, 1 << 20)?;
        if more.is_empty() {
            break;
        }
        batches.extend(more.into_iter().map(|it| it.txs));
    }
    let digest = reader.digest_of(batches.len())?;
    Ok((store.history()?, batches, digest))
}

fn settled(batches: &[Vec<Tx>]) -> Windows {
    let mut windows = Windows::default();
    batches.iter().flatten().for_each(|it| {
        windows.settle(it);
    });
    windows
}
