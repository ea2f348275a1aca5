//! The final batches, for the clients that follow them.
//!
//! Those of the session that runs are in memory. Where sessions follow one another, those before
//! are in the store.

use std::collections::VecDeque;
use std::io;
use std::sync::{Arc, Mutex, MutexGuard, PoisonError};

use themis_engine::tx::{self, Tx};
use themis_store::Reader;
use tokio::sync::watch;

/// Transactions of one part from the store, in bytes.
const MAX_BYTES: usize = 1 << 18;

/// The final batches as lines. The engine's thread adds to them; clients read.
pub struct Batches {
    recent: Mutex<Recent>,
    count: watch::Sender<usize>,
    /// One after the other reads: those that wait block no thread.
    stored: Option<Arc<tokio::sync::Mutex<Reader>>>,
}

/// The batches in memory.
#[derive(Default)]
struct Recent {
    /// The position of the first one.
    first: usize,
    lines: VecDeque<Arc<str>>,
}

impl Recent {
    fn end(&self) -> usize {
        self.first + self.lines.len()
    }
}

fn lock<T>(mutex: &Mutex<T>) -> MutexGuard<'_, T> {
    mutex.lock().unwrap_or_else(PoisonError::into_inner)
}

fn line(position: usize, txs: &[Tx]) -> Arc<str> {
    let mut line = format!("batch {position}");
    for it in txs {
        line.push(' ');
        tx::write(it, &mut line);
    }
    line.push('\n');
    line.into()
}

impl Batches {
    /// No batch yet.
    pub fn new() -> Batches {
        Batches { recent: Mutex::default(), count: watch::channel(0).0, stored: None }
    }

    /// The batches of a store, up to this position.
    pub fn over(stored: Reader, first: usize) -> Batches {
        let recent = Recent { first, lines: VecDeque::new() };
        let stored = Some(Arc::new(tokio::sync::Mutex::new(stored)));
        Batches { recent: Mutex::new(recent), count: watch::channel(first).0, stored }
    }

    /// Adds a batch, and wakes those that wait for it.
    pub fn push(&self, position: usize, txs: &[Tx]) {
        let mut recent = lock(&self.recent);
        if position == recent.end() {
            recent.lines.push_back(line(position, txs));
        }
        drop(recent);
        self.count.send_replace(position + 1);
    }

    /// The batches before this position are stored: they leave the memory.
    pub fn stored(&self, end: usize) {
        let mut recent = lock(&self.recent);
        let count = end.saturating_sub(recent.first).min(recent.lines.len());
        recent.lines.drain(..count);
        recent.first += count;
        if recent.lines.is_empty() {
            recent.lines.shrink_to_fit();
        }
    }

    /// Some lines from a position on; none where there is no such batch yet.
    pub async fn from(&self, position: usize, most: usize) -> io::Result<Vec<Arc<str>>> {
        let first = {
            let recent = lock(&self.recent);
            if let Some(at) = position.checked_sub(recent.first) {
                return Ok(recent.lines.iter().skip(at).take(most).cloned().collect());
            }
            recent.first
        };
        // Nothing leaves the memory before it is in the store.
        let most = most.min(first - position);
        let found = self.read(move |it| it.batches(position, most, MAX_BYTES)).await?;
        let found = found.unwrap_or_default();
        Ok(found.iter().map(|it| line(it.position, &it.txs)).collect())
    }

    /// The position of a transaction that is in the store.
    pub async fn position_of(&self, tx: Tx) -> io::Result<Option<usize>> {
        Ok(self.read(move |it| it.position_of(&tx)).await?.flatten())
    }

    /// What the store says, aside from all threads that others wait for; none where there is no store.
    async fn read<T: Send + 'static>(
        &self,
        question: impl FnOnce(&Reader) -> Result<T, themis_store::Error> + Send + 'static,
    ) -> io::Result<Option<T>> {
        let Some(stored) = self.stored.clone() else { return Ok(None) };
        let reader = stored.lock_owned().await;
        let read = tokio::task::spawn_blocking(move || question(&reader)).await?;
        read.map(Some).map_err(|cause| {
            tracing::error!(%cause, "the store can't be read");
            io::Error::other(cause)
        })
    }

    /// Changes with each batch.
    pub fn watch(&self) -> watch::Receiver<usize> {
        self.count.subscribe()
    }
}

#[cfg(test)]
pub(crate) mod tests {
    use themis_store::{chain, Ended, Identity, Store};

    use super::*;

    /// The batches of a store that was damaged since the start.
    pub(crate) fn damaged(folder: &std::path::Path) -> Batches {
        let damaged = Batches::over(stored(folder), 3);
        let store = std::fs::File::options().write(true).open(folder.join("0.store")).unwrap();
        store.set_len(4096).unwrap();
        damaged
    }

    const OWNER: Identity = Identity { cluster: [1; 32], replica: 0 };

    fn batch(number: u32) -> Vec<Tx> {
        vec![Tx { client: 1, number, payload: 0 }]
    }

    /// A store in which one session with three batches has ended.
    fn stored(folder: &std::path::Path) -> Reader {
        let (path, owner) = (folder.join("0.store"), OWNER);
        let _ = std::fs::remove_file(&path);
        Store::create(&path, &owner, 0, "", &Vec::new(), None).unwrap();
        let (batches, mut digest) = ([1, 2, 3].map(batch), [0; 32]);
        for it in &batches {
            let mut data = Vec::new();
            tx::put(&it[0], &mut data);
            digest = chain(&digest, &data);
        }
        let (keys, is_closed) = (Vec::new(), false);
        let (batches, carried) = (&batches[..], &[][..]);
        let ended = Ended {
            session: 0,
            first: 0,
            batches,
            digest,
            carried,
            setting: "",
            keys: &keys,
            is_closed,
        };
        Store::open(&path, &owner).unwrap().end(&ended).unwrap();
        reader(folder)
    }

    fn reader(folder: &std::path::Path) -> Reader {
        Reader::open(&folder.join("0.store"), &OWNER).unwrap()
    }

    /// A bad page of the file, or a disk that fails, is no cause to end the replica.
    #[tokio::test(flavor = "current_thread")]
    async fn where_transactions_are_and_a_store_that_cant_be_read() {
        let folder = std::env::temp_dir().join(format!("themisd-damaged-{}", std::process::id()));
        std::fs::create_dir_all(&folder).unwrap();
        drop(stored(&folder));
        let whole = Batches::over(reader(&folder), 3);
        let tx = |number| batch(number)[0];
        assert_eq!(whole.position_of(tx(2)).await.unwrap(), Some(1));
        assert_eq!(whole.position_of(tx(9)).await.unwrap(), None);
        assert_eq!(Batches::new().position_of(tx(2)).await.unwrap(), None);
        drop(whole);
        let damaged = damaged(&folder);
        assert!(damaged.position_of(tx(2)).await.is_err());
        assert!(damaged.from(0, 2).await.is_err());
        std::fs::remove_dir_all(folder).unwrap();
    }

    #[tokio::test(flavor = "current_thread")]
    async fn one_list_from_the_store_and_from_memory() {
        let folder = std::env::temp_dir().join(format!("themisd-batches-{}", std::process::id()));
        std::fs::create_dir_all(&folder).unwrap();
        let all = Batches::over(stored(&folder), 3);
        let lines = |from, most| {
            let all = &all;
            async move { all.from(from, most).await.unwrap().concat() }
        };
        assert_eq!(lines(0, 2).await, "batch 0 1.1.0\nbatch 1 1.2.0\n");
        assert_eq!(lines(1, 9).await, "batch 1 1.2.0\nbatch 2 1.3.0\n");
        assert_eq!(lines(3, 9).await, "");
        let watched = all.watch();
        all.push(3, &batch(4));
        all.push(4, &batch(5));
        all.push(3, &batch(4)); // after a start it comes again
        assert!(watched.has_changed().unwrap());
        assert_eq!(lines(3, 9).await, "batch 3 1.4.0\nbatch 4 1.5.0\n");
        assert_eq!(lines(4, 9).await, "batch 4 1.5.0\n");
        // What is in memory leaves it once it is stored.
        all.stored(4);
        assert_eq!(lock(&all.recent).lines.len(), 1);
        assert_eq!(lines(2, 1).await, "batch 2 1.3.0\n");
        assert_eq!(lines(4, 9).await, "batch 4 1.5.0\n");
        std::fs::remove_dir_all(folder).unwrap();
    }
}
