//! A new store that continues the list of another one: its cluster has other members or another
//! setting, and the list, its positions and the windows of clients go on.

use rusqlite::{Connection, TransactionBehavior};
use themis_engine::tx::Tx;

use crate::error::{corrupt, Error};
use crate::read::Reader;
use crate::rows::Sha;
use crate::sessions::Session;
use crate::store::put_batches;
use crate::windows;

/// Batches that are read and written at a time, and their bytes.
const STEP: (usize, usize) = (4096, 1 << 22);

/// The list that a new store continues.
#[derive(Clone, Copy, Debug)]
pub struct Before<'a> {
    /// A store that has it, of any replica of any cluster.
    pub list: &'a Reader,
    /// How many batches it has.
    pub position: usize,
    /// Chains all of them.
    pub digest: Sha,
    /// What was carried over to the first session of the new store, in its order.
    pub carried: &'a [Tx],
}

impl Before<'_> {
    /// Whether the store has this list, whole. Nothing is written.
    pub fn check(&self) -> Result<(), Error> {
        self.read(|_, _| Ok(()))
    }

    /// Writes the list and the windows to which it leads; the session starts there. Each part is a
    /// transaction of its own, as nobody uses the new store before all of it is there. Who opens it
    /// compares the digest of what was written with that of the session.
    pub(crate) fn copy(&self, to: &mut Connection, session: &mut Session) -> Result<(), Error> {
        let mut digest = session.digest;
        self.read(|first, batches| {
            let work = to.transaction_with_behavior(TransactionBehavior::Immediate)?;
            digest = put_batches(&work, first, batches, digest)?;
            windows::settle(&work, batches, &mut session.windows)?;
            Ok(work.commit()?)
        })?;
        (session.first, session.digest) = (self.position, self.digest);
        Ok(())
    }

    /// Reads the list in parts; each batch is checked against the digests, and the last digest
    /// against this one.
    fn read(
        &self,
        mut take: impl FnMut(usize, &[Vec<Tx>]) -> Result<(), Error>,
    ) -> Result<(), Error> {
        if self.list.digest_of(self.position)? != Some(self.digest) {
            return Err(Error::OtherList);
        }
        let (mut at, (count, bytes)) = (0, STEP);
        while at < self.position {
            let found = self.list.batches(at, count.min(self.position - at), bytes)?;
            if found.is_empty() {
                return corrupt(format!("batch {at} is missing"));
            }
            let batches: Vec<_> = found.into_iter().map(|it| it.txs).collect();
            take(at, &batches)?;
            at += batches.len();
        }
        Ok(())
    }
}
