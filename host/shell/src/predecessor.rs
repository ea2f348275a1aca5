//! The cluster that another one continues: which it was, where it ended, and a store that has its list.
//!
//! The members or the setting change in this way: the operators end a cluster with a session, and make
//! another one that goes on from there. `[after]` of the new shared file says where, and is part of what
//! names the new cluster, so its operators compare it with the rest. The digest in it chains all
//! batches, so the store of any replica will do, whole or copied. What had arrived and is not final is
//! in the store of its own replica alone: that goes on with it in the new cluster.

use std::path::{Path, PathBuf};

use serde::{Deserialize, Serialize};
use themis_engine::tx::Tx;
use themis_store::{Before, Error, Reader, Sha, State};

use crate::config::{hex, unhex, Setup};
use crate::exit::{Exit, Failure};
use crate::recovery::{store_failure, store_path, Lock};
use crate::sessions_worker::owner;

/// Where the cluster before ended.
#[derive(Clone, Debug, Deserialize, Serialize, PartialEq, Eq)]
#[serde(deny_unknown_fields)]
pub struct After {
    /// The digest that names it, in hexadecimal digits.
    pub cluster: String,
    /// Its last session.
    pub session: u32,
    /// How many batches were final by then.
    pub position: usize,
    /// Chains all of these, in hexadecimal digits.
    pub digest: String,
}

impl After {
    /// Whether it can stand before a cluster with this first session; the cause where it can't.
    pub fn check(&self, first: u32) -> Result<(), String> {
        if self.session.checked_add(1) != Some(first) {
            return Err("the first session has to be the one after that of [after]".to_owned());
        }
        match [&self.cluster, &self.digest].into_iter().find(|it| sha_of(it).is_none()) {
            Some(text) => Err(format!("a digest has 32 bytes: {text}")),
            None => Ok(()),
        }
    }

    /// As it stands in what names the cluster.
    pub fn named(&self) -> String {
        let After { cluster, session, position, digest } = self;
        format!("[\"{cluster}\", {session}, {position}, \"{digest}\"]")
    }
}

fn sha_of(text: &str) -> Option<Sha> {
    unhex(text)?.try_into().ok()
}

/// A store that has the list of the cluster before.
pub struct Predecessor {
    path: PathBuf,
    list: Reader,
    carried: Vec<Tx>,
    after: After,
    /// No process goes on with a store from which a replica takes over what it had.
    _lock: Option<Lock>,
}

impl Predecessor {
    /// Where a cluster ended: by the store of any of its replicas, or by the folder of its replica of
    /// this number, which also says what had arrived there and is not final.
    pub fn ended(path: &Path, me: u32, secret: &[u8; 32]) -> Result<Predecessor, Failure> {
        if path.is_dir() {
            return Predecessor::of_own_folder(path, me, secret);
        }
        let (list, whose) = Reader::open_any(path).map_err(|it| store_failure(path, &it))?;
        Predecessor::at_its_end(path.to_owned(), list, &whose.cluster)
    }

    /// The replica that this one was in the cluster before: it has ended for good, no process uses it,
    /// and its master secret is used no more.
    fn of_own_folder(path: &Path, me: u32, secret: &[u8; 32]) -> Result<Predecessor, Failure> {
        let config = path.join(format!("{me}.toml"));
        let setup = Setup::load(&config)?;
        let lock = Lock::take(path, me)?;
        let store = store_path(path, me);
        let refused = |it: Error| store_failure(&store, &it);
        let list = Reader::open(&store, &owner(&setup)).map_err(refused)?;
        let cluster = setup.cluster_digest();
        let carried = list.carried().map_err(refused)?;
        let found = Predecessor::at_its_end(store, list, &cluster)?;
        let session = found.after.session;
        if setup.config.last_session != Some(session) {
            let text = "the replica ends with this session, and never goes on";
            let text =
                format!("{}: it has to say last_session = {session}: {text}", config.display());
            return Err(Failure::new(Exit::Usage, text));
        }
        if setup.master()? == *secret {
            let text =
                format!("replica {me} has the master secret that it had in {}", path.display());
            return Err(Failure::new(Exit::Config, text));
        }
        Ok(Predecessor { carried, _lock: Some(lock), ..found })
    }

    /// A store whose last session has ended, and in which no later one was opened.
    fn at_its_end(path: PathBuf, list: Reader, cluster: &Sha) -> Result<Predecessor, Failure> {
        let next = list.last().map_err(|it| store_failure(&path, &it))?;
        let refused =
            |text: String| Err(Failure::new(Exit::Usage, format!("{}: {text}", path.display())));
        let Some(session) = next.number.checked_sub(1) else {
            return refused("no session has ended there".to_owned());
        };
        if next.state != State::Next {
            let text = "was opened there, so its cluster may have gone on";
            return refused(format!("session {} {text}", next.number));
        }
        let (cluster, digest) = (hex(cluster), hex(&next.digest));
        let after = After { cluster, session, position: next.first, digest };
        Ok(Predecessor { path, list, carried: Vec::new(), after, _lock: None })
    }

    /// A store that has the list that a cluster continues: of any replica, of the cluster before or of
    /// this one.
    pub fn with_list(path: &Path, after: &After) -> Result<Predecessor, Failure> {
        let (list, _) = Reader::open_any(path).map_err(|it| store_failure(path, &it))?;
        let (path, after) = (path.to_owned(), after.clone());
        let found = Predecessor { path, list, carried: Vec::new(), after, _lock: None };
        found.check()?;
        Ok(found)
    }

    /// Where it ended.
    pub fn after(&self) -> &After {
        &self.after
    }

    /// What a new store continues.
    pub fn before(&self) -> Before<'_> {
        let Predecessor { list, carried, after, .. } = self;
        // What was read of a file was checked.
        let digest = sha_of(&after.digest).unwrap_or_default();
        Before { list, position: after.position, digest, carried }
    }

    /// Whether all of the list is there as the digest says. Nothing is written.
    pub fn check(&self) -> Result<(), Failure> {
        self.before().check().map_err(|it| store_failure(&self.path, &it))
    }
}

#[cfg(test)]
#[path = "predecessor_tests.rs"]
mod tests;
