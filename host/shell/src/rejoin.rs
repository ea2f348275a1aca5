//! The command `rejoin`: a new store for a replica whose store was lost, or for a new machine that
//! takes over a replica's place.
//!
//! The new store is marked as made again. Its replica seals in no session in which it may have sealed
//! before: it asks the others in which session they are, takes the history from them, and takes part
//! again once a key of its own is agreed for a later session (docs/SESSIONS.md, rule 11). So nothing is
//! made where a store or a log of a session is there. With a new master secret no leaf of the old one
//! is used again in any case.

use std::path::PathBuf;

use clap::Args;

use crate::config::{hex, Setup};
use crate::exit::{Exit, Failure};
use crate::init::{failed, refuse_taken};
use crate::join::config_of;
use crate::keeper::own_key;
use crate::new_file::{write_new, Readers};
use crate::predecessor::Predecessor;
use crate::recovery::{self, store_path};
use crate::session_logs::SessionLogs;
use crate::sessions_worker::owner;

/// Which replica.
#[derive(Args, Clone, Debug)]
pub struct Wanted {
    /// The folder with the replica's secret, its TLS key, and what all replicas share.
    pub folder: PathBuf,
    /// The number of this replica.
    #[arg(long)]
    pub replica: u32,
    /// Where the cluster continues another one: a store of any replica, of that one or of this one,
    /// from which the list of that one is taken.
    #[arg(long, value_name = "STORE")]
    pub after: Option<PathBuf>,
}

/// Makes the store, and the configuration where there is none.
pub fn make(wanted: &Wanted) -> Result<(), Failure> {
    let config = wanted.folder.join(format!("{}.toml", wanted.replica));
    refuse_left_over(wanted)?;
    let default = (!config.exists()).then(|| config_of(wanted.replica, true));
    let setup = match &default {
        None => Setup::load(&config)?,
        Some(text) => {
            let read = toml::from_str(text).map_err(|it| Failure::new(Exit::Fault, it))?;
            Setup::with(read, &config)?
        }
    };
    if !setup.config.sessions {
        let text = "there is one session alone: its log is never made again";
        return Err(Failure::new(Exit::Usage, format!("{}: {text}", config.display())));
    }
    let whose = whose_secret(&setup)?;
    let before = list_before(wanted, &setup)?;
    if let Some(text) = default {
        write_new(&config, text, Readers::All).map_err(|it| failed(&config, &it))?;
    }
    let keys = setup.public_keys.iter().copied().map(Some).collect();
    let (owner, line, first) = (owner(&setup), setup.setting_line(), setup.cluster.session);
    let before = before.as_ref().map(Predecessor::before);
    recovery::create_again(&setup.folder, &owner, first, &line, &keys, before.as_ref())?;
    let made = store_path(&setup.folder, setup.me());
    println!("made {} for cluster {}, with {whose}", made.display(), hex(&setup.cluster_digest()));
    Ok(())
}

/// A store with the list that the cluster continues, if it continues one.
fn list_before(wanted: &Wanted, setup: &Setup) -> Result<Option<Predecessor>, Failure> {
    let refused =
        |text: &str| Err(Failure::new(Exit::Usage, format!("{}: {text}", setup.shared.display())));
    match (&setup.cluster.after, &wanted.after) {
        (None, None) => Ok(None),
        (Some(after), Some(store)) => Predecessor::with_list(store, after).map(Some),
        (Some(_), None) => {
            refused("this cluster continues another one: name a store that has its list (--after)")
        }
        (None, Some(_)) => refused("this cluster continues no other one: leave out --after"),
    }
}

/// Refuses where a store or a log is there, whole or in part: a WAL that was left over would be read
/// into the new store.
fn refuse_left_over(wanted: &Wanted) -> Result<(), Failure> {
    let store = store_path(&wanted.folder, wanted.replica);
    let with = |more: &str| {
        let mut name = store.clone().into_os_string();
        name.push(more);
        PathBuf::from(name)
    };
    let logs = SessionLogs::new(wanted.folder.clone(), wanted.replica, true);
    let mut taken = vec![store.clone(), with("-wal"), with("-shm")];
    taken.extend(logs.sessions()?.into_iter().map(|it| logs.path(it)));
    refuse_taken(&taken)
}

/// Says what the replica's master secret is. That of another replica would sign with its leaves.
fn whose_secret(setup: &Setup) -> Result<&'static str, Failure> {
    let key = own_key(setup.role()?.height, &setup.master()?, setup.cluster.session)?;
    match setup.public_keys.iter().position(|it| *it == key) {
        None => Ok("a new master secret"),
        Some(replica) if replica == setup.me() as usize => Ok("the master secret that it had"),
        Some(replica) => {
            let text = format!("this is the master secret of replica {replica}");
            Err(Failure::new(Exit::Config, format!("{}.secret: {text}", setup.me())))
        }
    }
}

#[cfg(test)]
mod tests {
    use std::fs;
    use std::path::Path;

    use themis_store::Origin;

    use super::*;
    use crate::join::played::Five;

    fn rejoin(folder: &Path, replica: u32) -> Result<(), Failure> {
        make(&Wanted { folder: folder.to_path_buf(), replica, after: None })
    }

    /// How it is refused, and what the text ends with.
    fn refused(folder: &Path, replica: u32, exit: Exit, text: &str) {
        let failure = rejoin(folder, replica).unwrap_err();
        assert_eq!(failure.exit, exit, "{failure}");
        assert!(failure.text.ends_with(text), "{failure}");
    }

    #[test]
    fn a_store_that_was_lost_is_made_again_and_says_so() {
        let five = Five::joined("rejoin");
        let folder = five.folder(2);
        let store = store_path(&folder, 2);
        refused(&folder, 2, Exit::Usage, "2.store is there already; nothing was changed");
        fs::remove_file(&store).unwrap();
        // What is left of the store that was lost has to go first.
        for name in ["2.store-wal", "2.store-shm", "2-7.log"] {
            fs::write(folder.join(name), b"any").unwrap();
            let text = format!("{name} is there already; nothing was changed");
            refused(&folder, 2, Exit::Usage, &text);
            fs::remove_file(folder.join(name)).unwrap();
        }
        assert!(!store.exists());
        rejoin(&folder, 2).unwrap();
        let setup = Setup::load(&folder.join("2.toml")).unwrap();
        let found = recovery::open(&folder, &owner(&setup), true).unwrap();
        assert_eq!(found.history.origin, Origin::Again { sits_out: None });
        assert_eq!((found.history.session.number, found.history.session.first), (0, 0));
    }

    #[test]
    fn a_new_machine_gets_its_configuration_too() {
        let five = Five::joined("rejoin-new");
        let folder = five.folder(2);
        for name in ["2.store", "2.toml"] {
            fs::remove_file(folder.join(name)).unwrap();
        }
        // A master secret that no other replica has is as good as the one that was lost.
        fs::write(folder.join("2.secret"), "5a".repeat(32)).unwrap();
        rejoin(&folder, 2).unwrap();
        assert!(Setup::load(&folder.join("2.toml")).unwrap().config.sessions);
    }

    #[test]
    fn what_can_be_no_replica_of_the_cluster() {
        let five = Five::joined("rejoin-refused");
        let folder = five.folder(2);
        fs::remove_file(store_path(&folder, 2)).unwrap();
        // The secret of another replica, which would sign with its leaves.
        let own = fs::read(folder.join("2.secret")).unwrap();
        fs::copy(five.folder(1).join("1.secret"), folder.join("2.secret")).unwrap();
        refused(&folder, 2, Exit::Config, "2.secret: this is the master secret of replica 1");
        fs::write(folder.join("2.secret"), &own[..10]).unwrap();
        refused(&folder, 2, Exit::Config, "this secret has 32 bytes, in hex");
        fs::write(folder.join("2.secret"), own).unwrap();
        // A number that the cluster does not have.
        refused(&folder, 5, Exit::Config, "no replica 5 of 5");
        assert!(!folder.join("5.toml").exists());
        // Without what all share.
        fs::rename(folder.join("cluster.toml"), folder.join("aside")).unwrap();
        assert_eq!(rejoin(&folder, 2).unwrap_err().exit, Exit::Config);
        assert!(!store_path(&folder, 2).exists());
    }

    #[test]
    fn the_log_of_one_session_is_never_made_again() {
        let five = Five::joined_in("rejoin-one", true);
        let folder = five.folder(2);
        fs::remove_file(folder.join("2.log")).unwrap();
        let text = "there is one session alone: its log is never made again";
        refused(&folder, 2, Exit::Usage, text);
    }
}
