//! The command `join`: what a replica of a new cluster has besides its own secret, from the public
//! parts of all replicas.
//!
//! The log of one session, or the store of a replica over its sessions, is made once for a secret, and
//! never again: a second one would sign with leaves that the first has used. So nothing is made where
//! the shared file, the configuration, the log or the store is there.

use std::path::{Path, PathBuf};

use clap::Args;
use themis::{Error, Replica};
use themis_engine::sessions::secret::secret_of as session_secret;

use crate::config::{hex, read_toml, secret_of, Cluster, Setup, Transport};
use crate::exit::{Exit, Failure};
use crate::init::{failed, refuse_taken, PublicPart};
use crate::new_file::{write_new, Readers};
use crate::predecessor::{After, Predecessor};
use crate::recovery::{self, store_path};
use crate::sessions_worker::owner;

const CLUSTER_FILE: &str = "cluster.toml";
const AUTHORITY_FILE: &str = "client_authority.crt";

/// What all operators have to agree on, and where the files are.
#[derive(Args, Clone, Debug)]
pub struct Setting {
    /// The folder in which `init` made this replica's files.
    pub folder: PathBuf,
    /// The number of this replica.
    #[arg(long)]
    pub replica: u32,
    /// How many replicas may be faulty.
    #[arg(long)]
    pub f: u32,
    /// The fairness, as P/Q.
    #[arg(long, value_name = "P/Q", default_value = "1/1")]
    pub gamma: String,
    /// The last view of a session.
    #[arg(long, default_value_t = 2600)]
    pub views: u32,
    /// For tests: connections are neither encrypted nor authenticated.
    #[arg(long)]
    pub plain: bool,
    /// The cluster that this one continues: a store of any of its replicas, or the folder of its replica
    /// of this number, which takes over what arrived there and is not final.
    #[arg(long, value_name = "STORE|FOLDER")]
    pub after: Option<PathBuf>,
    /// The certificate of the authority that signs those of clients.
    #[arg(long, value_name = "FILE", required_unless_present = "plain")]
    pub client_authority: Option<PathBuf>,
    /// The public parts of all replicas, this one's too.
    #[arg(required = true)]
    pub parts: Vec<PathBuf>,
}

/// Makes the files, once all that is given fits.
pub fn make(setting: &Setting) -> Result<(), Failure> {
    let at = |name: &str| setting.folder.join(name);
    let own = |kind: &str| at(&format!("{}.{kind}", setting.replica));
    let (config, log) = (own("toml"), own("log"));
    let store = store_path(&setting.folder, setting.replica);
    let taken = [at(CLUSTER_FILE), config.clone(), log.clone(), store, at(AUTHORITY_FILE)];
    refuse_taken(&taken)?;
    let parts = parts_of(&setting.parts)?;
    let follows = parts[0].sessions;
    let before = predecessor_of(setting, &parts[0], &own("secret"))?;
    let cluster = cluster_of(setting, &parts, before.as_ref().map(Predecessor::after))?;
    let header = header_of(&cluster, setting.replica, follows, &own("secret"))?;
    before.as_ref().map_or(Ok(()), Predecessor::check)?;
    let authority = setting.client_authority.as_ref();
    let authority =
        authority.map(|it| std::fs::read_to_string(it).map_err(|fault| failed(it, &fault)));
    let shared = toml::to_string(&cluster).map_err(|it| Failure::new(Exit::Fault, it))?;

    for it in &parts {
        put(&at(&certificate_file(it.replica)), &it.certificate)?;
    }
    if let Some(authority) = authority {
        put(&at(AUTHORITY_FILE), &authority?)?;
    }
    put(&config, &config_of(setting.replica, follows))?;
    put(&at(CLUSTER_FILE), &shared)?;
    let setup = Setup::load(&config)?;
    let made = if follows {
        create_store(&setup, before.as_ref())?
    } else {
        write_new(&log, header, Readers::Owner).map_err(|it| failed(&log, &it))?;
        log
    };
    let (made, name) = (made.display(), hex(&setup.cluster_digest()));
    println!("made {made} for {} {name}", if follows { "cluster" } else { "session" });
    if let Some(After { cluster, session, position, .. }) = setup.cluster.after {
        println!("it continues cluster {cluster} after session {session}, at position {position}");
    }
    Ok(())
}

/// Makes the store of a replica whose sessions follow one another; returns its path.
fn create_store(setup: &Setup, before: Option<&Predecessor>) -> Result<PathBuf, Failure> {
    let keys = setup.public_keys.iter().copied().map(Some).collect();
    let (owner, line, first) = (owner(setup), setup.setting_line(), setup.cluster.session);
    let before = before.map(Predecessor::before);
    recovery::create(&setup.folder, &owner, first, &line, &keys, before.as_ref())?;
    Ok(store_path(&setup.folder, setup.me()))
}

/// The cluster that this one continues, if it continues one. That has ended with the session before the
/// one for which the parts were made.
fn predecessor_of(
    setting: &Setting,
    part: &PublicPart,
    secret: &Path,
) -> Result<Option<Predecessor>, Failure> {
    let first = part.first_session;
    let Some(path) = &setting.after else {
        return if first == 0 {
            Ok(None)
        } else {
            let text = "name a store of the cluster that this one continues (--after)";
            Err(usage(format!("the parts were made for session {first}: {text}")))
        };
    };
    if !part.sessions {
        return Err(usage("one session alone continues no other cluster".to_owned()));
    }
    let found = Predecessor::ended(path, setting.replica, &secret_of(secret)?)?;
    let last = found.after().session;
    if last.checked_add(1) == Some(first) {
        return Ok(Some(found));
    }
    let text = format!("{}: the last session that has ended there is {last}", path.display());
    Err(usage(format!("{text}, but the parts were made for session {first}")))
}

/// The header of the replica's first log. The library checks the setting, and that the key of the
/// secret is the one in the replica's part.
fn header_of(
    cluster: &Cluster,
    me: u32,
    follows: bool,
    secret: &Path,
) -> Result<[u8; 76], Failure> {
    let refused = |it: Error| usage(format!("no such cluster: {it}"));
    let keys = cluster.keys().ok_or_else(|| usage("a public key has 60 bytes".to_owned()))?;
    let role = cluster.role(me)?;
    let secret = if follows {
        session_secret(&secret_of(secret)?, cluster.session)
    } else {
        secret_of(secret)?
    };
    let (mut replica, _) = Replica::open(&role, &secret, &keys, &[]).map_err(refused)?;
    Ok(replica.header()?)
}

fn usage(text: String) -> Failure {
    Failure::new(Exit::Usage, text)
}

/// Writes a new file that all may read; one that is there with the same text may stay.
fn put(path: &Path, text: &str) -> Result<(), Failure> {
    if std::fs::read_to_string(path).is_ok_and(|it| it == text) {
        return Ok(());
    }
    write_new(path, text, Readers::All).map_err(|it| failed(path, &it))
}

fn certificate_file(replica: u32) -> String {
    format!("{replica}.crt")
}

/// The parts in the order of their replicas: one of each.
fn parts_of(paths: &[PathBuf]) -> Result<Vec<PublicPart>, Failure> {
    let mut parts = paths.iter().map(|it| read_toml(it)).collect::<Result<Vec<PublicPart>, _>>()?;
    parts.sort_by_key(|it| it.replica);
    for (number, it) in (0..).zip(&parts) {
        if it.replica != number {
            return Err(usage(format!("there is not one part of replica {number}")));
        }
        if it.height != parts[0].height {
            return Err(usage(format!("replica {number} has a key of another height")));
        }
        if it.sessions != parts[0].sessions {
            let text =
                format!("replica {number} was made for another kind of cluster than replica 0");
            return Err(usage(text));
        }
        if it.first_session != parts[0].first_session {
            let text =
                format!("replica {number} was made for another first session than replica 0");
            return Err(usage(text));
        }
    }
    Ok(parts)
}

fn cluster_of(
    setting: &Setting,
    parts: &[PublicPart],
    after: Option<&After>,
) -> Result<Cluster, Failure> {
    let all = |of: fn(&PublicPart) -> &String| parts.iter().map(|it| of(it).clone()).collect();
    let fraction = setting.gamma.split_once('/');
    let fraction = fraction.and_then(|(p, q)| Some((p.parse().ok()?, q.parse().ok()?)));
    let (p, q) = fraction.ok_or_else(|| usage(format!("no P/Q: {}", setting.gamma)))?;
    Ok(Cluster {
        session: if parts[0].sessions { parts[0].first_session } else { 1 },
        n: parts.len() as u32,
        f: setting.f,
        p,
        q,
        views: setting.views,
        height: parts[0].height,
        peers: all(|it| &it.peer),
        clients: all(|it| &it.client),
        publics: all(|it| &it.public),
        certificates: parts.iter().map(|it| certificate_file(it.replica)).collect(),
        client_authority: setting
            .client_authority
            .as_ref()
            .map_or("", |_| AUTHORITY_FILE)
            .to_owned(),
        transport: if setting.plain { Transport::Plain } else { Transport::Tls },
        after: after.cloned(),
    })
}

/// The configuration of a replica, with the defaults of docs/SERVICE.md.
pub fn config_of(replica: u32, follows: bool) -> String {
    let what =
        if follows { "sessions = true".to_owned() } else { format!("log = \"{replica}.log\"") };
    format!(
        "replica = {replica}\ncluster_file = \"{CLUSTER_FILE}\"\n\
         secret_file = \"{replica}.secret\"\n{what}\ntls_key = \"{replica}.tls.key\"\n"
    )
}

#[cfg(test)]
pub mod played {
    use std::fs;

    use super::*;
    use crate::init::{self, Wanted};

    /// Five replicas, each in a folder of its own as on machines of their own.
    pub struct Five(PathBuf);

    impl Five {
        /// Over sessions, as `init` and `join` make them.
        pub fn joined(name: &str) -> Five {
            Five::joined_in(name, false)
        }

        /// The same, for one session or many.
        pub fn joined_in(name: &str, one_session: bool) -> Five {
            let five = Five::new(name, one_session);
            (0..5).for_each(|it| make(&five.setting(it)).unwrap());
            five
        }

        /// As `init` makes them.
        pub fn new(name: &str, one_session: bool) -> Five {
            Five::of(name, 0, one_session)
        }

        /// The same, for a cluster with this first session.
        pub fn of(name: &str, first_session: u32, one_session: bool) -> Five {
            let it =
                Five(std::env::temp_dir().join(format!("themisd-{}-{name}", std::process::id())));
            for replica in 0..5 {
                let (peer, client) = (4000 + 2 * replica, 4001 + 2 * replica);
                let wanted = Wanted {
                    folder: it.folder(replica),
                    replica,
                    peer: format!("127.0.0.1:{peer}"),
                    client: format!("127.0.0.1:{client}"),
                    height: 5,
                    first_session,
                    one_session,
                };
                init::make(&wanted).unwrap();
            }
            fs::write(it.0.join("authority.crt"), "any").unwrap();
            it
        }

        /// That of one replica.
        pub fn folder(&self, replica: u32) -> PathBuf {
            self.0.join(replica.to_string())
        }

        /// What `join` is given.
        pub fn setting(&self, replica: u32) -> Setting {
            let part = |it: u32| self.folder(it).join(format!("{it}.public.toml"));
            Setting {
                folder: self.folder(replica),
                replica,
                f: 1,
                gamma: "1/1".to_owned(),
                views: 6,
                plain: false,
                after: None,
                client_authority: Some(self.0.join("authority.crt")),
                // The order in which they are named makes no difference.
                parts: (0..5).map(|it| part((it + replica) % 5)).collect(),
            }
        }
    }

    impl Drop for Five {
        fn drop(&mut self) {
            let _ = fs::remove_dir_all(&self.0);
        }
    }
}

#[cfg(test)]
mod tests {
    use std::fs;

    use super::played::Five;
    use super::*;

    #[test]
    fn all_replicas_come_to_the_same_session() {
        let five = Five::new("join", true);
        for replica in 0..5 {
            make(&five.setting(replica)).unwrap();
        }
        let shared = |it: u32| fs::read(five.folder(it).join("cluster.toml")).unwrap();
        for replica in 0..5 {
            assert_eq!(shared(replica), shared(0));
            let setup = Setup::load(&five.folder(replica).join(format!("{replica}.toml"))).unwrap();
            let log = fs::read(setup.log_path()).unwrap();
            let keys = &setup.public_keys;
            let opened =
                Replica::open(&setup.role().unwrap(), &setup.secret().unwrap(), keys, &log);
            assert_eq!(opened.unwrap().1, log.len());
        }
        // A log that was lost is not made again.
        fs::remove_file(five.folder(2).join("2.log")).unwrap();
        assert_eq!(make(&five.setting(2)).unwrap_err().exit, Exit::Usage);
        assert!(!five.folder(2).join("2.log").exists());
    }

    #[test]
    fn a_replica_over_sessions_gets_its_store_once() {
        let five = Five::new("join-sessions", false);
        for replica in 0..5 {
            make(&five.setting(replica)).unwrap();
        }
        let shared = |it: u32| fs::read(five.folder(it).join("cluster.toml")).unwrap();
        for replica in 0..5 {
            assert_eq!(shared(replica), shared(0));
            let folder = five.folder(replica);
            let setup = Setup::load(&folder.join(format!("{replica}.toml"))).unwrap();
            assert!(setup.config.sessions && setup.cluster.session == 0);
            let found = recovery::open(&folder, &owner(&setup), true).unwrap();
            let keys: Vec<_> = setup.public_keys.iter().copied().map(Some).collect();
            assert_eq!((found.history.session.number, found.history.session.keys), (0, keys));
            assert!(!folder.join(format!("{replica}.log")).exists());
        }
        // A store that was lost is not made again.
        fs::remove_file(store_path(&five.folder(2), 2)).unwrap();
        assert_eq!(make(&five.setting(2)).unwrap_err().exit, Exit::Usage);
        assert!(!store_path(&five.folder(2), 2).exists());
        // Nor does a part of one session fit.
        let one = Five::new("join-mixed", true);
        let mut mixed = five.setting(0);
        mixed.folder = one.folder(0);
        mixed.parts[0] = one.setting(0).parts[0].clone();
        assert_eq!(make(&mixed).unwrap_err().exit, Exit::Usage);
    }

    #[test]
    fn what_is_no_cluster() {
        let five = Five::new("refused", true);
        let refused = |it: &Setting| assert_eq!(make(it).unwrap_err().exit, Exit::Usage);
        let of = five.setting(0);
        let mut fewer = of.clone();
        fewer.parts.remove(1);
        refused(&fewer);
        let mut twice = of.clone();
        twice.parts[2] = twice.parts[1].clone();
        refused(&twice);
        refused(&Setting { gamma: "1".to_owned(), ..of.clone() });
        refused(&Setting { f: 2, ..of.clone() });
        refused(&Setting { views: 7, ..of.clone() });
        // Another secret than the one of the part.
        let (own, other) = (five.folder(0).join("0.secret"), five.folder(1).join("1.secret"));
        fs::copy(other, own).unwrap();
        refused(&of);
        // Nothing was made, so the next call starts afresh.
        for name in ["0.log", "0.toml", "cluster.toml", "client_authority.crt", "1.crt"] {
            assert!(!five.folder(0).join(name).exists());
        }
    }
}
