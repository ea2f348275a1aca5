//! The command `replace`: where a replica is reached, and its certificate, from its new public part.
//!
//! Neither is part of what names the cluster, so a replica may get a new machine, address or certificate
//! while the cluster runs: each operator takes the new part over, and starts its replica again. The
//! public key of the first session stays, as it names the cluster.

use std::fs;
use std::path::{Path, PathBuf};

use clap::Args;

use crate::config::{address_of, hex, read_toml, Cluster, Setup, Transport};
use crate::exit::{Exit, Failure};
use crate::init::{failed, PublicPart};
use crate::new_file::{sync_folder, write_new, Readers};

/// Whose part is taken over, and where.
#[derive(Args, Clone, Debug)]
pub struct Wanted {
    /// The configuration of this machine's replica.
    config: PathBuf,
    /// The new public part of a replica, which `init` has made.
    part: PathBuf,
}

/// Takes the part over.
pub fn make(wanted: &Wanted) -> Result<(), Failure> {
    let setup = Setup::load(&wanted.config)?;
    let part: PublicPart = read_toml(&wanted.part)?;
    check(&setup, &part)?;
    let mut cluster = setup.cluster.clone();
    let at = part.replica as usize;
    cluster.peers[at].clone_from(&part.peer);
    cluster.clients[at].clone_from(&part.client);
    if cluster.transport == Transport::Tls {
        put(&setup.folder.join(&cluster.certificates[at]), &part.certificate)?;
    }
    let shared = toml::to_string(&cluster).map_err(|it| Failure::new(Exit::Fault, it))?;
    put(&setup.shared, &shared)?;
    let (replica, name) = (part.replica, hex(&setup.cluster_digest()));
    println!("replica {replica} of cluster {name}: start this machine's replica again");
    Ok(())
}

/// Whether the part can be that of a replica of this cluster.
fn check(setup: &Setup, part: &PublicPart) -> Result<(), Failure> {
    let Cluster { n, height, .. } = setup.cluster;
    let refused = |text: String| Err(Failure::new(Exit::Usage, text));
    if part.replica >= n {
        return refused(format!("no replica {} of {n}", part.replica));
    }
    if part.sessions != setup.config.sessions {
        let text = "was made for another kind of cluster than this one";
        return refused(format!("replica {} {text}", part.replica));
    }
    if part.height != height {
        return refused(format!("replica {} has a key of another height", part.replica));
    }
    match [&part.peer, &part.client].into_iter().find(|it| address_of(it).is_none()) {
        Some(text) => refused(format!("no HOST:PORT in numbers: {text}")),
        None => Ok(()),
    }
}

/// Puts a text in the place of a file: after a crash it has all of the old one or all of the new one.
fn put(path: &Path, text: &str) -> Result<(), Failure> {
    let aside = path.with_extension("replaced");
    let written = || {
        let _ = fs::remove_file(&aside); // what an interrupted call left
        write_new(&aside, text, Readers::All)?;
        fs::rename(&aside, path)?;
        sync_folder(path.parent().unwrap_or(Path::new(".")))
    };
    written().map_err(|it| failed(path, &it))
}

#[cfg(test)]
mod tests {
    use super::*;
    use crate::join::played::Five;

    /// A new part of a replica, as `init` writes it.
    fn part(five: &Five, replica: u32) -> PublicPart {
        let path = five.folder(replica).join(format!("{replica}.public.toml"));
        let old: PublicPart = read_toml(&path).unwrap();
        PublicPart {
            peer: "127.0.0.1:5000".to_owned(),
            client: "127.0.0.1:5001".to_owned(),
            certificate: "another one".to_owned(),
            public: "00".repeat(60),
            ..old
        }
    }

    fn replace(five: &Five, part: &PublicPart) -> Result<(), Failure> {
        let path = five.folder(0).join("new.public.toml");
        fs::write(&path, toml::to_string(part).unwrap()).unwrap();
        make(&Wanted { config: five.folder(0).join("0.toml"), part: path })
    }

    #[test]
    fn the_cluster_stays_the_same_with_another_address_and_certificate() {
        let five = Five::joined("replace");
        let setup = || Setup::load(&five.folder(0).join("0.toml")).unwrap();
        let before = setup();
        for _ in 0..2 {
            replace(&five, &part(&five, 3)).unwrap(); // and once more, as after a crash
            let after = setup();
            assert_eq!(after.cluster_digest(), before.cluster_digest());
            assert_eq!(after.public_keys, before.public_keys);
            assert_eq!(after.peers[3], "127.0.0.1:5000".parse().unwrap());
            assert_eq!(after.clients[3], "127.0.0.1:5001".parse().unwrap());
            assert_eq!((after.peers[2], after.clients[4]), (before.peers[2], before.clients[4]));
            let of =
                |it: u32| fs::read_to_string(five.folder(0).join(format!("{it}.crt"))).unwrap();
            assert_eq!(of(3), "another one");
            assert_ne!(of(2), of(3));
        }
    }

    #[test]
    fn what_is_no_part_of_this_cluster() {
        let five = Five::joined("replace-refused");
        let shared = || fs::read(five.folder(0).join("cluster.toml")).unwrap();
        let before = shared();
        let refused = |part: PublicPart, text: &str| {
            let failure = replace(&five, &part).unwrap_err();
            assert_eq!((failure.exit, &*failure.text), (Exit::Usage, text));
            assert_eq!(shared(), before);
        };
        let of = || part(&five, 3);
        refused(PublicPart { replica: 5, ..of() }, "no replica 5 of 5");
        let text = "replica 3 was made for another kind of cluster than this one";
        refused(PublicPart { sessions: false, ..of() }, text);
        refused(PublicPart { height: 510, ..of() }, "replica 3 has a key of another height");
        let part = PublicPart { client: "host:1".to_owned(), ..of() };
        refused(part, "no HOST:PORT in numbers: host:1");
    }
}
