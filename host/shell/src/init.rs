//! The command `init`: what one replica of a new cluster has of its own, and its public part.
//!
//! A secret is drawn once. It serves one replica over all its sessions, whose secrets are made from it
//! (`themis_engine::sessions::secret`), or one session of one replica. So no file is overwritten, each
//! is durable before the next is made, and the public part comes last: once somebody has that, the
//! secret is safe.

use std::fs;
use std::io;
use std::path::{Path, PathBuf};

use clap::Args;
use serde::{Deserialize, Serialize};
use themis::Height;
use themis_engine::sessions::keys::PublicKey;

use crate::certificate;
use crate::config::{address_of, height_of, hex};
use crate::exit::{Exit, Failure};
use crate::keeper::own_key;
use crate::new_file::{write_new, Readers};
use crate::sys;

/// What `init` is asked for.
#[derive(Args, Clone, Debug)]
pub struct Wanted {
    /// The folder of the session's files; it is made if it is missing.
    pub folder: PathBuf,
    /// The number of the replica, counted from 0.
    #[arg(long)]
    pub replica: u32,
    /// Where other replicas will reach this one, as HOST:PORT in numbers.
    #[arg(long, value_name = "HOST:PORT")]
    pub peer: String,
    /// Where clients will reach this one, as HOST:PORT in numbers.
    #[arg(long, value_name = "HOST:PORT")]
    pub client: String,
    /// The height of the keys, as all replicas have it: 5, 10, 505 or 510.
    #[arg(long, default_value_t = 510)]
    pub height: u32,
    /// The number of the cluster's first session: where it continues another cluster, the one after the
    /// last of that.
    #[arg(long, value_name = "SESSION", default_value_t = 0)]
    pub first_session: u32,
    /// The cluster has one session alone. It ends for good once its views are used.
    #[arg(long, conflicts_with = "first_session")]
    pub one_session: bool,
}

/// What the others need to know of a replica.
#[derive(Clone, Debug, Deserialize, Serialize, PartialEq, Eq)]
#[serde(deny_unknown_fields)]
pub struct PublicPart {
    /// The replica.
    pub replica: u32,
    /// Its sessions follow one another.
    pub sessions: bool,
    /// The number of the first of them.
    #[serde(default)]
    pub first_session: u32,
    /// Of its key, by its number.
    pub height: u32,
    /// Its public key in the first session, in hexadecimal digits.
    pub public: String,
    /// Where it takes other replicas.
    pub peer: String,
    /// Where it takes clients.
    pub client: String,
    /// Its certificate, in PEM.
    pub certificate: String,
}

/// Makes the files of a replica.
pub fn make(wanted: &Wanted) -> Result<(), Failure> {
    let usage = |text: String| Failure::new(Exit::Usage, text);
    let height =
        height_of(wanted.height).ok_or_else(|| usage(format!("no height: {}", wanted.height)))?;
    let hosts = hosts_of(&[&wanted.peer, &wanted.client])
        .map_err(|it| usage(format!("no HOST:PORT in numbers: {it}")))?;
    let at = |kind: &str| wanted.folder.join(format!("{}.{kind}", wanted.replica));
    let paths = ["secret", "tls.key", "crt", "public.toml"].map(at);
    refuse_taken(&paths)?;
    fs::create_dir_all(&wanted.folder).map_err(|it| failed(&wanted.folder, &it))?;

    let first = (!wanted.one_session).then_some(wanted.first_session);
    let (secret, key) = secret_and_key(height, first)?;
    let (tls_key, tls_certificate) = certificate::make(&wanted.replica.to_string(), &hosts)?;
    let public = PublicPart {
        replica: wanted.replica,
        sessions: !wanted.one_session,
        first_session: wanted.first_session,
        height: wanted.height,
        public: hex(&key),
        peer: wanted.peer.clone(),
        client: wanted.client.clone(),
        certificate: tls_certificate.clone(),
    };
    let public = toml::to_string(&public).map_err(|it| Failure::new(Exit::Fault, it))?;
    let [secret_path, key_path, certificate_path, public_path] = &paths;
    for (path, text, readers) in [
        (secret_path, secret, Readers::Owner),
        (key_path, tls_key, Readers::Owner),
        (certificate_path, tls_certificate, Readers::All),
        (public_path, public, Readers::All),
    ] {
        write_new(path, &text, readers).map_err(|it| failed(path, &it))?;
    }
    println!("made {}: give this file to the others", public_path.display());
    Ok(())
}

/// A new secret, in hexadecimal digits, and the public key of the first session; none has a number where
/// there is one alone.
fn secret_and_key(height: Height, first: Option<u32>) -> Result<(String, PublicKey), Failure> {
    let drawn = |it: &mut [u8]| sys::draw(it).map_err(|it| Failure::new(Exit::Fault, it));
    let Some(first) = first else {
        let mut secret = [0; 48];
        drawn(&mut secret)?;
        return Ok((hex(&secret), themis::public_key(height, &secret)?));
    };
    let mut master = [0; 32];
    drawn(&mut master)?;
    Ok((hex(&master), own_key(height, &master, first)?))
}

/// The hosts of some addresses, each once; or the text that is no address.
fn hosts_of(texts: &[&String]) -> Result<Vec<String>, String> {
    let host = |it: &&String| match address_of(it) {
        Some(address) => Ok(address.ip().to_string()),
        None => Err((*it).clone()),
    };
    let mut hosts = texts.iter().map(host).collect::<Result<Vec<_>, _>>()?;
    hosts.dedup();
    Ok(hosts)
}

/// Refuses where one of these files is there already.
pub fn refuse_taken(paths: &[PathBuf]) -> Result<(), Failure> {
    match paths.iter().find(|it| it.exists()) {
        None => Ok(()),
        Some(taken) => {
            let text = format!("{} is there already; nothing was changed", taken.display());
            Err(Failure::new(Exit::Usage, text))
        }
    }
}

/// A file that can't be written.
pub fn failed(path: &Path, fault: &io::Error) -> Failure {
    Failure::new(Exit::Disk, format!("{}: {fault}", path.display()))
}

#[cfg(test)]
mod tests {
    use super::*;
    use crate::config::secret_of;
    use std::os::unix::fs::PermissionsExt;

    #[test]
    fn a_replica_gets_its_files_once() {
        let folder = std::env::temp_dir().join(format!("themisd-{}-init", std::process::id()));
        let wanted = Wanted {
            folder: folder.join("new"),
            replica: 3,
            peer: "127.0.0.1:4006".to_owned(),
            client: "127.0.0.1:4007".to_owned(),
            height: 5,
            first_session: 0,
            one_session: false,
        };
        make(&wanted).unwrap();
        let read = |name: &str| fs::read_to_string(wanted.folder.join(name)).unwrap();
        let secret = read("3.secret");
        assert_eq!(secret.len(), 64);
        for name in ["3.secret", "3.tls.key"] {
            let mode = fs::metadata(wanted.folder.join(name)).unwrap().permissions().mode();
            assert_eq!(mode & 0o777, 0o600);
        }
        let public: toml::Value = toml::from_str(&read("3.public.toml")).unwrap();
        assert_eq!(public["replica"].as_integer(), Some(3));
        assert_eq!(public["sessions"].as_bool(), Some(true));
        let master = secret_of(&wanted.folder.join("3.secret")).unwrap();
        let key = own_key(Height::H5, &master, 0).unwrap();
        assert_eq!(public["public"].as_str(), Some(&*hex(&key)));
        assert_eq!(public["certificate"].as_str(), Some(&*read("3.crt")));
        assert!(!read("3.public.toml").contains(&secret));

        assert_eq!(make(&wanted).unwrap_err().exit, Exit::Usage);
        // Nor where only a later file is there.
        fs::remove_file(wanted.folder.join("3.secret")).unwrap();
        assert_eq!(make(&wanted).unwrap_err().exit, Exit::Usage);
        assert!(!wanted.folder.join("3.secret").exists());

        let one = Wanted { replica: 5, one_session: true, ..wanted.clone() };
        make(&one).unwrap();
        assert_eq!(read("5.secret").len(), 96);

        // The key is that of the first session, whose number names its leaves.
        let later = Wanted { replica: 6, first_session: 42, ..wanted.clone() };
        make(&later).unwrap();
        let public: PublicPart = toml::from_str(&read("6.public.toml")).unwrap();
        let master = secret_of(&wanted.folder.join("6.secret")).unwrap();
        assert_eq!(public.public, hex(&own_key(Height::H5, &master, 42).unwrap()));
        assert_eq!(public.first_session, 42);

        let no_address = Wanted { replica: 4, peer: "host".to_owned(), ..wanted.clone() };
        assert_eq!(make(&no_address).unwrap_err().exit, Exit::Usage);
        assert_eq!(
            make(&Wanted { replica: 4, height: 7, ..wanted }).unwrap_err().exit,
            Exit::Usage
        );
        fs::remove_dir_all(folder).unwrap();
    }
}
