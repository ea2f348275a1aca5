//! The configuration that all replicas share.

use std::net::SocketAddr;

use serde::{Deserialize, Serialize};
use themis::{Height, Role};

use super::hex::unhex;
use crate::exit::{Exit, Failure};
use crate::predecessor::After;

/// What all replicas of a session agree on.
#[derive(Clone, Debug, Deserialize, Serialize)]
#[serde(deny_unknown_fields)]
pub struct Cluster {
    /// The number of the session.
    pub session: u32,
    /// How many replicas there are.
    pub n: u32,
    /// How many of them may be faulty.
    pub f: u32,
    /// Fairness is p/q.
    pub p: u32,
    /// Fairness is p/q.
    pub q: u32,
    /// The last view.
    pub views: u32,
    /// Of the keys, by its number.
    pub height: u32,
    /// Where replicas take each other's connections, by replica.
    pub peers: Vec<String>,
    /// Where replicas take clients, by replica.
    pub clients: Vec<String>,
    /// Public keys in hexadecimal digits, by replica.
    pub publics: Vec<String>,
    /// Files of certificates, by replica.
    pub certificates: Vec<String>,
    /// The file with the certificate of the authority that signs clients' certificates.
    #[serde(default)]
    pub client_authority: String,
    /// How replicas talk to each other and to clients.
    #[serde(default)]
    pub transport: Transport,
    /// Where the cluster ended that this one continues, if it continues one.
    #[serde(default, skip_serializing_if = "Option::is_none")]
    pub after: Option<After>,
}

impl Cluster {
    /// Whether each list has an item for each replica; the cause where it has not.
    pub(super) fn check(&self) -> Result<(), String> {
        let count = self.n as usize;
        if self.transport == Transport::Tls && self.client_authority.is_empty() {
            return Err("client_authority is missing: who signs the certificates of clients".into());
        }
        if let Some(after) = &self.after {
            after.check(self.session)?;
        }
        let has_certificates =
            self.transport == Transport::Plain || self.certificates.len() == count;
        let lists = [self.peers.len(), self.clients.len(), self.publics.len()];
        if has_certificates && lists == [count; 3] && self.f < self.n {
            Ok(())
        } else {
            Err(format!("each list needs {count} items"))
        }
    }

    /// What the library is told about a replica.
    pub fn role(&self, me: u32) -> Result<Role, Failure> {
        let &Cluster { n, f, p, q, views, height, .. } = self;
        let height = height_of(height)
            .ok_or_else(|| Failure::new(Exit::Config, format!("no height: {height}")))?;
        Ok(Role { n, f, p, q, views, me, height })
    }

    /// The public keys, by replica; none where one of them is none.
    pub fn keys(&self) -> Option<Vec<[u8; 60]>> {
        self.publics.iter().map(|it| unhex(it)?.try_into().ok()).collect()
    }
}

/// How replicas talk to each other and to clients.
#[derive(Clone, Copy, Debug, Default, Deserialize, Serialize, PartialEq, Eq)]
#[serde(rename_all = "lowercase")]
pub enum Transport {
    /// TLS 1.3.
    #[default]
    Tls,
    /// Neither encrypted nor authenticated: for tests.
    Plain,
}

/// The address that a text names: numbers alone, since names need a server that may lie.
pub fn address_of(text: &str) -> Option<SocketAddr> {
    text.parse().ok()
}

/// The height of keys that a number names.
pub fn height_of(number: u32) -> Option<Height> {
    match number {
        5 => Some(Height::H5),
        10 => Some(Height::H10),
        505 => Some(Height::H5H5),
        510 => Some(Height::H5H10),
        _ => None,
    }
}
