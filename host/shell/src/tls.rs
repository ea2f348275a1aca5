//! TLS between replicas: each has a certificate that it signed itself, and all know all of them.
//!
//! A connection is accepted where the other side shows one of these certificates, byte for byte, and
//! proves by its signature that it has the key. So there is no chain, no name and no date to check;
//! a certificate that a replica signed for others is nobody's.

use std::fs::File;
use std::io::BufReader;
use std::path::Path;
use std::sync::Arc;
use std::time::SystemTime;

use tokio::io::{AsyncRead, AsyncWrite};
use tokio::net::TcpStream;
use tokio_rustls::rustls::client::{
    NoClientSessionStorage, ServerCertVerified, ServerCertVerifier,
};
use tokio_rustls::rustls::server::{
    ClientCertVerified, ClientCertVerifier, NoServerSessionStorage,
};
use tokio_rustls::rustls::version::TLS13;
use tokio_rustls::rustls::{
    Certificate, ClientConfig, DistinguishedNames, Error, PrivateKey, ServerConfig, ServerName,
};
use tokio_rustls::{TlsAcceptor, TlsConnector};

use crate::config::{Setup, Transport};
use crate::exit::{Exit, Failure};

/// A connection, with TLS or without.
pub trait Stream: AsyncRead + AsyncWrite + Send + Unpin {}

impl<S: AsyncRead + AsyncWrite + Send + Unpin> Stream for S {}

/// Both sides of TLS, and whose certificate is which.
#[derive(Clone)]
pub enum Trust {
    Plain,
    Tls { acceptor: TlsAcceptor, connectors: Arc<[TlsConnector]>, known: Arc<[Certificate]> },
}

impl Trust {
    /// Reads the certificates and the own key.
    pub fn new(setup: &Setup) -> Result<Trust, Failure> {
        if setup.cluster.transport == Transport::Plain {
            return Ok(Trust::Plain);
        }
        let names = &setup.cluster.certificates;
        let read = names.iter().map(|it| certificate(&setup.folder.join(it)));
        let known: Arc<[Certificate]> = read.collect::<Result<Vec<_>, _>>()?.into();
        let own = known[setup.me() as usize].clone();
        let key_path = setup.folder.join(&setup.config.tls_key);
        let key = private_key(&key_path)?;
        let fault = |it: Error| bad(&key_path, it);
        let acceptor =
            TlsAcceptor::from(Arc::new(server(&known, own.clone(), key.clone()).map_err(fault)?));
        let of_peer = |peer: &Certificate| {
            let made = client(peer, own.clone(), key.clone()).map_err(fault)?;
            Ok(TlsConnector::from(Arc::new(made)))
        };
        let connectors = known.iter().map(of_peer).collect::<Result<Vec<_>, Failure>>()?.into();
        Ok(Trust::Tls { acceptor, connectors, known })
    }

    /// A connection that this replica opened, if it is to that peer.
    pub async fn connect(&self, peer: u32, tcp: TcpStream) -> std::io::Result<Box<dyn Stream>> {
        match self {
            Trust::Plain => Ok(Box::new(tcp)),
            Trust::Tls { connectors, .. } => {
                let name = ServerName::IpAddress(tcp.peer_addr()?.ip());
                Ok(Box::new(connectors[peer as usize].connect(name, tcp).await?))
            }
        }
    }

    /// A connection that another replica opened, and which one, where its certificate shows that.
    pub async fn accept(&self, tcp: TcpStream) -> std::io::Result<(Box<dyn Stream>, Option<u32>)> {
        match self {
            Trust::Plain => Ok((Box::new(tcp), None)),
            Trust::Tls { acceptor, known, .. } => {
                let stream = acceptor.accept(tcp).await?;
                let shown = stream.get_ref().1.peer_certificates().and_then(|it| it.first());
                let owner = known.iter().position(|it| Some(it) == shown);
                let owner = owner.ok_or(std::io::ErrorKind::PermissionDenied)? as u32;
                Ok((Box::new(stream), Some(owner)))
            }
        }
    }
}

fn server(
    known: &Arc<[Certificate]>,
    own: Certificate,
    key: PrivateKey,
) -> Result<ServerConfig, Error> {
    let mut made = ServerConfig::builder()
        .with_safe_default_cipher_suites()
        .with_safe_default_kx_groups()
        .with_protocol_versions(&[&TLS13])?
        .with_client_cert_verifier(Arc::new(Known(known.clone())))
        .with_single_cert(vec![own], key)?;
    made.session_storage = Arc::new(NoServerSessionStorage {});
    Ok(made)
}

fn client(peer: &Certificate, own: Certificate, key: PrivateKey) -> Result<ClientConfig, Error> {
    let mut made = ClientConfig::builder()
        .with_safe_default_cipher_suites()
        .with_safe_default_kx_groups()
        .with_protocol_versions(&[&TLS13])?
        .with_custom_certificate_verifier(Arc::new(Known::of(peer.clone())))
        .with_single_cert(vec![own], key)?;
    made.session_storage = Arc::new(NoClientSessionStorage {});
    Ok(made)
}

/// Accepts these certificates. That the other side has the key of the one it shows is checked by the
/// default methods of both traits.
pub struct Known(Arc<[Certificate]>);

impl Known {
    /// Accepts one certificate.
    pub fn of(it: Certificate) -> Known {
        Known(Arc::from([it]))
    }

    fn check(&self, shown: &Certificate) -> Result<(), Error> {
        if self.0.contains(shown) {
            Ok(())
        } else {
            Err(Error::InvalidCertificateData("it is no replica's".to_owned()))
        }
    }
}

impl ServerCertVerifier for Known {
    fn verify_server_cert(
        &self,
        shown: &Certificate,
        _: &[Certificate],
        _: &ServerName,
        _: &mut dyn Iterator<Item = &[u8]>,
        _: &[u8],
        _: SystemTime,
    ) -> Result<ServerCertVerified, Error> {
        self.check(shown).map(|()| ServerCertVerified::assertion())
    }
}

impl ClientCertVerifier for Known {
    fn client_auth_root_subjects(&self) -> Option<DistinguishedNames> {
        Some(DistinguishedNames::new())
    }

    fn verify_client_cert(
        &self,
        shown: &Certificate,
        _: &[Certificate],
        _: SystemTime,
    ) -> Result<ClientCertVerified, Error> {
        self.check(shown).map(|()| ClientCertVerified::assertion())
    }
}

/// The first certificate of a file, in PEM.
pub fn certificate(path: &Path) -> Result<Certificate, Failure> {
    let file = File::open(path).map_err(|it| bad(path, it))?;
    let found = rustls_pemfile::certs(&mut BufReader::new(file)).map_err(|it| bad(path, it))?;
    found.into_iter().next().map(Certificate).ok_or_else(|| bad(path, "no certificate"))
}

/// The private key of a file, in PEM.
pub fn private_key(path: &Path) -> Result<PrivateKey, Failure> {
    let file = File::open(path).map_err(|it| bad(path, it))?;
    let found = rustls_pemfile::pkcs8_private_keys(&mut BufReader::new(file))
        .map_err(|it| bad(path, it))?;
    found.into_iter().next().map(PrivateKey).ok_or_else(|| bad(path, "no private key"))
}

/// A file that can't be used.
pub fn bad(path: &Path, text: impl std::fmt::Display) -> Failure {
    Failure::new(Exit::Config, format!("{}: {text}", path.display()))
}
