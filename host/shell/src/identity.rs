//! Who a client is: by the certificate that it shows, which the operators' authority for clients has
//! signed. The common name of the certificate is the client's number, and its transactions must
//! carry this number.

use std::path::Path;
use std::sync::Arc;

use themis_engine::tx::Tx;
use tokio::net::TcpStream;
use tokio_rustls::rustls::server::{AllowAnyAuthenticatedClient, NoServerSessionStorage};
use tokio_rustls::rustls::version::TLS13;
use tokio_rustls::rustls::{Error, RootCertStore, ServerConfig};
use tokio_rustls::TlsAcceptor;

use crate::certificate::common_name;
use crate::config::{Setup, Transport};
use crate::exit::Failure;
use crate::tls::{bad, certificate, private_key, Stream};

/// Who has a connection to the client port.
#[derive(Clone, Copy, Debug, PartialEq, Eq, Hash)]
pub enum Identity {
    /// Anyone: there is no TLS, so nobody shows who it is. For tests.
    Anyone,
    /// The client of a number.
    Client(u32),
    /// A certificate whose name is no client's number, such as a monitor's: it may read, and submits
    /// nothing.
    Reader,
}

impl Identity {
    /// Who shows a certificate that the authority has signed. No client has the number 0.
    fn of(certificate: &[u8]) -> Identity {
        let name = common_name(certificate).unwrap_or_default();
        match name.parse() {
            Ok(number) if number > 0 && name.bytes().all(|it| it.is_ascii_digit()) => {
                Identity::Client(number)
            }
            _ => Identity::Reader,
        }
    }

    /// Whether it may submit a transaction; the cause where it may not.
    pub fn check(self, tx: &Tx) -> Result<(), String> {
        match self {
            Identity::Client(number) if number != tx.client => {
                let Tx { client, number: of, payload } = tx;
                Err(format!("not your transaction: {client}.{of}.{payload}, you are {number}"))
            }
            Identity::Reader => Err("your certificate is not a client's".to_owned()),
            Identity::Anyone | Identity::Client(_) => Ok(()),
        }
    }
}

/// How the client port finds out who a client is.
#[derive(Clone)]
pub enum ClientTrust {
    Plain,
    Tls(TlsAcceptor),
}

impl ClientTrust {
    /// Reads the certificate of the authority, and the replica's own with its key.
    pub fn new(setup: &Setup) -> Result<ClientTrust, Failure> {
        if setup.cluster.transport == Transport::Plain {
            return Ok(ClientTrust::Plain);
        }
        let at = |name: &str| setup.folder.join(name);
        let own = &setup.cluster.certificates[setup.me() as usize];
        let authority = at(&setup.cluster.client_authority);
        ClientTrust::tls(&authority, &at(own), &at(&setup.config.tls_key))
    }

    /// Demands a certificate that an authority has signed, and shows this one, which has this key.
    pub fn tls(authority: &Path, own: &Path, key_path: &Path) -> Result<ClientTrust, Failure> {
        let mut roots = RootCertStore::empty();
        roots.add(&certificate(authority)?).map_err(|it| bad(authority, it))?;
        let (own, key) = (certificate(own)?, private_key(key_path)?);
        let made = || -> Result<ServerConfig, Error> {
            let mut made = ServerConfig::builder()
                .with_safe_default_cipher_suites()
                .with_safe_default_kx_groups()
                .with_protocol_versions(&[&TLS13])?
                .with_client_cert_verifier(AllowAnyAuthenticatedClient::new(roots))
                .with_single_cert(vec![own], key)?;
            made.session_storage = Arc::new(NoServerSessionStorage {});
            Ok(made)
        };
        let made = made().map_err(|it| bad(key_path, it))?;
        Ok(ClientTrust::Tls(TlsAcceptor::from(Arc::new(made))))
    }

    /// A client's connection, and who it is.
    pub async fn accept(&self, tcp: TcpStream) -> std::io::Result<(Box<dyn Stream>, Identity)> {
        match self {
            ClientTrust::Plain => Ok((Box::new(tcp), Identity::Anyone)),
            ClientTrust::Tls(acceptor) => {
                let stream = acceptor.accept(tcp).await?;
                let shown = stream.get_ref().1.peer_certificates().and_then(|it| it.first());
                let shown = shown.ok_or(std::io::ErrorKind::PermissionDenied)?;
                let who = Identity::of(&shown.0);
                Ok((Box::new(stream), who))
            }
        }
    }
}

#[cfg(test)]
mod tests {
    use super::*;

    #[test]
    fn whose_transactions_are_taken() {
        let tx = |client| Tx { client, number: 2, payload: 3 };
        assert_eq!(Identity::Anyone.check(&tx(9)), Ok(()));
        assert_eq!(Identity::Client(9).check(&tx(9)), Ok(()));
        let refused = Identity::Client(9).check(&tx(8)).unwrap_err();
        assert_eq!(refused, "not your transaction: 8.2.3, you are 9");
        assert!(Identity::Reader.check(&tx(0)).is_err());
    }
}
