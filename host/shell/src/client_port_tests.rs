//! The port for clients over real sockets: who may submit what, and who locks out whom.

use std::path::PathBuf;
use std::process::Command;

use themis_engine::tx::Tx;
use tokio_rustls::rustls::{ClientConfig, ServerName};
use tokio_rustls::TlsConnector;

use super::*;
use crate::certificate;
use crate::input::Pages;
use crate::tls;

/// A port whose engine has the pages of a healthy replica, and takes what is submitted.
async fn opened(trust: ClientTrust) -> std::net::SocketAddr {
    let (inbox, receiver) = Inbox::new();
    std::thread::spawn(move || {
        for request in receiver {
            match request {
                Request::Pages(answer) => {
                    let metrics = "themis_view 7\n".to_owned();
                    let _ = answer.send(Pages { metrics, fault: None });
                }
                Request::Submit { txs, answer, .. } => {
                    let _ = answer.send(Answer::Ok { new: txs.len(), old: 0 });
                }
                _ => {}
            }
        }
    });
    let batches = Arc::new(Batches::new());
    batches.push(0, &[Tx { client: 1, number: 2, payload: 3 }]);
    let port = ClientPort::new(trust, inbox, batches, Some(1));
    let listener = TcpListener::bind("127.0.0.1:0").await.unwrap();
    let at = listener.local_addr().unwrap();
    tokio::spawn(port.run(listener));
    at
}

/// The answer to a line.
async fn ask(stream: &mut (impl Stream + ?Sized), line: &str) -> String {
    stream.write_all(line.as_bytes()).await.unwrap();
    let mut answer = String::new();
    BufReader::new(stream).read_line(&mut answer).await.unwrap();
    answer
}

/// What a port answers to some bytes, until it closes.
async fn answer(data: &[u8]) -> String {
    let mut client = TcpStream::connect(opened(ClientTrust::Plain).await).await.unwrap();
    client.write_all(data).await.unwrap();
    let mut out = String::new();
    client.read_to_string(&mut out).await.unwrap();
    out
}

#[tokio::test(flavor = "current_thread")]
async fn pages_over_http() {
    let close = "HTTP/1.1\r\nHost: any\r\nConnection: close\r\n\r\n";
    let health = answer(format!("GET /health {close}").as_bytes()).await;
    assert!(health.starts_with("HTTP/1.1 200 OK\r\n") && health.ends_with("\r\n\r\nok\n"));
    let metrics = answer(format!("GET /metrics {close}").as_bytes()).await;
    assert!(metrics.ends_with("\r\n\r\nthemis_view 7\n"));
    // A connection that starts with a command goes on with commands.
    let mut client = TcpStream::connect(opened(ClientTrust::Plain).await).await.unwrap();
    for line in ["any\n", "GET / HTTP/1.1\n"] {
        assert_eq!(ask(&mut client, line).await, "bad no such command\n");
    }
}

#[tokio::test(flavor = "current_thread")]
async fn what_an_operator_asks_is_no_command_of_clients() {
    for line in ["status\n", "close\n", "fault full\n"] {
        let mut client = TcpStream::connect(opened(ClientTrust::Plain).await).await.unwrap();
        assert_eq!(ask(&mut client, line).await, "bad no such command\n");
    }
}

#[tokio::test(flavor = "current_thread")]
async fn followers_lock_out_nobody_who_submits() {
    let at = opened(ClientTrust::Plain).await;
    let mut followers = Vec::new();
    for _ in 0..256 {
        let mut it = TcpStream::connect(at).await.unwrap();
        assert_eq!(ask(&mut it, "follow 0\n").await, "batch 0 1.2.3\n");
        followers.push(it);
    }
    let mut one_more = TcpStream::connect(at).await.unwrap();
    assert_eq!(ask(&mut one_more, "follow 0\n").await, "busy\n");
    let mut submitter = TcpStream::connect(at).await.unwrap();
    assert_eq!(ask(&mut submitter, "submit 1.1.1 1.2.1\n").await, "ok 2 0\n");
    // One that leaves makes room.
    followers.pop();
    loop {
        let mut next = TcpStream::connect(at).await.unwrap();
        if ask(&mut next, "follow 0\n").await != "busy\n" {
            return;
        }
        sleep(Duration::from_millis(5)).await;
    }
}

// ---- with TLS

/// An authority for clients, in a folder of its own.
struct Authority(PathBuf);

impl Authority {
    fn new(name: &str) -> Authority {
        let folder = std::env::temp_dir().join(format!("themisd-{}-{name}", std::process::id()));
        std::fs::create_dir(&folder).unwrap();
        let it = Authority(folder);
        it.openssl(&["-subj", "/CN=authority", "-keyout", "a.key", "-out", "a.crt"]);
        let (key, certificate) = certificate::make("0", &["127.0.0.1".to_owned()]).unwrap();
        std::fs::write(it.0.join("replica.key"), key).unwrap();
        std::fs::write(it.0.join("replica.crt"), certificate).unwrap();
        it
    }

    fn openssl(&self, words: &[&str]) {
        let new =
            ["req", "-x509", "-newkey", "ec", "-pkeyopt", "ec_paramgen_curve:P-256", "-nodes"];
        let mut command = Command::new("openssl");
        let done = command.args(new).args(words).current_dir(&self.0).output().unwrap();
        assert!(done.status.success(), "{}", String::from_utf8_lossy(&done.stderr));
    }

    /// Signs a certificate for a name.
    fn sign(&self, name: &str) {
        let subject = format!("/CN={name}");
        let (key, certificate) = (format!("{name}.key"), format!("{name}.crt"));
        let signed = ["-CA", "a.crt", "-CAkey", "a.key", "-subj", &subject];
        let leaf = ["-addext", "basicConstraints=critical,CA:FALSE"];
        let files = ["-keyout", &key, "-out", &certificate];
        self.openssl(&[&signed[..], &leaf, &files].concat());
    }

    fn trust(&self) -> ClientTrust {
        let at = |name: &str| self.0.join(name);
        ClientTrust::tls(&at("a.crt"), &at("replica.crt"), &at("replica.key")).unwrap()
    }

    /// A connection with the certificate of a name, or without one.
    async fn connect(&self, at: std::net::SocketAddr, name: Option<&str>) -> Box<dyn Stream> {
        let replica = tls::certificate(&self.0.join("replica.crt")).unwrap();
        let known = Arc::new(tls::Known::of(replica));
        let made = ClientConfig::builder().with_safe_defaults();
        let made = made.with_custom_certificate_verifier(known);
        let made = match name {
            None => made.with_no_client_auth(),
            Some(name) => {
                let own = tls::certificate(&self.0.join(format!("{name}.crt"))).unwrap();
                let key = tls::private_key(&self.0.join(format!("{name}.key"))).unwrap();
                made.with_single_cert(vec![own], key).unwrap()
            }
        };
        let tcp = TcpStream::connect(at).await.unwrap();
        let name = ServerName::try_from("localhost").unwrap();
        Box::new(TlsConnector::from(Arc::new(made)).connect(name, tcp).await.unwrap())
    }
}

impl Drop for Authority {
    fn drop(&mut self) {
        let _ = std::fs::remove_dir_all(&self.0);
    }
}

#[tokio::test(flavor = "current_thread")]
async fn a_certificate_says_whose_transactions_a_client_submits() {
    let authority = Authority::new("submit");
    let at = opened(authority.trust()).await;
    for name in ["7", "monitor", "0", "07x"] {
        authority.sign(name);
    }
    let mut seven = authority.connect(at, Some("7")).await;
    assert_eq!(ask(&mut *seven, "submit 7.1.0 7.2.0\n").await, "ok 2 0\n");
    let refused = "bad not your transaction: 8.1.0, you are 7\n";
    assert_eq!(ask(&mut *seven, "submit 7.3.0 8.1.0\n").await, refused);
    assert_eq!(ask(&mut *seven, "submit 7.3.0\n").await, "ok 1 0\n");
    // Over HTTP the same.
    for (body, status) in [("[\"7.4.0\"]", "200"), ("[\"8.1.0\"]", "403")] {
        let mut seven = authority.connect(at, Some("7")).await;
        let head = "POST /v1/transactions HTTP/1.1\r\nHost: any\r\nContent-Length: 9\r\n\r\n";
        let answer = ask(&mut *seven, &format!("{head}{body}")).await;
        assert!(answer.starts_with(&format!("HTTP/1.1 {status} ")), "{answer}");
    }
    // Whose name is no client's number may read.
    for name in ["monitor", "0", "07x"] {
        let mut reader = authority.connect(at, Some(name)).await;
        let refused = "bad your certificate is not a client's\n";
        assert_eq!(ask(&mut *reader, "submit 7.3.0\n").await, refused);
        assert_eq!(ask(&mut *reader, "follow 0\n").await, "batch 0 1.2.3\n");
    }
}

#[tokio::test(flavor = "current_thread")]
async fn strangers_are_no_clients() {
    let (authority, other) = (Authority::new("own"), Authority::new("other"));
    let at = opened(authority.trust()).await;
    other.sign("7");
    std::fs::copy(authority.0.join("replica.crt"), other.0.join("replica.crt")).unwrap();
    // With TLS 1.3 a client hears that it was refused once it reads.
    for name in [None, Some("7")] {
        let mut stranger = other.connect(at, name).await;
        let _ = stranger.write_all(b"follow 0\n").await;
        let mut out = String::new();
        assert!(stranger.read_to_string(&mut out).await.is_err());
        assert_eq!(out, "");
    }
    let mut plain = TcpStream::connect(at).await.unwrap();
    plain.write_all(b"follow 0\nsubmit 7.1.0\n").await.unwrap();
    let mut out = Vec::new();
    let _ = plain.read_to_end(&mut out).await;
    assert!(!out.windows(5).any(|it| it == b"batch"));
}

#[tokio::test(flavor = "current_thread")]
async fn who_says_nothing_makes_room() {
    let authority = Authority::new("silent");
    authority.sign("7");
    let at = opened(authority.trust()).await;
    let mut silent = Vec::new();
    for _ in 0..200 {
        silent.push(TcpStream::connect(at).await.unwrap());
    }
    let mut seven = authority.connect(at, Some("7")).await;
    assert_eq!(ask(&mut *seven, "submit 7.1.0\n").await, "ok 1 0\n");
    // The oldest gave way.
    let mut none = [0];
    assert_eq!(silent[0].read(&mut none).await.unwrap_or(0), 0);
}

#[tokio::test(flavor = "current_thread")]
async fn a_client_with_many_connections_locks_out_no_other() {
    let authority = Authority::new("many");
    let at = opened(authority.trust()).await;
    for name in ["7", "8"] {
        authority.sign(name);
    }
    let mut own = Vec::new();
    for number in 0..32 {
        let mut it = authority.connect(at, Some("7")).await;
        let line = format!("submit 7.{number}.0\n");
        assert_eq!(ask(&mut *it, &line).await, "ok 1 0\n");
        own.push(it);
    }
    let mut one_more = authority.connect(at, Some("7")).await;
    assert_eq!(ask(&mut *one_more, "submit 7.99.0\n").await, "busy\n");
    let mut eight = authority.connect(at, Some("8")).await;
    assert_eq!(ask(&mut *eight, "submit 8.1.0\n").await, "ok 1 0\n");
}

#[tokio::test(flavor = "current_thread")]
async fn a_line_is_bounded() {
    let mut long = vec![b'1'; MAX_LINE + 1];
    long.push(b'\n');
    let mut client = TcpStream::connect(opened(ClientTrust::Plain).await).await.unwrap();
    let _ = client.write_all(&long).await;
    let mut out = Vec::new();
    let _ = client.read_to_end(&mut out).await;
    assert_eq!(out, b"");
}

/// A connection has one submission at a time, whatever it sends: its next line is read once the
/// answer is written.
#[tokio::test(flavor = "current_thread")]
async fn a_connection_is_served_line_by_line() {
    let (inbox, receiver) = Inbox::new();
    let port = ClientPort::new(ClientTrust::Plain, inbox, Arc::new(Batches::new()), Some(1));
    let listener = TcpListener::bind("127.0.0.1:0").await.unwrap();
    let at = listener.local_addr().unwrap();
    tokio::spawn(port.run(listener));
    let mut client = TcpStream::connect(at).await.unwrap();
    client.write_all(b"submit 1.1.0\nsubmit 1.2.0\n").await.unwrap();
    let first = loop {
        match receiver.try_recv() {
            Ok(Request::Submit { answer, .. }) => break answer,
            _ => sleep(Duration::from_millis(1)).await,
        }
    };
    sleep(Duration::from_millis(50)).await;
    assert!(receiver.try_recv().is_err());
    first.send(Answer::Busy).unwrap();
    while !matches!(receiver.try_recv(), Ok(Request::Submit { .. })) {
        sleep(Duration::from_millis(1)).await;
    }
    let mut line = String::new();
    BufReader::new(client).read_line(&mut line).await.unwrap();
    assert_eq!(line, "busy\n");
}
