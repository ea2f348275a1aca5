//! For tests: an engine that is played, and what HTTP answers over it.

use std::sync::atomic::{AtomicUsize, Ordering};
use std::sync::mpsc::Receiver;
use std::sync::Arc;
use std::time::Duration;

use themis::Standing;
use themis_engine::tx::Tx;
use themis_engine::Answer as Outcome;
use tokio::io::{duplex, AsyncReadExt, AsyncWriteExt, DuplexStream};
use tokio::sync::oneshot;
use tokio::time::{sleep, Instant};

use super::{serve, Site};
use crate::batches::Batches;
use crate::connections::Connections;
use crate::identity::Identity;
use crate::input::{Found, Inbox, Pages, Request as Asked};

pub const MS: Duration = Duration::from_millis(1);

pub fn tx(number: u32) -> Tx {
    Tx { client: 1, number, payload: 0 }
}

/// Answers, where someone still waits.
fn give<T>(to: oneshot::Sender<T>, value: T) {
    let _ = to.send(value);
}

/// What the played engine was asked, and what it says.
#[derive(Default)]
pub struct Played {
    pub pictures: AtomicUsize,
    pub gone: AtomicUsize,
    /// It answers nothing.
    pub is_stuck: bool,
    pub fault: Option<&'static str>,
}

impl Played {
    fn answer(&self, request: Asked) {
        match request {
            Asked::Submit { txs, answer, .. } => match txs.first().map(|it| it.number) {
                Some(10) => give(answer, Outcome::Busy),
                Some(11) => give(answer, Outcome::Closed),
                Some(12) => give(answer, Outcome::Over),
                // Not durable, for ever.
                Some(13) => std::mem::forget(answer),
                _ => give(answer, Outcome::Ok { new: txs.len(), old: 0 }),
            },
            Asked::Gone(_) => {
                self.gone.fetch_add(1, Ordering::Relaxed);
            }
            Asked::Status(answer) => give(answer, "{\"view\":7}".to_owned()),
            Asked::Pages(answer) => {
                let metrics = "themis_view 7\n".to_owned();
                give(answer, Pages { metrics, fault: self.fault });
            }
            Asked::Picture(answer) => {
                let count = self.pictures.fetch_add(1, Ordering::Relaxed);
                give(answer, format!("{{\"view\":{count}}}"));
            }
            Asked::Find { tx, answer } => {
                let (standing, position) = match tx.number {
                    0 => (Standing::Unknown, None),
                    1 => (Standing::Waiting, None),
                    2 => (Standing::Arrived, None),
                    3 => (Standing::Final, Some(5)),
                    _ => (Standing::Final, None),
                };
                give(answer, Found { standing, position });
            }
            _ => {}
        }
    }

    async fn run(self: Arc<Played>, requests: Receiver<Asked>) {
        let mut held = Vec::new();
        loop {
            while let Ok(request) = requests.try_recv() {
                if self.is_stuck {
                    held.push(request);
                } else {
                    self.answer(request);
                }
            }
            sleep(MS).await;
        }
    }
}

/// What is served over a played engine.
pub struct Port {
    pub played: Arc<Played>,
    pub batches: Arc<Batches>,
    site: Arc<Site>,
    connections: Arc<Connections>,
    who: Identity,
}

impl Port {
    pub fn new(played: Played) -> Port {
        Port::over(played, Batches::new())
    }

    pub fn over(played: Played, batches: Batches) -> Port {
        let (inbox, requests) = Inbox::new();
        let (played, batches) = (Arc::new(played), Arc::new(batches));
        tokio::spawn(played.clone().run(requests));
        let site = Site::new(inbox, batches.clone(), Some(3));
        Port { played, batches, site, connections: Connections::new(), who: Identity::Client(1) }
    }

    pub fn connect(&self) -> DuplexStream {
        let (client, server) = duplex(1 << 16);
        let (connections, site, who) = (self.connections.clone(), self.site.clone(), self.who);
        self.connections.begin(move |id| {
            tokio::spawn(async move {
                let seat = connections.meet(id, who).unwrap();
                let _ = serve(server, site, seat).await;
            })
        });
        client
    }

    /// All that is answered to some bytes, up to the end of the connection.
    pub async fn answer(&self, request: &str) -> String {
        let mut client = self.connect();
        // The port may close before it has read all.
        let _ = client.write_all(request.as_bytes()).await;
        let mut out = Vec::new();
        client.read_to_end(&mut out).await.unwrap();
        String::from_utf8(out).unwrap()
    }

    /// The status and the body of the answer to a call without a body.
    pub async fn call(&self, method: &str, path: &str) -> (u16, String) {
        let request = format!("{method} {path} HTTP/1.1\r\nHost: any\r\nConnection: close\r\n\r\n");
        parts(&self.answer(&request).await)
    }

    pub async fn get(&self, path: &str) -> (u16, String) {
        self.call("GET", path).await
    }

    pub async fn submit(&self, body: &str) -> (u16, String) {
        parts(&self.answer(&post(body, "")).await)
    }
}

pub fn post(body: &str, more: &str) -> String {
    let size = body.len();
    format!(
        "POST /v1/transactions HTTP/1.1\r\nHost: any\r\nConnection: close\r\n{more}\
         Content-Length: {size}\r\n\r\n{body}"
    )
}

fn parts(answer: &str) -> (u16, String) {
    let status = answer.split(' ').nth(1).and_then(|it| it.parse().ok());
    let (_, body) = answer.split_once("\r\n\r\n").unwrap_or((answer, ""));
    (status.unwrap_or(0), body.trim_end().to_owned())
}

/// What is sent within some time.
pub async fn streamed(client: &mut DuplexStream, within: Duration) -> String {
    let end = Instant::now() + within;
    let mut out = Vec::new();
    while let Ok(Ok(count)) = tokio::time::timeout_at(end, client.read_buf(&mut out)).await {
        if count == 0 {
            break;
        }
    }
    String::from_utf8(out).unwrap()
}

pub async fn open(port: &Port, path: &str, more: &str) -> DuplexStream {
    let mut client = port.connect();
    let request = format!("GET {path} HTTP/1.1\r\nHost: any\r\n{more}\r\n");
    client.write_all(request.as_bytes()).await.unwrap();
    client
}
