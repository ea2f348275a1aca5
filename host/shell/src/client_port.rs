//! The port for clients: lines of text, each a command and its arguments.
//!
//! ```text
//! submit TX ..        ok NEW OLD, once they are durable here; or busy, closed, over, bad CAUSE
//! follow POSITION     batch POSITION TX .., for each final batch from this position on, for ever
//! ```
//!
//! A transaction is client.number.payload, and has the number of the client whose certificate the
//! connection shows ([`crate::identity`]). A connection that starts with a capital letter speaks
//! HTTP/1.1 ([`crate::http`]). What an operator asks goes over a socket of its own
//! ([`crate::operator`]).

use std::future::Future;
use std::io;
use std::sync::Arc;
use std::time::Duration;

use socket2::{SockRef, TcpKeepalive};
use themis_engine::{tx, Answer};
use tokio::io::{AsyncBufReadExt, AsyncReadExt, AsyncWriteExt, BufReader, ReadHalf, WriteHalf};
use tokio::net::{TcpListener, TcpStream};
use tokio::time::{sleep, timeout};

use crate::batches::Batches;
use crate::connections::{Connections, Seat};
use crate::http::{self, Site};
use crate::identity::{ClientTrust, Identity};
use crate::input::{Inbox, Request};
use crate::refusal::cause_of;
use crate::tls::Stream;

const MAX_LINE: usize = 1 << 16;
const READ_AHEAD: usize = 1 << 13;
/// Batches of one write.
const MAX_BATCHES: usize = 16;
const HANDSHAKE_WITHIN: Duration = Duration::from_secs(5);
const WRITE_WITHIN: Duration = Duration::from_secs(30);
const IDLE_AFTER: Duration = Duration::from_secs(600);
/// A client whose machine has gone is noticed by TCP.
const KEEPALIVE_AFTER: Duration = Duration::from_secs(60);
const RETRY_AFTER: Duration = Duration::from_millis(500);

/// A client's connection, whose first bytes can be looked at.
pub type ClientStream = BufReader<Box<dyn Stream>>;
type Reader = BufReader<ReadHalf<ClientStream>>;
type Writer = WriteHalf<ClientStream>;

/// Serves the clients of one replica.
pub struct ClientPort {
    trust: ClientTrust,
    inbox: Inbox,
    batches: Arc<Batches>,
    connections: Arc<Connections>,
    site: Arc<Site>,
}

impl ClientPort {
    /// A port without clients, of a session. Call it within tokio, as it starts the live feed.
    pub fn new(
        trust: ClientTrust,
        inbox: Inbox,
        batches: Arc<Batches>,
        session: Option<u32>,
    ) -> Arc<ClientPort> {
        let site = Site::new(inbox.clone(), batches.clone(), session);
        let connections = Connections::new();
        Arc::new(ClientPort { trust, inbox, batches, connections, site })
    }

    /// Takes connections, for ever.
    pub async fn run(self: Arc<ClientPort>, listener: TcpListener) {
        loop {
            match listener.accept().await {
                Ok((tcp, _)) => self.clone().begin(tcp),
                Err(fault) => {
                    // No descriptor is left, or the other side has gone.
                    tracing::warn!(cause = %fault, "no connection taken");
                    sleep(RETRY_AFTER).await;
                }
            }
        }
    }

    fn begin(self: Arc<ClientPort>, tcp: TcpStream) {
        let port = self.clone();
        self.connections.begin(move |id| {
            let task = async move {
                if let Err(cause) = port.meet(id, tcp).await {
                    tracing::debug!(%cause, "client gone");
                }
                port.connections.forget(id);
            };
            tokio::spawn(task)
        });
    }

    /// The handshake, and what follows it where there is room for the client.
    async fn meet(&self, id: u64, tcp: TcpStream) -> io::Result<()> {
        tcp.set_nodelay(true)?;
        SockRef::from(&tcp).set_tcp_keepalive(&TcpKeepalive::new().with_time(KEEPALIVE_AFTER))?;
        let (stream, who) = within(HANDSHAKE_WITHIN, self.trust.accept(tcp)).await?;
        let mut stream = ClientStream::with_capacity(READ_AHEAD, stream);
        let Some(seat) = self.connections.meet(id, who) else {
            let (_, mut writer) = tokio::io::split(stream);
            return write(&mut writer, b"busy\n").await;
        };
        let first = within(IDLE_AFTER, stream.fill_buf()).await?.first().copied();
        if first.is_some_and(http::is_http) {
            return http::serve(stream, self.site.clone(), seat).await.map_err(io::Error::other);
        }
        self.serve(&seat, stream).await
    }

    /// Answers the lines of one client, in turn, until it closes or sends too long a line.
    async fn serve(&self, seat: &Seat, stream: ClientStream) -> io::Result<()> {
        let (reader, mut writer) = tokio::io::split(stream);
        let mut reader = Reader::with_capacity(READ_AHEAD, reader);
        loop {
            let mut line = Vec::new();
            within(IDLE_AFTER, read_line(&mut reader, &mut line)).await?;
            if line.is_empty() {
                return Ok(());
            }
            let text = String::from_utf8_lossy(&line);
            let words: Vec<&str> = text.split_ascii_whitespace().collect();
            let answer = match words[..] {
                ["submit", ref texts @ ..] => self.submit(seat.who, texts, &mut reader).await?,
                ["follow", position] if position.bytes().all(|it| it.is_ascii_digit()) => {
                    if !seat.follow() {
                        return write(&mut writer, b"busy\n").await;
                    }
                    let position = position.parse().unwrap_or(usize::MAX);
                    return self.follow(position, &mut reader, &mut writer).await;
                }
                _ => "bad no such command".to_owned(),
            };
            write(&mut writer, format!("{answer}\n").as_bytes()).await?;
        }
    }

    /// Submits transactions, and waits until they are durable.
    async fn submit(
        &self,
        who: Identity,
        texts: &[&str],
        reader: &mut Reader,
    ) -> io::Result<String> {
        let mut txs = Vec::with_capacity(texts.len());
        for text in texts {
            let Some(tx) = tx::parse(text) else {
                return Ok(format!("bad no transaction: {text:.60}"));
            };
            if let Err(cause) = who.check(&tx) {
                return Ok(format!("bad {cause}"));
            }
            txs.push(tx);
        }
        let ticket = self.inbox.ticket();
        let answer = self.inbox.ask(|answer| Request::Submit { ticket, txs, answer });
        let answer = tokio::select! {
            answer = answer => answer?,
            () = closed(reader) => {
                self.inbox.put(Request::Gone(ticket));
                return Err(io::ErrorKind::ConnectionAborted.into());
            }
        };
        Ok(match answer {
            Answer::Ok { new, old } => format!("ok {new} {old}"),
            Answer::Busy => "busy".to_owned(),
            Answer::Closed => "closed".to_owned(),
            Answer::Over => "over".to_owned(),
            Answer::Refused(tx, why) => format!("bad {}", cause_of(&tx, why)),
        })
    }

    /// Writes batches to a client that has nothing more to say, until it closes.
    async fn follow(
        &self,
        mut at: usize,
        reader: &mut Reader,
        writer: &mut Writer,
    ) -> io::Result<()> {
        let batches = async {
            let mut more = self.batches.watch();
            loop {
                more.borrow_and_update();
                let lines = self.batches.from(at, MAX_BATCHES).await?;
                if lines.is_empty() {
                    more.changed().await.map_err(|_| io::ErrorKind::ConnectionAborted)?;
                    continue;
                }
                at += lines.len();
                write(writer, lines.concat().as_bytes()).await?;
            }
        };
        tokio::select! {
            ended = batches => ended,
            () = drained(reader) => Ok(()),
        }
    }
}

async fn within<T>(limit: Duration, work: impl Future<Output = io::Result<T>>) -> io::Result<T> {
    timeout(limit, work).await.unwrap_or_else(|_| Err(io::ErrorKind::TimedOut.into()))
}

async fn write(writer: &mut Writer, data: &[u8]) -> io::Result<()> {
    within(WRITE_WITHIN, async {
        writer.write_all(data).await?;
        writer.flush().await
    })
    .await
}

/// A line of bounded length; no bytes where the connection ends.
async fn read_line(reader: &mut Reader, line: &mut Vec<u8>) -> io::Result<()> {
    reader.take(MAX_LINE as u64).read_until(b'\n', line).await?;
    let is_cut_off = !line.is_empty() && !line.ends_with(b"\n") && line.len() >= MAX_LINE;
    if is_cut_off {
        Err(io::ErrorKind::InvalidData.into())
    } else {
        Ok(())
    }
}

/// Returns once the other side has closed, unless it has sent more before.
async fn closed(reader: &mut Reader) {
    let is_open = matches!(reader.fill_buf().await, Ok(data) if !data.is_empty());
    if is_open {
        std::future::pending::<()>().await;
    }
}

/// Drops what comes, until the connection ends.
async fn drained(reader: &mut Reader) {
    while let Ok(data) = reader.fill_buf().await {
        let size = data.len();
        if size == 0 {
            return;
        }
        reader.consume(size);
    }
}

#[cfg(test)]
#[path = "client_port_tests.rs"]
mod tests;
