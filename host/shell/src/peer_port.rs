//! The port for peers: takes their connections, and hands what they send to the engine.
//!
//! A TLS connection takes up memory before its handshake is over, and anyone can begin one. So few
//! are kept until the hello, and where one too many comes, the oldest of them is closed. A peer has
//! one connection: a new one ends the one before.

use std::collections::{HashMap, VecDeque};
use std::io;
use std::sync::{Arc, Mutex, MutexGuard, PoisonError};
use std::time::Duration;

use themis_engine::frame::Frame;
use tokio::io::BufReader;
use tokio::net::{TcpListener, TcpStream};
use tokio::sync::Semaphore;
use tokio::task::JoinHandle;
use tokio::time::{sleep, timeout};

use crate::input::{Inbox, Request};
use crate::link::Link;
use crate::read_frame::{read_frame, read_peer_frame, NoFrame, PeerFrame};
use crate::tls::{Stream, Trust};

const MAX_STRANGERS: usize = 64;
const HELLO_WITHIN: Duration = Duration::from_secs(5);
const RETRY_AFTER: Duration = Duration::from_millis(500);
/// Frames of a peer that wait; above it the connection is not read.
pub const MAX_WAITING: usize = 64;
const READ_AHEAD: usize = 1 << 16;

/// Takes the connections of peers.
pub struct PeerPort {
    trust: Trust,
    inbox: Inbox,
    links: Arc<[Option<Link>]>,
    session: [u8; 32],
    slots: Arc<[Semaphore]>,
    connections: Mutex<Connections>,
}

#[derive(Default)]
struct Connections {
    next: u64,
    /// Those whose peer is not known yet, the oldest first.
    strangers: VecDeque<(u64, JoinHandle<()>)>,
    /// By peer.
    peers: HashMap<u32, (u64, JoinHandle<()>)>,
}

impl PeerPort {
    /// A port without connections.
    pub fn new(
        trust: Trust,
        inbox: Inbox,
        links: Arc<[Option<Link>]>,
        session: [u8; 32],
        slots: Arc<[Semaphore]>,
    ) -> Arc<PeerPort> {
        let connections = Mutex::default();
        Arc::new(PeerPort { trust, inbox, links, session, slots, connections })
    }

    fn connections(&self) -> MutexGuard<'_, Connections> {
        self.connections.lock().unwrap_or_else(PoisonError::into_inner)
    }

    /// Takes connections, for ever.
    pub async fn run(self: Arc<PeerPort>, listener: TcpListener) {
        loop {
            match listener.accept().await {
                Ok((tcp, _)) => self.clone().begin(tcp),
                Err(fault) => {
                    // No descriptor is left, or the other side has gone.
                    tracing::warn!(cause = %fault, "no connection taken");
                    sleep(RETRY_AFTER).await;
                }
            }
        }
    }

    fn begin(self: Arc<PeerPort>, tcp: TcpStream) {
        let mut all = self.connections();
        if all.strangers.len() >= MAX_STRANGERS {
            if let Some((_, oldest)) = all.strangers.pop_front() {
                oldest.abort();
            }
        }
        let id = all.next;
        all.next += 1;
        let port = self.clone();
        // The lock is held until the task is among the strangers, so it finds itself there.
        let task = tokio::spawn(async move { port.serve(id, tcp).await });
        all.strangers.push_back((id, task));
    }

    /// Takes the frames of one peer, until it closes or sends what is no frame.
    async fn serve(&self, id: u64, tcp: TcpStream) {
        let met = timeout(HELLO_WITHIN, self.meet(id, tcp)).await;
        let (peer, ended) =
            match met.unwrap_or_else(|_| Err(NoFrame::Gone(io::ErrorKind::TimedOut.into()))) {
                Ok((peer, stream)) => (Some(peer), self.take_frames(peer, stream).await),
                Err(fault) => (None, fault),
            };
        if let NoFrame::Bad(cause) = ended {
            self.inbox.put(Request::BadFrame { peer, cause });
        }
        let mut all = self.connections();
        all.strangers.retain(|(it, _)| *it != id);
        all.peers.retain(|_, (it, _)| *it != id);
    }

    /// The handshake and the hello: who it is.
    async fn meet(
        &self,
        id: u64,
        tcp: TcpStream,
    ) -> Result<(u32, BufReader<Box<dyn Stream>>), NoFrame> {
        tcp.set_nodelay(true)?;
        let (stream, owner) = self.trust.accept(tcp).await?;
        let mut reader = BufReader::with_capacity(READ_AHEAD, stream);
        let hello = read_frame(&mut reader).await?;
        let peer = self.peer_of(&hello, owner).map_err(|it| NoFrame::Bad(it.to_owned()))?;
        let mut all = self.connections();
        let at = all.strangers.iter().position(|(it, _)| *it == id);
        let own = at.and_then(|at| all.strangers.remove(at));
        // One that has just been pushed out is not among them, and is aborted in a moment.
        let own = own.ok_or(NoFrame::Gone(io::ErrorKind::ConnectionAborted.into()))?;
        if let Some((_, earlier)) = all.peers.insert(peer, own) {
            earlier.abort();
        }
        drop(all);
        Ok((peer, reader))
    }

    fn peer_of(&self, hello: &Frame, owner: Option<u32>) -> Result<u32, &'static str> {
        let Frame::Hello { session, replica: peer } = *hello else { return Err("no hello") };
        if session != self.session {
            return Err("a replica of another session");
        }
        let is_a_peer = self.links.get(peer as usize).is_some_and(Option::is_some);
        if !is_a_peer || owner.is_some_and(|it| it != peer) {
            return Err("it is another replica");
        }
        Ok(peer)
    }

    async fn take_frames(&self, peer: u32, mut from: BufReader<Box<dyn Stream>>) -> NoFrame {
        let slots = &self.slots[peer as usize];
        let is_cut = || self.links[peer as usize].as_ref().is_some_and(Link::is_cut);
        loop {
            let request = match read_peer_frame(&mut from).await {
                Ok(PeerFrame::Plain(Frame::Hello { .. })) => {
                    return NoFrame::Bad("a second hello".to_owned());
                }
                Ok(PeerFrame::Plain(frame)) => Request::Frame { peer, frame },
                Ok(PeerFrame::OfSession(frame)) => Request::SessionFrame { peer, frame },
                Err(fault) => return fault,
            };
            // The slots are never closed.
            let Ok(slot) = slots.acquire().await else {
                return NoFrame::Gone(io::ErrorKind::ConnectionAborted.into());
            };
            if !is_cut() {
                slot.forget(); // the engine frees it
                self.inbox.put(request);
            }
        }
    }
}
