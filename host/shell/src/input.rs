//! What the network hands to the engine's thread.

use std::io;
use std::sync::atomic::{AtomicU64, Ordering};
use std::sync::{mpsc, Arc};

use themis::Standing;
use themis_engine::frame::Frame;
use themis_engine::sessions::frames::SessionFrame;
use themis_engine::tx::Tx;
use themis_engine::{Answer, Ticket};
use tokio::sync::oneshot;

/// A request to the engine's thread.
pub enum Request {
    /// A peer sent a frame, which takes up one of its slots.
    Frame {
        /// The peer.
        peer: u32,
        /// What it sent.
        frame: Frame,
    },
    /// The same, where sessions follow one another.
    SessionFrame {
        /// The peer.
        peer: u32,
        /// What it sent.
        frame: SessionFrame,
    },
    /// The keeper has done what the engine asked for, and has put it into the engine's other inbox.
    Done,
    /// A peer's connection ended by what is no frame.
    BadFrame {
        /// The peer, if it is known.
        peer: Option<u32>,
        /// What came.
        cause: String,
    },
    /// There is a new connection to a peer, for what this replica sends.
    Connected(u32),
    /// A client's transactions; the answer comes once they are durable here.
    Submit {
        /// Names the submission.
        ticket: Ticket,
        /// The transactions.
        txs: Vec<Tx>,
        /// Takes the answer.
        answer: oneshot::Sender<Answer>,
    },
    /// The client of a submission has gone.
    Gone(Ticket),
    /// Asks for the status, a line of JSON.
    Status(oneshot::Sender<String>),
    /// Asks for the pages of HTTP.
    Pages(oneshot::Sender<Pages>),
    /// Asks for what the live page shows, a line of JSON.
    Picture(oneshot::Sender<String>),
    /// Asks what has become of a transaction.
    Find {
        /// The transaction.
        tx: Tx,
        /// Takes the answer.
        answer: oneshot::Sender<Found>,
    },
    /// Has a session end. One session alone takes no more transactions then.
    Close {
        /// The session; without a number, the one that the status names.
        session: Option<u32>,
        /// Takes the answer: why not, where it does not end.
        answer: oneshot::Sender<Result<(), String>>,
    },
    /// A fault that a test orders; whether there is such a one.
    Fault {
        /// The order.
        words: Vec<String>,
        /// Takes the answer.
        answer: oneshot::Sender<bool>,
    },
    /// Ends the thread.
    Stop,
}

/// What the replica tells over HTTP.
pub struct Pages {
    /// The page for Prometheus.
    pub metrics: String,
    /// Why the replica is not healthy, if it is not.
    pub fault: Option<&'static str>,
}

/// What has become of a transaction.
pub struct Found {
    /// What the library knows of it.
    pub standing: Standing,
    /// The position of its batch in the list, if that is in memory. The store has those of sessions
    /// that have ended.
    pub position: Option<usize>,
}

/// The inbox of the engine's thread. What peers put in is bounded by their slots, and what clients
/// do by their number.
#[derive(Clone)]
pub struct Inbox {
    requests: mpsc::Sender<Request>,
    next: Arc<AtomicU64>,
}

impl Inbox {
    /// An inbox, and its other end.
    pub fn new() -> (Inbox, mpsc::Receiver<Request>) {
        let (sender, receiver) = mpsc::channel();
        (Inbox { requests: sender, next: Arc::default() }, receiver)
    }

    /// Hands a request over. Where the engine has ended, so does the process, and nobody waits.
    pub fn put(&self, request: Request) {
        let _ = self.requests.send(request);
    }

    /// A name for a submission that no other one has.
    pub fn ticket(&self) -> Ticket {
        self.next.fetch_add(1, Ordering::Relaxed)
    }

    /// The engine's answer to a question.
    pub async fn ask<T>(
        &self,
        question: impl FnOnce(oneshot::Sender<T>) -> Request,
    ) -> io::Result<T> {
        let (sender, answer) = oneshot::channel();
        self.put(question(sender));
        answer.await.map_err(|_| io::ErrorKind::ConnectionAborted.into())
    }
}
