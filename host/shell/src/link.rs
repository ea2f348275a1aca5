//! A connection to one peer, for what this replica sends; the peer dials another one back.

use std::collections::VecDeque;
use std::io;
use std::net::SocketAddr;
use std::sync::atomic::{AtomicBool, Ordering};
use std::sync::{Mutex, MutexGuard, PoisonError};
use std::time::{Duration, Instant};

use bytes::Bytes;
use tokio::io::{AsyncReadExt, AsyncWriteExt};
use tokio::net::TcpStream;
use tokio::sync::Notify;
use tokio::time::{sleep, timeout};

use crate::input::{Inbox, Request};
use crate::run::jitter;
use crate::tls::{Stream, Trust};

/// Bytes; above it the oldest frames are dropped.
const MAX_QUEUED: usize = 4 << 20;
/// Bytes of one write.
const MAX_WRITTEN: usize = 1 << 18;
/// A peer that comes back has no use for old views.
const STALE_AFTER: Duration = Duration::from_secs(3);
const CONNECT_WITHIN: Duration = Duration::from_secs(5);
const WRITE_WITHIN: Duration = Duration::from_secs(10);
const FIRST_DELAY: Duration = Duration::from_millis(50);
const MAX_DELAY: Duration = Duration::from_secs(1);

/// Sends frames to a peer, and connects again where the connection ends. Sending never blocks.
pub struct Link {
    peer: u32,
    queue: Mutex<Queue>,
    has_more: Notify,
    /// For tests: nothing goes out or comes in.
    is_cut: AtomicBool,
}

#[derive(Default)]
struct Queue {
    frames: VecDeque<(Instant, Bytes)>,
    size: usize,
    dropped: u64,
}

impl Queue {
    fn pop(&mut self) -> Option<(Instant, Bytes)> {
        let taken = self.frames.pop_front()?;
        self.size -= taken.1.len();
        Some(taken)
    }

    /// Moves what is to be written next into a buffer, and drops what is stale.
    fn take(&mut self, into: &mut Vec<u8>, now: Instant) {
        while into.len() < MAX_WRITTEN {
            match self.pop() {
                None => return,
                Some((at, _)) if now.saturating_duration_since(at) > STALE_AFTER => {
                    self.dropped += 1;
                }
                Some((_, data)) => into.extend_from_slice(&data),
            }
        }
    }
}

impl Link {
    /// A link to a peer, over which nothing was sent.
    pub fn new(peer: u32) -> Link {
        let (queue, is_cut) = (Mutex::default(), AtomicBool::new(false));
        Link { peer, queue, has_more: Notify::new(), is_cut }
    }

    fn queue(&self) -> MutexGuard<'_, Queue> {
        self.queue.lock().unwrap_or_else(PoisonError::into_inner)
    }

    /// Queues a frame.
    pub fn send(&self, frame: Bytes, now: Instant) {
        if self.is_cut() {
            return;
        }
        let mut queue = self.queue();
        queue.size += frame.len();
        queue.frames.push_back((now, frame));
        while queue.size > MAX_QUEUED && queue.pop().is_some() {
            queue.dropped += 1;
        }
        drop(queue);
        self.has_more.notify_one();
    }

    /// Bytes that can be queued before older ones are dropped.
    pub fn room(&self) -> usize {
        MAX_QUEUED.saturating_sub(self.queue().size)
    }

    /// Frames that were dropped.
    pub fn dropped(&self) -> u64 {
        self.queue().dropped
    }

    /// Whether a test cut the link.
    pub fn is_cut(&self) -> bool {
        self.is_cut.load(Ordering::Relaxed)
    }

    /// Cuts the link, or heals it.
    pub fn set_cut(&self, is_cut: bool) {
        self.is_cut.store(is_cut, Ordering::Relaxed);
    }

    /// Connects and sends, for ever. The engine hears of each connection.
    pub async fn run(&self, at: SocketAddr, hello: &Bytes, trust: &Trust, inbox: &Inbox) {
        let mut delay = FIRST_DELAY;
        loop {
            let fault = match timeout(CONNECT_WITHIN, self.connect(at, trust)).await {
                Err(_) => io::ErrorKind::TimedOut.into(),
                Ok(Err(fault)) => fault,
                Ok(Ok(stream)) => {
                    delay = FIRST_DELAY;
                    inbox.put(Request::Connected(self.peer));
                    self.serve(stream, hello).await
                }
            };
            tracing::debug!(peer = self.peer, cause = %fault, "link lost");
            sleep(delay.mul_f64(0.5 + jitter() / 2.0)).await;
            delay = (delay * 2).min(MAX_DELAY);
        }
    }

    async fn connect(&self, at: SocketAddr, trust: &Trust) -> io::Result<Box<dyn Stream>> {
        let tcp = TcpStream::connect(at).await?;
        tcp.set_nodelay(true)?;
        trust.connect(self.peer, tcp).await
    }

    /// Writes what is queued, until the connection ends; returns why. The peer sends nothing here.
    async fn serve(&self, mut stream: Box<dyn Stream>, hello: &[u8]) -> io::Error {
        let mut out = hello.to_vec();
        let mut nothing = [0; 1];
        loop {
            self.queue().take(&mut out, Instant::now());
            if out.is_empty() {
                tokio::select! {
                    () = self.has_more.notified() => {}
                    ended = stream.read(&mut nothing) => {
                        return ended.err().unwrap_or_else(|| io::ErrorKind::UnexpectedEof.into());
                    }
                }
                continue;
            }
            let written = timeout(WRITE_WITHIN, async {
                stream.write_all(&out).await?;
                stream.flush().await
            });
            match written.await {
                Err(_) => return io::ErrorKind::TimedOut.into(),
                Ok(Err(fault)) => return fault,
                Ok(Ok(())) => out.clear(),
            }
        }
    }
}

#[cfg(test)]
mod tests {
    use super::*;

    #[test]
    fn a_queue_is_bounded_and_forgets_what_is_stale() {
        let (link, now) = (Link::new(1), Instant::now());
        let data = Bytes::from(vec![7; 1 << 20]);
        for _ in 0..6 {
            link.send(data.clone(), now);
        }
        assert_eq!((link.room(), link.dropped()), (0, 2));
        let mut out = Vec::new();
        link.queue().take(&mut out, now);
        assert_eq!(out.len(), 1 << 20);
        out.clear();
        link.queue().take(&mut out, now + STALE_AFTER * 2);
        assert_eq!((out.len(), link.room(), link.dropped()), (0, MAX_QUEUED, 5));
    }

    /// What a peer reads over a connection, until it has the last frame. It starts once all were sent.
    async fn passed_on(sent: &[Bytes]) -> Vec<Bytes> {
        let (near, mut far) = tokio::io::duplex(1 << 16);
        let link = Link::new(1);
        let now = Instant::now();
        let read = async {
            for frame in sent {
                link.send(frame.clone(), now);
                tokio::task::yield_now().await; // so that some are written meanwhile
            }
            let mut got = Vec::new();
            while got.last() != sent.last() {
                let mut head = [0; 4];
                far.read_exact(&mut head).await.unwrap();
                let mut frame = head.to_vec();
                frame.resize(4 + u32::from_be_bytes(head) as usize, 0);
                far.read_exact(&mut frame[4..]).await.unwrap();
                got.push(Bytes::from(frame));
            }
            got
        };
        tokio::select! {
            got = read => got,
            _ = link.serve(Box::new(near), &[]) => Vec::new(),
        }
    }

    fn framed(number: u8, size: u32) -> Bytes {
        let body = vec![number; size as usize];
        Bytes::from([&size.to_be_bytes()[..], &body].concat())
    }

    #[tokio::test]
    async fn frames_come_in_order() {
        let sent: Vec<Bytes> = (0..100).map(|it| framed(it, u32::from(it) * 700)).collect();
        assert_eq!(passed_on(&sent).await, sent);
    }

    #[tokio::test]
    async fn a_peer_that_does_not_read_gets_the_newest() {
        let sent: Vec<Bytes> = (0..250).map(|it| framed(it, 60_000)).collect();
        let got = passed_on(&sent).await;
        assert!(got.len() > 10 && got.len() < sent.len());
        let kept: Vec<Bytes> = sent.iter().filter(|it| got.contains(it)).cloned().collect();
        assert_eq!(got, kept);
    }
}
