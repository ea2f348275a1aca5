//! A connection that fails where nothing moves for too long, or where a request's head takes too long.
//! hyper itself waits for ever for a client that sends nothing more, or that does not read its answer;
//! its own limit for heads has no effect in 0.14.19.

use std::future::Future;
use std::io;
use std::pin::Pin;
use std::sync::atomic::{AtomicBool, AtomicUsize, Ordering};
use std::sync::Arc;
use std::task::{Context, Poll};
use std::time::Duration;

use tokio::io::{AsyncRead, AsyncWrite, ReadBuf};
use tokio::time::{sleep, Instant, Sleep};

/// Without a byte in either direction. Longer than any answer takes, and than the pause between two
/// events of a stream.
pub const IDLE_AFTER: Duration = Duration::from_secs(120);
/// For one write.
pub const WRITE_WITHIN: Duration = Duration::from_secs(30);

/// From a request's first byte to the end of its head.
pub const HEAD_WITHIN: Duration = Duration::from_secs(10);

/// Which requests of a connection are answered: those whose heads have come.
#[derive(Default)]
pub struct Answering {
    begun: AtomicUsize,
    is_busy: AtomicBool,
}

impl Answering {
    /// A head has come.
    pub fn begin(&self) {
        self.begun.fetch_add(1, Ordering::Relaxed);
        self.is_busy.store(true, Ordering::Relaxed);
    }

    /// Its answer is there. What the client sends now is the next request.
    pub fn end(&self) {
        self.is_busy.store(false, Ordering::Relaxed);
    }
}

/// A connection with limits on its pauses.
pub struct Patient<S> {
    inner: S,
    answering: Arc<Answering>,
    /// Requests whose heads had come at the last read.
    begun: usize,
    /// When the head that comes has to be there.
    head: Pin<Box<Sleep>>,
    is_in_head: bool,
    idle: Pin<Box<Sleep>>,
    writing: Pin<Box<Sleep>>,
    is_writing: bool,
}

impl<S> Patient<S> {
    /// A connection that was just used.
    pub fn new(inner: S, answering: Arc<Answering>) -> Patient<S> {
        let limit = |span| Box::pin(sleep(span));
        Patient {
            inner,
            answering,
            begun: 0,
            head: limit(HEAD_WITHIN),
            is_in_head: false,
            idle: limit(IDLE_AFTER),
            writing: limit(WRITE_WITHIN),
            is_writing: false,
        }
    }

    /// Notes that bytes came; those that come while no request is answered start a head.
    fn came(&mut self) {
        self.moved();
        if !self.is_in_head && !self.answering.is_busy.load(Ordering::Relaxed) {
            self.is_in_head = true;
            self.head.as_mut().reset(Instant::now() + HEAD_WITHIN);
        }
    }

    /// Whether the client has taken too long.
    fn is_late(&mut self, cx: &mut Context<'_>) -> bool {
        let is_in_head = self.is_in_head && !self.answering.is_busy.load(Ordering::Relaxed);
        is_in_head && self.head.as_mut().poll(cx).is_ready()
            || self.idle.as_mut().poll(cx).is_ready()
    }

    fn moved(&mut self) {
        self.idle.as_mut().reset(Instant::now() + IDLE_AFTER);
    }

    /// What a write came to; an error where it has waited too long.
    fn written<T>(
        &mut self,
        polled: Poll<io::Result<T>>,
        cx: &mut Context<'_>,
    ) -> Poll<io::Result<T>> {
        if polled.is_ready() {
            self.is_writing = false;
            self.moved();
            return polled;
        }
        if !std::mem::replace(&mut self.is_writing, true) {
            self.writing.as_mut().reset(Instant::now() + WRITE_WITHIN);
        }
        self.writing.as_mut().poll(cx).map(|()| Err(io::ErrorKind::TimedOut.into()))
    }
}

impl<S: AsyncRead + Unpin> AsyncRead for Patient<S> {
    fn poll_read(
        mut self: Pin<&mut Self>,
        cx: &mut Context<'_>,
        to: &mut ReadBuf<'_>,
    ) -> Poll<io::Result<()>> {
        let begun = self.answering.begun.load(Ordering::Relaxed);
        if std::mem::replace(&mut self.begun, begun) != begun {
            self.is_in_head = false;
        }
        let polled = Pin::new(&mut self.inner).poll_read(cx, to);
        if polled.is_ready() {
            self.came();
            return polled;
        }
        if self.is_late(cx) {
            return Poll::Ready(Err(io::ErrorKind::TimedOut.into()));
        }
        Poll::Pending
    }
}

impl<S: AsyncWrite + Unpin> AsyncWrite for Patient<S> {
    fn poll_write(
        mut self: Pin<&mut Self>,
        cx: &mut Context<'_>,
        data: &[u8],
    ) -> Poll<io::Result<usize>> {
        let polled = Pin::new(&mut self.inner).poll_write(cx, data);
        self.written(polled, cx)
    }

    fn poll_flush(mut self: Pin<&mut Self>, cx: &mut Context<'_>) -> Poll<io::Result<()>> {
        let polled = Pin::new(&mut self.inner).poll_flush(cx);
        if polled.is_ready() {
            return polled;
        }
        self.written(polled, cx)
    }

    fn poll_shutdown(mut self: Pin<&mut Self>, cx: &mut Context<'_>) -> Poll<io::Result<()>> {
        let polled = Pin::new(&mut self.inner).poll_shutdown(cx);
        self.written(polled, cx)
    }
}

#[cfg(test)]
mod tests {
    use super::*;
    use tokio::io::{duplex, AsyncReadExt, AsyncWriteExt};

    #[tokio::test(flavor = "current_thread", start_paused = true)]
    async fn a_client_that_sends_nothing_more() {
        let (mut client, server) = duplex(16);
        let answering: Arc<Answering> = Arc::default();
        let mut patient = Patient::new(server, answering.clone());
        client.write_all(b"abcd").await.unwrap();
        let start = Instant::now();
        assert_eq!(patient.read_u8().await.unwrap(), b'a');
        // Its head has come, and is answered: it may wait for the next one.
        answering.begin();
        assert_eq!(patient.read_u8().await.unwrap(), b'b');
        answering.end();
        sleep(HEAD_WITHIN).await;
        assert_eq!(patient.read_u8().await.unwrap(), b'c');
        assert_eq!(patient.read_u8().await.unwrap(), b'd');
        let fault = patient.read_u8().await.unwrap_err();
        assert_eq!(fault.kind(), io::ErrorKind::TimedOut);
        assert_eq!(start.elapsed().as_secs(), 2 * HEAD_WITHIN.as_secs());
    }

    #[tokio::test(flavor = "current_thread", start_paused = true)]
    async fn an_answer_may_take_longer_than_a_head() {
        let (mut client, server) = duplex(16);
        let answering: Arc<Answering> = Arc::default();
        let mut patient = Patient::new(server, answering.clone());
        client.write_all(b"a").await.unwrap();
        let start = Instant::now();
        assert_eq!(patient.read_u8().await.unwrap(), b'a');
        answering.begin();
        let fault = patient.read_u8().await.unwrap_err();
        assert_eq!(fault.kind(), io::ErrorKind::TimedOut);
        assert_eq!(start.elapsed().as_secs(), IDLE_AFTER.as_secs());
    }

    #[tokio::test(flavor = "current_thread", start_paused = true)]
    async fn a_client_that_does_not_read() {
        let (_client, server) = duplex(16);
        let mut patient = Patient::new(server, Arc::default());
        let start = Instant::now();
        let fault = patient.write_all(&[7; 17]).await.unwrap_err();
        assert_eq!(fault.kind(), io::ErrorKind::TimedOut);
        assert!(start.elapsed() >= WRITE_WITHIN && start.elapsed() < IDLE_AFTER);
    }

    #[tokio::test(flavor = "current_thread", start_paused = true)]
    async fn a_client_that_reads_slowly() {
        let (mut client, server) = duplex(16);
        let mut patient = Patient::new(server, Arc::default());
        let reading = tokio::spawn(async move {
            let mut bytes = [0; 16];
            for _ in 0..3 {
                sleep(WRITE_WITHIN * 9 / 10).await;
                client.read_exact(&mut bytes).await.unwrap();
            }
        });
        patient.write_all(&[7; 48]).await.unwrap();
        reading.await.unwrap();
    }
}
