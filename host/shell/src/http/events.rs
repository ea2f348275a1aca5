//! Server-sent events: an answer that does not end.

use std::future::Future;
use std::sync::{Mutex, PoisonError};
use std::time::Duration;

use hyper::body::{Bytes, Sender};
use hyper::{Body, StatusCode};
use tokio::task::JoinHandle;
use tokio::time::timeout;

use super::answer::{answer, Answer};

/// A comment keeps the connection in use where there is no event for so long.
const COMMENT_AFTER: Duration = Duration::from_secs(15);
/// How long a browser waits until it connects again.
const RETRY: &str = "retry: 1000\n\n";

/// The stream of one connection. It ends where the connection does, or where another one starts.
#[derive(Default)]
pub struct Stream(Mutex<Option<Running>>);

struct Running(JoinHandle<()>);

impl Drop for Running {
    fn drop(&mut self) {
        self.0.abort();
    }
}

/// The client has gone, or what it follows has ended.
pub struct Ended;

/// Where the events of one stream go.
pub struct Events(Sender);

impl Stream {
    /// An answer of events, which `write` sends until it ends.
    pub fn start<W, F>(&self, write: W) -> Answer
    where
        W: FnOnce(Events) -> F,
        F: Future<Output = Result<(), Ended>> + Send + 'static,
    {
        let (sender, body) = Body::channel();
        let work = write(Events(sender));
        let task = tokio::spawn(async move {
            // An end is an end, whatever its cause.
            let _ = work.await;
        });
        *self.0.lock().unwrap_or_else(PoisonError::into_inner) = Some(Running(task));
        answer(StatusCode::OK, "text/event-stream", body)
    }
}

impl Events {
    /// What comes before the first event.
    pub async fn open(&mut self) -> Result<(), Ended> {
        self.send(RETRY).await
    }

    /// Sends whole events, once the client has room.
    pub async fn send(&mut self, text: impl Into<Bytes>) -> Result<(), Ended> {
        self.0.send_data(text.into()).await.map_err(|_| Ended)
    }

    /// Waits for something to follow, and sends comments meanwhile.
    pub async fn wait<T, E>(
        &mut self,
        mut something: impl Future<Output = Result<T, E>> + Unpin,
    ) -> Result<T, Ended> {
        loop {
            match timeout(COMMENT_AFTER, &mut something).await {
                Ok(came) => return came.map_err(|_| Ended),
                Err(_) => self.send(":\n\n").await?,
            }
        }
    }
}
