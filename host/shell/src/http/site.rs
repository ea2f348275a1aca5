//! What all connections share: the way to the engine, the final batches, and the live feed.

use std::io;
use std::sync::Arc;
use std::time::Duration;

use themis_engine::tx::Tx;
use tokio::sync::{oneshot, watch};
use tokio::time::timeout;

use super::answer::Refusal;
use super::live::Feed;
use crate::batches::Batches;
use crate::input::{Inbox, Request};

/// An engine that is slower is not healthy.
const ANSWER_WITHIN: Duration = Duration::from_secs(5);

/// What is served of one replica.
pub struct Site {
    pub(super) inbox: Inbox,
    batches: Arc<Batches>,
    /// The session, unless they follow one another.
    pub(super) session: Option<u32>,
    pub(super) feed: Arc<Feed>,
}

impl Site {
    /// A site without clients. Call it within tokio, as it starts the live feed.
    pub fn new(inbox: Inbox, batches: Arc<Batches>, session: Option<u32>) -> Arc<Site> {
        let feed = Feed::start(inbox.clone());
        Arc::new(Site { inbox, batches, session, feed })
    }

    /// The engine's answer to a question.
    pub(super) async fn ask<T>(
        &self,
        question: impl FnOnce(oneshot::Sender<T>) -> Request,
    ) -> Result<T, Refusal> {
        let answer = timeout(ANSWER_WITHIN, self.inbox.ask(question)).await;
        answer.ok().and_then(Result::ok).ok_or(Refusal::NoEngine)
    }

    /// Some final batches from a position on, each as a line of the line protocol.
    pub(super) async fn lines(&self, from: usize, most: usize) -> io::Result<Vec<Arc<str>>> {
        self.batches.from(from, most).await
    }

    /// The position of a transaction of a session that has ended.
    pub(super) async fn stored_position(&self, tx: Tx) -> Result<Option<usize>, Refusal> {
        let found = timeout(ANSWER_WITHIN, self.batches.position_of(tx)).await;
        found.ok().and_then(Result::ok).ok_or(Refusal::NoStore)
    }

    /// Changes with each batch.
    pub(super) fn watch(&self) -> watch::Receiver<usize> {
        self.batches.watch()
    }
}
