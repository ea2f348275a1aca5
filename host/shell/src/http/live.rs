//! What the page shows, as events. However many watch, the engine is asked twice a second, and not at
//! all while nobody does.

use std::sync::Arc;
use std::time::Duration;

use hyper::body::Bytes;
use tokio::sync::{watch, Notify};
use tokio::time::sleep;

use super::answer::Answer;
use super::events::{Ended, Events};
use super::Visit;
use crate::input::{Inbox, Request};

const EVERY: Duration = Duration::from_millis(500);

/// The last picture of the replica, for all that watch.
pub struct Feed {
    last: watch::Sender<Bytes>,
    someone: Notify,
}

impl Feed {
    /// A feed that nobody watches yet.
    pub fn start(inbox: Inbox) -> Arc<Feed> {
        let feed = Feed { last: watch::channel(Bytes::new()).0, someone: Notify::new() };
        let feed = Arc::new(feed);
        tokio::spawn(feed.clone().run(inbox));
        feed
    }

    async fn run(self: Arc<Feed>, inbox: Inbox) {
        loop {
            if self.last.receiver_count() == 0 {
                self.someone.notified().await;
            }
            // Where the engine has ended, so does the process.
            let Ok(picture) = inbox.ask(Request::Picture).await else { return };
            self.last.send_replace(format!("data: {picture}\n\n").into());
            sleep(EVERY).await;
        }
    }

    fn watch(&self) -> watch::Receiver<Bytes> {
        let mut watching = self.last.subscribe();
        // What was made before may be old.
        watching.borrow_and_update();
        self.someone.notify_one();
        watching
    }
}

/// The replica as it is, for ever.
pub fn stream(visit: &Visit) -> Answer {
    let watching = visit.site.feed.watch();
    visit.stream.start(move |events| send_all(watching, events))
}

async fn send_all(mut watching: watch::Receiver<Bytes>, mut events: Events) -> Result<(), Ended> {
    events.open().await?;
    loop {
        events.wait(Box::pin(watching.changed())).await?;
        let picture = watching.borrow_and_update().clone();
        events.send(picture).await?;
    }
}
