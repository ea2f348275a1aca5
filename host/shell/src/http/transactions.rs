//! Transactions: how they are submitted, and what has become of one.

use std::time::Duration;

use hyper::header::ORIGIN;
use hyper::{Body, Request, StatusCode};
use serde_json::{json, Value};
use themis::Standing;
use themis_engine::tx::{self, Tx};
use themis_engine::{Answer as Outcome, Ticket};
use tokio::time::timeout;

use super::answer::{json_of, Answer, Refusal};
use super::body;
use super::site::Site;
use super::Visit;
use crate::input::{self, Found, Inbox};
use crate::refusal::cause_of;

/// A burst of all that may wait is durable earlier.
const DURABLE_WITHIN: Duration = Duration::from_secs(60);

/// Submits the transactions of a body, a list of texts, and waits until they are durable.
pub async fn submit(visit: &Visit, request: Request<Body>) -> Result<Answer, Refusal> {
    // A browser names the page that sends, and no other client does. No page has a reason to submit,
    // and one from elsewhere could send to a port that only this machine can reach.
    if request.headers().contains_key(ORIGIN) {
        return Err(Refusal::Browser);
    }
    let txs = txs_of(&body::read(request.into_body()).await?)?;
    for tx in &txs {
        visit.seat.who.check(tx).map_err(Refusal::Foreign)?;
    }
    let inbox = &visit.site.inbox;
    let waiting = Waiting { inbox, ticket: inbox.ticket() };
    let ticket = waiting.ticket;
    let question = |answer| input::Request::Submit { ticket, txs, answer };
    let outcome = timeout(DURABLE_WITHIN, inbox.ask(question)).await;
    match outcome.map_err(|_| Refusal::NotDurable)?.map_err(|_| Refusal::NoEngine)? {
        Outcome::Ok { new, old } => {
            Ok(json_of(StatusCode::OK, &json!({ "new": new, "known": old })))
        }
        Outcome::Busy => Err(Refusal::Busy),
        Outcome::Closed => Err(Refusal::Closed),
        Outcome::Over => Err(Refusal::Over),
        Outcome::Refused(tx, why) => Err(Refusal::Bad(cause_of(&tx, why))),
    }
}

/// A submission that waits for its answer. Where its client goes, nobody waits any more.
struct Waiting<'a> {
    inbox: &'a Inbox,
    ticket: Ticket,
}

impl Drop for Waiting<'_> {
    fn drop(&mut self) {
        // Of one that was answered, the engine knows nothing more.
        self.inbox.put(input::Request::Gone(self.ticket));
    }
}

/// The transactions of a JSON list of texts.
fn txs_of(body: &[u8]) -> Result<Vec<Tx>, Refusal> {
    let texts: Vec<String> = serde_json::from_slice(body)
        .map_err(|it| Refusal::Bad(format!("no JSON list of strings: {it}")))?;
    texts.iter().map(|it| tx_of(it)).collect()
}

/// The transaction of a text.
fn tx_of(text: &str) -> Result<Tx, Refusal> {
    tx::parse(text).ok_or_else(|| Refusal::Bad(format!("no transaction: {text:.60}")))
}

/// What has become of a transaction. The engine is asked first: what leaves its memory is in the store
/// then.
pub async fn find(site: &Site, text: &str) -> Result<Answer, Refusal> {
    let tx = tx_of(text)?;
    let mut found = site.ask(|answer| input::Request::Find { tx, answer }).await?;
    if found.position.is_none() {
        found.position = site.stored_position(tx).await?;
    }
    Ok(json_of(StatusCode::OK, &found_as_json(text, &found)))
}

fn found_as_json(text: &str, found: &Found) -> Value {
    match (found.standing, found.position) {
        (_, Some(position)) => {
            json!({ "transaction": text, "state": "final", "position": position })
        }
        (Standing::Final, None) => json!({ "transaction": text, "state": "final" }),
        (Standing::Waiting | Standing::Arrived, None) => {
            json!({ "transaction": text, "state": "waiting" })
        }
        (Standing::Unknown, None) => json!({ "transaction": text, "state": "unknown" }),
    }
}
