//! The final batches: some of them as JSON, or all from a position on as events.

use hyper::StatusCode;
use serde_json::json;

use super::answer::{text_of_json, Answer, Refusal};
use super::events::{Ended, Events};
use super::site::Site;
use super::Visit;

/// Batches of one answer.
const MAX_BATCHES: usize = 1000;
/// Bytes of one answer, unless one batch alone has more.
const MAX_PAGE: usize = 1 << 18;
/// Batches of one write to a stream.
const MAX_EVENTS: usize = 16;

/// Some batches from a position on.
pub async fn page(site: &Site, from: usize, most: usize) -> Result<Answer, Refusal> {
    let lines = site.lines(from, most.min(MAX_BATCHES)).await.map_err(|_| Refusal::NoStore)?;
    let mut bytes = 0;
    let mut batches = Vec::new();
    for (at, line) in (from..).zip(&lines) {
        let batch = json_of(at, line);
        bytes += batch.len();
        if bytes > MAX_PAGE && !batches.is_empty() {
            break;
        }
        batches.push(batch);
    }
    let session = site.session.map_or_else(String::new, |it| format!("\"session\":{it},"));
    let next = from.saturating_add(batches.len());
    let text = format!("{{{session}\"next\":{next},\"batches\":[{}]}}", batches.join(","));
    Ok(text_of_json(StatusCode::OK, text))
}

/// All batches from a position on, for ever.
pub fn stream(visit: &Visit, from: usize) -> Answer {
    let site = visit.site.clone();
    visit.stream.start(move |events| async move { send_all(&site, from, events).await })
}

async fn send_all(site: &Site, mut at: usize, mut events: Events) -> Result<(), Ended> {
    events.open().await?;
    let mut more = site.watch();
    loop {
        more.borrow_and_update();
        let lines = site.lines(at, MAX_EVENTS).await.map_err(|_| Ended)?;
        if lines.is_empty() {
            events.wait(Box::pin(more.changed())).await?;
            continue;
        }
        let texts = (at..).zip(&lines);
        let texts = texts.map(|(at, it)| format!("id: {at}\ndata: {}\n\n", json_of(at, it)));
        let text: String = texts.collect();
        at += lines.len();
        events.send(text).await?;
    }
}

/// The JSON of a batch, whose line is `batch POSITION TX ..`.
fn json_of(position: usize, line: &str) -> String {
    let transactions: Vec<&str> = line.split_ascii_whitespace().skip(2).collect();
    json!({ "position": position, "transactions": transactions }).to_string()
}
