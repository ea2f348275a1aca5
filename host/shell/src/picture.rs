//! The picture of a replica that its page shows, as JSON. It is made twice a second while someone
//! looks, and its size is bounded.

use std::collections::BTreeMap;
use std::time::{Duration, Instant};

use serde_json::{json, Value};
use themis_engine::{tx, Heard, Status, View};

use crate::config::Setup;
use crate::metrics::fault_of;
use crate::observed::{LatestBatch, Observed};

/// Latencies are of what became final in this time.
const WITHIN: Duration = Duration::from_secs(1);
/// Transactions of a batch that are named.
const MAX_NAMED: usize = 4;

/// What a picture is made of.
pub struct Seen<'a> {
    /// The replica's setting.
    pub setup: &'a Setup,
    /// The session that runs.
    pub session: u32,
    /// How many batches are in the sessions before.
    pub first: usize,
    /// Where it stands.
    pub status: &'a Status,
    /// What its peers report.
    pub heard: &'a [Heard],
    /// The last views.
    pub views: &'a [View],
    /// Transactions.
    pub observed: &'a Observed,
    /// When the process started.
    pub start: Instant,
    /// When it is made.
    pub now: Instant,
}

/// The picture.
pub fn picture_of(seen: &Seen<'_>) -> String {
    let status = seen.status;
    let place = seen.setup.place();
    let percentiles = seen.observed.latency.percentiles(WITHIN, seen.now);
    let views = seen.views.iter().map(|it| json!([it.number, it.leader, it.has_block]));
    let latest = seen.observed.latest().map(|it| batch(it, seen.now));
    json!({
        "uptime_ms": millis(seen.now.saturating_duration_since(seen.start)),
        "replica": place.me, "session": seen.session, "f": place.f, "quorum": place.quorum(),
        "fault": fault_of(status, place.quorum()), "is_closing": status.is_closing,
        "view": status.view, "last_view": place.views, "commit": status.commit,
        "batches": seen.first + status.batches, "final": status.finals,
        "pending": status.pending, "queued": status.queued, "given": status.given,
        "p50_ms": percentiles.map(|(it, _)| millis(it)),
        "p99_ms": percentiles.map(|(_, it)| millis(it)),
        "replicas": replicas(seen), "views": views.collect::<Vec<_>>(),
        "latest": latest.collect::<Vec<_>>(),
    })
    .to_string()
}

fn millis(span: Duration) -> u64 {
    span.as_millis() as u64
}

/// This replica and its peers, by number.
fn replicas(seen: &Seen<'_>) -> Vec<Value> {
    let status = seen.status;
    let own = json!({
        "replica": seen.setup.me(), "is_heard": true, "age_ms": 0, "view": status.view,
        "commit": status.commit, "batches": status.batches, "waiting": status.pending,
    });
    let mut all: Vec<Value> = seen.heard.iter().map(|it| peer(it, status)).collect();
    all.insert(seen.setup.me() as usize, own);
    for (it, address) in all.iter_mut().zip(&seen.setup.clients) {
        it["clients"] = address.to_string().into();
    }
    all
}

fn peer(heard: &Heard, status: &Status) -> Value {
    let it = &heard.standing;
    json!({
        "replica": heard.peer, "is_heard": heard.is_heard, "age_ms": heard.age.map(millis),
        "view": it.view, "commit": it.commit, "batches": it.batches, "waiting": it.waiting,
        "held": held(heard.peer, status),
    })
}

/// What guards held back or dropped of a peer, and what the core refused of it.
fn held(peer: u32, status: &Status) -> BTreeMap<&'static str, u64> {
    let mut out = BTreeMap::new();
    let of_peer = |it: &&themis_engine::Count| it.peer == Some(peer) && it.value > 0;
    for it in status.counts.iter().filter(of_peer) {
        *out.entry(it.name).or_insert(0) += it.value;
    }
    out
}

fn batch(it: &LatestBatch, now: Instant) -> Value {
    let text = |it| {
        let mut text = String::new();
        tx::write(it, &mut text);
        text
    };
    let named: Vec<String> = it.txs.iter().take(MAX_NAMED).map(text).collect();
    json!({
        "position": it.position, "size": it.txs.len(), "transactions": named,
        "took_ms": it.took.map(millis), "age_ms": millis(now.saturating_duration_since(it.at)),
    })
}
