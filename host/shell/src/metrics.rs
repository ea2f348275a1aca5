//! What Prometheus reads, in its text format, and whether a replica is healthy.

use std::fmt::{Display, Write};

use themis_engine::{Count, Status};

use crate::latency::Histogram;
use crate::timed::Spent;

/// What the shell counts, and what it is told about the replica.
pub struct Counted<'a> {
    /// The replica.
    pub replica: u32,
    /// Its session.
    pub session: u32,
    /// The last view of the session.
    pub last_view: u32,
    /// So many replicas make progress.
    pub quorum: u32,
    /// The size of the log.
    pub log_bytes: u64,
    /// Frames for peers that found no room.
    pub frames_dropped: u64,
    /// Connections that ended by what is no frame.
    pub bad_frames: u64,
    /// Syncs of the log.
    pub syncs: Spent,
    /// Calls of the core.
    pub calls: [(&'static str, Spent); 9],
    /// How long transactions took.
    pub latency: &'a Histogram,
}

/// The counts of the engine: their names, those of their metrics, and what they count.
const COUNTS: [(&str, &str, &str); 13] = [
    ("ticks", "ticks_total", "Views that this replica asked for."),
    ("joins", "joins_total", "Of the ticks, those to a view that an honest peer had reached."),
    ("again", "prepared_again_total", "Events that had to be prepared once more."),
    ("blocks asked", "block_requests_total", "Requests for missing blocks."),
    ("reason", "turns_total", "Turns, by the number of their reason in themis.h; 0 is done."),
    ("asks held", "asks_held_total", "Asks that came before their view."),
    ("fetches dropped", "fetches_dropped_total", "Fetches and requests above the budget."),
    ("gives dropped", "blocks_dropped_total", "Blocks that nobody asked for, or above the bound."),
    ("statuses dropped", "statuses_dropped_total", "Statuses above the budget."),
    ("receipts dropped", "receipts_dropped_total", "Frames of receipts above the budget."),
    ("refused", "messages_refused_total", "Messages that no honest replica sends."),
    (
        "unfit",
        "messages_unfit_total",
        "Messages that the core did not get, as no honest replica sends them.",
    ),
    ("proposals refused", "proposals_refused_total", "Proposals that the core refused."),
];

/// A page in the text format.
struct Page(String);

impl Page {
    /// The lines before the samples of a metric.
    fn head(&mut self, name: &str, kind: &str, help: &str) {
        // Writing to a string never fails; the same below.
        let _ = writeln!(self.0, "# HELP themis_{name} {help}\n# TYPE themis_{name} {kind}");
    }

    fn sample(&mut self, name: &str, labels: &str, value: impl Display) {
        let _ = writeln!(self.0, "themis_{name}{labels} {value}");
    }

    fn gauge(&mut self, name: &str, help: &str, value: impl Display) {
        self.head(name, "gauge", help);
        self.sample(name, "", value);
    }

    fn counter(&mut self, name: &str, help: &str, value: impl Display) {
        self.head(name, "counter", help);
        self.sample(name, "", value);
    }

    fn spent(&mut self, name: &str, labels: &str, it: Spent) {
        self.sample(&format!("{name}_sum"), labels, it.took.as_secs_f64());
        self.sample(&format!("{name}_count"), labels, it.calls);
    }

    fn histogram(&mut self, name: &str, help: &str, it: &Histogram) {
        self.head(name, "histogram", help);
        let bucket = format!("{name}_bucket");
        for (bound, count) in it.buckets() {
            self.sample(&bucket, &format!("{{le=\"{bound}\"}}"), count);
        }
        self.sample(&bucket, "{le=\"+Inf\"}", it.count);
        self.sample(&format!("{name}_sum"), "", it.sum.as_secs_f64());
        self.sample(&format!("{name}_count"), "", it.count);
    }

    fn counts(&mut self, counts: &[Count]) {
        for (name, metric, help) in COUNTS {
            self.head(metric, "counter", help);
            for it in counts.iter().filter(|it| it.name == name) {
                self.sample(metric, &labels_of(it), it.value);
            }
        }
    }
}

fn labels_of(count: &Count) -> String {
    let peer = count.peer.map(|it| format!("peer=\"{it}\""));
    let reason = count.reason.map(|it| format!("reason=\"{it}\""));
    let labels: Vec<String> = peer.into_iter().chain(reason).collect();
    if labels.is_empty() {
        String::new()
    } else {
        format!("{{{}}}", labels.join(","))
    }
}

/// What Prometheus reads of a replica.
pub fn page_of(status: &Status, counted: &Counted<'_>) -> String {
    let mut page = Page(String::new());
    page.head("replica_info", "gauge", "The replica, and its session.");
    let labels = format!("{{replica=\"{}\",session=\"{}\"}}", counted.replica, counted.session);
    page.sample("replica_info", &labels, 1);
    put_status(&mut page, status, counted);
    page.gauge("log_bytes", "The size of the log.", counted.log_bytes);
    let help = "Frames for peers that found no room.";
    page.counter("frames_dropped_total", help, counted.frames_dropped);
    let help = "Connections that ended by what is no frame.";
    page.counter("bad_frames_total", help, counted.bad_frames);
    page.head("sync_seconds", "summary", "Syncs of the log.");
    page.spent("sync_seconds", "", counted.syncs);
    page.head("core_call_seconds", "summary", "Calls of the core, by their kind.");
    for (kind, spent) in counted.calls {
        page.spent("core_call_seconds", &format!("{{call=\"{kind}\"}}"), spent);
    }
    let help = "From receipt here to final here.";
    page.histogram("final_seconds", help, counted.latency);
    page.counts(&status.counts);
    page.0
}

fn put_status(page: &mut Page, it: &Status, counted: &Counted<'_>) {
    page.gauge("view", "The view of the replica.", it.view);
    page.gauge("last_view", "The last view of the session.", counted.last_view);
    page.gauge("committed_view", "The view of the committed block.", it.commit);
    page.gauge("replicas_heard", "Replicas that are heard, with this one.", it.heard);
    page.gauge("quorum_replicas", "Replicas that have to be heard.", counted.quorum);
    page.gauge("transactions_pending", "Arrived, and not final.", it.pending);
    page.gauge("transactions_queued", "Received, and not final.", it.queued);
    page.gauge("session_over", "1 once clients wait for the next session.", u8::from(it.is_over));
    let help = "1 once no more transactions are taken.";
    page.gauge("session_closing", help, u8::from(it.is_closing));
    page.counter("batches_final_total", "Final batches of the session.", it.batches);
    page.counter("transactions_final_total", "Final transactions of the session.", it.finals);
    let help = "Transactions that arrived in the session.";
    page.counter("transactions_arrived_total", help, it.arrived);
    let help = "Transactions that were given way in a stuck chain.";
    page.counter("transactions_given_total", help, it.given);
}

/// Why a replica is not healthy.
pub fn fault_of(status: &Status, quorum: u32) -> Option<&'static str> {
    if status.is_over {
        Some("the session is over")
    } else if status.heard < quorum {
        Some("fewer replicas than a quorum are heard")
    } else {
        None
    }
}

#[cfg(test)]
mod tests {
    use super::*;
    use std::time::Duration;

    fn status(counts: Vec<Count>) -> Status {
        Status {
            view: 7,
            commit: 5,
            batches: 3,
            digest: [0; 32],
            arrived: 9,
            finals: 8,
            pending: 1,
            queued: 2,
            given: 0,
            heard: 4,
            is_over: false,
            is_closing: true,
            counts,
        }
    }

    fn counted(latency: &Histogram) -> Counted<'_> {
        let spent = Spent { calls: 4, took: Duration::from_millis(1500) };
        Counted {
            replica: 2,
            session: 1,
            last_view: 2600,
            quorum: 4,
            log_bytes: 76,
            frames_dropped: 0,
            bad_frames: 6,
            syncs: spent,
            calls: [("turn", spent); 9],
            latency,
        }
    }

    #[test]
    fn each_metric_has_its_type_and_its_samples() {
        let count = Count { name: "refused", peer: Some(3), reason: None, value: 11 };
        let by_reason = Count { name: "reason", peer: None, reason: Some(0), value: 12 };
        let latency = Histogram::default();
        let page = page_of(&status(vec![count, by_reason]), &counted(&latency));
        for line in [
            "# TYPE themis_view gauge",
            "themis_view 7",
            "themis_replica_info{replica=\"2\",session=\"1\"} 1",
            "themis_session_closing 1",
            "# TYPE themis_sync_seconds summary",
            "themis_sync_seconds_sum 1.5",
            "themis_sync_seconds_count 4",
            "themis_core_call_seconds_sum{call=\"turn\"} 1.5",
            "themis_messages_refused_total{peer=\"3\"} 11",
            "themis_turns_total{reason=\"0\"} 12",
            "# TYPE themis_final_seconds histogram",
            "themis_final_seconds_bucket{le=\"0.1\"} 0",
            "themis_final_seconds_bucket{le=\"+Inf\"} 0",
            "themis_final_seconds_count 0",
            "themis_bad_frames_total 6",
        ] {
            assert!(page.lines().any(|it| it == line), "{line} is not in\n{page}");
        }
        let types: Vec<&str> = page.lines().filter(|it| it.starts_with("# TYPE")).collect();
        let mut once = types.clone();
        once.sort_unstable();
        once.dedup();
        assert_eq!(types.len(), once.len(), "a metric stands twice");
    }

    #[test]
    fn why_a_replica_is_not_healthy() {
        let it = status(Vec::new());
        assert_eq!(fault_of(&it, 4), None);
        assert_eq!(fault_of(&it, 5), Some("fewer replicas than a quorum are heard"));
        assert_eq!(fault_of(&Status { is_over: true, ..it }, 4), Some("the session is over"));
    }
}
