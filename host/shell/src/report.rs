//! Logging: a JSON object a line, to standard error.

use std::fmt::{self, Debug, Write};

use serde_json::Value;
use tracing::field::{Field, Visit};
use tracing::{Event, Level, Subscriber};
use tracing_subscriber::fmt::format::Writer;
use tracing_subscriber::fmt::time::{FormatTime, SystemTime};
use tracing_subscriber::fmt::{FmtContext, FormatEvent, FormatFields};
use tracing_subscriber::registry::LookupSpan;

/// Logs from now on; each connection too, where that is asked for.
pub fn set_up(is_verbose: bool) {
    let level = if is_verbose { Level::DEBUG } else { Level::INFO };
    let lines = tracing_subscriber::fmt().event_format(Lines).with_max_level(level);
    lines.with_writer(std::io::stderr).init();
}

/// The time in UTC, the level, the event, and its fields.
struct Lines;

impl<S, N> FormatEvent<S, N> for Lines
where
    S: Subscriber + for<'a> LookupSpan<'a>,
    N: for<'a> FormatFields<'a> + 'static,
{
    fn format_event(
        &self,
        _: &FmtContext<'_, S, N>,
        mut to: Writer<'_>,
        event: &Event<'_>,
    ) -> fmt::Result {
        to.write_str("{\"time\": \"")?;
        SystemTime.format_time(&mut to)?;
        write!(to, "\", \"level\": \"{}\"", event.metadata().level())?;
        let mut fields = Fields::default();
        event.record(&mut fields);
        writeln!(to, ", \"event\": {}{}}}", Value::from(fields.message), fields.more)
    }
}

#[derive(Default)]
struct Fields {
    message: String,
    more: String,
}

impl Fields {
    fn put(&mut self, field: &Field, value: impl Into<Value>) {
        let value: Value = value.into();
        // Writing to a string never fails.
        let _ = write!(self.more, ", \"{}\": {value}", field.name());
    }
}

impl Visit for Fields {
    fn record_str(&mut self, field: &Field, value: &str) {
        self.put(field, value);
    }

    fn record_u64(&mut self, field: &Field, value: u64) {
        self.put(field, value);
    }

    fn record_i64(&mut self, field: &Field, value: i64) {
        self.put(field, value);
    }

    fn record_f64(&mut self, field: &Field, value: f64) {
        self.put(field, value);
    }

    fn record_bool(&mut self, field: &Field, value: bool) {
        self.put(field, value);
    }

    fn record_debug(&mut self, field: &Field, value: &dyn Debug) {
        let text = format!("{value:?}");
        if field.name() == "message" {
            self.message = text;
        } else {
            self.put(field, text);
        }
    }
}
