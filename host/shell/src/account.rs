//! The command `account`: what the log of one session of one replica says that happened, without any
//! secret.
//!
//! An audit has to know what each turn of the core returned and sealed. The core seals the same again
//! only with the replica's secret, so its account is made where the secret lies. What it prints is
//! public: events, reasons, sealed statements and batches. `service.audit` reads it
//! (docs/TESTING.md, "The audit").
//!
//! The log has to be free: a secret is used by one core at a time. Where sessions follow one another,
//! the log of a closed session is free while the replica runs.

use std::io::{self, BufWriter, Write};
use std::path::Path;

use serde_json::{json, Map, Value};
use themis::{Error, Replica, Role};
use themis_engine::core::{event_of, records, Core, Turn};
use themis_engine::sessions::secret::{secret_of, Secret};
use themis_engine::{number_of, tx};
use themis_store::{Reader, Session, State};

use crate::config::{hex, Setup};
use crate::exit::{Exit, Failure};
use crate::keeper;
use crate::log::{Disk, EventLog};
use crate::recovery::{store_failure, store_path, Lock};
use crate::session_logs::SessionLogs;
use crate::sessions_worker::owner;
use crate::whole_log::whole_part;

/// A log with what a core needs to play it again.
struct Play {
    role: Role,
    secret: Secret,
    keys: Vec<[u8; 60]>,
    log: EventLog,
    /// The first line of the account: whose it is.
    head: Value,
    /// What its last line says besides: where the session ended.
    end: Map<String, Value>,
}

/// Prints the account of the replica of a configuration; `session` is needed where sessions follow one
/// another.
pub fn print(config: &Path, session: Option<u32>) -> Result<(), Failure> {
    let setup = Setup::load(config)?;
    let out = BufWriter::new(io::stdout().lock());
    match (setup.config.sessions, session) {
        (false, None) => write_account(of_one_session(&setup)?, out),
        (true, Some(session)) => print_of_many(&setup, session, out),
        (false, Some(_)) => Err(usage("there is one session alone: leave out --session")),
        (true, None) => Err(usage("sessions follow one another: say which one, by --session")),
    }
}

fn usage(text: &str) -> Failure {
    Failure::new(Exit::Usage, text)
}

fn of_one_session(setup: &Setup) -> Result<Play, Failure> {
    Ok(Play {
        role: setup.role()?,
        secret: setup.secret()?,
        keys: setup.public_keys.clone(),
        log: EventLog::open(setup.log_path(), Disk::default())?,
        head: json!({ "replica": setup.me(), "session": hex(&setup.cluster_digest()) }),
        end: Map::new(),
    })
}

/// The account of one of many sessions: as it was exported, or made from the log that is still there.
fn print_of_many(setup: &Setup, session: u32, mut out: impl Write) -> Result<(), Failure> {
    let logs = SessionLogs::new(setup.folder.clone(), setup.me(), true);
    let exported = logs.account_path(session);
    match std::fs::File::open(&exported) {
        Ok(mut file) => {
            return io::copy(&mut file, &mut out).and_then(|_| out.flush()).map_err(|it| disk(&it));
        }
        Err(fault) if fault.kind() == io::ErrorKind::NotFound => {}
        Err(fault) => {
            return Err(Failure::new(Exit::Disk, format!("{}: {fault}", exported.display())))
        }
    }
    let reader = keeper::reader(&setup.folder, &owner(setup))?;
    let path = store_path(&setup.folder, setup.me());
    let found = reader.session(session).map_err(|it| store_failure(&path, &it))?;
    let found = found.ok_or_else(|| usage("the store has no such session"))?;
    // A closed session is of no use to the process that runs, if one does.
    let _lock = match found.state {
        State::Closed => None,
        State::Next | State::Opened | State::Cut => Some(Lock::take(&setup.folder, setup.me())?),
    };
    write_account(of_many(setup, &reader, &found, &logs)?, out)
}

fn of_many(
    setup: &Setup,
    reader: &Reader,
    found: &Session,
    logs: &SessionLogs,
) -> Result<Play, Failure> {
    let session = found.number;
    let path = store_path(&setup.folder, setup.me());
    let end = reader.end_of(session).map_err(|it| store_failure(&path, &it))?;
    let keys: Vec<_> = found.keys.iter().map(|it| it.as_ref().map(|it| hex(it))).collect();
    let mut ends = Map::new();
    if let Some((position, digest)) = end {
        ends.insert("end".to_owned(), json!(position));
        ends.insert("end_digest".to_owned(), json!(hex(&digest)));
    }
    Ok(Play {
        role: setup.role()?,
        secret: secret_of(&setup.master()?, session),
        // No seal fits the key of a replica that sits the session out.
        keys: found.keys.iter().map(|it| it.unwrap_or([0; 60])).collect(),
        log: EventLog::open(logs.path(session), Disk::default())?,
        head: json!({
            "replica": setup.me(), "cluster": hex(&setup.cluster_digest()), "session": session,
            "first": found.first, "digest": hex(&found.digest), "keys": keys,
        }),
        end: ends,
    })
}

fn disk(fault: &io::Error) -> Failure {
    Failure::new(Exit::Disk, fault)
}

/// Plays a log again, and writes a line of JSON for each of its events, after one that names the
/// replica and before one that says where they led. A torn last record is left out.
fn write_account(play: Play, mut out: impl Write) -> Result<(), Failure> {
    let Play { role, secret, keys, log, head, mut end } = play;
    let data = log.read()?;
    let written = |it: io::Result<()>| it.map_err(|it| disk(&it));
    let (mut fresh, _) =
        Replica::open(&role, &secret, &keys, &[]).map_err(|fault| match fault {
            Error::NoMemory => Failure::from(fault),
            _ => log.refused(fault),
        })?;
    let header = fresh.header()?;
    let used = whole_records(&data, &header).map_err(|it| log.refused(it))?;
    written(writeln!(out, "{head}"))?;
    for body in records(&data[..used], header.len()) {
        let event = event_of(body).ok_or_else(|| log.refused("a record has no event"))?;
        Core::prepare(&mut fresh, &event)?;
        let Turn::Made(reason) = Core::act(&mut fresh)? else {
            return Err(Failure::new(Exit::Core, "an event of the log has no turn"));
        };
        let sealed: Vec<String> = fresh.sealed()?.iter().map(|it| hex(it)).collect();
        let line = json!({ "event": hex(body), "reason": number_of(reason), "sealed": sealed });
        written(writeln!(out, "{line}"))?;
    }
    let (view, commit) = fresh.views()?;
    let batches = (0..fresh.batch_count()?).map(|at| Ok(text_of(&fresh.batch(at)?)));
    let batches = batches.collect::<Result<Vec<String>, Error>>()?;
    end.insert("view".to_owned(), json!(view));
    end.insert("commit".to_owned(), json!(commit));
    end.insert("batches".to_owned(), json!(batches));
    written(writeln!(out, "{}", Value::Object(end)).and_then(|()| out.flush()))
}

/// How many bytes of a log with this header are whole records.
fn whole_records(log: &[u8], header: &[u8]) -> Result<usize, String> {
    if log.len() < header.len() {
        return Err("the log is shorter than its header, so it was damaged".to_owned());
    }
    if !log.starts_with(header) {
        return Err(Error::OtherLog.to_string());
    }
    whole_part(log, header.len()).map_err(|at| Error::CorruptLog { at }.to_string())
}

fn text_of(batch: &[tx::Tx]) -> String {
    let mut out = String::new();
    for it in batch {
        if !out.is_empty() {
            out.push(' ');
        }
        tx::write(it, &mut out);
    }
    out
}
