//! Each row of the table, and crashes between the steps of a change of session.

use std::fs;

use themis_engine::tx::Tx;
use themis_store::{chain, Ended, State};

use super::*;
use crate::session_logs::{Marked, BEGINNING_BYTES};

const HEADER: &[u8] = b"the header of a log";
const RECORD: &[u8] = &[b'.'; 2 * BEGINNING_BYTES];

/// A folder that goes with the test.
struct Folder(PathBuf);

impl Folder {
    /// With a new store.
    fn new(name: &str) -> Folder {
        let name = format!("themisd-recovery-{}-{name}", std::process::id());
        let folder = Folder(std::env::temp_dir().join(name));
        fs::create_dir_all(&folder.0).unwrap();
        Store::create(&store_path(&folder.0, 2), &owner(), 0, "", &keys(), None).unwrap();
        folder
    }

    fn open(&self) -> Result<Found, Failure> {
        open(&self.0, &owner(), true)
    }

    /// Why a start is refused.
    fn exit(&self) -> Option<Exit> {
        self.open().err().map(|it| it.exit)
    }

    fn log(&self, session: u32) -> PathBuf {
        self.0.join(format!("2-{session}.log"))
    }
}

impl Drop for Folder {
    fn drop(&mut self) {
        let _ = fs::remove_dir_all(&self.0);
    }
}

fn owner() -> Identity {
    Identity { cluster: [1; 32], replica: 2 }
}

fn keys() -> PublicKeys {
    vec![Some([3; 60]); 5]
}

/// Ends a session with one batch of one transaction.
fn end(store: &mut Store, is_closed: bool) {
    let last = store.last().unwrap();
    let tx = Tx { client: 0, number: last.number, payload: 0 };
    let mut data = Vec::new();
    themis_engine::tx::put(&tx, &mut data);
    let ended = Ended {
        session: last.number,
        first: last.first,
        batches: &[vec![tx]],
        digest: chain(&last.digest, &data),
        carried: &[],
        setting: "",
        keys: &keys(),
        is_closed,
    };
    store.end(&ended).unwrap();
}

/// Opens the session that comes next, with a record in its log.
fn run(found: &mut Found) {
    let session = found.store.last().unwrap().number;
    let mut log = found.logs.make(session, HEADER).unwrap();
    found.store.mark_opened(session).unwrap();
    log.append(RECORD).unwrap();
}

fn is_lost(found: &Found, session: u32) -> bool {
    matches!(found.logs.open(session, HEADER.len()).unwrap(), Marked::Lost)
}

fn data_of(found: &Found, session: u32) -> Vec<u8> {
    match found.logs.open(session, HEADER.len()).unwrap() {
        Marked::Found(_, data) => data,
        Marked::Lost => panic!("log {session} is lost"),
    }
}

#[test]
fn a_store_that_is_missing() {
    let folder = Folder::new("missing");
    run(&mut folder.open().unwrap());
    fs::remove_file(store_path(&folder.0, 2)).unwrap();
    assert_eq!(folder.exit(), Some(Exit::LogRefused));
    assert!(!store_path(&folder.0, 2).exists());
}

#[test]
fn a_session_that_runs() {
    let folder = Folder::new("runs");
    run(&mut folder.open().unwrap());
    let found = folder.open().unwrap();
    assert_eq!(found.history.session.state, State::Opened);
    assert_eq!(data_of(&found, 0), [HEADER, RECORD].concat());
}

#[test]
fn a_log_that_was_marked_is_lost_and_never_made_again() {
    let folder = Folder::new("lost");
    run(&mut folder.open().unwrap());
    for size in [Some(HEADER.len() - 1), Some(0), None] {
        match size {
            Some(size) => fs::write(folder.log(0), &HEADER[..size]).unwrap(),
            None => fs::remove_file(folder.log(0)).unwrap(),
        }
        let found = folder.open().unwrap();
        assert_eq!(found.history.session.state, State::Opened); // so no start asks for a new one
        assert!(is_lost(&found, 0), "{size:?}");
    }
    assert!(!folder.log(0).exists());
    // It sits the session out, takes its history from others, and is in the next one.
    let mut found = folder.open().unwrap();
    end(&mut found.store, true);
    run(&mut found);
    assert_eq!(data_of(&found, 1), [HEADER, RECORD].concat());
    assert_eq!(found.store.session(0).unwrap().unwrap().state, State::Closed);
}

/// What a crash can leave of the log of a session that comes next.
#[test]
fn a_session_that_comes_next() {
    let folder = Folder::new("next");
    let new = folder.0.join("2-0.new");
    for (log, aside) in [
        (None, None),
        (None, Some(&HEADER[..5])),
        (None, Some(HEADER)),
        (Some(&HEADER[..0]), None),
        (Some(&HEADER[..7]), None),
        (Some(HEADER), None),
    ] {
        let _ = (fs::remove_file(&new), fs::remove_file(folder.log(0)));
        let put = |path: &Path, data: Option<&[u8]>| data.map(|it| fs::write(path, it).unwrap());
        let _ = (put(&folder.log(0), log), put(&new, aside));
        let found = folder.open().unwrap();
        assert_eq!(found.history.session.state, State::Next);
        let made = found.logs.make(0, HEADER).unwrap();
        assert_eq!(made.end, HEADER.len() as u64);
        drop(made);
        assert_eq!(data_of(&found, 0), HEADER);
        assert!(!new.exists());
    }
}

#[test]
fn a_log_that_is_newer_than_its_store() {
    let folder = Folder::new("newer");
    let store = fs::read(store_path(&folder.0, 2)).unwrap();
    run(&mut folder.open().unwrap());
    let marked = fs::read(store_path(&folder.0, 2)).unwrap();
    // A copy of before the mark, or a WAL that was lost.
    fs::write(store_path(&folder.0, 2), &store).unwrap();
    let found = folder.open().unwrap();
    assert_eq!(found.logs.make(0, HEADER).err().map(|it| it.exit), Some(Exit::LogRefused));
    assert_eq!(data_of(&found, 0), [HEADER, RECORD].concat()); // it is as it was
    drop(found);
    // A copy of before the end of a session.
    fs::write(store_path(&folder.0, 2), &marked).unwrap();
    let mut found = folder.open().unwrap();
    end(&mut found.store, false);
    run(&mut found);
    drop(found);
    fs::write(store_path(&folder.0, 2), &marked).unwrap();
    assert_eq!(folder.exit(), Some(Exit::LogRefused));
}

/// The log of the next session is made while this one runs.
#[test]
fn a_log_that_was_made_ahead() {
    let folder = Folder::new("ahead");
    let mut found = folder.open().unwrap();
    run(&mut found);
    drop(found.logs.make(1, HEADER).unwrap());
    drop(found);
    let mut found = folder.open().unwrap();
    assert_eq!(found.history.session.number, 0);
    drop(found.logs.make(1, HEADER).unwrap());
    end(&mut found.store, false);
    run(&mut found);
    assert_eq!(data_of(&found, 1), [HEADER, RECORD].concat());
    drop(found);
    // No log is made so far ahead.
    assert_eq!(folder.exit(), None);
    fs::write(folder.log(3), HEADER).unwrap();
    assert_eq!(folder.exit(), Some(Exit::LogRefused));
}

#[test]
fn a_log_of_another_replica() {
    let folder = Folder::new("another");
    fs::write(folder.log(0), b"any other header").unwrap();
    let found = folder.open().unwrap();
    assert_eq!(found.logs.make(0, HEADER).err().map(|it| it.exit), Some(Exit::LogRefused));
    // The files of other replicas in the folder are not looked at.
    fs::write(folder.0.join("12-7.log"), b"").unwrap();
    fs::write(folder.0.join("2-7.log.old"), b"").unwrap();
    assert_eq!(found.logs.sessions().unwrap(), [0]);
}

#[test]
fn the_session_before() {
    let folder = Folder::new("before");
    let mut found = folder.open().unwrap();
    run(&mut found);
    end(&mut found.store, false);
    drop(found);
    let found = folder.open().unwrap();
    assert_eq!(found.history.helped.as_ref().map(|it| it.number), Some(0));
    assert_eq!(data_of(&found, 0), [HEADER, RECORD].concat());
    // Without its log it helps nobody, and the session that comes next is as good.
    fs::rename(folder.log(0), folder.0.join("aside")).unwrap();
    assert!(is_lost(&found, 0));
    found.logs.make(1, HEADER).unwrap();
    drop(found);
    // Once it is closed, no start opens its log, which may still be there.
    fs::rename(folder.0.join("aside"), folder.log(0)).unwrap();
    let mut found = folder.open().unwrap();
    found.store.close(0).unwrap();
    drop(found);
    let found = folder.open().unwrap();
    assert_eq!(found.history.helped, None);
    assert_eq!(found.logs.sessions().unwrap(), [0, 1]);
    found.logs.remove(0).unwrap();
    assert_eq!(found.logs.sessions().unwrap(), [1]);
}

/// The operator ends the cluster with a session: before any later one was opened, and not after that.
#[test]
fn a_last_session_that_comes_too_late() {
    let folder = Folder::new("last");
    let refused = |last: u32| {
        let done = folder.open().unwrap().refuse_later(last, Path::new("2.toml"));
        done.err().map(|it| (it.exit, it.text))
    };
    let late = |last: u32, opened: u32| {
        let text = format!("last_session is {last}, but session {opened} was opened here");
        Some((Exit::Config, format!("2.toml: {text}")))
    };
    assert_eq!(refused(0), None);
    run(&mut folder.open().unwrap());
    assert_eq!(refused(0), None);
    end(&mut folder.open().unwrap().store, false);
    assert_eq!(refused(0), None);
    fs::write(folder.log(1), HEADER).unwrap(); // made ahead, and never opened
    assert_eq!(refused(0), None);
    fs::write(folder.log(1), RECORD).unwrap();
    let (exit, text) = refused(0).unwrap();
    assert_eq!(exit, Exit::LogRefused);
    assert!(text.ends_with("it has records, so the store is older than it was"), "{text}");
    fs::remove_file(folder.log(1)).unwrap();
    run(&mut folder.open().unwrap());
    assert_eq!((refused(0), refused(1)), (late(0, 1), None));
    end(&mut folder.open().unwrap().store, false);
    assert_eq!((refused(0), refused(1), refused(u32::MAX)), (late(0, 1), None, None));
}

#[test]
fn one_process_has_it() {
    let folder = Folder::new("process");
    let first = folder.open().unwrap();
    assert_eq!(folder.exit(), Some(Exit::LogInUse));
    drop(first);
    assert_eq!(folder.exit(), None);
}

#[test]
fn stores_that_are_refused_by_name() {
    let folder = Folder::new("refused");
    let text = |owner: &Identity| open(&folder.0, owner, true).err().map(|it| it.text);
    let other = Identity { cluster: [2; 32], ..owner() };
    assert!(text(&other).unwrap().ends_with("this is the store of another cluster"));
    fs::rename(store_path(&folder.0, 2), store_path(&folder.0, 3)).unwrap();
    let other = Identity { replica: 3, ..owner() };
    assert!(text(&other).unwrap().ends_with("this is the store of replica 2"));
    fs::write(store_path(&folder.0, 2), b"no store at all").unwrap();
    assert!(text(&owner()).unwrap().ends_with("this file is no store"));
}

/// A process that is killed after any number of steps, and started again, ends up in the same state,
/// and makes no log twice.
#[test]
fn killed_after_each_step_of_a_change() {
    for killed_after in 0..=3 {
        let folder = Folder::new(&format!("killed-{killed_after}"));
        let mut found = folder.open().unwrap();
        run(&mut found);
        let steps: [&dyn Fn(&mut Found); 3] = [
            &|found| end(&mut found.store, false),
            &|found| drop(found.logs.make(1, HEADER).unwrap()),
            &|found| found.store.mark_opened(1).unwrap(),
        ];
        steps.iter().take(killed_after).for_each(|step| step(&mut found));
        drop(found);
        let mut found = folder.open().unwrap();
        let state = (found.history.session.number, found.history.session.state);
        let expected = match killed_after {
            0 => (0, State::Opened),
            1 | 2 => (1, State::Next),
            _ => (1, State::Opened),
        };
        assert_eq!(state, expected);
        // What its state calls for.
        if state == (0, State::Opened) {
            assert_eq!(data_of(&found, 0), [HEADER, RECORD].concat());
            end(&mut found.store, false);
        }
        if found.store.last().unwrap().state == State::Next {
            run(&mut found);
        }
        let now = found.store.last().unwrap();
        assert_eq!((now.number, now.state, now.first), (1, State::Opened, 1));
        assert_eq!(data_of(&found, 0), [HEADER, RECORD].concat());
    }
}
