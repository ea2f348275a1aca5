//! Crashes at any moment, and disks that are full.

use super::*;

/// The files of a store as they are now, with which a process starts that crashed now. What helps
/// to read the WAL is in memory alone, and does not outlive a machine.
fn copy(from: &Folder, to: &Folder) -> PathBuf {
    for name in ["0.store", "0.store-wal", "0.store-shm"] {
        let _ = std::fs::remove_file(to.0.join(name));
        if name != "0.store-shm" {
            let _ = std::fs::copy(from.0.join(name), to.0.join(name));
        }
    }
    to.file()
}

/// Sessions of a store that writes to its WAL before the commit, since little fits into memory.
fn small_memory(folder: &Folder) -> (Store, Vec<Made>) {
    let mut store = folder.store();
    let made = sessions(2, 400);
    made[0].run(&mut store);
    store.mark_opened(1).unwrap();
    store.move_wal();
    store.base().pragma_update(None, "cache_size", 5).unwrap();
    (store, made)
}

#[test]
fn a_crash_between_any_two_steps() {
    let (folder, other) = (Folder::new("steps"), Folder::new("steps-crashed"));
    let (mut store, made) = small_memory(&folder);
    let before = contents(&copy(&folder, &other)).unwrap();
    let (mut crashed, mut spilled) = (Vec::new(), 0);
    let mut crash = |step: &str| {
        let found = contents(&copy(&folder, &other)).unwrap();
        let wal = std::fs::metadata(folder.0.join("0.store-wal")).map_or(0, |it| it.len());
        spilled = spilled.max(if step == "before the commit" { wal } else { 0 });
        // The step is made again.
        Store::open(&other.file(), &owner()).unwrap().end(&made[1].ended()).unwrap();
        crashed.push((step.to_owned(), found, contents(&other.file()).unwrap()));
    };
    store.end_in_steps(&made[1].ended(), &mut crash).unwrap();
    store.move_wal();
    assert!(spilled > 50_000, "{spilled}"); // a torn transaction was in the files
    let after = contents(&copy(&folder, &other)).unwrap();
    assert_eq!((after.0.session.number, after.1.len()), (2, 802));
    assert_eq!((before.0.session.number, before.1.len()), (1, 401));
    let steps: Vec<_> = crashed.iter().map(|(step, ..)| step.as_str()).collect();
    assert_eq!((steps.len(), steps[0]), (7, "before"));
    for (step, found, again) in &crashed {
        let is_committed = step == "after the commit";
        assert!(found == if is_committed { &after } else { &before }, "{step}");
        assert!(again == &after, "{step}");
    }
}

/// A mark and a close are one row each: before or after.
#[test]
fn a_crash_at_a_mark() {
    let (folder, other) = (Folder::new("mark"), Folder::new("mark-crashed"));
    let mut store = folder.store();
    let made = sessions(1, 3);
    let state = |session| {
        let store = Store::open(&copy(&folder, &other), &owner()).unwrap();
        store.session(session).unwrap().unwrap().state
    };
    assert_eq!(state(0), State::Next);
    store.mark_opened(0).unwrap();
    assert_eq!(state(0), State::Opened);
    store.end(&made[0].ended()).unwrap();
    assert_eq!((state(0), state(1)), (State::Cut, State::Next));
    store.close(0).unwrap();
    assert_eq!(state(0), State::Closed);
}

/// The WAL is cut at any place: what was committed is there whole, or not at all.
#[test]
fn a_torn_wal() {
    let (folder, other) = (Folder::new("wal"), Folder::new("wal-torn"));
    let (mut store, made) = small_memory(&folder);
    let before = contents(&copy(&folder, &other)).unwrap();
    let kept = Folder::new("wal-kept");
    let mut keep = |step: &str| {
        if step == "after the commit" {
            copy(&folder, &kept);
        }
    };
    store.end_in_steps(&made[1].ended(), &mut keep).unwrap();
    let after = contents(&copy(&folder, &other)).unwrap();
    let wal = std::fs::read(kept.0.join("0.store-wal")).unwrap();
    let torn = |data: &[u8]| {
        copy(&kept, &other);
        std::fs::write(other.0.join("0.store-wal"), data).unwrap();
        contents(&other.file())
    };
    assert!(torn(&wal) == Ok(after));
    let step = wal.len() / 40;
    for size in (0..wal.len()).step_by(step).chain([1, 31, 32, 33, wal.len() - 1]) {
        assert!(torn(&wal[..size]).as_ref() == Ok(&before), "{size} bytes");
    }
    for at in (0..wal.len()).step_by(step) {
        let mut data = wal.clone();
        data[at] ^= 1;
        assert!(torn(&data).as_ref() == Ok(&before), "bit at {at}");
    }
}

/// A disk that is full is named, nothing half is there, and the same call works once there is room.
#[test]
fn a_full_disk() {
    let folder = Folder::new("full");
    let (mut store, made) = small_memory(&folder);
    let pages = |store: &Store| {
        let row = |row: &rusqlite::Row| row.get::<_, i64>(0);
        store.base().query_row("PRAGMA page_count", [], row).unwrap()
    };
    let (start, mut limit) = (pages(&store), pages(&store));
    let before = (store.history().unwrap(), all(&made[..1]));
    loop {
        store.base().pragma_update(None, "max_page_count", limit).unwrap();
        match store.end(&made[1].ended()) {
            Ok(()) => break,
            Err(fault) => assert_eq!(fault, Error::Full, "{limit} pages"),
        }
        let reader = folder.reader();
        let found = reader.batches(0, 9999, usize::MAX).unwrap();
        let found: Vec<_> = found.into_iter().map(|it| it.txs).collect();
        assert!((store.history().unwrap(), found) == before, "{limit} pages");
        limit += 1;
    }
    assert!(limit > start + 3, "{limit} from {start}");
    drop(store);
    assert_eq!(contents(&folder.file()).unwrap().1, all(&made));
}

/// The same with a disk that is really full: `THEMIS_SMALL_DISK` names a folder on one with some
/// hundred kilobytes.
#[test]
#[ignore = "needs a small disk"]
fn a_small_disk() {
    let folder = Folder(PathBuf::from(std::env::var("THEMIS_SMALL_DISK").unwrap()).join("full"));
    std::fs::create_dir_all(&folder.0).unwrap();
    let (mut store, made) = small_memory(&folder);
    let filler = folder.0.join("filler");
    let (mut size, mut refused) = (1 << 20, 0);
    loop {
        let _ = std::fs::write(&filler, vec![1; size]); // as much as there is room for
        match store.end(&made[1].ended()) {
            Ok(()) => break,
            Err(fault) => assert_eq!(fault, Error::Full),
        }
        refused += 1;
        let found = folder.reader().batches(0, 9999, usize::MAX).unwrap();
        assert_eq!((found.len(), store.last().unwrap().number), (401, 1));
        size = std::fs::metadata(&filler).unwrap().len() as usize - 8192;
        std::fs::remove_file(&filler).unwrap();
    }
    assert!(refused > 3, "{refused}");
    drop(store);
    let _ = std::fs::remove_file(&filler);
    assert_eq!(contents(&folder.file()).unwrap().1, all(&made));
    println!("refused {refused} times");
}
