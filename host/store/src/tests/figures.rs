//! What a store costs: `cargo test -p themis-store -- --ignored --nocapture figures`.

use std::time::Instant;

use super::*;

#[test]
#[ignore = "it prints, and fails at nothing but a slow start"]
fn figures() {
    let folder = Folder::new("figures");
    let mut store = folder.store();
    let mut before = Made::after(&[], Vec::new());
    let mut slowest = 0.0;
    for session in 0..40 {
        let batch =
            |at: u32| (0..3).map(move |it| tx(1 + it + at % 100 * 3, session * 200 + at / 100 + 1));
        let batches: Vec<Vec<Tx>> = (0..20_000).map(|at| batch(at).collect()).collect();
        let mut made = Made::after(std::slice::from_ref(&before), batches);
        if session == 0 {
            made = Made::after(&[], made.batches);
        }
        made.session = session;
        store.mark_opened(session).unwrap();
        let start = Instant::now();
        store.end(&made.ended()).unwrap();
        slowest = start.elapsed().as_secs_f64().max(slowest);
        store.move_wal();
        before = made;
    }
    drop(store);
    let size = std::fs::metadata(folder.file()).unwrap().len();
    let start = Instant::now();
    let store = Store::open(&folder.file(), &owner()).unwrap();
    let history = store.history().unwrap();
    let seconds = start.elapsed().as_secs_f64();
    assert!(seconds < 1.0, "{seconds}");
    assert_eq!((history.session.number, history.windows.len()), (40, 300));
    println!("slowest end of 60,000 transactions {slowest:.2} s, of 40 sessions {size} bytes");
    println!("a start reads it in {:.1} ms", seconds * 1000.0);
    let (reader, start) = (folder.reader(), Instant::now());
    let mut at = 0;
    while let Some(last) = reader.batches(at, 1000, 1 << 20).unwrap().last() {
        at = last.position + 1;
    }
    println!("{at} batches are read in {:.2} s", start.elapsed().as_secs_f64());
    let (next, start, end) = (Folder::new("figures-next"), Instant::now(), history.session);
    let before = Before { list: &reader, position: end.first, digest: end.digest, carried: &[] };
    Store::create(&next.file(), &owner(), 40, "", &keys(0), Some(&before)).unwrap();
    println!("a new store continues them after {:.1} s", start.elapsed().as_secs_f64());
}
