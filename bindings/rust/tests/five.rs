//! Five replicas in one process, each with its log in memory: clients send transactions in two
//! orders, some messages are lost, and one replica recovers from a torn log. Some replicas let
//! verifiers check seals ahead. And the mistakes of a host that the library can see.

use std::collections::VecDeque;
use std::thread;
use themis::{
    audit, public_key, Error, Finding, Height, Reason, Receipt, Replica, Role, Run, Standing,
    Taken, Tx, Verifier,
};

const N: u32 = 5;
const VIEWS: u32 = 20;
const LOST_OF: usize = 61;
const HEADER: usize = 76;
const GARBAGE: &[u8] = b"no message";
const SHARES: u32 = 3;
const MOST_TOLD: usize = 100; // receipts at a time
const NO_STAMP: u64 = 1 << 63; // no honest clock reaches it

const TXS: [Tx; 4] = [tx(1, 11), tx(2, 22), tx(3, 33), tx(4, 44)];

const fn tx(client: u32, payload: u64) -> Tx {
    Tx {
        client,
        number: 1,
        payload,
    }
}

enum Event {
    Arrived(Vec<Tx>),
    Delivered { from: u32, bytes: Vec<u8> },
    Tick { floor: u32 },
}

struct Envelope {
    from: u32,
    to: u32,
    bytes: Vec<u8>,
}

fn role(me: u32) -> Role {
    Role {
        n: N,
        f: 1,
        p: 1,
        q: 1,
        views: VIEWS,
        me,
        height: Height::H5H5,
    }
}

/// A host draws 48 random bytes here.
fn secret(me: u32) -> [u8; 48] {
    std::array::from_fn(|k| (me as usize * 48 + 7 * k) as u8)
}

fn public_keys() -> Vec<[u8; 60]> {
    (0..N)
        .map(|me| public_key(Height::H5H5, &secret(me)).unwrap())
        .collect()
}

/// A replica with its log. A host reads from its log what arrived; here it is remembered.
struct Host {
    me: u32,
    log: Vec<u8>,
    replica: Replica,
    arrived: Vec<Tx>,
    settled: usize,
    /// One for each share of the seals; none where the replica checks all itself.
    verifiers: Vec<Verifier>,
    /// How many seals they accepted.
    verified: usize,
}

impl Host {
    fn open(me: u32, keys: &[[u8; 60]], log: Vec<u8>) -> Host {
        Host::reopen(me, keys, log, Vec::new())
    }

    fn reopen(me: u32, keys: &[[u8; 60]], mut log: Vec<u8>, arrived: Vec<Tx>) -> Host {
        let (mut replica, used) = Replica::open(&role(me), &secret(me), keys, &log).unwrap();
        log.truncate(used);
        if used == 0 {
            log.extend(replica.header().unwrap());
        }
        let mut host = Host {
            me,
            log,
            replica,
            arrived,
            settled: 0,
            verifiers: verifiers(me, keys),
            verified: 0,
        };
        host.settle();
        for tx in &host.arrived {
            host.replica.restore(tx).unwrap();
        }
        host
    }

    /// A client sends transactions, and sends them again.
    fn receive(&mut self, txs: &[Tx]) {
        for expected in [Taken::New, Taken::Held] {
            for tx in txs {
                assert_eq!(self.replica.submit(tx), Ok(expected));
            }
        }
    }

    /// A peer reports its receipts and its clock.
    fn hear(&mut self, peer: u32, (receipts, clock): &(Vec<Receipt>, u64)) {
        for receipt in receipts {
            let taken = self.replica.hear(peer, receipt).unwrap();
            assert!(matches!(taken, Taken::New | Taken::Held));
        }
        self.replica.hear_clock(peer, *clock).unwrap();
    }

    /// What the replica reports to its peers.
    fn told(&mut self) -> (Vec<Receipt>, u64) {
        let receipts = self.replica.receipts(0, MOST_TOLD).unwrap();
        (receipts, self.replica.clock().unwrap())
    }

    /// What arrives now, as an event. No chain is stuck, so nothing is an exception.
    fn arrivals(&mut self) -> Option<Event> {
        let arrivals = self.replica.arrive().unwrap();
        assert_eq!(arrivals.given, 0);
        self.arrived.extend(&arrivals.txs);
        (!arrivals.txs.is_empty()).then_some(Event::Arrived(arrivals.txs))
    }

    /// What became final is no longer held.
    fn settle(&mut self) {
        for at in self.settled..self.replica.batch_count().unwrap() {
            let batch = self.replica.batch(at).unwrap();
            self.replica.settle(&batch).unwrap();
            self.settled = at + 1;
        }
    }

    /// Verifiers check the seals of a message, each a share on a thread of its own.
    fn verify(&mut self, from: u32, bytes: &[u8]) {
        let (view, _) = self.replica.views().unwrap();
        let kept = thread::scope(|threads| {
            let check = |(share, verifier): (u32, &mut Verifier)| {
                verifier.verify(view, from, bytes, (share, SHARES)).unwrap()
            };
            let checks = (0..).zip(&mut self.verifiers);
            let running: Vec<_> = checks.map(|it| threads.spawn(move || check(it))).collect();
            running
                .into_iter()
                .map(|it| it.join().unwrap())
                .sum::<usize>()
        });
        self.verified += kept;
        for verifier in &mut self.verifiers {
            self.replica.take_verified(verifier).unwrap();
        }
    }

    fn prepare(&mut self, event: &Event) {
        let record = match event {
            Event::Arrived(txs) => self.replica.prepare_arrived(txs),
            Event::Delivered { from, bytes } => {
                self.verify(*from, bytes);
                let changes = self.replica.would_change(*from, bytes);
                let record = self.replica.prepare_deliver(*from, bytes);
                assert_eq!(changes, Ok(record != Ok(Vec::new())));
                record
            }
            Event::Tick { floor } => self.replica.prepare_tick(*floor),
        };
        self.log.extend(record.unwrap());
    }

    /// The turns on these events, whose records are logged first. Returns what they send.
    fn turns(&mut self, mut events: Vec<Event>) -> Vec<Envelope> {
        let mut sent = Vec::new();
        while !events.is_empty() {
            events.iter().for_each(|event| self.prepare(event));
            let mut again = Vec::new();
            for event in events {
                match self.replica.act() {
                    Err(Error::Again) => again.push(event),
                    acted => {
                        self.accept(acted.unwrap(), &event);
                        sent.extend(self.messages());
                    }
                }
            }
            events = again;
        }
        self.settle();
        sent
    }

    /// What the block of a message names is received.
    fn accept(&mut self, reason: Reason, event: &Event) {
        if let (Reason::Done, Event::Delivered { bytes, .. }) = (reason, event) {
            self.replica.accepted(bytes).unwrap(); // false where the message has no block
        }
    }

    fn messages(&mut self) -> Vec<Envelope> {
        let sends = self.replica.sends().unwrap();
        sends
            .into_iter()
            .map(|message| Envelope {
                from: self.me,
                to: message.to,
                bytes: message.bytes,
            })
            .collect()
    }

    /// Stops, and recovers from the log without its last 3 bytes.
    fn crash(mut self, keys: &[[u8; 60]]) -> Host {
        drop(self.replica);
        let size = self.log.len() - 3;
        self.log.truncate(size);
        let host = Host::reopen(self.me, keys, self.log, self.arrived);
        assert!(HEADER < host.log.len() && host.log.len() < size);
        host
    }

    fn batches(&mut self) -> Vec<Vec<Tx>> {
        let count = self.replica.batch_count().unwrap();
        let mut batches: Vec<_> = (0..count)
            .map(|at| self.replica.batch(at).unwrap())
            .collect();
        batches.iter_mut().for_each(|batch| batch.sort_unstable());
        batches
    }
}

/// The replicas with odd numbers let verifiers check seals.
fn verifiers(me: u32, keys: &[[u8; 60]]) -> Vec<Verifier> {
    let count = if me % 2 == 1 { SHARES } else { 0 };
    (0..count)
        .map(|_| Verifier::new(Height::H5H5, keys).unwrap())
        .collect()
}

fn deliver_all(hosts: &mut [Host], sent: Vec<Envelope>, carried: &mut usize) {
    let mut queue = VecDeque::from(sent);
    while let Some(Envelope { from, to, bytes }) = queue.pop_front() {
        *carried += 1;
        if *carried % LOST_OF != 0 {
            queue.extend(hosts[to as usize].turns(vec![Event::Delivered { from, bytes }]));
        }
    }
}

/// Gives the last replica all blocks of the first.
fn bring_level(hosts: &mut [Host]) {
    let (first, rest) = hosts.split_first_mut().unwrap();
    let last = rest.last_mut().unwrap();
    let count = first.replica.give_count(0).unwrap();
    for position in 0..count {
        let bytes = first.replica.give(0, position).unwrap();
        last.turns(vec![Event::Delivered { from: 0, bytes }]);
    }
    assert!(count > 0 && last.replica.give_count(0).unwrap() >= count);
    assert_eq!(first.replica.give(0, count), Err(Error::NoneThere));
}

/// Clients send to all replicas but the last one, in two orders. Each replica hears of it from all.
fn receive(hosts: &mut [Host]) {
    for host in hosts.iter_mut().take(N as usize - 1) {
        let mut txs = TXS.to_vec();
        if host.me % 2 == 1 {
            txs.reverse();
        }
        host.receive(&txs);
    }
    let told: Vec<_> = hosts.iter_mut().map(Host::told).collect();
    for host in hosts {
        let me = host.me;
        for peer in (0..N).filter(|peer| *peer != me) {
            host.hear(peer, &told[peer as usize]);
        }
    }
}

#[test]
fn five_replicas_agree() {
    let keys = public_keys();
    let mut hosts: Vec<_> = (0..N).map(|me| Host::open(me, &keys, Vec::new())).collect();
    let mut carried = 0;
    receive(&mut hosts);
    for view in 0..VIEWS {
        let mut sent = Vec::new();
        for host in &mut hosts {
            let mut events = Vec::from_iter(host.arrivals());
            events.push(Event::Tick { floor: view });
            sent.extend(host.turns(events));
        }
        deliver_all(&mut hosts, sent, &mut carried);
        if view == VIEWS / 2 {
            let last = hosts.pop().unwrap();
            hosts.push(last.crash(&keys));
        }
    }
    bring_level(&mut hosts);
    for host in &hosts {
        assert_eq!(host.verified > 0, host.me % 2 == 1);
    }
    for Host { replica, .. } in &mut hosts {
        assert_eq!(replica.known(), Ok(4));
        assert!(TXS.iter().all(|tx| replica.is_proposed(tx).unwrap()));
        assert_eq!(replica.is_proposed(&tx(9, 99)), Ok(false));
        assert_eq!(replica.held().unwrap().all, 0);
        assert_eq!(replica.submit(&TXS[0]), Ok(Taken::Final));
        assert_eq!(replica.standing(&TXS[0]), Ok(Standing::Final));
    }
    let lists: Vec<_> = hosts.iter_mut().map(Host::batches).collect();
    let longest = lists.iter().max_by_key(|list| list.len()).unwrap();
    assert!(lists.iter().all(|list| longest.starts_with(list)));
    let mut all = longest.concat();
    all.sort_unstable();
    assert_eq!(all, TXS);
}

#[test]
fn mistakes_are_answered() {
    let keys = public_keys();
    let Host {
        log, mut replica, ..
    } = Host::open(0, &keys, Vec::new());
    let other = Host::open(1, &keys, Vec::new()).log;
    let open =
        |secret, keys: &[_], log: &[u8]| Replica::open(&role(0), &secret, keys, log).map(|_| ());
    let invalid = Role { f: 2, ..role(0) };
    assert_eq!(
        Replica::open(&invalid, &secret(0), &keys, &log).map(|_| ()),
        Err(Error::BadSetting)
    );
    assert_eq!(open(secret(1), &keys, &log), Err(Error::WrongSecret));
    assert_eq!(open(secret(0), &keys[1..], &log), Err(Error::KeyCount));
    assert_eq!(open(secret(0), &keys, &other), Err(Error::OtherLog));
    assert_eq!(open(secret(0), &keys, &[0; HEADER]), Err(Error::NoHeader));
    let corrupt = [&log[..], &[9; 64]].concat();
    assert_eq!(
        open(secret(0), &keys, &corrupt),
        Err(Error::CorruptLog { at: HEADER })
    );
    assert_eq!(replica.act(), Err(Error::Unready));
    assert_eq!(replica.prepare_deliver(256, GARBAGE), Err(Error::TooLong));
    assert_eq!(replica.would_change(256, GARBAGE), Err(Error::TooLong));
    assert_eq!(replica.record(0), Err(Error::NoneThere));
    assert_eq!(replica.batch(0), Err(Error::NoneThere));
    let receipt = Receipt {
        tx: TXS[0],
        stamp: NO_STAMP,
    };
    assert_eq!(replica.hear(1, &receipt), Ok(Taken::Beyond));
    assert_eq!(replica.hear(N, &receipt), Err(Error::BadNumber));
    assert_eq!(replica.hear_clock(N, 1), Err(Error::BadNumber));
    assert_eq!(replica.standing(&TXS[0]), Ok(Standing::Unknown));
    assert_eq!(replica.accepted(GARBAGE), Ok(false));
    assert_eq!(replica.arrive_proposed(), Ok(Vec::new()));
    let mut other = Verifier::new(Height::H5H5, &keys[1..]).unwrap();
    assert_eq!(replica.take_verified(&mut other), Err(Error::OtherVerifier));
}

#[test]
fn garbage_has_no_record() {
    let mut host = Host::open(0, &public_keys(), Vec::new());
    assert_eq!(host.replica.prepare_deliver(1, GARBAGE), Ok(Vec::new()));
    assert_eq!(host.replica.act(), Ok(Reason::BadWire));
    assert_eq!(host.replica.sends(), Ok(Vec::new()));
}

/// The trace of a run in which nothing happens, and in which replica 0 is faulty.
fn idle_trace(keys: &[[u8; 60]]) -> Vec<u8> {
    let role = role(0);
    let fields = [role.n as u8, role.f as u8, 0, role.p as u8, 0, role.q as u8];
    let mut trace = [&b"THEMISR2"[..], &fields, &VIEWS.to_be_bytes(), &[3]].concat();
    trace.extend(keys.concat());
    trace.extend([0; 8]); // no turns, no ticks
    trace.extend([1, 0]); // one faulty replica
    trace.extend([0; 4 * 5 + 16 * 4]); // nothing arrived; of each other, no entries, head or batches
    trace
}

#[test]
fn a_trace_is_audited_as_that_of_its_own_run() {
    let keys = public_keys();
    let (trace, run) = (idle_trace(&keys), Run::from(&role(0)));
    let audited = audit(&trace, &run, &keys).unwrap();
    assert_eq!(
        (audited.finding, audited.faulty),
        (Finding::Lawful, vec![0])
    );
    for other in [
        Run { f: 0, ..run },
        Run {
            p: 999,
            q: 1000,
            ..run
        },
        Run {
            views: VIEWS + 1,
            ..run
        },
        Run {
            height: Height::H5H10,
            ..run
        },
    ] {
        assert_eq!(audit(&trace, &other, &keys), Err(Error::OtherRun));
    }
    let invalid = Run { f: 2, ..run };
    assert_eq!(audit(&trace, &invalid, &keys), Err(Error::BadSetting));
    assert_eq!(audit(&trace, &run, &keys[1..]), Err(Error::OtherKeys));
    assert_eq!(audit(GARBAGE, &run, &keys), Err(Error::BadTrace { at: 0 }));
}

#[test]
fn a_replica_moves_to_another_thread() {
    let mut host = Host::open(0, &public_keys(), Vec::new());
    host.receive(&TXS);
    let mut host = thread::spawn(move || {
        let mut events = Vec::from_iter(host.arrivals());
        events.push(Event::Tick { floor: 0 });
        host.turns(events);
        host
    })
    .join()
    .unwrap();
    assert_eq!(host.replica.views(), Ok((1, 0)));
}
