//! The trace of a run (docs/FORMATS.md, "Traces"), for the proved audit.

use themis::Reason;
use themis_engine::core::Event;
use themis_engine::sessions::keys::PublicKey;
use themis_engine::tx::{self, Tx};

use crate::plan::Plan;
use crate::tapped::{Entry, Journal};

const MAGIC: &[u8] = b"THEMISR2";
const HEIGHT_CODE: u8 = 3;

/// What a trace says of one honest replica.
pub struct Account<'a> {
    /// Its journal.
    pub journal: &'a Journal,
    /// Its view, and the view of its committed block.
    pub ends: (u32, u32),
    /// Its final batches.
    pub batches: &'a [Vec<Tx>],
}

/// The number of a reason in a trace.
fn code_of(reason: Reason) -> u8 {
    match reason {
        Reason::Done => 0,
        Reason::BadWire => 1,
        Reason::Foreign => 7,
        Reason::ViewLimit => 8,
        Reason::NotLeader => 9,
        Reason::OldView => 10,
        Reason::BadSeal => 11,
        Reason::BadCert => 12,
        Reason::Orphan => 13,
        Reason::Misfit => 14,
        Reason::Clash => 15,
        Reason::Unsafe => 16,
        Reason::Repeat => 17,
        Reason::Unknown(_) => 255,
    }
}

fn put_u32(value: usize, out: &mut Vec<u8>) {
    out.extend((value as u32).to_be_bytes());
}

fn put_list(txs: &[Tx], out: &mut Vec<u8>) {
    put_u32(txs.len(), out);
    txs.iter().for_each(|it| tx::put(it, out));
}

/// The trace of a run; no account of a replica says that it is faulty.
pub fn trace_of(plan: &Plan, keys: &[PublicKey], accounts: &[Option<Account<'_>>]) -> Vec<u8> {
    let entries = || accounts.iter().flatten().flat_map(|it| &it.journal.entries);
    let count = |is_it: fn(&Event) -> bool| entries().filter(|it| is_it(&it.event)).count();
    let mut out = MAGIC.to_vec();
    out.extend([plan.n as u8, plan.f as u8, 0, 1, 0, 1]);
    put_u32(plan.views as usize, &mut out);
    out.push(HEIGHT_CODE);
    out.extend(keys.concat());
    put_u32(count(|it| matches!(it, Event::Delivered(_))), &mut out);
    put_u32(count(|it| matches!(it, Event::Tick(_))), &mut out);
    let faulty: Vec<u8> = (0..).zip(accounts).filter(|it| it.1.is_none()).map(|it| it.0).collect();
    out.push(faulty.len() as u8);
    out.extend(faulty);
    for account in accounts {
        let arrived: Vec<Tx> = account.iter().flat_map(|it| arrivals(it.journal)).collect();
        put_list(&arrived, &mut out);
    }
    accounts.iter().flatten().for_each(|it| put_account(it, &mut out));
    out
}

fn arrivals(journal: &Journal) -> impl Iterator<Item = Tx> + '_ {
    let lists = journal.entries.iter().filter_map(|it| match &it.event {
        Event::Arrived(txs) => Some(txs),
        Event::Delivered(_) | Event::Tick(_) => None,
    });
    lists.flatten().copied()
}

fn put_account(account: &Account<'_>, out: &mut Vec<u8>) {
    put_u32(account.journal.entries.len(), out);
    account.journal.entries.iter().for_each(|it| put_entry(it, out));
    put_u32(account.ends.0 as usize, out);
    put_u32(account.ends.1 as usize, out);
    put_u32(account.batches.len(), out);
    account.batches.iter().for_each(|it| put_list(it, out));
}

fn put_entry(entry: &Entry, out: &mut Vec<u8>) {
    match &entry.event {
        Event::Arrived(txs) => {
            out.push(1);
            put_list(txs, out);
        }
        Event::Delivered(it) => {
            out.extend([2, it.from as u8]);
            put_u32(it.data.len(), out);
            out.extend_from_slice(&it.data);
        }
        Event::Tick(floor) => {
            out.push(3);
            put_u32(*floor as usize, out);
        }
    }
    out.push(code_of(entry.reason));
    put_u32(entry.known as usize, out);
    out.push(entry.sealed.len() as u8);
    for it in &entry.sealed {
        put_u32(it.len(), out);
        out.extend_from_slice(it);
    }
}
