//! Checks of a run. Those of sessions that follow one another are in `many`.

use std::cell::RefCell;
use std::rc::Rc;
use std::time::Duration;

use themis::{audit, Finding, Run};
use themis_engine::core::Core;
use themis_engine::setting::Options;
use themis_engine::{Count, Time};

use crate::chain::committed;
use crate::keys::{public_keys, HEIGHT};
use crate::node::{Node, Violation};
use crate::plan::Plan;
use crate::receipts::{is_promised, proposals};
use crate::run::Report;
use crate::tapped::Journal;
use crate::trace::{trace_of, Account};
use crate::world::World;

/// One wakes an idle cluster. More, but for those to a view that others have reached, are a timeout
/// that is too short, or a message that was lost.
const MAX_CALM_TICKS: u64 = 2;
/// Views that are used where nothing is faulty: in any case, for what is submitted at one moment, and
/// one for that many transactions.
const VIEWS_OF_ALL: usize = 8;
const VIEWS_OF_MOMENT: usize = 8;
const OF_FULL_VIEW: usize = 100;
/// After all is final nothing more happens for so long.
const IDLE: Duration = Duration::from_secs(3);
/// Views that may still follow: those that show the others what is final.
const MAX_IDLE_VIEWS: u32 = 8;
/// Bounds on what an engine holds.
const MAX_INBOX: usize = 16 * 64;
/// Of clients, of each peer, and of blocks.
const MAX_QUEUE: usize = 16_384 + 16 * 4096;
const MAX_PENDING: usize = 2_000;
/// Seals of refused messages of one peer: of each start, and in each second.
const MAX_WASTED: usize = 4000;
const MAX_WASTED_RATE: f64 = 610.0;
/// Bytes of a log: for each view, and for each block that a peer may give.
const MAX_VIEW_BYTES: usize = 160 << 10;

fn honest(world: &World) -> impl Iterator<Item = &Node> {
    world.plan.honest().map(|it| &world.nodes[it as usize])
}

/// How often a replica asked for a view that no other had reached, since its last start.
pub fn ticks_of(node: &Node) -> u64 {
    let Some(process) = &node.process else { return 0 };
    let status = process.driver.status(process.wake);
    let counts = status.map_or_else(Vec::new, |it| it.counts);
    let count = |name| counts.iter().find(|it| it.name == name).map_or(0, |it| it.value);
    count("ticks") - count("joins")
}

/// Where nothing is faulty, nobody gives up a view.
pub fn check_ticks(plan: &Plan, ticks: u64) -> Result<(), Violation> {
    if plan.is_calm() && ticks > MAX_CALM_TICKS {
        return Err(Violation(format!("{ticks} ticks although nothing is faulty")));
    }
    Ok(())
}

/// How many views may fail although nothing is faulty. The first one after a pause takes four delays
/// of the network. Where those are longer than the timeout, it may fail; and then the next one too.
fn failing(plan: &Plan) -> usize {
    if plan.longest_delay() * 4 > Options::default().timeout {
        1 + plan.moments()
    } else {
        0
    }
}

/// Where nothing is faulty, each view up to the commit has a committed block, but for few that fail.
/// And views are few: some for each moment at which clients submit, and one for many transactions.
fn check_views(plan: &Plan, blocks: usize, commit: u32) -> Result<(), Violation> {
    let most = VIEWS_OF_ALL + VIEWS_OF_MOMENT * plan.moments() + plan.count() / OF_FULL_VIEW;
    let text = if !plan.is_calm() {
        return Ok(());
    } else if blocks + failing(plan) < commit as usize {
        format!("only {blocks} of {commit} views have a block although nothing is faulty")
    } else if blocks > most {
        format!("{blocks} views are used, and not {most} at most, although nothing is faulty")
    } else {
        return Ok(());
    };
    Err(Violation(text))
}

/// While nothing waits no views are used, unless a faulty replica keeps the others busy.
pub fn check_idle(world: &mut World) -> Result<(), Violation> {
    if world.plan.honest().count() < world.plan.n as usize {
        return Ok(());
    }
    let views = |world: &mut World| world.nodes.iter_mut().map(Node::views).max().unwrap_or(0);
    let (before, until) = (views(world), world.now + IDLE);
    while world.now < until && world.step()? {}
    let used = views(world) - before;
    if used <= MAX_IDLE_VIEWS {
        Ok(())
    } else {
        Err(Violation(format!("{used} views are used while nothing waits")))
    }
}

/// The lists of two honest replicas: one is a prefix of the other.
pub fn check_agreement(world: &World) -> Result<(), Violation> {
    for one in honest(world) {
        for other in honest(world) {
            let count = one.batches.len().min(other.batches.len());
            if one.batches[..count] != other.batches[..count] {
                let (a, b) = (one.place.me, other.place.me);
                return Err(Violation(format!("replicas {a} and {b} disagree")));
            }
        }
    }
    Ok(())
}

/// No leaf of a replica's keys sealed two statements.
pub fn check_leaves(node: &Node) -> Result<(), Violation> {
    let reused = |(session, journal): (&u32, &Rc<RefCell<Journal>>)| {
        journal.borrow().reused.map(|leaf| (*session, leaf))
    };
    match node.journals.iter().find_map(reused) {
        Some((session, leaf)) => Err(Violation(format!(
            "replica {} seals twice with leaf {leaf} of session {session}",
            node.place.me
        ))),
        None => Ok(()),
    }
}

/// What an engine and its log hold is bounded.
pub fn check_bounds(node: &mut Node, plan: &Plan) -> Result<(), Violation> {
    let log = node.disk.logs.values().map(Vec::len).max().unwrap_or(0);
    let Some(process) = &mut node.process else { return Ok(()) };
    let sizes = process.driver.sizes();
    let is_within = sizes.inbox <= MAX_INBOX
        && sizes.queue <= MAX_QUEUE
        && node.most_pending <= MAX_PENDING
        && sizes.given <= (plan.n - 1) * plan.views + 64
        && log <= MAX_VIEW_BYTES * (plan.views + sizes.given.max(plan.views)) as usize;
    if is_within {
        Ok(())
    } else {
        let (me, pending) = (node.place.me, node.most_pending);
        Err(Violation(format!(
            "replica {me} holds {sizes:?}, {pending} pending once, a log of {log}"
        )))
    }
}

/// What a faulty peer makes the core check for nothing is bounded, and an honest one sends nothing that
/// guards take for the work of a faulty one.
pub fn check_guards(node: &Node, world: &World) -> Result<(), Violation> {
    let seconds = world.now.since(Time::default()).as_secs_f64();
    let most = (node.incarnation as usize + 1) * MAX_WASTED + (seconds * MAX_WASTED_RATE) as usize;
    let me = node.place.me;
    for journal in node.journals.values() {
        for (peer, seals) in journal.borrow().wasted.iter().filter(|it| *it.0 != me) {
            if *seals > most {
                let text = format!("replica {me} checks {seals} seals of {peer} in vain");
                return Err(Violation(text));
            }
        }
    }
    let Some(process) = &node.process else { return Ok(()) };
    let counts = process.driver.status(process.wake).map_or_else(Vec::new, |it| it.counts);
    let is_wrong = |it: &&Count| {
        it.name == "unfit" && it.value > 0 && it.peer.is_some_and(|it| world.plan.is_honest(it))
    };
    match counts.iter().find(is_wrong) {
        Some(it) => Err(Violation(format!("replica {me} drops what is honest: {it}"))),
        None => Ok(()),
    }
}

/// The committed blocks: no view failed for nothing, and no transaction passes another that every
/// honest replica received before it, and had heard of from all honest ones. Only one that was given
/// way may.
pub fn check_chain(world: &mut World, report: &mut Report) -> Result<(), Violation> {
    let longest = world.plan.honest().max_by_key(|it| world.nodes[*it as usize].batches.len());
    let Some(longest) = longest else { return Ok(()) };
    let node = &mut world.nodes[longest as usize];
    let journal = node.journal(0);
    let Some(process) = &mut node.process else { return Ok(()) };
    let Some(engine) = process.driver.engine() else { return Ok(()) };
    let (_, commit) = engine.core_mut().views()?;
    let chain = committed(&journal.borrow(), commit);
    check_views(&world.plan, chain.len(), commit)?;
    let known = proposals((world.plan.n, world.plan.f), &chain, &node.finals);
    let jumps = world.receipts.jumps(&node.batches, |a, b| is_promised(&known, a, b));
    (report.jumps, report.common) = (jumps.len(), world.receipts.common());
    report.given = honest(world).filter_map(given).max().unwrap_or(0);
    match jumps.first() {
        Some((a, b)) => Err(Violation(format!(
            "{} pairs jump: {b:?} over {a:?}; {} were given way",
            jumps.len(),
            report.given
        ))),
        None => Ok(()),
    }
}

fn given(node: &Node) -> Option<usize> {
    let process = node.process.as_ref()?;
    Some(process.driver.status(process.wake)?.given)
}

/// The proved audit of the run.
pub fn check_audit(world: &mut World) -> Result<usize, Violation> {
    let mut ends = Vec::new();
    for replica in 0..world.plan.n {
        let node = &mut world.nodes[replica as usize];
        let engine = node.process.as_mut().and_then(|it| it.driver.engine());
        ends.push(engine.map(|it| it.core_mut().views()).transpose()?);
    }
    let journals: Vec<_> = world.nodes.iter_mut().map(|it| it.journal(0)).collect();
    let journals: Vec<_> = journals.iter().map(|it| it.borrow()).collect();
    let accounts: Vec<Option<Account>> = (0..world.plan.n)
        .map(|it| {
            let at = it as usize;
            let ends = ends[at].filter(|_| world.plan.is_honest(it))?;
            Some(Account { journal: &journals[at], ends, batches: &world.nodes[at].batches })
        })
        .collect();
    let entries = accounts.iter().flatten().map(|it| it.journal.entries.len()).sum();
    let (n, f, views) = (world.plan.n, world.plan.f, world.plan.views);
    let keys = public_keys(n);
    let trace = trace_of(&world.plan, &keys, &accounts);
    let run = Run { n, f, p: 1, q: 1, views, height: HEIGHT };
    match audit(&trace, &run, &keys)?.finding {
        Finding::Lawful => Ok(entries),
        other => Err(Violation(format!("the audit finds {other:?}"))),
    }
}
