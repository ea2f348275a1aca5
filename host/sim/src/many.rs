//! Checks of a run in which sessions follow one another, besides those of each list.

use std::collections::{HashMap, HashSet};
use std::time::Duration;

use themis::{audit, Finding, Run};
use themis_engine::core::{Core, Event};
use themis_engine::sessions::reserved::marker;
use themis_engine::tx::Tx;
use themis_engine::Time;

use crate::chain::committed;
use crate::driver::Driver;
use crate::keys::HEIGHT;
use crate::node::{Node, Violation};
use crate::receipts::{is_promised, proposals, Proposed};
use crate::store::Durable;
use crate::tapped::Journal;
use crate::trace::{trace_of, Account};
use crate::world::World;

/// After faults have ended, an operator ends a session that often, until all are level.
pub const END_EVERY: Duration = Duration::from_millis(1500);
/// Before it is checked that nothing happens, for so long.
const SETTLE: Duration = Duration::from_secs(3);
const IDLE: Duration = Duration::from_secs(3);
const MAX_IDLE_VIEWS: u32 = 8;
/// A session of any height has fewer.
const MAX_VIEWS: u32 = 10_000;

fn honest(world: &World) -> impl Iterator<Item = &Node> {
    world.plan.honest().map(|it| &world.nodes[it as usize])
}

/// Whether all honest replicas run the same session, which is not one of the first.
pub fn is_level(world: &World) -> bool {
    let session = |it: &Node| it.store.as_ref().map_or(0, Durable::session);
    let last = honest(world).map(session).max().unwrap_or(0);
    last + 1 >= world.plan.sessions
        && honest(world).all(|it| session(it) == last && status_of(it, world.now).is_some())
}

fn status_of(node: &Node, now: Time) -> Option<themis_engine::Status> {
    node.process.as_ref().and_then(|it| it.driver.status(node.clock.local(now)))
}

/// All checks of a run over sessions. `is_audited`: also the proved audit of each session; how many
/// entries it read.
pub fn check(world: &mut World, is_audited: bool) -> Result<usize, Violation> {
    check_idle(world)?;
    check_answers(world)?;
    check_ends(world)?;
    check_retired(world)?;
    for node in honest(world) {
        check_arrivals(node)?;
    }
    let mut entries = 0;
    if is_audited {
        check_jumps(world)?;
        let last = honest(world).filter_map(|it| it.store.as_ref()).map(Durable::session).max();
        for session in 0..=last.unwrap_or(0) {
            entries += check_audit(world, session)?;
        }
    }
    Ok(entries)
}

/// While nothing waits, no views are used and no session ends.
fn check_idle(world: &mut World) -> Result<(), Violation> {
    if honest(world).count() < world.plan.n as usize {
        return Ok(());
    }
    let settled = world.now + SETTLE;
    while world.now < settled && world.step()? {}
    let before = used(world);
    let until = world.now + IDLE;
    while world.now < until && world.step()? {}
    let after = used(world);
    if before.0 == after.0 && after.1 <= before.1 + MAX_IDLE_VIEWS {
        Ok(())
    } else {
        Err(Violation(format!("while nothing waits: {before:?} becomes {after:?}")))
    }
}

/// All is final, and replicas had time to say so: no client waits for an answer.
fn check_answers(world: &World) -> Result<(), Violation> {
    if honest(world).count() < world.plan.n as usize {
        return Ok(());
    }
    match honest(world).find_map(|it| Some((it.place.me, it.tickets.values().min()?))) {
        Some((me, number)) => {
            Err(Violation(format!("replica {me} does not answer submission {number}")))
        }
        None => Ok(()),
    }
}

/// The last session, and the views of it and of those that are helped.
fn used(world: &mut World) -> (u32, u32) {
    let (mut session, mut views) = (0, 0);
    for node in &mut world.nodes {
        session = session.max(node.store.as_ref().map_or(0, Durable::session));
        let Some(Driver::Many(it)) = node.process.as_mut().map(|it| &mut it.driver) else {
            continue;
        };
        let view = |it: &mut themis_engine::Engine<crate::tapped::Played>| {
            it.core_mut().views().map_or(0, |(view, _)| view)
        };
        let running = it.running().map_or(0, view);
        let helping = it.helping().map_or(0, view);
        views = views.max(running + helping);
    }
    (session, views)
}

/// Each session ended alike at all honest replicas: batches, digest, keys. Its last batch alone has
/// the marker.
fn check_ends(world: &World) -> Result<(), Violation> {
    let stores: Vec<_> =
        honest(world).filter_map(|it| Some((it.place.me, it.store.as_ref()?))).collect();
    let Some((one, longest)) = stores.iter().max_by_key(|(_, it)| it.session()) else {
        return Ok(());
    };
    for (other, store) in &stores {
        for (a, b) in longest.ended.iter().zip(&store.ended) {
            let is_same = (a.session, a.first, &a.batches, a.digest, &a.keys)
                == (b.session, b.first, &b.batches, b.digest, &b.keys);
            if !is_same {
                let session = a.session;
                return Err(Violation(format!(
                    "session {session} ended otherwise at {one} than at {other}"
                )));
            }
        }
    }
    for ended in &longest.ended {
        let marked: Vec<usize> = (0..ended.batches.len())
            .filter(|at| ended.batches[*at].contains(&marker(ended.session)))
            .collect();
        if marked != [ended.batches.len() - 1] {
            return Err(Violation(format!(
                "session {} has its marker in {marked:?}",
                ended.session
            )));
        }
        let keys = ended.keys.iter().flatten().count() as u32;
        if keys < world.plan.n - world.plan.f {
            return Err(Violation(format!("session {} ended with {keys} keys", ended.session)));
        }
    }
    Ok(())
}

/// Once all are in the last session, no engine of an earlier one is left.
fn check_retired(world: &mut World) -> Result<(), Violation> {
    if honest(world).count() < world.plan.n as usize {
        return Ok(());
    }
    for node in &mut world.nodes {
        let me = node.place.me;
        if let Some(Driver::Many(it)) = node.process.as_mut().map(|it| &mut it.driver) {
            if it.helping().is_some() {
                return Err(Violation(format!("replica {me} keeps an old engine")));
            }
        }
    }
    Ok(())
}

fn arrivals(journal: &Journal) -> Vec<Tx> {
    let lists = journal.entries.iter().filter_map(|it| match &it.event {
        Event::Arrived(txs) => Some(txs),
        Event::Delivered(_) | Event::Tick(_) => None,
    });
    lists.flatten().copied().collect()
}

/// The rules of `session_rules`, on what a replica let arrive: nothing that is in the history it
/// started from, no marker of another session, and first what was carried over.
fn check_arrivals(node: &Node) -> Result<(), Violation> {
    let me = node.place.me;
    let Some(store) = &node.store else { return Ok(()) };
    let mut history: HashSet<Tx> = HashSet::new();
    let mut carried: Vec<Tx> = Vec::new();
    for session in 0..=store.session() {
        let journal = node.journals.get(&session).map(|it| it.borrow());
        let arrived = journal.map(|it| arrivals(&it)).unwrap_or_default();
        if let Some(tx) = arrived.iter().find(|it| history.contains(it)) {
            return Err(Violation(format!("{tx:?} is final, and arrives at {me} in {session}")));
        }
        let is_other = |it: &&Tx| it.client == 0 && **it != marker(session);
        if let Some(tx) = arrived.iter().find(is_other) {
            return Err(Violation(format!("the marker {tx:?} arrives at {me} in {session}")));
        }
        if arrived.iter().collect::<HashSet<_>>().len() != arrived.len() {
            return Err(Violation(format!("something arrives twice at {me} in {session}")));
        }
        if !arrived.is_empty() && !arrived.starts_with(&carried) {
            return Err(Violation(format!(
                "{} are carried over at {me} to {session}, and do not arrive first",
                carried.len()
            )));
        }
        let Some(ended) = store.ended.get(session as usize) else { break };
        history.extend(ended.batches.iter().flatten());
        let is_known = !arrived.is_empty() && !node.lost.contains(&session);
        let from = if is_known { arrived } else { carried };
        carried = from.into_iter().filter(|it| !history.contains(it)).collect();
        if carried != ended.carried {
            return Err(Violation(format!("replica {me} carries something else over {session}")));
        }
    }
    Ok(())
}

/// No transaction passes another that every honest replica received before it, and had heard of from
/// all honest ones, over all sessions. What is received again after a change is left out, as after a
/// start: then its order is not known.
fn check_jumps(world: &mut World) -> Result<(), Violation> {
    let longest = honest(world).max_by_key(|it| it.batches.len());
    let Some(batches) = longest.map(|it| it.batches.clone()) else { return Ok(()) };
    let last = honest(world).filter_map(|it| it.store.as_ref()).map(Durable::session).max();
    let mut known = HashMap::new();
    for session in 0..=last.unwrap_or(0) {
        known.extend(proposed_in(world, session, &batches)?);
    }
    let jumps = world.receipts.jumps(&batches, |a, b| is_promised(&known, a, b));
    match jumps.first() {
        Some((a, b)) => {
            Err(Violation(format!("{} pairs jump over sessions: {b:?} over {a:?}", jumps.len())))
        }
        None => Ok(()),
    }
}

/// Where the final transactions of one session were proposed, as far as counting tells.
fn proposed_in(
    world: &mut World,
    session: u32,
    batches: &[Vec<Tx>],
) -> Result<HashMap<Tx, Proposed>, Violation> {
    let ended = honest(world).find_map(|it| {
        let ended = it.store.as_ref()?.ended.get(session as usize)?;
        Some((ended.first, ended.end()))
    });
    let first = honest(world).filter_map(|it| Some(it.store.as_ref()?.ended.last()?.end())).max();
    let (start, end) = ended.unwrap_or((first.unwrap_or(0), batches.len()));
    let finals: HashSet<Tx> = batches[start..end].iter().flatten().copied().collect();
    let entries = |it: &&Node| it.journals.get(&session).map_or(0, |it| it.borrow().entries.len());
    let Some(node) = honest(world).max_by_key(entries).filter(|it| entries(it) > 0) else {
        return Ok(HashMap::new());
    };
    let journal = node.journals[&session].borrow();
    let (mut core, _) = node.opened(session, &node.any_log(session)[..journal.acted])?;
    let (_, commit) = core.views()?;
    let found = proposals((world.plan.n, world.plan.f), &committed(&journal, commit), &finals);
    // A view of another session is another one.
    let of_session = |it: Proposed| Proposed { view: session * MAX_VIEWS + it.view, ..it };
    Ok(found.into_iter().map(|(tx, it)| (tx, of_session(it))).collect())
}

/// The proved audit of one session.
fn check_audit(world: &mut World, session: u32) -> Result<usize, Violation> {
    let (n, f, views) = (world.plan.n, world.plan.f, world.plan.views);
    let Some(first) = world.plan.honest().next() else { return Ok(0) };
    let mut found = HashMap::new();
    for replica in world.plan.honest() {
        let node = &mut world.nodes[replica as usize];
        let acted = node.journal(session).borrow().acted;
        let (mut ends, mut batches) = ((0, 0), Vec::new());
        if acted > 0 {
            let log = node.any_log(session)[..acted].to_vec();
            let (mut core, _) = node.opened(session, &log)?;
            ends = core.views()?;
            for at in 0..core.batch_count()? {
                batches.push(core.batch(at)?);
            }
        }
        found.insert(replica, (ends, batches));
    }
    let journals: Vec<_> = world.nodes.iter_mut().map(|it| it.journal(session)).collect();
    let journals: Vec<_> = journals.iter().map(|it| it.borrow()).collect();
    let accounts: Vec<Option<Account>> = (0..n)
        .map(|it| {
            let (ends, batches) = found.get(&it)?;
            Some(Account { journal: &journals[it as usize], ends: *ends, batches })
        })
        .collect();
    let entries = accounts.iter().flatten().map(|it| it.journal.entries.len()).sum();
    let keys = world.nodes[first as usize].keys(session);
    let trace = trace_of(&world.plan, &keys, &accounts);
    let run = Run { n, f, p: 1, q: 1, views, height: HEIGHT };
    match audit(&trace, &run, &keys)?.finding {
        Finding::Lawful => Ok(entries),
        other => Err(Violation(format!("the audit of session {session} finds {other:?}"))),
    }
}

#[cfg(test)]
mod tests {
    use std::sync::Arc;

    use themis::Reason;
    use themis_engine::sessions::history::Ended;

    use super::*;
    use crate::clock::Clock;
    use crate::plan::{Edits, Fault, FaultKind, Plan};
    use crate::run::{run, Mode};
    use crate::tapped::Entry;

    fn tx(number: u32) -> Tx {
        Tx { client: 1, number, payload: 0 }
    }

    /// A replica to which that arrived in each session, and of which the first has ended with that.
    fn node(arrived: [&[Tx]; 2], batches: &[Vec<Tx>], carried: &[Tx]) -> Node {
        let plan = Plan::new(1, &Edits { sessions: 3, ..Edits::default() });
        let mut node = Node::new(&plan, 0, Clock::new(Duration::ZERO, 1.0)).unwrap();
        for (session, txs) in (0..).zip(arrived) {
            let event = Event::Arrived(txs.to_vec());
            let entry = Entry { event, reason: Reason::Done, known: 0, sealed: Vec::new() };
            node.journal(session).borrow_mut().entries.push(entry);
        }
        let ended = Ended {
            session: 0,
            first: 0,
            batches: batches.to_vec(),
            digest: [0; 32],
            keys: Vec::new(),
            carried: carried.to_vec(),
        };
        node.store.as_mut().unwrap().ended.push(Arc::new(ended));
        node
    }

    #[test]
    fn the_rules_of_carrying_over() {
        let cut = [vec![tx(1)], vec![marker(0)]];
        let first = [tx(1), tx(2), marker(0), tx(3)];
        let is_lawful = |second: &[Tx], carried: &[Tx]| {
            check_arrivals(&node([&first, second], &cut, carried)).is_ok()
        };
        let both = [tx(2), tx(3)];
        assert!(is_lawful(&[tx(2), tx(3), tx(4)], &both));
        assert!(is_lawful(&[], &both)); // it has not begun
        assert!(!is_lawful(&[tx(3), tx(2)], &both)); // in another order
        assert!(!is_lawful(&[tx(4), tx(2), tx(3)], &both)); // not first
        assert!(!is_lawful(&[tx(2), tx(3), tx(1)], &both)); // final
        assert!(!is_lawful(&[tx(2), tx(3), tx(4), tx(4)], &both)); // twice
        assert!(!is_lawful(&[tx(2), tx(3), marker(2)], &both)); // another marker
        assert!(!is_lawful(&[tx(2), tx(3)], &[tx(2)])); // something else is stored
    }

    /// Replica 1 is alone over the end of a session. Meanwhile numbers are used for other transactions
    /// there than at the others.
    #[test]
    fn both_transactions_of_a_number_become_final() {
        let mut plan = Plan::new(9, &Edits { sessions: 3, ..Edits::default() });
        let (at, replica, kind) = (300, 1, FaultKind::Alone);
        plan.faults = vec![Fault { at, span: 1200, replica, kind }];
        plan.latency = Duration::from_millis(1);
        plan.ends = vec![900];
        (plan.deeds, plan.submissions) = (Vec::new(), Vec::new());
        plan.use_numbers_twice();
        let report = run(&plan, Mode::default());
        assert_eq!((report.violation, report.doubles), (None, 6));
    }

    #[test]
    fn sessions_follow_one_another() {
        let plan = Plan::new(9, &Edits { txs: Some(6), sessions: 3, ..Edits::default() });
        let report = run(&plan, Mode { is_audited: true, is_traced: false });
        assert_eq!(report.violation, None);
        assert!(report.sessions >= 3 && report.audited > 0 && report.finals > 6);
    }
}
