//! One run of a plan: what happens until all is final, and what it came to.

use std::collections::HashSet;
use std::time::Duration;

use serde::{Deserialize, Serialize};
use themis_engine::tx::Tx;
use themis_engine::Time;

use crate::checks::{
    check_agreement, check_audit, check_bounds, check_chain, check_guards, check_idle,
    check_leaves, check_ticks, ticks_of,
};
use crate::driver::Driver;
use crate::many;
use crate::node::{Node, Violation};
use crate::plan::{Plan, Submission};
use crate::store::Durable;
use crate::world::{at_ms, World};

/// After faults have ended all has to be final within so long.
const PATIENCE: Duration = Duration::from_secs(40);
/// Where nothing is faulty. What makes a cluster slow is seen by it.
const CALM_PATIENCE: Duration = Duration::from_secs(3);
/// So many transactions are final with a view, at least.
const IN_A_VIEW: u32 = 60;
/// No view is shorter.
const MIN_VIEW: Duration = Duration::from_millis(30);
const TRACE_EVERY: Duration = Duration::from_millis(200);

/// What a run came to.
#[derive(Clone, Debug, Default, Serialize, Deserialize)]
pub struct Report {
    /// What went wrong.
    pub violation: Option<String>,
    /// Views that were used, of the last session.
    pub views: u32,
    /// Sessions that ran.
    pub sessions: u32,
    /// How often a replica took the end of a session from others, or had no part in it.
    pub taken: u32,
    /// Transactions that became final.
    pub finals: usize,
    /// Pairs of which the second jumps over the first.
    pub jumps: usize,
    /// Transactions that all honest replicas received, in an order that is known.
    pub common: usize,
    /// Transactions that were given way, of the replica that gave most.
    pub given: usize,
    /// Things that happened.
    pub happenings: u64,
    /// Ticks of the replica that ticked most, since its last start, to views that it asked for first.
    pub ticks: u64,
    /// How long the run took in its own time.
    pub took: Duration,
    /// How long after the last fault and submission all was final.
    pub late: Duration,
    /// Transactions that were carried over, counted at each replica.
    pub carried: usize,
    /// Transactions of numbers that were used twice, which honest replicas answered with ok.
    pub doubles: usize,
    /// The longest time without a batch, while clients submitted.
    pub gap: Duration,
    /// Entries of journals that the proved audit read.
    pub audited: usize,
    /// The processor time of the run, if it had a process of its own.
    pub used: Duration,
}

/// How a plan is run.
#[derive(Clone, Copy, Debug, Default)]
pub struct Mode {
    /// The proved audit checks the run.
    pub is_audited: bool,
    /// Prints where the replicas stand, five times a second.
    pub is_traced: bool,
}

/// Runs a plan, and checks it.
pub fn run(plan: &Plan, mode: Mode) -> Report {
    let mut report = Report::default();
    let violation = attempt(plan, mode, &mut report).err();
    report.violation = violation.map(|it| it.0);
    report
}

fn attempt(plan: &Plan, mode: Mode, report: &mut Report) -> Result<(), Violation> {
    let mut world = World::new(plan.clone())?;
    let ended = play(&mut world, mode.is_traced);
    let first = plan.honest().next().unwrap_or(0) as usize;
    report.happenings = world.queue.count();
    report.gap = world.gap.1;
    report.carried = honest(&world).map(carried).sum();
    report.doubles = world.doubles.len();
    report.took = world.now.since(Time::default());
    report.late = world.now.since(quiet_at(&world.plan));
    report.finals = world.nodes[first].finals.len();
    report.views = plan.honest().map(|it| world.nodes[it as usize].views()).max().unwrap_or(0);
    let stores = || world.nodes.iter().filter_map(|it| it.store.as_ref());
    report.sessions = stores().map(|it| it.session() + 1).max().unwrap_or(1);
    report.taken = honest(&world).map(sessions_without_part).sum();
    report.ticks = honest(&world).map(ticks_of).max().unwrap_or(0);
    ended?;
    if plan.is_many() {
        report.audited = many::check(&mut world, mode.is_audited)?;
    } else {
        check_ticks(plan, report.ticks)?;
        check_idle(&mut world)?;
    }
    check_agreement(&world)?;
    for replica in plan.honest() {
        let node = &mut world.nodes[replica as usize];
        check_leaves(node)?;
        check_bounds(node, plan)?;
    }
    if plan.is_many() {
        report.common = world.receipts.common();
        return Ok(());
    }
    for node in honest(&world) {
        check_guards(node, &world)?;
    }
    check_chain(&mut world, report)?;
    if mode.is_audited {
        report.audited = check_audit(&mut world)?;
    }
    Ok(())
}

fn honest(world: &World) -> impl Iterator<Item = &Node> {
    world.plan.honest().map(|it| &world.nodes[it as usize])
}

fn carried(node: &Node) -> usize {
    let ended = node.store.iter().flat_map(|it| &it.ended);
    ended.map(|it| it.carried.len()).sum()
}

/// Sessions that have ended, and in which a replica did not come to their end by itself.
fn sessions_without_part(node: &Node) -> u32 {
    let Some(store) = &node.store else { return 0 };
    let has_log = |session: &u32| node.journals.contains_key(session);
    let without = (0..store.session()).filter(|it| !has_log(it)).count();
    without as u32 + store.closed
}

/// The moment from which on there are no faults and submissions.
fn quiet_at(plan: &Plan) -> Time {
    let faults = plan.faults.iter().map(|it| it.at + it.span);
    at_ms(faults.max().unwrap_or(0).max(plan.span))
}

/// How long the views take that all transactions need.
fn time_of_all(plan: &Plan) -> Duration {
    let view = MIN_VIEW + plan.latency * 3 + plan.sync * 2;
    view * (plan.count() as u32 / IN_A_VIEW)
}

/// Lets things happen until all is final everywhere.
fn play(world: &mut World, is_traced: bool) -> Result<(), Violation> {
    let mut traced_at = Time::default();
    let wanted = wanted(&world.plan);
    let quiet = quiet_at(&world.plan);
    let is_many = world.plan.is_many();
    let is_quick = world.plan.is_calm() && !is_many;
    let patience = if is_quick { CALM_PATIENCE } else { PATIENCE } + time_of_all(&world.plan);
    let mut end_at = quiet + many::END_EVERY;
    while world.step()? {
        if is_traced && world.now > traced_at + TRACE_EVERY {
            traced_at = world.now;
            print_state(world);
        }
        if world.now < quiet {
            continue;
        }
        let is_due = is_many && world.now > end_at;
        if (std::mem::take(&mut world.has_new) || is_due) && is_level(world, &wanted) {
            return Ok(());
        }
        if is_due {
            end_at = world.now + many::END_EVERY;
            for replica in 0..world.plan.n {
                world.end_session(replica)?;
            }
        }
        if world.now > quiet + patience {
            return Err(stuck(world, &wanted));
        }
    }
    Err(Violation("nothing happens any more".to_owned()))
}

/// Where the replicas stand.
fn print_state(world: &World) {
    println!("{:.2?}", world.now.since(Time::default()));
    for node in &world.nodes {
        let Some(process) = &node.process else {
            println!("  {} is down", node.place.me);
            continue;
        };
        if let Driver::Many(it) = &process.driver {
            let it = it.status(node.clock.local(world.now));
            println!(
                "  {} {} {} {} {}",
                node.place.me, it.session, it.stage, it.position, it.helps
            );
        }
        let Some(it) = process.driver.status(node.clock.local(world.now)) else { continue };
        let counts = it.counts.iter().filter(|it| it.value > 0);
        let counts: Vec<_> = counts.map(|it| format!("{it}: {}", it.value)).collect();
        println!(
            "  {} view {} commit {} batches {} pending {} queued {} given {} heard {}; {}",
            node.place.me,
            it.view,
            it.commit,
            it.batches,
            it.pending,
            it.queued,
            it.given,
            it.heard,
            counts.join(", ")
        );
    }
}

/// What has to be final: what an honest replica was given. Of transactions whose numbers are used
/// twice, those that it took.
fn wanted(plan: &Plan) -> HashSet<Tx> {
    let is_given = |it: &&Submission| it.to.is_none_or(|to| plan.is_honest(to));
    let given = plan.submissions.iter().filter(is_given).filter(|it| !it.is_double());
    given.flat_map(|it| &it.txs).copied().collect()
}

/// What is not final at a replica and has to be.
fn missing(world: &World, wanted: &HashSet<Tx>, node: &Node) -> usize {
    wanted.union(&world.doubles).filter(|it| !node.finals.contains(it)).count()
}

/// Whether all honest replicas run, and have the same list with all that is wanted.
fn is_level(world: &World, wanted: &HashSet<Tx>) -> bool {
    let count = honest(world).map(|it| it.batches.len()).max().unwrap_or(0);
    (!world.plan.is_many() || many::is_level(world))
        && honest(world).all(|it| {
            it.process.is_some() && it.batches.len() == count && missing(world, wanted, it) == 0
        })
}

fn stuck(world: &mut World, wanted: &HashSet<Tx>) -> Violation {
    let ids: Vec<u32> = world.plan.honest().collect();
    let mut text = String::from("not all is final:");
    for replica in ids {
        let missing = missing(world, wanted, &world.nodes[replica as usize]);
        let node = &mut world.nodes[replica as usize];
        let view = node.views();
        let is_up = node.process.is_some();
        text += &format!(
            " [{replica} up={is_up} session={} view={view} batches={} missing={missing}]",
            node.store.as_ref().map_or(0, Durable::session),
            node.batches.len()
        );
    }
    Violation(text)
}

#[cfg(test)]
mod tests {
    use super::*;
    use crate::plan::Edits;

    #[test]
    fn a_seed_determines_its_run() {
        let plan = Plan::new(2, &Edits { txs: Some(6), ..Edits::default() });
        let mode = Mode { is_audited: true, is_traced: false };
        let (one, other) = (run(&plan, mode), run(&plan, mode));
        assert_eq!(one.violation, None);
        assert!(one.audited > 0 && one.finals > 0);
        assert_eq!(
            (one.views, one.finals, one.happenings, one.took, one.audited),
            (other.views, other.finals, other.happenings, other.took, other.audited)
        );
    }

    #[test]
    fn a_lost_log_is_seen() {
        let plan = Plan::new(2, &Edits { txs: Some(6), ..Edits::default() });
        let mut world = World::new(plan).unwrap();
        while world.now < at_ms(150) {
            world.step().unwrap();
        }
        let until = world.now;
        world.crash(1, until);
        let half = world.nodes[1].log(0).len() / 2;
        world.nodes[1].disk.logs.get_mut(&0).unwrap().truncate(half);
        let found = (0..1000).find_map(|_| world.step().err());
        assert!(found.is_some_and(|it| it.0.contains("bytes acted on")));
    }
}
