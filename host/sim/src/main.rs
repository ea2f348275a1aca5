//! Simulates clusters of Themis by the thousand: `themis-sim --seeds 1..500 --jobs 2`.
//!
//! A seed determines a whole run: n engines over the real core in one process, in virtual time, with
//! a network and disks that fail, and in some runs a faulty replica. After each run it is checked
//! that the honest replicas agree, that no transaction is final twice, that all is final once faults
//! have stopped, that nothing passes what all received before, that no leaf sealed two statements,
//! that what an engine holds is bounded, and, for some runs, that the proved audit finds nothing. A
//! run that fails prints the line that repeats it.

mod chain;
mod change;
mod checks;
mod clients;
mod clock;
mod delivery;
mod disk;
mod driver;
mod faults;
mod figures;
mod keys;
mod many;
mod network;
mod node;
mod opened;
mod plan;
mod process;
mod queue;
mod receipts;
mod run;
mod shrink;
mod starts;
mod store;
mod sys;
mod tapped;
mod trace;
mod views;
mod world;

use std::io::Result;
use std::ops::Range;
use std::process::ExitCode;
use std::time::{Duration, Instant};

use clap::{Parser, ValueEnum};
use themis_deeds::Deed;

use crate::plan::{Edits, Plan, Scenario};
use crate::run::{Mode, Report};
use crate::shrink::shrink;

/// Simulates clusters of Themis.
#[derive(Parser)]
#[allow(clippy::struct_excessive_bools)] // as the command line has them
struct Arguments {
    /// Seeds FIRST..END, without END; or one seed.
    #[arg(long, default_value = "1..101")]
    seeds: String,
    /// Runs at a time.
    #[arg(long, default_value_t = 1)]
    jobs: usize,
    /// Starts no run after so many seconds; seeds that are left are not run.
    #[arg(long)]
    within: Option<u64>,
    /// Starts no run once one has failed.
    #[arg(long)]
    first: bool,
    /// The proved audit checks each run whose seed this divides; 0: none.
    #[arg(long, default_value_t = 10)]
    audit_every: u64,
    /// Prints each run.
    #[arg(long)]
    verbose: bool,
    /// Prints the plan of each seed.
    #[arg(long)]
    show: bool,
    /// Prints where replicas stand, five times a second.
    #[arg(long)]
    trace: bool,
    /// Makes the first run that fails smaller.
    #[arg(long)]
    shrink: bool,
    /// Leaves out these faults of the plan.
    #[arg(long, value_delimiter = ',')]
    drop: Vec<usize>,
    /// Leaves out these deeds of the plan.
    #[arg(long, value_delimiter = ',')]
    drop_deeds: Vec<usize>,
    /// Takes only that many transactions of the plan.
    #[arg(long)]
    txs: Option<usize>,
    /// The faulty replica does this, and not what the seed draws.
    #[arg(long, value_delimiter = ',')]
    deeds: Vec<Deed>,
    /// Submits that many more transactions at the start.
    #[arg(long, default_value_t = 0)]
    burst: u32,
    /// Submits that many others to each replica alone at the start.
    #[arg(long, default_value_t = 0)]
    spread: u32,
    /// At least that many sessions follow one another; 0: one session alone.
    #[arg(long, default_value_t = 0)]
    sessions: u32,
    /// Each run is one of those with more faults and transactions.
    #[arg(long)]
    long: bool,
    /// To check a seal takes a replica that many microseconds of virtual time.
    #[arg(long, default_value_t = 0)]
    seal_us: u32,
    /// One session alone: the run has this scenario, and not one by chance.
    #[arg(long)]
    scenario: Option<Scenario>,
    /// Runs no seeds. Prints latency and throughput with these delays between any two replicas, in
    /// milliseconds, where nothing is faulty.
    #[arg(long, value_delimiter = ',')]
    delays: Vec<f64>,
    /// With --delays: transactions a second.
    #[arg(long, value_delimiter = ',', default_values_t = [1, 100, 1000, 4000])]
    rates: Vec<u32>,
    /// Over sessions: a replica loses its store, which is made again.
    #[arg(long)]
    lose_store: bool,
}

/// What all runs came to.
#[derive(Default)]
struct Total {
    runs: u64,
    failed: Vec<u64>,
    views: u64,
    sessions: u64,
    out: u64,
    carried: usize,
    finals: usize,
    with_jumps: u64,
    jumps: usize,
    common: usize,
    with_given: u64,
    audited: u64,
    virtual_time: Duration,
    used: Duration,
}

fn main() -> ExitCode {
    let given = Arguments::parse();
    if !given.delays.is_empty() {
        return print_figures(&given);
    }
    let Some((first, end)) = range_of(&given.seeds) else {
        eprintln!("themis-sim: no seeds: {}", given.seeds);
        return ExitCode::from(2);
    };
    let start = Instant::now();
    let total = match run_all(&given, first..end, start) {
        Ok(total) => total,
        Err(fault) => {
            eprintln!("themis-sim: {fault}");
            return ExitCode::from(2);
        }
    };
    print_total(&total, start.elapsed());
    if let (true, Some(seed)) = (given.shrink, total.failed.iter().min()) {
        print_smaller(*seed, given.edits());
    }
    if total.failed.is_empty() {
        ExitCode::SUCCESS
    } else {
        ExitCode::from(9)
    }
}

fn print_figures(given: &Arguments) -> ExitCode {
    let seal_cost = Duration::from_micros(u64::from(given.seal_us));
    for delay in given.delays.iter().map(|it| Duration::from_secs_f64(it / 1000.0)) {
        for rate in &given.rates {
            match figures::measure(&figures::Asked { delay, rate: *rate, seal_cost }) {
                Ok(figures) => println!("{figures}"),
                Err(fault) => {
                    eprintln!("themis-sim: {}", fault.0);
                    return ExitCode::from(9);
                }
            }
        }
    }
    ExitCode::SUCCESS
}

fn print_smaller(seed: u64, edits: Edits) {
    let mode = Mode { is_audited: true, is_traced: false };
    let edits = shrink(seed, mode, edits);
    let report = process::run(&Plan::new(seed, &edits), mode);
    println!("smaller: {}", line_of(seed, &edits));
    println!("  {}", report.violation.unwrap_or_default());
}

/// Runs the seeds, some at a time.
fn run_all(given: &Arguments, seeds: Range<u64>, start: Instant) -> Result<Total> {
    let is_late = || given.within.is_some_and(|it| start.elapsed() > Duration::from_secs(it));
    let (mut total, mut left) = (Total::default(), seeds);
    let (mut children, mut plans) = (Vec::new(), Vec::new());
    loop {
        let is_done = is_late() || given.first && !total.failed.is_empty();
        while children.len() < given.jobs.max(1) && !is_done {
            let Some(seed) = left.next() else { break };
            let plan = Plan::new(seed, &given.edits());
            if given.show {
                println!("{plan:#?}");
            }
            children.push(process::start(&plan, given.mode(seed))?);
            plans.push(plan);
        }
        if children.is_empty() {
            return Ok(total);
        }
        let (at, ended) = sys::wait(&mut children)?;
        total.add(given, &plans.remove(at), &process::report(&ended));
    }
}

impl Arguments {
    fn edits(&self) -> Edits {
        Edits {
            drop: self.drop.clone(),
            drop_deeds: self.drop_deeds.clone(),
            txs: self.txs,
            deeds: self.deeds.clone(),
            burst: self.burst,
            spread: self.spread,
            sessions: self.sessions,
            long: self.long,
            seal_cost: self.seal_us,
            lose_store: self.lose_store,
            scenario: self.scenario,
        }
    }

    fn mode(&self, seed: u64) -> Mode {
        let is_audited = self.audit_every > 0 && seed % self.audit_every == 0;
        Mode { is_audited, is_traced: self.trace }
    }
}

fn range_of(text: &str) -> Option<(u64, u64)> {
    match text.split_once("..") {
        Some((first, end)) => Some((first.parse().ok()?, end.parse().ok()?)),
        None => text.parse().ok().map(|it: u64| (it, it + 1)),
    }
}

/// The command that repeats a run.
fn line_of(seed: u64, edits: &Edits) -> String {
    let list = |items: &[usize]| items.iter().map(usize::to_string).collect::<Vec<_>>().join(",");
    let mut out = format!("themis-sim --seeds {seed} --audit-every 1");
    if !edits.drop.is_empty() {
        out += &format!(" --drop {}", list(&edits.drop));
    }
    if !edits.drop_deeds.is_empty() {
        out += &format!(" --drop-deeds {}", list(&edits.drop_deeds));
    }
    if !edits.deeds.is_empty() {
        let names: Vec<_> = edits.deeds.iter().map(Deed::to_string).collect();
        out += &format!(" --deeds {}", names.join(","));
    }
    if edits.burst > 0 {
        out += &format!(" --burst {}", edits.burst);
    }
    if edits.spread > 0 {
        out += &format!(" --spread {}", edits.spread);
    }
    if edits.sessions > 0 {
        out += &format!(" --sessions {}", edits.sessions);
    }
    if edits.long {
        out += " --long";
    }
    if edits.seal_cost > 0 {
        out += &format!(" --seal-us {}", edits.seal_cost);
    }
    if edits.lose_store {
        out += " --lose-store";
    }
    if let Some(name) = edits.scenario.and_then(|it| it.to_possible_value()) {
        out += &format!(" --scenario {}", name.get_name());
    }
    if let Some(txs) = edits.txs {
        out += &format!(" --txs {txs}");
    }
    out
}

impl Total {
    /// Takes what a run came to.
    fn add(&mut self, given: &Arguments, plan: &Plan, report: &Report) {
        if given.verbose {
            print_run(plan, report);
        }
        self.runs += 1;
        self.views += u64::from(report.views);
        self.sessions += u64::from(report.sessions);
        self.out += u64::from(report.taken);
        self.carried += report.carried;
        self.finals += report.finals;
        self.jumps += report.jumps;
        self.with_jumps += u64::from(report.jumps > 0);
        self.common += report.common;
        self.with_given += u64::from(report.given > 0);
        self.audited += u64::from(report.audited > 0);
        self.virtual_time += report.took;
        self.used += report.used;
        if let Some(violation) = &report.violation {
            println!("FAILED {}\n  {violation}", line_of(plan.seed, &given.edits()));
            self.failed.push(plan.seed);
        }
    }
}

fn print_run(plan: &Plan, report: &Report) {
    println!(
        "seed {} n={} sessions={} latency={:?} faults={} deeds={:?} views={} final={} common={} carried={} taken={} given={} jumps={} events={} ticks={} gap={:.0?} time={:.1?} late={:.1?} used={:.2?}",
        plan.seed, plan.n, report.sessions, plan.latency, plan.faults.len(), plan.deeds, report.views, report.finals,
        report.common, report.carried, report.taken, report.given, report.jumps, report.happenings, report.ticks, report.gap,
        report.took, report.late, report.used,
    );
}

fn print_total(total: &Total, took: Duration) {
    println!(
        "{} runs, {} failed; {} sessions, {} of them taken from others, {} transactions carried over; {} views, \
         {} transactions final, {} runs audited; \
         {} received by all, {} pairs jump in {} runs, {} runs gave way; \
         {:.0?} of their own time in {:.1?}; {:.0?} of a processor in all, {:.2?} for each",
        total.runs,
        total.failed.len(),
        total.sessions,
        total.out,
        total.carried,
        total.views,
        total.finals,
        total.audited,
        total.common,
        total.jumps,
        total.with_jumps,
        total.with_given,
        total.virtual_time,
        took,
        total.used,
        total.used / u32::try_from(total.runs.max(1)).unwrap_or(u32::MAX),
    );
}
