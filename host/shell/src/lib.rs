//! The program `themisd`: one replica of a Themis cluster, and what its operator needs. It is a library
//! so that another program, for tests, runs the same replica with another [`Conduct`].
//!
//! A running replica has two threads. One has the engine, the core and the log (`worker`, or
//! `sessions_worker` where sessions follow one another); the main one runs tokio, which serves the
//! sockets. They share bounded queues alone: `input`, `link`, `batches`. Up to three more check seals for
//! the first (`seal_threads`). With sessions there are more: the `keeper`, which has the store, one that
//! begins the next session ahead (`cores`), and the `exporter`; and tokio reads the store in threads of its
//! own. No proof covers this crate.

mod account;
mod batches;
mod certificate;
mod client_port;
mod conduct;
mod config;
mod connections;
mod cores;
mod exit;
mod exporter;
mod fault;
mod http;
mod identity;
mod init;
mod input;
mod join;
mod keeper;
mod latency;
mod link;
mod log;
mod metrics;
mod new_file;
mod observed;
mod operator;
mod peer_port;
mod picture;
mod predecessor;
mod read_frame;
mod receipt_log;
mod recovery;
mod refusal;
mod rejoin;
mod replace;
mod report;
mod run;
mod seal_threads;
mod session_logs;
mod sessions_worker;
mod sys;
mod timed;
mod tls;
mod whole_log;
mod worker;

use std::path::PathBuf;
use std::process::ExitCode;

use clap::{CommandFactory, FromArgMatches, Parser, Subcommand};

pub use crate::conduct::{Conduct, Honest, Opened};
pub use crate::timed::Timed;

use crate::exit::Failure;
use crate::init::Wanted;
use crate::join::Setting;

/// One replica of a Themis cluster, and what its operator needs.
///
/// docs/SERVICE.md has the exit statuses, and what each key of a configuration means.
#[derive(Parser)]
#[command(name = "themisd", version)]
struct Arguments {
    #[command(subcommand)]
    command: Command,
}

#[derive(Subcommand)]
enum Command {
    /// Run a replica, until SIGTERM or SIGINT.
    ///
    /// It needs its configuration, and the files that this names: what all replicas share, its
    /// secret, its TLS key, and its store or its log. It writes its own logs of events there, and to
    /// standard error a JSON object for each thing that an operator should know.
    Run {
        /// The replica's configuration, in TOML.
        config: PathBuf,
        /// Report each connection too.
        #[arg(long)]
        verbose: bool,
        /// Stop when the process that started this one ends (Linux).
        #[arg(long)]
        with_parent: bool,
    },
    /// Make a replica's own secret, its TLS key and certificate, and its public part.
    ///
    /// It needs the command `openssl`. Give the public part (REPLICA.public.toml) to the others; the
    /// secret and the TLS key stay on this machine. No file is overwritten.
    Init(Wanted),
    /// Make what a replica of a new cluster needs besides: from the public parts of all replicas.
    ///
    /// With --after the new cluster continues the list of another one, which has ended: its members, f,
    /// gamma, views and the height of keys may be others.
    ///
    /// It needs what `init` has made for this replica, the public parts of all replicas, and the
    /// certificate of the authority that signs those of clients. It writes the file that all replicas
    /// share (cluster.toml), the certificates, the replica's configuration, and its store (or, for one
    /// session alone, its empty log). Each operator calls it with the same parts and the same setting;
    /// compare what it prints, which names the cluster. No file is overwritten.
    Join(Setting),
    /// Make a new store for a replica that lost its own, or on a new machine that takes its place.
    ///
    /// It needs the secret and the TLS key of the replica, or new ones that `init` has made on a new
    /// machine, and from any other operator cluster.toml, the certificates and client_authority.crt.
    /// It writes the store, and the configuration where it is missing. Move what is left of the lost
    /// store and its logs away before. The replica takes no part in sessions in which it may have
    /// signed before, and in the next one it does. Never use the old machine or its files again.
    Rejoin(rejoin::Wanted),
    /// Take over the address and the certificate of a replica from its new public part.
    ///
    /// For each operator, where a replica has got a new machine, address or certificate: then start
    /// this machine's replica again. What names the cluster stays as it is.
    Replace(replace::Wanted),
    /// Write what an audit needs of one session of this replica, without any secret.
    ///
    /// Where sessions follow one another, the replica may run: a session that has ended has its
    /// account as soon as no replica needs its log any more. For one session alone, or a session that
    /// has not come so far, the replica has to be stopped. Where no account is there yet, the command
    /// plays the log again, which takes as long as a start. It prints lines of JSON.
    Account {
        /// The replica's configuration.
        config: PathBuf,
        /// Which one, where sessions follow one another.
        #[arg(long)]
        session: Option<u32>,
        /// Stop when the process that started this one ends (Linux).
        #[arg(long, hide = true)]
        with_parent: bool,
    },
    /// Print where a running replica stands, as a line of JSON.
    ///
    /// It needs the configuration of a replica that runs on this machine, and has to be called by
    /// the same user. It ends with 0 if the replica is healthy, with 11 if it is not (the key `fault`
    /// says why), and with 8 if it does not answer.
    Status {
        /// The replica's configuration.
        config: PathBuf,
    },
    /// Have the running session end.
    ///
    /// Where sessions follow one another, the next one starts by itself once more than f replicas
    /// were asked; nothing stops. The order names the session in which the replica is, and ends no
    /// other one. For one session alone, the replica takes no more transactions: once
    /// all replicas are closed, wait until their statuses have equal digests and nothing pending. It
    /// needs what `status` needs.
    Close {
        /// The replica's configuration.
        config: PathBuf,
    },
}

/// The program with that conduct.
pub fn main_of<C: Conduct>() -> ExitCode {
    let mut matches = Arguments::command().name(C::NAME).get_matches();
    let given = Arguments::from_arg_matches_mut(&mut matches).unwrap_or_else(|it| it.exit());
    let done = match given.command {
        Command::Run { config, verbose, with_parent } => {
            if with_parent {
                sys::stop_with_parent();
            }
            sys::keep_memory_level();
            report::set_up(verbose);
            return logged(run::run::<C>(&config));
        }
        Command::Init(wanted) => init::make(&wanted),
        Command::Join(setting) => join::make(&setting),
        Command::Rejoin(wanted) => rejoin::make(&wanted),
        Command::Replace(wanted) => replace::make(&wanted),
        Command::Account { config, session, with_parent } => {
            if with_parent {
                sys::stop_with_parent();
            }
            account::print(&config, session)
        }
        Command::Status { config } => operator::print_status(&config),
        Command::Close { config } => operator::close(&config),
    };
    match done {
        Ok(()) => ExitCode::SUCCESS,
        Err(failure) => {
            eprintln!("{}: {failure}", C::NAME);
            ExitCode::from(failure.exit as u8)
        }
    }
}

/// How a replica ended, as a line of its log and as a status.
fn logged(ended: Result<(), Failure>) -> ExitCode {
    match ended {
        Ok(()) => {
            tracing::info!("stopped");
            ExitCode::SUCCESS
        }
        Err(failure) => {
            let status = failure.exit as u8;
            tracing::error!(status, cause = %failure, "ended");
            ExitCode::from(status)
        }
    }
}
