//! The command `run`: opens a replica, serves its ports, and ends as its engine does.

use std::hash::{BuildHasher, Hasher};
use std::path::Path;
use std::sync::Arc;

use themis_engine::frame::Frame;
use tokio::net::TcpListener;
use tokio::signal::unix::{signal, SignalKind};
use tokio::sync::{oneshot, Semaphore};

use crate::batches::Batches;
use crate::client_port::ClientPort;
use crate::conduct::Conduct;
use crate::config::Setup;
use crate::exit::{Exit, Failure};
use crate::identity::ClientTrust;
use crate::input::{Inbox, Request};
use crate::keeper;
use crate::link::Link;
use crate::operator::OperatorPort;
use crate::peer_port::{PeerPort, MAX_WAITING};
use crate::sessions_worker::{owner, recover, SessionsWorker};
use crate::tls::Trust;
use crate::worker::{Shared, Worker};

/// A number from 0 to 1 that nobody can foresee.
pub fn jitter() -> f64 {
    let drawn = std::collections::hash_map::RandomState::new().build_hasher().finish();
    drawn as f64 / u64::MAX as f64
}

/// Runs the replica of a configuration until SIGTERM or SIGINT.
pub fn run<C: Conduct>(config: &Path) -> Result<(), Failure> {
    let setup = Arc::new(Setup::load(config)?);
    let refused = |cause| Failure::new(Exit::Config, format!("{}: {cause}", config.display()));
    let own = &setup.config;
    let conduct = C::of(&own.deeds, setup.place(), own.sessions).map_err(refused)?;
    let (trust, client_trust) = (Trust::new(&setup)?, ClientTrust::new(&setup)?);
    let replicas = || 0..setup.cluster.n;
    let found = setup.config.sessions.then(|| recover(&setup)).transpose()?;
    let batches = match &found {
        Some(found) => {
            let reader = keeper::reader(&setup.folder, &owner(&setup))?;
            Batches::over(reader, found.history.session.first)
        }
        None => Batches::new(),
    };
    let shared = Shared {
        links: replicas().map(|it| (it != setup.me()).then(|| Link::new(it))).collect(),
        slots: replicas().map(|_| Semaphore::new(MAX_WAITING)).collect(),
        batches: Arc::new(batches),
    };
    let worker = match found {
        Some(found) => {
            let opened = SessionsWorker::open(setup.clone(), shared.clone(), found, conduct)?;
            Work::Many(Box::new(opened))
        }
        None => Work::One(Box::new(Worker::open(setup.clone(), shared.clone(), conduct)?)),
    };
    let runtime = tokio::runtime::Builder::new_current_thread().enable_all().build();
    let runtime = runtime.map_err(|it| Failure::new(Exit::Fault, it))?;
    runtime.block_on(serve(&setup, (trust, client_trust), shared, worker))
}

/// The engine's thread: of one session, or of many.
enum Work<C: Conduct> {
    One(Box<Worker<C>>),
    Many(Box<SessionsWorker<C>>),
}

/// Opens the ports, and serves them next to the engine's thread until that ends.
async fn serve<C: Conduct>(
    setup: &Setup,
    (trust, client_trust): (Trust, ClientTrust),
    shared: Shared,
    worker: Work<C>,
) -> Result<(), Failure> {
    let network = |fault| Failure::new(Exit::Network, fault);
    let me = setup.me() as usize;
    let peer_listener = TcpListener::bind(setup.peers[me]).await.map_err(network)?;
    let client_listener = TcpListener::bind(setup.clients[me]).await.map_err(network)?;
    // The log is locked by now, so a socket that stands here is of a process that has ended.
    let operator_listener = OperatorPort::bind(&setup.operator_path())?;
    let mut terminated = signal(SignalKind::terminate()).map_err(network)?;
    let mut interrupted = signal(SignalKind::interrupt()).map_err(network)?;

    let (inbox, receiver) = Inbox::new();
    dial(setup, &trust, &shared, &inbox);
    let cluster = setup.cluster_digest();
    let (links, slots) = (shared.links, shared.slots);
    let peers = PeerPort::new(trust, inbox.clone(), links, cluster, slots);
    let number = (!setup.config.sessions).then_some(setup.cluster.session);
    let clients = ClientPort::new(client_trust, inbox.clone(), shared.batches, number);
    let operator = OperatorPort::new(inbox.clone(), setup.config.allow_faults);
    tokio::spawn(peers.run(peer_listener));
    tokio::spawn(clients.run(client_listener));
    tokio::spawn(operator.run(operator_listener));

    let (sender, mut ended) = oneshot::channel();
    let answers = inbox.clone();
    let work = move || {
        let result = match worker {
            Work::One(it) => it.run(&receiver),
            Work::Many(it) => it.run(&receiver, answers),
        };
        // Where nobody waits for the result, the process has ended.
        let _ = sender.send(result);
    };
    let thread = std::thread::Builder::new().name("engine".to_owned()).spawn(work);
    thread.map_err(|it| Failure::new(Exit::Fault, it))?;
    loop {
        tokio::select! {
            _ = terminated.recv() => inbox.put(Request::Stop),
            _ = interrupted.recv() => inbox.put(Request::Stop),
            result = &mut ended => {
                let gone = || Err(Failure::new(Exit::Fault, "the engine's thread has ended"));
                return result.unwrap_or_else(|_| gone());
            }
        }
    }
}

/// Connects to all peers, for ever.
fn dial(setup: &Setup, trust: &Trust, shared: &Shared, inbox: &Inbox) {
    let hello = Frame::Hello { session: setup.cluster_digest(), replica: setup.me() }.encode();
    for peer in setup.place().others() {
        let (links, at) = (shared.links.clone(), setup.peers[peer as usize]);
        let (hello, trust, inbox) = (hello.clone(), trust.clone(), inbox.clone());
        tokio::spawn(async move {
            if let Some(link) = &links[peer as usize] {
                link.run(at, &hello, &trust, &inbox).await;
            }
        });
    }
}
