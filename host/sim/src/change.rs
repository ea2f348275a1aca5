//! What engines ask for over sessions, and how it is done: stores, logs and keys.

use std::time::Duration;

use rand::Rng;
use themis::{Error, Replica};
use themis_engine::sessions::doubles::Search;
use themis_engine::sessions::requests::{Mark, OpenLog, Recover, SitOut, Store};
use themis_engine::sessions::{Input, Read};

use crate::driver::Driver;
use crate::keys::own_key;
use crate::node::{Node, Violation};
use crate::queue::Happening;
use crate::tapped::Played;
use crate::world::World;

/// Something that an engine asked for.
pub enum Request {
    /// See [`themis_engine::sessions::Output`]; the same below.
    Store(Store),
    /// Makes a log.
    OpenLog(OpenLog),
    /// Marks it.
    Mark(Mark),
    /// Opens a log that was marked.
    Recover(Recover),
    /// Stores what is sat out.
    SitOut(SitOut),
    /// Makes a key.
    GrowKey(u32),
    /// Reads for a peer.
    Read(Read),
    /// Searches for transactions.
    Search(Search),
}

/// The steps of a change of session.
#[derive(Clone, Copy, Debug, PartialEq, Eq)]
pub enum Step {
    /// The cut is stored.
    Store,
    /// The log is made.
    Open,
    /// It is marked.
    Mark,
    /// It is opened again after a start.
    Recover,
}

impl Request {
    fn step(&self) -> Option<Step> {
        match self {
            Request::Store(_) => Some(Step::Store),
            Request::OpenLog(_) => Some(Step::Open),
            Request::Mark(_) => Some(Step::Mark),
            Request::Recover(_) => Some(Step::Recover),
            Request::SitOut(_) | Request::GrowKey(_) | Request::Read(_) | Request::Search(_) => {
                None
            }
        }
    }

    /// The longest time that it takes, in milliseconds.
    fn longest(&self) -> u32 {
        match self {
            Request::Store(_) | Request::OpenLog(_) | Request::Mark(_) | Request::SitOut(_) => 8,
            Request::Recover(_) | Request::GrowKey(_) => 40,
            Request::Read(_) | Request::Search(_) => 2,
        }
    }
}

impl World {
    /// An engine asks for something: it is done a while later.
    pub(crate) fn ask(&mut self, replica: u32, request: Request) {
        let takes = Duration::from_micros(self.rng.gen_range(50..request.longest() * 1000).into());
        let number = self.queue.count();
        let node = &mut self.nodes[replica as usize];
        if let Some(process) = &mut node.process {
            process.requests.insert(number, request);
            self.queue.put(self.now + takes, replica, node.incarnation, Happening::Done(number));
        }
    }

    /// The operator of a replica asks it to end its session.
    pub(crate) fn end_session(&mut self, replica: u32) -> Result<(), Violation> {
        let node = &mut self.nodes[replica as usize];
        if let Some(Driver::Many(it)) = node.process.as_mut().map(|it| &mut it.driver) {
            // While the sessions change there may be none that could end: the operator asks again.
            let _ = it.end(None);
        }
        self.drive(replica)
    }

    /// It is done, unless the process ends before or after.
    pub(crate) fn done(&mut self, replica: u32, number: u64) -> Result<(), Violation> {
        let node = &mut self.nodes[replica as usize];
        let request = node.process.as_mut().and_then(|it| it.requests.remove(&number));
        let Some(request) = request else { return Ok(()) };
        let armed = node.armed_step.filter(|(step, _)| Some(*step) == request.step());
        let back = self.now + Duration::from_millis(self.rng.gen_range(20..500));
        if let Some((_, is_after)) = armed {
            node.armed_step = None;
            if is_after {
                drop(node.perform(request)?);
            } else if let Request::OpenLog(it) = &request {
                // A part of the header is durable.
                node.disk.logs.insert(it.session(), vec![1; 30]);
            }
            self.crash(replica, back);
            return Ok(());
        }
        let input = node.perform(request)?;
        let local = node.clock.local(self.now);
        if let (Some(input), Some(process)) = (input, &mut node.process) {
            if let Driver::Many(it) = &mut process.driver {
                it.take(input, local)?;
            }
        }
        self.drive(replica)
    }
}

impl Node {
    /// Does what was asked, durably.
    fn perform(&mut self, request: Request) -> Result<Option<Input<Played>>, Violation> {
        let me = self.place.me;
        Ok(match request {
            Request::GrowKey(session) => Some(Input::Key { session, key: own_key(me, session) }),
            Request::Read(read) => {
                self.store.as_ref().and_then(|it| it.read(read)).map(Input::Found)
            }
            Request::Search(it) => {
                self.store.as_ref().map(|store| Input::Searched(store.search(it)))
            }
            Request::Store(it) => {
                if let Some(store) = &mut self.store {
                    store.store(&it);
                }
                Some(Input::Stored(it.stored()))
            }
            Request::OpenLog(it) => Some(self.open_log(it)?),
            Request::Mark(it) => {
                if let Some(store) = &mut self.store {
                    store.mark(&it);
                }
                Some(Input::Marked(it.marked()))
            }
            Request::Recover(it) => Some(self.recover(it)?),
            Request::SitOut(it) => {
                if let Some(store) = &mut self.store {
                    store.sit_out(&it);
                }
                Some(Input::SatOut(it.stored()))
            }
        })
    }

    /// Makes a log. What is there of it has no record.
    fn open_log(&mut self, it: OpenLog) -> Result<Input<Played>, Violation> {
        let session = it.session();
        if self.journals.get(&session).is_some_and(|it| !it.borrow().entries.is_empty()) {
            return Err(Violation(format!("the log of session {session} is made again")));
        }
        let mut replica: Replica = match self.opened(session, &[]) {
            Ok((replica, _)) => replica,
            // A faulty replica has shown another key.
            Err(Error::WrongSecret) if self.deeds.is_some() => {
                return Ok(Input::Opened(it.other_key()));
            }
            Err(fault) => return Err(fault.into()),
        };
        let header = replica.header()?.to_vec();
        self.journal(session).borrow_mut().acted = header.len();
        self.disk.logs.insert(session, header);
        let core = self.tapped(session, replica)?;
        Ok(Input::Opened(it.opened(core)))
    }

    fn recover(&mut self, it: Recover) -> Result<Input<Played>, Violation> {
        let session = it.session();
        if !self.disk.logs.contains_key(&session) {
            return Ok(Input::Recovered(it.lost()));
        }
        let (core, header) = self.recovered(session)?;
        let log = self.log(session).to_vec();
        Ok(Input::Recovered(it.recovered(core, log, header)))
    }
}
