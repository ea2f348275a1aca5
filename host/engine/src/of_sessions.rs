//! What an engine does for [`crate::sessions`]: it ends, and hands over what waits.

use themis::{Error, Standing, Tx};

use crate::clients::Clients;
use crate::core::{Core, Desk};
use crate::engine::Engine;
use crate::intake::Waiting;
use crate::sessions::doubles::{Search, Searched};
use crate::sessions::keys::PublicKey;
use crate::sessions::running::Session;
use crate::time::Time;
use crate::window::Check;

impl<C: Core> Engine<C> {
    /// The session that it runs.
    pub fn session(&self) -> Option<&Session> {
        self.session.as_ref()
    }

    /// How many transactions want to be final. After the cut of a session none does.
    pub(crate) fn wanting(&self) -> usize {
        if self.is_cut() {
            0
        } else {
            self.intake.pending()
        }
    }

    /// Whether the session is cut. What comes after that is void.
    pub fn is_cut(&self) -> bool {
        self.session.as_ref().is_some_and(Session::is_cut)
    }

    /// What was carried over arrives again: before anything else, where sessions follow one another,
    /// if it has not arrived by the log. It came with the first arrivals, so all of it or none has.
    pub(crate) fn carry(&mut self, carried: Vec<Tx>) -> Result<(), Error> {
        match &self.session {
            None => drop(self.intake.submit(self.core.core.desk(), &carried)?),
            Some(session) if session.arrived().is_empty() && !carried.is_empty() => {
                self.intake.restore(self.core.core.desk(), &carried)?;
                self.intake.restored(self.core.core.desk())?;
                self.first = carried;
            }
            Some(_) => {}
        }
        Ok(())
    }

    /// What the core sent in a turn that was made ahead of the session.
    pub(crate) fn send_first(&mut self, now: Time) -> Result<(), Error> {
        let sends = self.core.core.sends()?;
        self.send_all(sends, now);
        Ok(())
    }

    /// The operator wants the session to end.
    pub(crate) fn want_end(&mut self) {
        if let Some(session) = &mut self.session {
            session.want_end();
        }
    }

    /// A peer says that it has no part in the session.
    pub(crate) fn note_out(&mut self, peer: u32) {
        if let Some(session) = &mut self.session {
            session.note_out(peer);
        }
    }

    /// The own key of the next session is to be announced.
    pub(crate) fn announce_key(&mut self, key: &PublicKey) {
        if let Some(session) = &mut self.session {
            session.announce(key);
        }
    }

    /// Whether a client's transaction may be taken. What is known here is.
    pub fn check(&mut self, tx: &Tx) -> Result<Check, Error> {
        let check = self.session.as_ref().map_or(Check::New, |it| it.check(tx));
        let is_known = check != Check::New
            && check != Check::Reserved
            && self.core.core.desk().standing(tx)? != Standing::Unknown;
        Ok(if is_known { Check::New } else { check })
    }

    /// What the store is asked now: whether transactions that peers report are final.
    pub(crate) fn search(&mut self, now: Time) -> Option<Search> {
        self.session.as_mut()?.search(now)
    }

    /// What is not final is received as any other. While receipts are not stamped it is dropped, and
    /// peers report it again.
    pub(crate) fn take_searched(&mut self, searched: Searched) -> Result<(), Error> {
        let Some(session) = &mut self.session else { return Ok(()) };
        let open = session.take_searched(searched);
        if self.intake.is_open() {
            for (peer, receipt) in open {
                self.intake.hear_receipts(self.core.core.desk(), peer, &[receipt])?;
            }
        }
        Ok(())
    }

    /// Chains all final batches.
    pub(crate) fn digest(&self) -> [u8; 32] {
        self.finals.digest
    }

    /// Final batches that were put out.
    pub(crate) fn final_count(&self) -> usize {
        self.finals.taken
    }

    /// Final batches, and the view of the committed block.
    pub(crate) fn progress(&self) -> (usize, u32) {
        (self.finals.taken, self.core.commit)
    }

    /// Whether no event is prepared or waits for its turn.
    pub(crate) fn is_idle(&self) -> bool {
        self.turns.is_idle()
    }

    /// No message of a peer waits any more.
    pub(crate) fn drop_messages(&mut self) {
        self.inbox.clear();
    }

    /// What was received and has not arrived, and the clients that wait for it.
    pub(crate) fn take_waiting(&mut self) -> Result<(Vec<Waiting>, Clients), Error> {
        self.answer_clients()?;
        let waiting = self.intake.waiting(self.core.core.desk())?;
        let is_of_client = |it: &Waiting| !crate::sessions::reserved::is_reserved(it.tx.client);
        let waiting = waiting.into_iter().filter(is_of_client).collect();
        Ok((waiting, std::mem::take(&mut self.clients)))
    }

    /// What waited in the session before, and its clients.
    pub(crate) fn resume(&mut self, waiting: &[Waiting], clients: Clients) -> Result<(), Error> {
        self.clients = clients;
        self.intake.resume(self.core.core.desk(), waiting)?;
        self.refuse_what_found_no_room();
        Ok(())
    }
}
