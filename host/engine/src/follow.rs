//! What the host does after a turn of the core.

use themis::{Error, Message, Reason};

use crate::core::{Core, Delivered, Event};
use crate::engine::Engine;
use crate::guards::is_fault;
use crate::time::Time;
use crate::wire::{self, Kind};

impl<C: Core> Engine<C> {
    /// The sends go first, since others wait for them.
    pub(crate) fn follow_turn(
        &mut self,
        event: &Event,
        reason: Reason,
        now: Time,
    ) -> Result<(), Error> {
        let (old_view, old_commit) = (self.core.view, self.core.commit);
        if reason == Reason::Done && self.core.look()? {
            self.intake.chain_changed();
        }
        let has_committed = self.core.commit != old_commit;
        let makes_final =
            has_committed && !self.is_cut() && self.core.core.batch_count()? > self.finals.taken;
        if makes_final {
            self.finals.view = self.core.view;
            self.shown.made_final(self.core.commit);
        }
        if self.core.view != old_view {
            self.pace.view_changed(now);
        }
        let sends = self.core.core.sends()?;
        let fetched: Vec<_> =
            sends.iter().filter_map(|it| wire::fetched_digest(&it.bytes)).collect();
        self.send_turn(sends, makes_final, now);
        if let (Event::Arrived(txs), Some(session)) = (event, &mut self.session) {
            session.has_arrived(txs);
        }
        if let Event::Delivered(it) = event {
            self.follow_message(it, reason, fetched, now)?;
            if self.core.view != old_view {
                self.pacemaker.view_changed(now);
            }
        }
        if has_committed {
            self.commit_at = now;
            self.pacemaker.committed();
        }
        if makes_final {
            self.take_batches()?;
        }
        if (self.core.view, self.core.commit) != (old_view, old_commit) {
            self.report(now)?;
        }
        Ok(())
    }

    fn send_turn(&mut self, sends: Vec<Message>, makes_final: bool, now: Time) {
        let is_proposal =
            sends.first().is_some_and(|it| wire::kind_of(&it.bytes) == Some(Kind::Propose));
        if is_proposal {
            self.hold.put(sends, makes_final);
        } else {
            self.send_all(sends, now);
        }
        self.release(now);
    }

    /// `fetched` are the digests of the blocks that the core asks for.
    fn follow_message(
        &mut self,
        it: &Delivered,
        reason: Reason,
        fetched: Vec<[u8; 32]>,
        now: Time,
    ) -> Result<(), Error> {
        let kind = wire::kind_of(&it.data);
        if reason == Reason::Done {
            self.follow_accepted(it, kind, now)?;
        } else if reason == Reason::Orphan {
            self.follow_orphan(it, kind, fetched, now);
        }
        if let Some(view) = wire::given_view(&it.data) {
            self.follow_give(it, view, reason);
        }
        if it.from != self.place.me && reason != Reason::Done {
            self.follow_refused(it, kind, reason, now);
        }
        Ok(())
    }

    fn follow_accepted(
        &mut self,
        it: &Delivered,
        kind: Option<Kind>,
        now: Time,
    ) -> Result<(), Error> {
        if !matches!(kind, Some(Kind::Order | Kind::Vote | Kind::Fetch)) {
            self.intake.chain_changed();
        }
        let Some(views) = wire::block_views(&it.data) else { return Ok(()) };
        self.shown.store(Some(views));
        self.blocks.accepted(views.view);
        if kind == Some(Kind::Propose) {
            self.hold.proposed(now);
            wire::proposed_block(&it.data).into_iter().for_each(|it| self.given.know(it));
        }
        self.intake.block_accepted(self.core.core.desk(), &it.data)?;
        let due = self.orphans.take(views.view);
        self.turns.retry.extend(due);
        Ok(())
    }

    /// A message needs a block that is missing.
    fn follow_orphan(
        &mut self,
        it: &Delivered,
        kind: Option<Kind>,
        fetched: Vec<[u8; 32]>,
        now: Time,
    ) {
        self.orphans.keep(it);
        if kind == Some(Kind::Vote) {
            return;
        }
        // What the core asks for now is certified.
        for digest in fetched {
            self.given.ask(digest);
        }
        if it.from != self.place.me {
            let reached = self.peers.commit_reached();
            let commit = self.core.commit;
            let request = self.catch_up.follow_orphan(it.from, commit, reached, now);
            self.request_blocks(request.as_ref());
        }
    }

    fn follow_give(&mut self, it: &Delivered, view: u32, reason: Reason) {
        let block = wire::given_block(&it.data);
        if reason == Reason::Done {
            self.given.store(it.from, block);
        }
        let is_known = matches!(reason, Reason::Done | Reason::Repeat);
        // A block that the core asked for by a Fetch says nothing of a request.
        if is_known || !self.given.was_asked(block) {
            self.catch_up.take(it.from, view, is_known);
        }
    }

    fn follow_refused(&mut self, it: &Delivered, kind: Option<Kind>, reason: Reason, now: Time) {
        let Delivered { from, ref data } = *it;
        self.allowances[from as usize].refused(kind, reason, data.len(), now);
        if kind == Some(Kind::Propose) {
            self.counters.proposal_refused(from, reason);
        }
        if is_fault(reason) {
            self.counters.peers[from as usize].refused += 1;
        }
    }
}
