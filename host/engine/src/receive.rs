//! What peers and clients bring, past the guards.

use bytes::Bytes;
use themis::{Error, Standing, Tx};

use crate::catch_up::MAX_BLOCKS;
use crate::clients::{Answer, Ticket};
use crate::core::{Core, Desk};
use crate::engine::{Engine, Input, Output};
use crate::frame::Frame;
use crate::guards::is_fit;
use crate::time::Time;
use crate::wire;

impl<C: Core> Engine<C> {
    /// Takes what happened. What it leads to comes with [`Engine::prepare`] and the turns.
    pub fn take(&mut self, input: Input, now: Time) -> Result<(), Error> {
        match input {
            Input::Frame { peer, frame, room } => self.hear(peer, frame, room, now)?,
            Input::Connected(peer) => self.told.connected(peer),
            Input::Submit { ticket, txs } => self.submit(ticket, txs)?,
            Input::Gone(ticket) => self.clients.remove(ticket),
            Input::Close => self.is_closing = true,
        }
        Ok(())
    }

    // ---- peers

    fn hear(&mut self, peer: u32, frame: Frame, room: usize, now: Time) -> Result<(), Error> {
        if let Frame::Message(data) = frame {
            if let Some(data) = self.guarded(peer, data, now) {
                self.inbox.put(peer, data);
                return Ok(());
            }
        } else {
            self.hear_gossip(peer, frame, room, now)?;
        }
        self.inbox.free(peer);
        Ok(())
    }

    fn hear_gossip(
        &mut self,
        peer: u32,
        frame: Frame,
        room: usize,
        now: Time,
    ) -> Result<(), Error> {
        let at = peer as usize;
        match frame {
            Frame::Status(standing) => {
                if self.allowances[at].takes_status(now) {
                    self.peers.hear(peer, standing, now);
                } else {
                    self.counters.peers[at].statuses_dropped += 1;
                }
            }
            Frame::Receipts { clock, receipts } => {
                if self.allowances[at].takes_receipts(receipts.len(), now) {
                    let desk = self.core.core.desk();
                    let receipts = match &mut self.session {
                        Some(session) => session.sift(desk, peer, receipts)?,
                        None => receipts,
                    };
                    self.intake.hear(self.core.core.desk(), peer, receipts, clock)?;
                } else {
                    self.counters.peers[at].receipts_dropped += 1;
                }
            }
            Frame::Blocks(above) => self.give_blocks(peer, above, room, now)?,
            Frame::Hello { .. } | Frame::Message(_) => {}
        }
        Ok(())
    }

    /// A message of a peer, where no guard holds it or refuses it.
    fn guarded(&mut self, peer: u32, data: Bytes, now: Time) -> Option<Bytes> {
        let at = peer as usize;
        if !is_fit(&self.place, peer, &data) {
            self.counters.peers[at].unfit += 1;
            return None;
        }
        let known_view = self.known_view();
        if self.options.hold_asks && self.asks.holds(peer, &data, known_view) {
            self.counters.peers[at].asks_held += 1;
            return None;
        }
        let is_fetch = wire::kind_of(&data) == Some(wire::Kind::Fetch);
        if is_fetch && !self.allowances[at].fetches.take(1.0, now) {
            self.counters.peers[at].fetches_dropped += 1;
            return None;
        }
        let is_taken =
            wire::given_view(&data).is_none_or(|view| self.takes_block(peer, view, &data));
        is_taken.then_some(data)
    }

    /// Whether the block in a Give goes to the core: one that the peer was asked for. One that is
    /// stored, or not after the commit, is of no use to it.
    fn takes_block(&mut self, peer: u32, view: u32, give: &[u8]) -> bool {
        if !self.catch_up.expects(peer) {
            self.counters.peers[peer as usize].gives_dropped += 1;
            return false;
        }
        let block = wire::given_block(give);
        if view <= self.core.commit || self.given.is_stored(block) {
            self.catch_up.take(peer, view, true);
            return false;
        }
        let may_take = self.given.may_take(peer, block);
        if !may_take {
            self.counters.peers[peer as usize].gives_dropped += 1;
        }
        may_take
    }

    /// Answers a request for blocks. To look for them has its price too, so the request counts as
    /// one block, and is dropped before that where the peer has asked for too many. The answer ends
    /// where the oldest blocks, which are needed first, would be dropped from the peer's queue.
    fn give_blocks(&mut self, peer: u32, above: u32, room: usize, now: Time) -> Result<(), Error> {
        let at = peer as usize;
        let mut room = room / 2;
        let mut is_within = self.allowances[at].requests.take(1.0, now);
        let count = if is_within { self.core.core.give_count(above)? } else { 0 };
        for position in 0..count.min(MAX_BLOCKS) {
            let data = self.core.core.give(above, position)?;
            if data.len() > room {
                return Ok(());
            }
            is_within = self.allowances[at].requests.take(1.0, now);
            if !is_within {
                break;
            }
            room -= data.len();
            self.put(Output::Send { to: peer, frame: Frame::encode_message(&data) });
        }
        if !is_within {
            self.counters.peers[at].fetches_dropped += 1;
        }
        Ok(())
    }

    // ---- clients

    fn submit(&mut self, ticket: Ticket, txs: Vec<Tx>) -> Result<(), Error> {
        let refused = if self.is_closing {
            Some(Answer::Closed)
        } else if self.is_over() {
            // Where another session follows, that takes it.
            Some(if self.session.is_some() { Answer::Busy } else { Answer::Over })
        } else if self.intake.of_clients() + txs.len() > self.options.max_waiting
            || self.intake.own_room() < txs.len()
            || !self.intake.own.has_room(&txs, self.options.max_of_client)
        {
            Some(Answer::Busy)
        } else {
            None
        };
        if let Some(answer) = refused {
            self.put(Output::Answer(ticket, answer));
        } else {
            let new = self.intake.submit(self.core.core.desk(), &txs)?;
            self.clients.put(ticket, txs, new);
            self.refuse_what_found_no_room();
        }
        Ok(())
    }

    /// What the library has no room for never arrives, so nobody waits for it.
    pub(crate) fn refuse_what_found_no_room(&mut self) {
        let full = self.intake.take_full();
        if full.is_empty() {
            return;
        }
        for ticket in self.clients.take_with(|it| full.contains(it)) {
            self.put(Output::Answer(ticket, Answer::Busy));
        }
    }

    /// Clients hear `ok` once all their transactions are durable here, or final. Call it while no
    /// record waits to be durable: what has arrived is durable then.
    pub(crate) fn answer_clients(&mut self) -> Result<(), Error> {
        self.refuse_what_found_no_room();
        if self.clients.len() == 0 {
            return Ok(());
        }
        // What waits goes on in the next session, where there is one.
        let is_over = self.session.is_none() && self.is_over();
        let desk = self.core.core.desk();
        let is_safe = |tx: &Tx| {
            let standing = desk.standing(tx)?;
            Ok(matches!(standing, Standing::Arrived | Standing::Final))
        };
        for (ticket, answer) in self.clients.take(is_over, is_safe)? {
            self.put(Output::Answer(ticket, answer));
        }
        Ok(())
    }
}
