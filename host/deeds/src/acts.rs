//! What a faulty replica sends besides what its engine sends.

use std::time::Duration;

use bytes::Bytes;
use rand::seq::SliceRandom;
use rand::Rng;
use rand_chacha::ChaCha8Rng;
use themis::Error;
use themis_engine::core::Core;
use themis_engine::frame::{Frame, Standing};
use themis_engine::tx::{self, Tx};
use themis_engine::{Check, Input, Time};

use crate::core::Faulty;
use crate::deed::Deed;
use crate::parts::order_in_give;
use crate::sends::{Deeds, OWN_CLIENT};

/// Between what a deed sends of its own.
pub const EVERY: Duration = Duration::from_millis(50);
/// Votes of `Waste` to one peer at a time.
const WASTED: usize = 60;
/// No client of the plan has such a ticket.
const OWN_TICKETS: u64 = 1 << 40;

/// The engine of a faulty replica.
type Engine<C> = themis_engine::Engine<Faulty<C>>;

/// What is sent, and to whom.
pub type Sends = Vec<(u32, Bytes)>;

/// The view in which an engine is.
fn view_of<C: Core>(engine: &mut Engine<C>) -> u32 {
    engine.core_mut().views().map_or(0, |(view, _)| view)
}

impl Deeds {
    /// What it sends of its own, from time to time.
    pub fn act<C: Core>(
        &mut self,
        engine: &mut Engine<C>,
        now: Time,
        rng: &mut ChaCha8Rng,
    ) -> Result<Sends, Error> {
        let mut out = Sends::new();
        self.enter(engine.core_mut().session());
        for deed in self.done.clone() {
            match deed {
                Deed::Garbage => out.push((self.peer(rng), self.garbage(rng))),
                Deed::Stale => self.stale(rng, &mut out),
                Deed::Leap => self.leap(engine, rng, &mut out),
                Deed::Climb => self.climb(engine, &mut out),
                Deed::Flood => self.flood(engine, rng, &mut out),
                Deed::FrontRun => self.front_run(engine, now, rng)?,
                Deed::Split => self.split(engine, &mut out),
                Deed::Waste => self.waste(engine, &mut out),
                Deed::TwoHeads
                | Deed::Forge
                | Deed::Half
                | Deed::Mute
                | Deed::Reorder
                | Deed::Boast
                | Deed::EarlyMarker
                | Deed::TwoKeys
                | Deed::FalseHistory
                | Deed::OthersKeys => {}
            }
        }
        Ok(out)
    }

    /// Forgets what was of the session before.
    fn enter(&mut self, session: u32) {
        if session != self.session {
            self.session = session;
            self.climbed = 0;
            self.heard.clear();
        }
    }

    fn peer(&self, rng: &mut ChaCha8Rng) -> u32 {
        let peers: Vec<u32> = self.peers().collect();
        peers.choose(rng).copied().unwrap_or(0)
    }

    fn to_all(&self, frame: &Bytes, out: &mut Sends) {
        out.extend(self.peers().map(|peer| (peer, frame.clone())));
    }

    fn garbage(&self, rng: &mut ChaCha8Rng) -> Bytes {
        let size = rng.gen_range(0..3000);
        let mut data: Vec<u8> = (0..size).map(|_| rng.gen()).collect();
        match rng.gen_range(0..3) {
            0 => Frame::encode_message(&data),
            1 => {
                data.splice(0..0, [2, rng.gen_range(1..8)]);
                Frame::encode_message(&data)
            }
            _ => {
                let view = self.views;
                let batches = 1 << 31;
                Frame::Status(Standing { view, commit: view, waiting: 1, batches }).encode()
            }
        }
    }

    fn stale(&self, rng: &mut ChaCha8Rng, out: &mut Sends) {
        let at = rng.gen_range(0..self.received.len().max(1));
        let Some(data) = self.received.get(at) else { return };
        let mut data = data.to_vec();
        if rng.gen() && !data.is_empty() {
            let at = rng.gen_range(0..data.len());
            data[at] ^= 1 << rng.gen_range(0..8);
        }
        out.push((self.peer(rng), Frame::encode_message(&data)));
    }

    /// Asks all peers for a view, over the certificate of the first block.
    fn ask_for<C: Core>(&self, view: u32, core: &Faulty<C>, out: &mut Sends) {
        let statement = [&[2, self.me as u8][..], &view.to_be_bytes(), &[0; 4 + 32 + 1]].concat();
        let ask = [&[2], &core.sealed(&statement)[..]].concat();
        self.to_all(&Frame::encode_message(&ask), out);
    }

    fn leap<C: Core>(&self, engine: &mut Engine<C>, rng: &mut ChaCha8Rng, out: &mut Sends) {
        let last = (1..=self.views).rev().find(|it| it % self.n == self.me);
        if let (true, Some(view)) = (rng.gen_ratio(1, 8), last) {
            self.ask_for(view, engine.core_mut(), out);
        }
    }

    fn climb<C: Core>(&mut self, engine: &mut Engine<C>, out: &mut Sends) {
        let own = view_of(engine);
        let mut view = self.climbed.max(own) + 1;
        while view % self.n != self.me {
            view += 1;
        }
        if view <= self.views {
            self.climbed = view;
            self.ask_for(view, engine.core_mut(), out);
        }
    }

    /// A valid block that it has, with another order of its own in it.
    fn flood<C: Core>(&self, engine: &mut Engine<C>, rng: &mut ChaCha8Rng, out: &mut Sends) {
        let core = engine.core_mut();
        let above = core.views().map_or(0, |(_, commit)| commit.saturating_sub(1));
        for at in 0..core.give_count(above).unwrap_or(0) {
            let Ok(give) = core.give(above, at) else { return };
            let Some((start, end)) = order_in_give(&give, self.me) else { continue };
            let mut statement = give[start..start + 1 + 1 + 4 + 32].to_vec();
            statement.extend([0, 1]);
            tx::put(&Tx { client: rng.gen(), number: 0, payload: 0 }, &mut statement);
            statement.extend([0, 0]);
            let order = core.sealed(&statement);
            let data = [&give[..start], &order, &give[end..]].concat();
            self.to_all(&Frame::encode_message(&data), out);
            return;
        }
    }

    /// To each peer that leads one of the next views, the same vote again and again: a good seal, with a
    /// good order, for a block that nobody has.
    fn waste<C: Core>(&self, engine: &mut Engine<C>, out: &mut Sends) {
        let own = view_of(engine);
        for view in own + 1..=(own + self.n).min(self.views - 1) {
            let to = (view + 1) % self.n;
            if to == self.me {
                continue;
            }
            let vote = [&[5, self.me as u8][..], &view.to_be_bytes(), &[9; 32]].concat();
            let next = (view + 1).to_be_bytes();
            let order = [&[3, self.me as u8][..], &next, &[9; 32], &[0; 4]].concat();
            let core = engine.core_mut();
            let (vote, order) = (core.sealed(&vote), core.sealed(&order));
            let frame = Frame::encode_message(&[&[2], &vote[..], &[1], &order].concat());
            out.extend(std::iter::repeat_n((to, frame), WASTED));
        }
    }

    /// Once it has heard of others' transactions, its own client submits one.
    fn front_run<C: Core>(
        &mut self,
        engine: &mut Engine<C>,
        now: Time,
        rng: &mut ChaCha8Rng,
    ) -> Result<(), Error> {
        if self.heard.is_empty() || !rng.gen_ratio(1, 4) {
            return Ok(());
        }
        let Some(tx) = self.next_own(engine)? else { return Ok(()) };
        let ticket = OWN_TICKETS + u64::from(tx.number);
        engine.take(Input::Submit { ticket, txs: vec![tx] }, now)
    }

    /// The next transaction of its own client. Where sessions follow one another its number has to
    /// be in the client's window, and those of before a crash may be final.
    fn next_own<C: Core>(&mut self, engine: &mut Engine<C>) -> Result<Option<Tx>, Error> {
        loop {
            let tx = Tx { client: OWN_CLIENT, number: self.number + 1, payload: 0 };
            let check = engine.check(&tx)?;
            match check {
                Check::New | Check::Repeat | Check::BelowWindow => self.number += 1,
                Check::TooFarAhead | Check::TooManyClients | Check::Reserved => return Ok(None),
            }
            if check == Check::New {
                return Ok(Some(tx));
            }
        }
    }

    /// Proposals that are none, as if all that waits were proposed.
    fn split<C: Core>(&mut self, engine: &mut Engine<C>, out: &mut Sends) {
        let own = view_of(engine);
        let mut views = own..own + self.n;
        let view = views.find(|it| it % self.n == self.me).unwrap_or(own);
        let mut claims = vec![2, 4, self.me as u8];
        claims.extend(view.to_be_bytes());
        claims.extend(view.saturating_sub(1).to_be_bytes());
        claims.extend([0; 32]);
        claims.extend([0, 3]);
        let listed = &self.heard[..self.heard.len().min(1000)];
        for replica in 0..3 {
            claims.extend([3, replica]);
            claims.extend(view.to_be_bytes());
            claims.extend([0; 32]);
            claims.extend((listed.len() as u16).to_be_bytes());
            listed.iter().for_each(|it| tx::put(it, &mut claims));
            claims.extend([0; 4]);
        }
        self.to_all(&Frame::encode_message(&claims), out);
    }
}

#[cfg(test)]
mod tests {
    use super::*;
    use crate::sends::Actor;

    #[test]
    fn what_was_of_a_session_is_forgotten_in_the_next() {
        let mut it = Deeds::new(&[Deed::Climb], &Actor { me: 4, n: 5, views: 50, last_number: 7 });
        it.heard.push(Tx { client: 1, number: 1, payload: 0 });
        it.climbed = 49;
        it.enter(0);
        assert_eq!((it.climbed, it.heard.len(), it.number), (49, 1, 7));
        it.enter(1);
        assert_eq!((it.climbed, it.heard.len(), it.number), (0, 0, 7));
    }
}
