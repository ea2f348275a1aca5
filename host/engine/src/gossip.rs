//! What replicas report to each other outside the protocol: where they stand, and what they
//! received.

use bytes::Bytes;
use themis::Error;

use crate::catch_up::Behind;
use crate::core::{Core, Desk};
use crate::engine::{Engine, Output, ANNOUNCE_EVERY};
use crate::frame::{Frame, MAX_RECEIPTS};
use crate::time::Time;

/// So many of the oldest receipts are told again.
const MAX_AGAIN: usize = 128;

/// What peers were told of the own receipts.
#[derive(Debug)]
pub(crate) struct Told {
    /// By peer: the stamp of the last one that was told on its connection.
    last: Vec<u64>,
    /// Bit i: nothing was told on the connection to peer i.
    new: u16,
    at: Time,
    again_at: Time,
}

/// Receipts after a stamp, in a frame.
struct Part {
    after: u64,
    last: u64,
    frame: Bytes,
}

impl Told {
    /// Nothing was told.
    pub fn new(n: u32, now: Time) -> Told {
        Told { last: vec![0; n as usize], new: 0, at: now, again_at: now }
    }

    /// The connection to a peer is new: what went over the one before may be lost.
    pub fn connected(&mut self, peer: u32) {
        self.last[peer as usize] = 0;
        self.new |= 1 << peer;
    }
}

impl<C: Core> Engine<C> {
    /// Reports where this replica stands, now that this has changed. At a bounded rate: what changes
    /// soon after is reported a moment later.
    pub(crate) fn report(&mut self, now: Time) -> Result<(), Error> {
        self.is_report_due = true;
        if now.since(self.reported_at) >= ANNOUNCE_EVERY {
            self.announce(now)?;
        }
        Ok(())
    }

    /// Reports where this replica stands, if that has changed, and tells its receipts.
    pub(crate) fn announce(&mut self, now: Time) -> Result<(), Error> {
        self.reported_at = now;
        if std::mem::take(&mut self.is_report_due) {
            self.send_status();
        }
        if now.since(self.told.at) >= ANNOUNCE_EVERY {
            self.told.at = now;
            self.tell()?;
        }
        Ok(())
    }

    /// Reports where this replica stands, tells the oldest receipts again, and asks for blocks where
    /// it is behind.
    pub(crate) fn gossip(&mut self, now: Time) -> Result<(), Error> {
        self.send_status();
        if now.since(self.told.again_at) >= self.options.share_after {
            self.told.again_at = now;
            self.tell_again()?;
        }
        let behind = Behind {
            commit: self.core.commit,
            commit_at: self.commit_at,
            reached: self.peers.commit_reached(),
            ahead: self.peers.ahead_of(self.standing(), self.is_wanted(now)),
        };
        let inbox = &self.inbox;
        let request = self.catch_up.step(&behind, |peer| inbox.has_of(peer), now);
        self.request_blocks(request.as_ref());
        Ok(())
    }

    fn send_status(&mut self) {
        let frame = Frame::Status(self.standing()).encode();
        self.put(Output::Broadcast(frame));
    }

    /// Tells each peer the receipts that it was not told of on this connection, in order; on a new
    /// one the clock alone, where nothing was received. Mostly all are told the same.
    fn tell(&mut self) -> Result<(), Error> {
        let clock = self.core.core.desk().clock()?;
        let mut made: Option<Part> = None;
        for peer in self.place.others() {
            let after = self.told.last[peer as usize];
            let is_new = self.told.new >> peer & 1 == 1;
            if !is_new && after >= clock {
                continue; // no receipt is later than the clock
            }
            let part = match made.take().filter(|it| it.after == after) {
                Some(part) => part,
                None => self.part_after(after, clock)?,
            };
            if is_new || part.last > after {
                self.told.last[peer as usize] = part.last;
                self.told.new &= !(1 << peer);
                self.put(Output::Send { to: peer, frame: part.frame.clone() });
            }
            made = Some(part);
        }
        Ok(())
    }

    fn part_after(&mut self, after: u64, clock: u64) -> Result<Part, Error> {
        let receipts = self.core.core.desk().receipts(after, MAX_RECEIPTS)?;
        let last = receipts.last().map_or(after, |it| it.stamp);
        let frame = Frame::Receipts { clock, receipts }.encode();
        Ok(Part { after, last, frame })
    }

    /// Tells the oldest receipts again: a frame may be lost, and a peer may have had no room.
    fn tell_again(&mut self) -> Result<(), Error> {
        let receipts = self.core.core.desk().receipts(0, MAX_AGAIN)?;
        if !receipts.is_empty() {
            let clock = self.core.core.desk().clock()?;
            self.put(Output::Broadcast(Frame::Receipts { clock, receipts }.encode()));
        }
        Ok(())
    }
}
