//! Frames between replicas: what is sent, also by a faulty replica, and what is handed over.

use bytes::Bytes;
use themis_deeds::EVERY;
use themis_engine::frame::Frame;
use themis_engine::sessions::frames::in_session;
use themis_engine::tx::Tx;

use crate::driver::inner_frame;
use crate::node::Violation;
use crate::queue::Happening;
use crate::world::World;

/// A real link drops what is above it.
const ROOM: usize = 4 << 20;

impl World {
    pub(crate) fn send_tampered(&mut self, from: u32, to: u32, frame: Bytes) {
        let is_many = self.plan.is_many();
        let sent = match &mut self.nodes[from as usize].deeds {
            Some(deeds) if is_many => deeds.send_of_many(to, frame),
            Some(deeds) => deeds.send(to, frame),
            None => Some(frame),
        };
        if let Some(frame) = sent {
            self.send(from, to, frame);
        }
    }

    fn send(&mut self, from: u32, to: u32, frame: Bytes) {
        let link = &mut self.links[from as usize][to as usize];
        let epoch = link.epoch;
        if let Some(at) = link.send(self.now, &mut self.rng) {
            self.queue.put(at, to, 0, Happening::Arrive { from, epoch, frame });
        }
    }

    pub(crate) fn arrive(
        &mut self,
        from: u32,
        to: u32,
        epoch: u32,
        frame: Bytes,
    ) -> Result<(), Violation> {
        let node = &mut self.nodes[to as usize];
        if node.process.is_none() || self.links[from as usize][to as usize].epoch != epoch {
            return Ok(());
        }
        if node.slots[from as usize] == 0 {
            node.blocked[from as usize].push_back(frame);
            return Ok(());
        }
        self.receipts.frame_comes(to);
        self.hand_over(from, to, &frame)?;
        if let Some(Frame::Receipts { receipts, .. }) = inner_frame(&frame, self.plan.is_many()) {
            self.flush(to)?;
            let told: Vec<Tx> = receipts.iter().map(|it| it.tx).collect();
            self.receipts.check_told(to, from, &told)?;
        }
        self.drive(to)
    }

    fn hand_over(&mut self, from: u32, to: u32, frame: &Bytes) -> Result<(), Violation> {
        let inner = inner_frame(frame, self.plan.is_many());
        if matches!(inner, Some(Frame::Receipts { .. })) {
            self.starts.reports(to, from);
        }
        let node = &mut self.nodes[to as usize];
        let local = node.clock.local(self.now);
        let Some(process) = &mut node.process else { return Ok(()) };
        if let (Some(deeds), Some(frame)) = (&mut node.deeds, &inner) {
            deeds.receive(frame);
        }
        if process.driver.take_frame(from, frame, ROOM, local)? {
            node.slots[from as usize] -= 1;
        }
        self.views.hears(to, from, self.now);
        Ok(())
    }

    pub(crate) fn free(&mut self, replica: u32, peer: u32, count: u32) -> Result<(), Violation> {
        self.nodes[replica as usize].slots[peer as usize] += count;
        for _ in 0..count {
            let Some(frame) = self.nodes[replica as usize].blocked[peer as usize].pop_front()
            else {
                break;
            };
            self.hand_over(peer, replica, &frame)?;
        }
        Ok(())
    }

    pub(crate) fn deed(&mut self, replica: u32) -> Result<(), Violation> {
        let node = &mut self.nodes[replica as usize];
        let (Some(process), Some(deeds)) = (&mut node.process, &mut node.deeds) else {
            return Ok(());
        };
        let local = node.clock.local(self.now);
        let session = node.store.as_ref().map(crate::store::Durable::session);
        let sends = match process.driver.engine() {
            Some(engine) => deeds.act(engine, local, &mut self.rng)?,
            None => Vec::new(),
        };
        for (to, frame) in sends {
            let frame = match session {
                Some(session) => in_session(session, &frame),
                None => frame,
            };
            self.send(replica, to, frame);
        }
        let incarnation = self.nodes[replica as usize].incarnation;
        self.queue.put(self.now + EVERY, replica, incarnation, Happening::Deed);
        self.drive(replica)
    }
}
