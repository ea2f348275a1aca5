//! How the faults of a plan start and end.

use std::time::Duration;

use crate::node::Violation;
use crate::plan::{Fault, FaultKind};
use crate::world::{at_ms, World};

impl World {
    /// A fault of the plan starts.
    pub(crate) fn start_fault(&mut self, number: usize) {
        let Fault { at, span, replica, kind } = self.plan.faults[number];
        let until = at_ms(at + span);
        let node = &mut self.nodes[replica as usize];
        match kind {
            FaultKind::Crash => self.crash(replica, until),
            FaultKind::Rot(place) => {
                node.rot = Some(place);
                self.crash(replica, until);
            }
            FaultKind::Tear(_) | FaultKind::CrashAfterWrite => node.armed = Some(kind),
            FaultKind::CrashAt(step, is_after) => node.armed_step = Some((step, is_after)),
            FaultKind::LoseLog => {
                self.crash(replica, until);
                self.nodes[replica as usize].lose_log();
            }
            FaultKind::LoseStore => {
                self.crash(replica, until);
                self.nodes[replica as usize].lose_store();
            }
            FaultKind::Full => node.disk.is_full = true,
            FaultKind::Slow(ms) => node.disk.sync = Duration::from_millis(u64::from(ms)),
            FaultKind::Cut(peer) => {
                self.links[replica as usize][peer as usize].cut(until);
                self.links[peer as usize][replica as usize].cut(until);
            }
            FaultKind::OneWay(peer) => self.links[replica as usize][peer as usize].cut(until),
            FaultKind::Alone => {
                for peer in 0..self.plan.n as usize {
                    self.links[replica as usize][peer].cut(until);
                    self.links[peer][replica as usize].cut(until);
                }
            }
            FaultKind::Break(peer) => {
                self.links[replica as usize][peer as usize].break_off(self.now, &mut self.rng);
                self.connect(replica, peer);
            }
        }
    }

    /// A fault of the plan ends.
    pub(crate) fn heal(&mut self, number: usize) -> Result<(), Violation> {
        let Fault { replica, kind, .. } = self.plan.faults[number];
        let sync = self.plan.sync_of(replica);
        let node = &mut self.nodes[replica as usize];
        match kind {
            FaultKind::Full => node.disk.is_full = false,
            FaultKind::Slow(_) => node.disk.sync = sync,
            FaultKind::Tear(_) | FaultKind::CrashAfterWrite => node.armed = None,
            FaultKind::Crash
            | FaultKind::CrashAt(..)
            | FaultKind::LoseLog
            | FaultKind::LoseStore
            | FaultKind::Rot(_)
            | FaultKind::Cut(_)
            | FaultKind::OneWay(_)
            | FaultKind::Alone
            | FaultKind::Break(_) => {}
        }
        self.start(replica)
    }
}
