//! Another core with the same key, for a replica that equivocates.

use std::collections::VecDeque;

use bytes::Bytes;
use themis::{Message, Replica};
use themis_engine::core::{Core, Delivered, Event, Turn};
use themis_engine::tx::Tx;

/// It receives everything later than the first one, and is never logged.
pub struct SecondHead {
    me: u32,
    replica: Replica,
    /// What arrives with the next arrivals.
    late: Vec<Tx>,
    sends: Vec<Message>,
}

impl SecondHead {
    /// A core that stands where the first one does.
    pub fn new(me: u32, replica: Replica) -> SecondHead {
        SecondHead { me, replica, late: Vec::new(), sends: Vec::new() }
    }

    /// Takes an event of the first head, and its own messages to itself.
    pub fn take(&mut self, event: &Event) {
        let event = match event {
            Event::Arrived(txs) => {
                let late = std::mem::replace(&mut self.late, txs.clone());
                Event::Arrived(late.into_iter().rev().collect())
            }
            Event::Delivered(it) if it.from == self.me => return, // the other head's
            other => other.clone(),
        };
        let mut todo = VecDeque::from([event]);
        for _ in 0..20 {
            let Some(event) = todo.pop_front() else { return };
            for it in self.turn(&event) {
                if it.to == self.me {
                    let data = Bytes::from(it.bytes.clone());
                    todo.push_back(Event::Delivered(Delivered { from: self.me, data }));
                }
                self.sends.push(it);
            }
        }
    }

    fn turn(&mut self, event: &Event) -> Vec<Message> {
        let made = self.replica.prepare(event).and_then(|_| Core::act(&mut self.replica));
        match made {
            Ok(Turn::Made(_)) => self.replica.sends().unwrap_or_default(),
            Ok(Turn::Again) | Err(_) => Vec::new(),
        }
    }

    /// What is sent after an event: the first head's to some, its own to the others.
    pub fn mixed(&mut self, sends: Vec<Message>) -> Vec<Message> {
        let me = self.me;
        let own = std::mem::take(&mut self.sends);
        let first = sends.into_iter().filter(|it| it.to == me || it.to % 2 == 1);
        let second = own.into_iter().filter(|it| it.to != me && it.to % 2 == 0);
        first.chain(second).collect()
    }
}
