//! What clients submit, and what they rely on.

use std::time::Duration;

use themis_engine::tx::Tx;
use themis_engine::{Answer, Check};

use crate::node::Violation;
use crate::queue::Happening;
use crate::world::World;

const RETRY_AFTER: Duration = Duration::from_millis(400);

impl World {
    /// A client submits, and again later where no ok came.
    pub(crate) fn submit(&mut self, replica: u32, number: usize) -> Result<(), Violation> {
        if self.answered[replica as usize][number] {
            return Ok(());
        }
        self.queue.put(self.now + RETRY_AFTER, replica, 0, Happening::Submit(number));
        let txs = self.plan.submissions[number].txs.clone();
        let node = &mut self.nodes[replica as usize];
        let waits = node.tickets.values().any(|it| *it == number);
        if node.process.is_none() || waits {
            return Ok(());
        }
        self.tickets += 1;
        let ticket = self.tickets;
        node.tickets.insert(ticket, number);
        let local = node.clock.local(self.now);
        if let Some(process) = &mut node.process {
            process.driver.submit(ticket, txs, local)?;
        }
        self.drive(replica)
    }

    /// A client that hears `ok` relies on it.
    pub(crate) fn answer(
        &mut self,
        replica: u32,
        ticket: u64,
        answer: Answer,
    ) -> Result<(), Violation> {
        let node = &mut self.nodes[replica as usize];
        let number = node.tickets.remove(&ticket);
        // A number below its client's window is final. The check at the end is that it really is.
        let is_ok = matches!(
            answer,
            Answer::Ok { .. } | Answer::Refused(_, Check::BelowWindow | Check::Repeat)
        );
        let (Some(number), true) = (number, is_ok) else { return Ok(()) };
        if matches!(answer, Answer::Refused(..)) {
            return self.refused(replica, number);
        }
        self.answered[replica as usize][number] = true;
        let submission = &self.plan.submissions[number];
        if submission.is_double() && self.plan.is_honest(replica) {
            self.doubles.extend(&submission.txs);
        }
        match node.unsafe_one(&submission.txs) {
            Some(tx) if self.plan.is_honest(replica) => {
                Err(Violation(format!("replica {replica} answers ok, and {tx:?} is not durable")))
            }
            Some(_) | None => Ok(()),
        }
    }

    /// A client that hears that a number is final relies on it. It submits again what is not.
    fn refused(&mut self, replica: u32, number: usize) -> Result<(), Violation> {
        let node = &self.nodes[replica as usize];
        let txs = &self.plan.submissions[number].txs;
        if self.plan.submissions[number].is_double() {
            self.answered[replica as usize][number] = true; // its numbers are final with others
            return Ok(());
        }
        let is_known = |it: &&Tx| node.finals.contains(it);
        if self.plan.is_honest(replica) && !txs.iter().any(|it| is_known(&it)) {
            return Err(Violation(format!("replica {replica} refuses {txs:?}, and none is final")));
        }
        self.answered[replica as usize][number] = txs.iter().all(|it| is_known(&it));
        Ok(())
    }
}

#[cfg(test)]
mod tests {
    use std::collections::HashMap;

    use crate::plan::{Edits, Plan, MAX_OF_CLIENT};

    /// A replica refuses a submission that is above the quota of its client, however often it comes.
    #[test]
    fn no_client_of_a_burst_submits_more_than_a_replica_takes() {
        let all = Plan::new(2, &Edits { burst: 2500, ..Edits::default() });
        let none = Plan::new(2, &Edits::default());
        assert_eq!(all.count(), none.count() + 2500);
        let mut of_client: HashMap<u32, u32> = HashMap::new();
        for tx in all.submissions.iter().flat_map(|it| &it.txs) {
            *of_client.entry(tx.client).or_default() += 1;
        }
        assert!(of_client.values().all(|count| *count <= MAX_OF_CLIENT));
    }
}
