//! Clients that wait until their transactions are durable.

use std::collections::BTreeMap;

use themis::{Error, Tx};

use crate::window::Check;

/// Names a submission; its host chooses it.
pub type Ticket = u64;

/// The answer to a submission.
#[derive(Clone, Copy, Debug, PartialEq, Eq)]
pub enum Answer {
    /// All transactions are durable here, or final.
    Ok {
        /// How many of them were new.
        new: usize,
        /// How many were known.
        old: usize,
    },
    /// Too many wait.
    Busy,
    /// The session takes no more.
    Closed,
    /// The session has ended.
    Over,
    /// This transaction is not taken: by its number, or as its client is one of the service.
    Refused(Tx, Check),
}

/// Submissions that wait for their answers.
#[derive(Debug, Default)]
pub struct Clients(BTreeMap<Ticket, Waiting>);

#[derive(Debug)]
struct Waiting {
    new: usize,
    old: usize,
    missing: Vec<Tx>,
}

impl Clients {
    /// A submission waits until all its transactions are durable here, or final.
    pub fn put(&mut self, ticket: Ticket, txs: Vec<Tx>, new: usize) {
        let old = txs.len() - new;
        self.0.insert(ticket, Waiting { new, old, missing: txs });
    }

    /// The client has gone.
    pub fn remove(&mut self, ticket: Ticket) {
        self.0.remove(&ticket);
    }

    /// Submissions with a transaction that is not taken wait no more: their answers.
    pub fn refuse(&mut self, why: impl Fn(&Tx) -> Option<Check>) -> Vec<(Ticket, Answer)> {
        let mut out = Vec::new();
        self.0.retain(|ticket, it| {
            let refused = it.missing.iter().find_map(|tx| Some((*tx, why(tx)?)));
            out.extend(refused.map(|(tx, why)| (*ticket, Answer::Refused(tx, why))));
            refused.is_none()
        });
        out
    }

    /// Submissions with a transaction that found no room wait no more: who they were.
    pub fn take_with(&mut self, is_full: impl Fn(&Tx) -> bool) -> Vec<Ticket> {
        let mut out = Vec::new();
        self.0.retain(|ticket, it| {
            let is_kept = !it.missing.iter().any(&is_full);
            out.extend((!is_kept).then_some(*ticket));
            is_kept
        });
        out
    }

    /// How many wait.
    pub fn len(&self) -> usize {
        self.0.len()
    }

    /// A session has ended, and these transactions are final: what waits for no others is answered. The
    /// next session does not know them, so they are not asked for again.
    pub fn settle(&mut self, is_final: impl Fn(&Tx) -> bool) -> Vec<(Ticket, Answer)> {
        for it in self.0.values_mut() {
            it.missing.retain(|tx| !is_final(tx));
        }
        self.answered(false)
    }

    /// No session follows: what still waits hears that.
    pub fn end(&mut self) -> Vec<(Ticket, Answer)> {
        self.answered(true)
    }

    /// The answers that are due. That a transaction is safe lasts for a session, so none is asked
    /// again; the last one comes first, as it is mostly the last to arrive.
    pub fn take(
        &mut self,
        is_over: bool,
        mut is_safe: impl FnMut(&Tx) -> Result<bool, Error>,
    ) -> Result<Vec<(Ticket, Answer)>, Error> {
        for it in self.0.values_mut() {
            while let Some(tx) = it.missing.last() {
                if !is_safe(tx)? {
                    break;
                }
                it.missing.pop();
            }
        }
        Ok(self.answered(is_over))
    }

    /// The answers of those that wait for nothing more, or for the next session.
    fn answered(&mut self, is_over: bool) -> Vec<(Ticket, Answer)> {
        let mut out = Vec::new();
        self.0.retain(|ticket, it| {
            if it.missing.is_empty() {
                out.push((*ticket, Answer::Ok { new: it.new, old: it.old }));
            } else if is_over {
                out.push((*ticket, Answer::Over));
            } else {
                return true;
            }
            false
        });
        out
    }
}

#[cfg(test)]
mod tests {
    use super::*;

    #[test]
    fn an_answer_comes_once_all_is_safe() {
        let tx = |number| Tx { client: 1, number, payload: 0 };
        let mut clients = Clients::default();
        clients.put(7, vec![tx(1), tx(2)], 1);
        clients.put(8, vec![tx(3)], 1);
        assert_eq!(clients.take(false, |it| Ok(it.number == 2)), Ok(vec![]));
        let ok = (7, Answer::Ok { new: 1, old: 1 });
        assert_eq!(clients.take(false, |it| Ok(it.number < 3)), Ok(vec![ok]));
        clients.put(9, vec![tx(4), tx(5)], 2);
        let why = |it: &Tx| (it.number == 5).then_some(Check::Repeat);
        assert_eq!(clients.refuse(why), vec![(9, Answer::Refused(tx(5), Check::Repeat))]);
        assert_eq!(clients.take(true, |_| Ok(false)), Ok(vec![(8, Answer::Over)]));
        assert_eq!(clients.len(), 0);
    }

    /// The next session knows nothing of what was final in one before.
    #[test]
    fn what_a_session_made_final_is_not_waited_for_in_the_next() {
        let tx = |number| Tx { client: 1, number, payload: 0 };
        let mut clients = Clients::default();
        clients.put(7, vec![tx(1), tx(2)], 2);
        clients.put(8, vec![tx(1)], 0);
        let known = (8, Answer::Ok { new: 0, old: 1 });
        assert_eq!(clients.settle(|it| it.number == 1), vec![known]);
        let ok = (7, Answer::Ok { new: 2, old: 0 });
        assert_eq!(clients.take(false, |it| Ok(it.number == 2)), Ok(vec![ok]));
    }
}
