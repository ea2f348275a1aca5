//! What clients submit, while a session runs and between two.

use themis::{Error, Tx};

use crate::clients::{Answer, Ticket};
use crate::core::Core;
use crate::engine;
use crate::sessions::reserved::is_reserved;
use crate::sessions::service::{Sessions, Stage};
use crate::sessions::Output;
use crate::setting::Options;
use crate::time::Time;
use crate::window::Check;

impl<C: Core> Sessions<C> {
    /// Takes what a client submitted, or answers why not. Between two sessions it waits.
    pub(super) fn submit(&mut self, ticket: Ticket, txs: Vec<Tx>, now: Time) -> Result<(), Error> {
        if matches!(self.stage, Stage::Ended) {
            self.put(Output::Answer(ticket, Answer::Over));
            return Ok(());
        }
        if let Some((tx, why)) = self.refusal(&txs)? {
            self.put(Output::Answer(ticket, Answer::Refused(tx, why)));
            return Ok(());
        }
        if let Stage::Running(engine) = &mut self.stage {
            return engine.take(engine::Input::Submit { ticket, txs }, now);
        }
        let Options { max_waiting, max_of_client, .. } = self.options;
        match self.waiting.submit(&txs, max_waiting, max_of_client) {
            Some(new) => self.clients.put(ticket, txs, new),
            None => self.put(Output::Answer(ticket, Answer::Busy)),
        }
        Ok(())
    }

    /// The first transaction of a submission that is not taken. One that is known here is.
    fn refusal(&mut self, txs: &[Tx]) -> Result<Option<(Tx, Check)>, Error> {
        for tx in txs {
            let check = match &mut self.stage {
                Stage::Running(engine) => engine.check(tx)?,
                _ if is_reserved(tx.client) => Check::Reserved,
                _ => self.history.windows.check(tx),
            };
            if check != Check::New {
                return Ok(Some((*tx, check)));
            }
        }
        Ok(None)
    }
}
