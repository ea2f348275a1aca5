//! Why a transaction is not taken where sessions follow one another, in words.

use themis_engine::tx::{self, Tx};
use themis_engine::window::Check;

/// The transaction, and what is wrong with its number.
pub fn cause_of(tx: &Tx, why: Check) -> String {
    let mut text = String::new();
    tx::write(tx, &mut text);
    format!("{text}: {why}")
}
