//! Which numbers of a client are used up, in a bounded number of bytes for each client.
//!
//! **The rule.** A client numbers its transactions 1, 2, 3 and so on. Its window starts at its first
//! number that is not final, and has [`WINDOW`] numbers.
//!
//! - Below the window every number is final. In the window a bit for each number says whether it is.
//! - A number above the window is too far ahead: the client waits until its first number is final.
//! - A number that a client leaves out is a gap, and holds the window. Up to 1,023 numbers above it
//!   are taken. After that the client has to submit a transaction with the missing number.
//! - A number is used once, whatever the payload. Where two transactions of one number were taken
//!   before either was final, both become final, and the number counts once.
//!
//! **What the rule gives.** The window starts at the lowest number that is not final, so unlike the
//! window of IPsec, which ends at the highest number, it never moves past a number that may still
//! become final. What one replica took is therefore never refused for good by another. Replicas with
//! the same final list have the same windows. A replica with a shorter list has lower windows: for a
//! moment it finds too far ahead what others take.
//!
//! Ask [`Windows::check`] only where a transaction is first received, from a client or from a peer's
//! receipts. What is carried over, what already waits, and what a block names with more than f lists
//! is not asked again: an honest replica took it. Then no final number is above the window, except
//! where more than f replicas are faulty. The window jumps in that case, so that replicas still agree.
//!
//! A number that is final says nothing of another transaction with it, which one replica may have taken
//! before. Where a peer reports one, the store is asked (`sessions/doubles.rs`).
//!
//! **Cost.** A client whose numbers became final in order takes some 40 bytes in memory, and any
//! other some 170. At most [`MAX_CLIENTS`] clients are taken, so all windows have at most 11 MB, and
//! what was in flight when the limit was reached. After that no new client is taken, and nothing
//! changes for the others.

use std::collections::BTreeMap;
use std::fmt;

use crate::tx::Tx;

/// Numbers of a client's window.
pub const WINDOW: u64 = 1024;
/// Clients with a final transaction; a new one above that is refused.
pub const MAX_CLIENTS: usize = 65_536;
/// From here on clients are the service's own, and so is client 0. Rules of sessions say which of their
/// transactions is taken.
const OWN_CLIENTS: u32 = u32::MAX - 15;
/// A client's first number.
const FIRST: u64 = 1;

/// Bits of the window's numbers: number k has bit k modulo [`WINDOW`].
pub type Bits = [u64; WINDOW as usize / 64];

/// Whether a transaction may be received.
#[derive(Clone, Copy, Debug, PartialEq, Eq)]
pub enum Check {
    /// Its number is in the window, and not final.
    New,
    /// Its number is in the window, and final.
    Repeat,
    /// Its number is below the window, so it is final. Number 0 is always below.
    BelowWindow,
    /// Its number is above the window: an earlier number is not final yet.
    TooFarAhead,
    /// It is of a new client, and there are as many as there may be.
    TooManyClients,
    /// It is of a client of the service itself, which no window decides.
    Reserved,
}

impl fmt::Display for Check {
    fn fmt(&self, to: &mut fmt::Formatter<'_>) -> fmt::Result {
        to.write_str(match self {
            Check::New => "it may be received",
            Check::Repeat => "its number is final",
            Check::BelowWindow => "its number is below the window of its client",
            Check::TooFarAhead => "its number is above the window of its client",
            Check::TooManyClients => "there are too many clients",
            Check::Reserved => "its client is one of the service",
        })
    }
}

/// What a final transaction did to its client's window.
#[derive(Clone, Copy, Debug, PartialEq, Eq)]
pub enum Settled {
    /// Its number was new.
    New,
    /// Another transaction with its number was final already.
    Repeat,
    /// Its number was above the window, which jumped: more than f replicas are faulty.
    Jumped,
}

/// The window of one client.
#[derive(Clone, Debug, PartialEq, Eq)]
pub struct Window {
    /// All numbers below are final. This one is not.
    base: u64,
    /// The final numbers above; none where there are none.
    ahead: Option<Box<Bits>>,
}

impl Default for Window {
    fn default() -> Window {
        Window { base: FIRST, ahead: None }
    }
}

impl Window {
    /// A window from what was stored of it; none where no window has these parts.
    pub fn from_parts(base: u64, ahead: Option<Bits>) -> Option<Window> {
        let ahead = ahead.map(Box::new);
        let window = Window { base, ahead };
        let is_known = FIRST <= base && base <= u64::from(u32::MAX) + 1;
        let is_normal = window.ahead.as_deref() != Some(&Bits::default()) && !window.has(base);
        (is_known && is_normal).then_some(window)
    }

    /// The first number that is not final: the lowest one that the client may use next.
    pub fn base(&self) -> u64 {
        self.base
    }

    /// The final numbers above the first one that is not final.
    pub fn ahead(&self) -> Option<&Bits> {
        self.ahead.as_deref()
    }

    /// Whether a number may be used.
    pub fn check(&self, number: u32) -> Check {
        let number = u64::from(number);
        if number < self.base {
            Check::BelowWindow
        } else if number >= self.base + WINDOW {
            Check::TooFarAhead
        } else if self.has(number) {
            Check::Repeat
        } else {
            Check::New
        }
    }

    /// A transaction with this number is final.
    pub fn settle(&mut self, number: u32) -> Settled {
        let settled = match self.check(number) {
            Check::BelowWindow | Check::Repeat => return Settled::Repeat,
            Check::TooFarAhead => {
                self.move_to(u64::from(number) + 1 - WINDOW);
                Settled::Jumped
            }
            Check::New | Check::TooManyClients | Check::Reserved => Settled::New,
        };
        let (word, bit) = place(u64::from(number));
        self.ahead.get_or_insert_with(Box::default)[word] |= bit;
        while self.has(self.base) {
            self.move_to(self.base + 1);
        }
        if self.ahead.as_deref() == Some(&Bits::default()) {
            self.ahead = None;
        }
        settled
    }

    fn has(&self, number: u64) -> bool {
        let (word, bit) = place(number);
        self.ahead.as_ref().is_some_and(|it| it[word] & bit != 0)
    }

    /// Moves the window up, and frees the bits of the numbers that leave it.
    fn move_to(&mut self, base: u64) {
        if let Some(bits) = &mut self.ahead {
            for number in self.base..base.min(self.base + WINDOW) {
                let (word, bit) = place(number);
                bits[word] &= !bit;
            }
        }
        self.base = base;
    }
}

/// The word and the bit of a number.
fn place(number: u64) -> (usize, u64) {
    let at = number % WINDOW;
    (at as usize / 64, 1 << (at % 64))
}

/// Whether a client's numbers have a window: each but those of markers, of which each session has its
/// own. The window of a replica's keys ends at the highest number that is final: one that is left out
/// holds nothing.
pub const fn has_window(client: u32) -> bool {
    client != 0
}

/// Whether it is one of the service itself.
const fn is_own(client: u32) -> bool {
    client == 0 || client >= OWN_CLIENTS
}

/// The windows of all clients with a final transaction.
#[derive(Clone, Debug, Default, PartialEq, Eq)]
pub struct Windows {
    of: BTreeMap<u32, Window>,
}

impl Windows {
    /// Whether a transaction may be received.
    pub fn check(&self, tx: &Tx) -> Check {
        if is_own(tx.client) {
            return Check::Reserved;
        }
        match self.of.get(&tx.client) {
            Some(window) => window.check(tx.number),
            None if self.is_full() => Check::TooManyClients,
            None => Window::default().check(tx.number),
        }
    }

    fn is_full(&self) -> bool {
        self.of.len() - self.of.range(OWN_CLIENTS..).count() >= MAX_CLIENTS
    }

    /// Whether a transaction of the service itself is not final, as far as its window says: one below
    /// it counts as final.
    pub fn is_open(&self, tx: &Tx) -> bool {
        let first = || Window::default().check(tx.number);
        let check = self.of.get(&tx.client).map_or_else(first, |it| it.check(tx.number));
        has_window(tx.client) && check == Check::New
    }

    /// A transaction is final. Nothing changes for the client of markers.
    ///
    /// What is final is always settled, also of a client above the limit: another replica took it
    /// before the limit was reached.
    pub fn settle(&mut self, tx: &Tx) -> Settled {
        if !has_window(tx.client) {
            return Settled::New;
        }
        self.of.entry(tx.client).or_default().settle(tx.number)
    }

    /// Puts a client's window as it was stored.
    pub fn put(&mut self, client: u32, window: Window) {
        self.of.insert(client, window);
    }

    /// A client's window; none where nothing of the client is final.
    pub fn of(&self, client: u32) -> Option<&Window> {
        self.of.get(&client)
    }

    /// How many clients there are.
    pub fn len(&self) -> usize {
        self.of.len()
    }

    /// Whether there are none.
    pub fn is_empty(&self) -> bool {
        self.of.is_empty()
    }

    /// All windows, by client.
    pub fn iter(&self) -> impl Iterator<Item = (u32, &Window)> {
        self.of.iter().map(|(client, window)| (*client, window))
    }
}

#[cfg(test)]
#[path = "window_tests.rs"]
mod tests;
