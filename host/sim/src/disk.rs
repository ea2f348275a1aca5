//! The logs of a replica, and what may happen to them.

use std::collections::BTreeMap;
use std::time::Duration;

/// A disk, with the bytes that are durable on it.
#[derive(Debug, Default)]
pub struct Disk {
    /// What is durable of the log of each session.
    pub logs: BTreeMap<u32, Vec<u8>>,
    /// How long a sync takes.
    pub sync: Duration,
    /// Nothing more fits.
    pub is_full: bool,
}

impl Disk {
    /// Makes records of a session durable.
    pub fn append(&mut self, session: u32, records: &[u8]) {
        self.logs.entry(session).or_default().extend_from_slice(records);
    }

    /// The process ends within a write: a part of the records is durable.
    pub fn tear(&mut self, session: u32, records: &[u8], part: f64) {
        let size = (records.len() as f64 * part) as usize;
        self.append(session, &records[..size.min(records.len())]);
    }

    /// The log of a session with one bit flipped, at a place from 0 to 1.
    pub fn rotten(&self, session: u32, place: f64) -> Vec<u8> {
        let mut out = self.logs.get(&session).cloned().unwrap_or_default();
        let bits = out.len() * 8;
        let bit = ((bits as f64 * place) as usize).min(bits.saturating_sub(1));
        if let Some(byte) = out.get_mut(bit / 8) {
            *byte ^= 1 << (bit % 8);
        }
        out
    }
}
