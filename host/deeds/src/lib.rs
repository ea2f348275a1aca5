//! What a faulty replica does, for tests: the simulator has such replicas, and so has the program
//! `themisd-faulty`. No program that is installed is linked with this crate.
//!
//! A faulty replica runs the engine of an honest one. [`Faulty`] changes what its core is given and
//! what it sends, and [`Deeds`] change what its engine sends, and send more.

#![forbid(unsafe_code)]

mod acts;
mod core;
mod deed;
mod false_history;
pub mod parts;
mod second_head;
mod sends;
pub mod signer;

pub use crate::core::{Faulty, Owner};
pub use acts::{Sends, EVERY};
pub use deed::Deed;
pub use sends::{Actor, Deeds};
