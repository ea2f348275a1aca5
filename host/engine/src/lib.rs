//! What a replica of Themis does around the proved core: a state machine without sockets, clock,
//! threads or files.
//!
//! Its host passes in what happened (an [`Input`], each with the time), and takes what is to be done
//! (an [`Output`]). In between, [`Engine::prepare`] returns [`Pending`] events: the host makes their
//! records durable, and hands them back to [`Engine::durable`], which alone lets the core act on
//! them. So nothing that a turn sends leaves before its record is durable: the messages do not exist
//! before.
//!
//! No proof covers this crate. The core is safe whatever it is given; what is here decides how well
//! it makes progress (`docs/HOSTING.md`, "What a host has to do").

#![forbid(unsafe_code)]

mod budget;
mod catch_up;
mod clients;
pub mod core;
mod counters;
mod engine;
mod follow;
pub mod frame;
mod gossip;
mod guards;
mod hold;
mod inbox;
mod intake;
mod of_sessions;
mod own;
mod pace;
mod pacemaker;
mod peers;
mod receive;
mod recent;
pub mod sessions;
pub mod setting;
mod status;
mod time;
mod turns;
pub mod tx;
pub mod window;
pub mod wire;

pub use clients::{Answer, Ticket};
pub use counters::{number_of, Count};
pub use engine::{Engine, Input, Output, Restored};
pub use intake::Note;
pub use recent::{Heard, View};
pub use status::{Sizes, Status};
pub use time::Time;
pub use turns::Pending;
pub use window::Check;
