//! What is not delivered to the core, or answered, although a peer asks for it.

mod allowance;
mod asks;
mod fit;
mod given;
mod orphans;

pub use allowance::{is_fault, Allowance};
pub use asks::EarlyAsks;
pub use fit::is_fit;
pub use given::GivenBlocks;
pub use orphans::Orphans;
