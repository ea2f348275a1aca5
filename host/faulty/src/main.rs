//! `themisd-faulty`: a replica that misbehaves, for tests alone. It is `themisd`, but for what the
//! key `deeds` of its configuration names. Never install it.

mod faulty;

use std::process::ExitCode;

fn main() -> ExitCode {
    themisd::main_of::<faulty::Misconduct>()
}
