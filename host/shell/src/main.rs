//! One replica of a Themis cluster, and what its operator needs: `themisd COMMAND`.

use std::process::ExitCode;

fn main() -> ExitCode {
    themisd::main_of::<themisd::Honest>()
}
