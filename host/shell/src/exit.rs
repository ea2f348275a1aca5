//! How a process ends: the statuses of docs/SERVICE.md, and the causes.

use std::fmt;

/// An exit status.
#[derive(Clone, Copy, Debug, PartialEq, Eq)]
pub enum Exit {
    /// A fault of this program.
    Fault = 1,
    /// Something is there already, or is not there, that the command needs otherwise.
    Usage = 2,
    /// The configuration, a secret or a certificate can't be used.
    Config = 3,
    /// Another process uses the log.
    LogInUse = 4,
    /// The log is missing, another replica's, or corrupt.
    LogRefused = 5,
    /// The log can't be read or written.
    Disk = 6,
    /// The core ran out of memory.
    Core = 7,
    /// A port can't be opened, or a replica does not answer its operator.
    Network = 8,
    /// A replica runs, and is not healthy.
    Unhealthy = 11,
}

/// A cause to end the process.
#[derive(Debug)]
pub struct Failure {
    /// The status.
    pub exit: Exit,
    /// What happened.
    pub text: String,
}

impl Failure {
    /// A cause with its status.
    pub fn new(exit: Exit, text: impl fmt::Display) -> Failure {
        Failure { exit, text: text.to_string() }
    }
}

impl fmt::Display for Failure {
    fn fmt(&self, to: &mut fmt::Formatter<'_>) -> fmt::Result {
        to.write_str(&self.text)
    }
}

impl std::error::Error for Failure {}

impl From<themis::Error> for Failure {
    fn from(error: themis::Error) -> Failure {
        Failure::new(Exit::Core, error)
    }
}
