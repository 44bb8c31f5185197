//! What the command says when it cannot go on.

use std::fmt;
use std::io;
use std::process::ExitCode;

/// A message and whose fault it speaks of.
#[derive(Debug)]
pub enum Failure {
    /// Bad input, a refusal of the core, or a file that cannot be read or written.
    Input(String),
    /// A command line that is not understood.
    Usage(String),
}

impl Failure {
    /// An error of the operating system on a file.
    pub fn file(name: &str, error: io::Error) -> Failure {
        Failure::Input(format!("{name}: {error}"))
    }

    /// The exit status.
    pub fn status(&self) -> ExitCode {
        match self {
            Failure::Input(_) => ExitCode::from(1),
            Failure::Usage(_) => ExitCode::from(2),
        }
    }
}

impl fmt::Display for Failure {
    fn fmt(&self, f: &mut fmt::Formatter) -> fmt::Result {
        match self {
            Failure::Input(message) => f.write_str(message),
            Failure::Usage(message) => write!(f, "{message}; see figures --help"),
        }
    }
}
