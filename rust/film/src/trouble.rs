//! Why a command ends with status 2.

use std::fmt;

/// What went wrong, as one sentence for whoever ran the command.
#[derive(Debug)]
pub struct Trouble(String);

pub type Result<T> = std::result::Result<T, Trouble>;

impl Trouble {
    pub fn new(what: impl Into<String>) -> Trouble {
        Trouble(what.into())
    }

    /// Something that went wrong with a file, or anything else that has a name.
    pub fn with(name: impl fmt::Display, what: impl fmt::Display) -> Trouble {
        Trouble(format!("{name}: {what}"))
    }
}

impl fmt::Display for Trouble {
    fn fmt(&self, f: &mut fmt::Formatter<'_>) -> fmt::Result {
        f.write_str(&self.0)
    }
}
