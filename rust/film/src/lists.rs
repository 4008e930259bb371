//! The text of all lists, written row by row as they come, in the order of the rows.

use std::collections::BTreeMap;
use std::fs::File;
use std::io::{self, Seek, Write};
use std::path::Path;

use crate::files;
use crate::trouble::{Result, Trouble};

/// Stands behind a row of a list that the pad rules out.
pub const PAD: &str = " pad";

/// With so many bytes of lists that wait for a row before them, no new rows are begun.
const MOST: usize = 64 << 20;

/// Lists go to a file that has no name yet, and under a name when all are there; what is no file gets them as they come.
pub struct Lists {
    to: To,
    /// The row whose list is written next.
    next: usize,
    /// Lists that wait for it, and their bytes.
    waiting: BTreeMap<usize, String>,
    bytes: usize,
    failed: Option<io::Error>,
}

enum To {
    Nameless(io::BufWriter<File>),
    Stream(Box<dyn Write>),
}

impl Lists {
    pub fn new(path: &Path) -> Result<Lists> {
        let trouble = |error| Trouble::with(path.display(), error);
        let to = if files::is_output(path) {
            To::Stream(Box::new(io::stdout()))
        } else {
            match container::nameless(path).map_err(trouble)? {
                Some(file) => To::Nameless(io::BufWriter::new(file)),
                None => To::Stream(Box::new(container::stream(path).map_err(trouble)?)),
            }
        };
        Ok(Lists { to, next: 0, waiting: BTreeMap::new(), bytes: 0, failed: None })
    }

    /// The list of a row.
    pub fn add(&mut self, row: usize, text: String) {
        self.bytes += text.len();
        self.waiting.insert(row, text);
        while let Some(text) = self.waiting.remove(&self.next) {
            self.next += 1;
            self.bytes -= text.len();
            let to: &mut dyn Write = match &mut self.to {
                To::Nameless(file) => file,
                To::Stream(stream) => stream,
            };
            if self.failed.is_none() {
                self.failed = to.write_all(text.as_bytes()).err();
            }
        }
    }

    /// Do too many lists wait?
    pub fn is_full(&self) -> bool {
        self.bytes >= MOST
    }

    /// All lists are there, and stand under this name from now on.
    pub fn finish(self, path: &Path) -> Result<()> {
        let trouble = |error| Trouble::with(path.display(), error);
        if let Some(error) = self.failed {
            return Err(trouble(error));
        }
        match self.to {
            To::Nameless(file) => {
                let mut file = file.into_inner().map_err(|error| trouble(error.into_error()))?;
                file.rewind().and_then(|()| container::save_from(path, &mut file)).map_err(trouble)
            }
            To::Stream(mut stream) => stream.flush().map_err(trouble),
        }
    }
}

/// The text of the lists, read again: of which rows of the line at least one row can have been sent. Rows that the pad rules
/// out do not count, and neither do the first rows of a list that was refused as too long.
pub fn listed(text: &str) -> Vec<bool> {
    let mut rows = Vec::new();
    let mut counts = false;
    for line in text.lines() {
        if line.starts_with("row ") {
            counts = line.split(' ').any(|word| word == "count");
            rows.push(false);
        } else if let Some(listed) = rows.last_mut() {
            *listed |= counts && !line.ends_with(PAD);
        }
    }
    rows
}

#[cfg(test)]
mod tests {
    use super::*;

    #[test]
    fn what_is_listed() {
        let text = "row 0 panel 0 received 6 count 2\n03 pad\n04\nrow 0 panel 1 received 6 count 1\n05 pad\n\
                    row 1 panel 0 received 6 refused 9\n03\nrow 1 panel 1 received 6 count 0\n\
                    row 2 panel 0 received 6 not done\nrow 2 panel 1 received 6 count 1\n04\n";
        assert_eq!(listed(text), [true, false, false, false, false, true]);
    }
}
