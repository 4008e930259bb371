//! Reads a file from its start, and knows at which byte it is. Numbers stand high byte first.

use crate::crc::crc32;
use crate::fault::Fault;
use crate::{IDENTIFIED, VERSION};

/// The bytes of the checksum at the end.
const CHECKSUM: usize = 4;

pub struct Cursor<'a> {
    bytes: &'a [u8],
    at: usize,
    /// Does the file name its film?
    identified: bool,
}

impl<'a> Cursor<'a> {
    /// Starts behind the mark, which must be this, and the version, which must be known.
    pub fn open(bytes: &'a [u8], mark: [u8; 4], what: &str) -> Result<Cursor<'a>, Fault> {
        let mut cursor = Cursor { bytes, at: 0, identified: false };
        let found = cursor.take(4, "the mark")?;
        if let Some(place) = (0..4).find(|place| found[*place] != mark[*place]) {
            let name = String::from_utf8_lossy(&mark);
            return Err(Fault::new(place, format!("this is no file of {what}, which starts with the mark {name}")));
        }
        let version = cursor.number16("the version")?;
        if version != VERSION && version != IDENTIFIED {
            let known = format!("only versions {VERSION} and {IDENTIFIED} are known");
            return Err(Fault::new(4, format!("version {version}, but {known}")));
        }
        cursor.identified = version == IDENTIFIED;
        Ok(cursor)
    }

    /// Is this a file of the version that names its film?
    pub fn identified(&self) -> bool {
        self.identified
    }

    /// The byte that is read next.
    pub fn at(&self) -> usize {
        self.at
    }

    /// The next so many bytes; `what` names them where the file ends too early.
    pub fn take(&mut self, count: usize, what: &str) -> Result<&'a [u8], Fault> {
        match self.bytes[self.at..].get(..count) {
            Some(found) => {
                self.at += count;
                Ok(found)
            }
            None => {
                let missing = count - (self.bytes.len() - self.at);
                Err(Fault::new(self.bytes.len(), format!("the file ends, {} short of {what}", bytes(missing))))
            }
        }
    }

    pub fn number16(&mut self, what: &str) -> Result<u16, Fault> {
        let found = self.take(2, what)?;
        Ok(u16::from_be_bytes([found[0], found[1]]))
    }

    pub fn number32(&mut self, what: &str) -> Result<u32, Fault> {
        let found = self.take(4, what)?;
        Ok(u32::from_be_bytes([found[0], found[1], found[2], found[3]]))
    }

    /// The checksum of all bytes before it, and then the end of the file.
    pub fn close(mut self) -> Result<(), Fault> {
        let place = self.at;
        let computed = crc32(&self.bytes[..place]);
        let stored = self.number32("the checksum")?;
        if stored != computed {
            let what = format!("the checksum is {stored:08X}, but bytes 0 to {} have {computed:08X}", place - 1);
            return Err(Fault::new(place, what));
        }
        match self.bytes.len() - self.at {
            0 => Ok(()),
            more => Err(Fault::new(self.at, format!("the file should end here, but goes on for {}", bytes(more)))),
        }
    }
}

/// So many bytes, in words.
fn bytes(count: usize) -> String {
    format!("{count} byte{}", if count == 1 { "" } else { "s" })
}

/// Appends the checksum of all bytes so far.
pub fn seal(mut bytes: Vec<u8>) -> Vec<u8> {
    let crc = crc32(&bytes);
    bytes.reserve_exact(CHECKSUM);
    bytes.extend(crc.to_be_bytes());
    bytes
}
