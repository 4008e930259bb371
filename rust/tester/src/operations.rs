//! The library's operations as the harness calls them.

use std::fmt;

use dairyhour::{boundary, Refusal};
use reference::list::{Judged, Listed};
use reference::message::encode;
use reference::Layout;

use crate::hex;
use crate::operation::{agree, Due, Operation};
use crate::received::Received;

/// Writing.
pub struct Write<'a> {
    pub layout: &'a Layout,
    pub row: &'a [u8],
}

impl fmt::Display for Write<'_> {
    fn fmt(&self, f: &mut fmt::Formatter<'_>) -> fmt::Result {
        write!(f, "write {:?}, row {}", self.layout, hex(self.row))
    }
}

impl Operation<1> for Write<'_> {
    type Cell = u8;
    type Value = usize;

    fn inputs(&self) -> [&[u8]; 1] {
        [self.row]
    }

    fn due(&self, room: usize) -> Due<usize, u8> {
        Due::new(reference::write(self.layout, self.row, room).map(|message| (message.len(), message)))
    }

    fn call(&self, [row]: [&[u8]; 1], target: &mut [u8]) -> (u32, usize) {
        let Layout { l1, l2, nc, r } = *self.layout;
        parts(boundary::write(l1, l2, nc, r, row, target))
    }

    fn call_wrapper(&self, [row]: [&[u8]; 1], target: &mut [u8]) -> Result<usize, Refusal> {
        let Layout { l1, l2, nc, r } = *self.layout;
        dairyhour::write(dairyhour::Layout { l1, l2, nc, r }, row, target)
    }
}

/// Reading. The value is l1, l2, nc and r.
pub struct Read<'a> {
    pub message: &'a [u8],
}

impl fmt::Display for Read<'_> {
    fn fmt(&self, f: &mut fmt::Formatter<'_>) -> fmt::Result {
        write!(f, "read {}", hex(self.message))
    }
}

impl Operation<1> for Read<'_> {
    type Cell = u16;
    type Value = [usize; 4];

    fn inputs(&self) -> [&[u8]; 1] {
        [self.message]
    }

    fn due(&self, room: usize) -> Due<[usize; 4], u16> {
        let read = reference::read(self.message, room);
        Due::new(read.map(|(Layout { l1, l2, nc, r }, fields)| ([l1, l2, nc, r], fields)))
    }

    fn call(&self, [message]: [&[u8]; 1], target: &mut [u16]) -> (u32, [usize; 4]) {
        let boundary::LayoutAnswer { refusal, l1, l2, nc, r } = boundary::read(message, target);
        (refusal, [l1, l2, nc, r])
    }

    fn call_wrapper(&self, [message]: [&[u8]; 1], target: &mut [u16]) -> Result<[usize; 4], Refusal> {
        dairyhour::read(message, target).map(|dairyhour::Layout { l1, l2, nc, r }| [l1, l2, nc, r])
    }

    /// A message that is read is the one that its layout and numbers give, byte for byte.
    fn is_sound(&self, [l1, l2, nc, r]: [usize; 4], written: &[u16]) -> bool {
        encode(&Layout::new(l1, l2, nc, r), written) == self.message
    }
}

/// Mending. The value is always 0.
pub struct Mend<'a> {
    pub w: usize,
    pub sum: usize,
    pub bits: &'a [u8],
}

impl fmt::Display for Mend<'_> {
    fn fmt(&self, f: &mut fmt::Formatter<'_>) -> fmt::Result {
        write!(f, "mend w {}, sum {}, bits {}", self.w, self.sum, hex(self.bits))
    }
}

impl Operation<1> for Mend<'_> {
    type Cell = u8;
    type Value = usize;

    fn inputs(&self) -> [&[u8]; 1] {
        [self.bits]
    }

    fn due(&self, room: usize) -> Due<usize, u8> {
        Due::new(reference::mend(self.w, self.sum, self.bits, room).map(|string| (0, string)))
    }

    fn call(&self, [bits]: [&[u8]; 1], target: &mut [u8]) -> (u32, usize) {
        parts(boundary::mend(self.w, self.sum, bits, target))
    }

    fn call_wrapper(&self, [bits]: [&[u8]; 1], target: &mut [u8]) -> Result<usize, Refusal> {
        dairyhour::mend(self.w, self.sum, bits, target).map(|()| 0)
    }
}

/// Listing, of what the reference has judged.
pub struct List<'a> {
    pub received: &'a Received,
    pub judged: &'a Judged,
}

impl fmt::Display for List<'_> {
    fn fmt(&self, f: &mut fmt::Formatter<'_>) -> fmt::Result {
        write!(f, "list: {}", self.received)
    }
}

impl Operation<2> for List<'_> {
    type Cell = u8;
    type Value = usize;

    fn inputs(&self) -> [&[u8]; 2] {
        [&self.received.message, &self.received.row]
    }

    fn due(&self, room: usize) -> Due<usize, u8> {
        let Listed { answer, written } = self.judged.listed(room);
        Due { answer, written }
    }

    fn call(&self, [message, row]: [&[u8]; 2], target: &mut [u8]) -> (u32, usize) {
        parts(boundary::list(message, row, self.received.m, target))
    }

    fn call_wrapper(&self, [message, row]: [&[u8]; 2], target: &mut [u8]) -> Result<usize, Refusal> {
        dairyhour::list(message, row, self.received.m, target)
    }
}

fn parts(answer: boundary::Answer) -> (u32, usize) {
    (answer.refusal, answer.value)
}

// The same as functions, with what the tests ask of each operation.

pub fn agree_write(layout: &Layout, row: &[u8], room: usize) -> Result<Vec<u8>, u32> {
    agree(&Write { layout, row }, room).done().map(|(_, message)| message)
}

pub fn agree_read(message: &[u8], room: usize) -> Result<(Layout, Vec<u16>), u32> {
    agree(&Read { message }, room).done().map(|([l1, l2, nc, r], fields)| (Layout::new(l1, l2, nc, r), fields))
}

pub fn agree_mend(w: usize, sum: usize, bits: &[u8], room: usize) -> Result<Vec<u8>, u32> {
    agree(&Mend { w, sum, bits }, room).done().map(|(_, string)| string)
}

pub fn agree_list(received: &Received, judged: &Judged, room: usize) -> Result<usize, u32> {
    agree(&List { received, judged }, room).answer
}
