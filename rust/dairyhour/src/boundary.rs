//! The C boundary as it is, for callers that want the answer unchanged. The declarations repeat
//! `include/dairyhour.h`; the functions around them only split slices into pointer and length.

/// What `dh_write`, `dh_mend` and `dh_list` return: refusal 0 says that the operation was done.
#[repr(C)]
#[derive(Clone, Copy, Debug, PartialEq, Eq)]
pub struct Answer {
    pub refusal: u32,
    pub value: usize,
}

/// The `dh_answer` of `dh_list`, by what it says: refusal 0 says that so many rows are consistent.
#[repr(C)]
struct ListAnswer {
    refusal: u32,
    count: usize,
}

/// What `dh_read` returns: refusal 0 says that the other four numbers are the message's layout.
#[repr(C)]
#[derive(Clone, Copy, Debug, PartialEq, Eq)]
pub struct LayoutAnswer {
    pub refusal: u32,
    pub l1: usize,
    pub l2: usize,
    pub nc: usize,
    pub r: usize,
}

extern "C" {
    #[allow(clippy::too_many_arguments)]
    fn dh_write(
        l1: usize,
        l2: usize,
        nc: usize,
        r: usize,
        row: *const u8,
        row_len: usize,
        out: *mut u8,
        out_len: usize,
    ) -> Answer;
    fn dh_read(msg: *const u8, msg_len: usize, out: *mut u16, out_len: usize) -> LayoutAnswer;
    fn dh_mend(w: usize, sum: usize, bits: *const u8, bits_len: usize, out: *mut u8, out_len: usize) -> Answer;
    fn dh_list(
        msg: *const u8,
        msg_len: usize,
        row: *const u8,
        row_len: usize,
        m: usize,
        out: *mut u8,
        out_len: usize,
    ) -> ListAnswer;
}

/// Calls `dh_write`.
pub fn write(l1: usize, l2: usize, nc: usize, r: usize, row: &[u8], out: &mut [u8]) -> Answer {
    // SAFETY: each pointer and length is a slice's own, so the pointer is aligned and not null, also where
    // the slice is empty; `row` may be read and `out` written throughout the call, and they do not overlap.
    unsafe { dh_write(l1, l2, nc, r, row.as_ptr(), row.len(), out.as_mut_ptr(), out.len()) }
}

/// Calls `dh_read`.
pub fn read(message: &[u8], out: &mut [u16]) -> LayoutAnswer {
    // SAFETY: as for `write`, with `message` in the place of `row`; `out_len` counts entries of 16 bits.
    unsafe { dh_read(message.as_ptr(), message.len(), out.as_mut_ptr(), out.len()) }
}

/// Calls `dh_mend`.
pub fn mend(w: usize, sum: usize, bits: &[u8], out: &mut [u8]) -> Answer {
    // SAFETY: as for `write`, with `bits` in the place of `row`.
    unsafe { dh_mend(w, sum, bits.as_ptr(), bits.len(), out.as_mut_ptr(), out.len()) }
}

/// Calls `dh_list`.
pub fn list(message: &[u8], row: &[u8], m: usize, out: &mut [u8]) -> Answer {
    // SAFETY: as for `write`, with `message` and `row`, which are only read and may overlap each other.
    let answer =
        unsafe { dh_list(message.as_ptr(), message.len(), row.as_ptr(), row.len(), m, out.as_mut_ptr(), out.len()) };
    Answer { refusal: answer.refusal, value: answer.count }
}
