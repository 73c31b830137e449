//! The six functions of the archive, each with its slices taken apart: all that is unsafe stands here.
//!
//! What each `SAFETY` comment leans on: a Rust slice has a pointer that is not null, to as many bytes as it says and fewer than 2 to the
//! 63rd; what is lent as `&mut` is lent to nobody else; and the functions are proved to read and write nothing but what they are lent.

use crate::refusal::{outcome, Refusal};

extern "C" {
    fn ithwyral_judge(message: *const u8, message_size: usize, out: *mut u64) -> u8;
    fn ithwyral_look_up(
        message: *const u8,
        message_size: usize,
        name: *const u8,
        name_size: usize,
        place: *const u64,
        out: *mut u64,
    ) -> u8;
    fn ithwyral_resolve(
        text: *const u8,
        text_size: usize,
        buffer: *mut u8,
        buffer_size: usize,
        out: *mut u64,
    ) -> u8;
    fn ithwyral_reply(
        message: *const u8,
        message_size: usize,
        stamp: *const u8,
        stamp_size: usize,
        number: *const u8,
        number_size: usize,
        buffer: *mut u8,
        buffer_size: usize,
        out: *mut u64,
    ) -> u8;
    fn ithwyral_file(
        message: *const u8,
        message_size: usize,
        group: u64,
        slot: usize,
        book: *mut u8,
        book_size: usize,
    ) -> u8;
    fn ithwyral_read_slip(
        book: *const u8,
        book_size: usize,
        slot: usize,
        tag: u64,
        out: *mut u64,
    ) -> u8;
}

pub fn judge(message: &[u8]) -> Result<[u64; 10], Refusal> {
    let mut out = [0; 10];
    // SAFETY: the message is a slice; `out` has the ten numbers that may be written.
    let returned = unsafe { ithwyral_judge(message.as_ptr(), message.len(), out.as_mut_ptr()) };
    outcome(returned).map(|()| out)
}

pub fn look_up(message: &[u8], name: &[u8], place: &[u64; 5]) -> Result<[u64; 3], Refusal> {
    let mut out = [0; 3];
    // SAFETY: message and name are slices; `place` has the five numbers that are read, `out` the three that may be written.
    let returned = unsafe {
        ithwyral_look_up(
            message.as_ptr(),
            message.len(),
            name.as_ptr(),
            name.len(),
            place.as_ptr(),
            out.as_mut_ptr(),
        )
    };
    outcome(returned).map(|()| out)
}

pub fn resolve(text: &[u8], buffer: &mut [u8]) -> Result<[u64; 1], Refusal> {
    let mut out = [0; 1];
    // SAFETY: text and buffer are slices, the buffer lent to this call alone; `out` has the one number that may be written.
    let returned = unsafe {
        ithwyral_resolve(
            text.as_ptr(),
            text.len(),
            buffer.as_mut_ptr(),
            buffer.len(),
            out.as_mut_ptr(),
        )
    };
    outcome(returned).map(|()| out)
}

pub fn reply(
    message: &[u8],
    stamp: &[u8],
    number: &[u8],
    buffer: &mut [u8],
) -> Result<[u64; 1], Refusal> {
    let mut out = [0; 1];
    // SAFETY: all four are slices, the buffer lent to this call alone; `out` has the one number that may be written.
    let returned = unsafe {
        ithwyral_reply(
            message.as_ptr(),
            message.len(),
            stamp.as_ptr(),
            stamp.len(),
            number.as_ptr(),
            number.len(),
            buffer.as_mut_ptr(),
            buffer.len(),
            out.as_mut_ptr(),
        )
    };
    outcome(returned).map(|()| out)
}

pub fn file(message: &[u8], group: u64, slot: usize, book: &mut [u8]) -> Result<(), Refusal> {
    // SAFETY: message and book are slices, the book lent to this call alone.
    let returned = unsafe {
        ithwyral_file(
            message.as_ptr(),
            message.len(),
            group,
            slot,
            book.as_mut_ptr(),
            book.len(),
        )
    };
    outcome(returned)
}

pub fn read_slip(book: &[u8], slot: usize, tag: u64) -> Result<[u64; 2], Refusal> {
    let mut out = [0; 2];
    // SAFETY: the book is a slice; `out` has the two numbers that may be written.
    let returned =
        unsafe { ithwyral_read_slip(book.as_ptr(), book.len(), slot, tag, out.as_mut_ptr()) };
    outcome(returned).map(|()| out)
}
