//! The exported functions of the messages, likewise.

use super::filters::start_mut;
use crate::messages::layout::Header;
use crate::messages::writers::Written;
use crate::model::Columns;

// In the archive `tandawire`.
extern "C" {
    fn tandawire_message_read(message: *const u8, len: usize) -> TandawireMessage;
    fn tandawire_message_at(buffer: *const u8, len: usize, at: usize) -> TandawireMessage;
    fn tandawire_element_write(
        content: *const u8,
        content_len: usize,
        out: *mut u8,
        out_len: usize,
        at: usize,
    ) -> TandawireWritten;
    fn tandawire_filter_write(
        ids: *const u64,
        ids_len: usize,
        hashes: *const u32,
        hashes_len: usize,
        counts: *const i64,
        counts_len: usize,
        size: u32,
        salt: u32,
        out: *mut u8,
        out_len: usize,
        at: usize,
    ) -> TandawireWritten;
    fn tandawire_filter_lay(
        message: *const u8,
        len: usize,
        ids: *mut u64,
        ids_len: usize,
        hashes: *mut u32,
        hashes_len: usize,
        counts: *mut i64,
        counts_len: usize,
    ) -> u32;
}

// In the archive `probe`.
extern "C" {
    fn tandawire_inquiry_write(
        ids: *const u64,
        ids_len: usize,
        salt: u32,
        out: *mut u8,
        out_len: usize,
        at: usize,
    ) -> TandawireWritten;
    fn tandawire_offer_write(
        hashes: *const u8,
        hashes_len: usize,
        out: *mut u8,
        out_len: usize,
        at: usize,
    ) -> TandawireWritten;
    fn tandawire_demand_write(
        hashes: *const u8,
        hashes_len: usize,
        out: *mut u8,
        out_len: usize,
        at: usize,
    ) -> TandawireWritten;
    fn tandawire_done_write(
        check: *const u8,
        check_len: usize,
        out: *mut u8,
        out_len: usize,
        at: usize,
    ) -> TandawireWritten;
    fn tandawire_message_id(s: *const u8, len: usize, i: usize) -> u64;
    fn tandawire_message_idsum(s: *const u8, len: usize, n: usize, i: usize) -> u64;
    fn tandawire_message_hashsum(s: *const u8, len: usize, n: usize, i: usize) -> u32;
    fn tandawire_message_counter(s: *const u8, len: usize, n: usize, width: u32, i: usize) -> u32;
    fn tandawire_message_hash(s: *const u8, len: usize, i: usize, at: usize, k: usize) -> u64;
    fn tandawire_message_content(s: *const u8, len: usize, at: usize, k: usize) -> u64;
    fn tandawire_message_content_length(s: *const u8, len: usize) -> usize;
}

#[repr(C)]
struct TandawireMessage {
    refusal: u32,
    kind: u32,
    size: u32,
    offset: u32,
    salt: u32,
    width: u32,
    count: usize,
    start: usize,
    next: usize,
}

// C's struct has 48 bytes.
const _: () = assert!(size_of::<TandawireMessage>() == 48);

impl From<TandawireMessage> for Header {
    fn from(message: TandawireMessage) -> Header {
        Header {
            refusal: message.refusal,
            kind: message.kind,
            size: message.size,
            offset: message.offset,
            salt: message.salt,
            width: message.width,
            count: message.count,
            start: message.start,
            next: message.next,
        }
    }
}

#[repr(C)]
struct TandawireWritten {
    refusal: u32,
    next: usize,
}

impl From<TandawireWritten> for Written {
    fn from(written: TandawireWritten) -> Written {
        Written {
            refusal: written.refusal,
            next: written.next,
        }
    }
}

// Safety, for all below: as in library.rs.
// What is only read is taken as if it might be written to: should it be, it must show.

pub fn message_read(message: &mut [u8]) -> Header {
    unsafe { tandawire_message_read(start_mut(message), message.len()) }.into()
}

pub fn message_at(buffer: &mut [u8], at: usize) -> Header {
    unsafe { tandawire_message_at(start_mut(buffer), buffer.len(), at) }.into()
}

pub fn element_write(content: &mut [u8], out: &mut [u8], at: usize) -> Written {
    let (from, len) = (start_mut(content), content.len());
    unsafe { tandawire_element_write(from, len, start_mut(out), out.len(), at) }.into()
}

pub fn filter_write(columns: Columns, size: u32, salt: u32, out: &mut [u8], at: usize) -> Written {
    let written = unsafe {
        tandawire_filter_write(
            start_mut(columns.ids),
            columns.ids.len(),
            start_mut(columns.hashes),
            columns.hashes.len(),
            start_mut(columns.counts),
            columns.counts.len(),
            size,
            salt,
            start_mut(out),
            out.len(),
            at,
        )
    };
    written.into()
}

pub fn filter_lay(message: &mut [u8], columns: Columns) -> u32 {
    unsafe {
        tandawire_filter_lay(
            start_mut(message),
            message.len(),
            start_mut(columns.ids),
            columns.ids.len(),
            start_mut(columns.hashes),
            columns.hashes.len(),
            start_mut(columns.counts),
            columns.counts.len(),
        )
    }
}

pub fn inquiry_write(ids: &mut [u64], salt: u32, out: &mut [u8], at: usize) -> Written {
    let (from, len) = (start_mut(ids), ids.len());
    unsafe { tandawire_inquiry_write(from, len, salt, start_mut(out), out.len(), at) }.into()
}

pub fn offer_write(hashes: &mut [u8], out: &mut [u8], at: usize) -> Written {
    let (from, len) = (start_mut(hashes), hashes.len());
    unsafe { tandawire_offer_write(from, len, start_mut(out), out.len(), at) }.into()
}

pub fn demand_write(hashes: &mut [u8], out: &mut [u8], at: usize) -> Written {
    let (from, len) = (start_mut(hashes), hashes.len());
    unsafe { tandawire_demand_write(from, len, start_mut(out), out.len(), at) }.into()
}

pub fn done_write(check: &mut [u8], out: &mut [u8], at: usize) -> Written {
    let (from, len) = (start_mut(check), check.len());
    unsafe { tandawire_done_write(from, len, start_mut(out), out.len(), at) }.into()
}

pub fn message_id(s: &mut [u8], i: usize) -> u64 {
    unsafe { tandawire_message_id(start_mut(s), s.len(), i) }
}

pub fn message_idsum(s: &mut [u8], n: usize, i: usize) -> u64 {
    unsafe { tandawire_message_idsum(start_mut(s), s.len(), n, i) }
}

pub fn message_hashsum(s: &mut [u8], n: usize, i: usize) -> u32 {
    unsafe { tandawire_message_hashsum(start_mut(s), s.len(), n, i) }
}

pub fn message_counter(s: &mut [u8], n: usize, width: u32, i: usize) -> u32 {
    unsafe { tandawire_message_counter(start_mut(s), s.len(), n, width, i) }
}

pub fn message_hash(s: &mut [u8], i: usize, at: usize, k: usize) -> u64 {
    unsafe { tandawire_message_hash(start_mut(s), s.len(), i, at, k) }
}

pub fn message_content(s: &mut [u8], at: usize, k: usize) -> u64 {
    unsafe { tandawire_message_content(start_mut(s), s.len(), at, k) }
}

pub fn message_content_length(s: &mut [u8]) -> usize {
    unsafe { tandawire_message_content_length(start_mut(s), s.len()) }
}
