//! The exported functions of tables, filters and readings, likewise.

use super::yes;
use crate::filters::Reading;
use crate::model::Columns;
use std::ptr::{null, null_mut};

extern "C" {
    fn tandawire_is_table(table: *const u8, len: usize) -> u8;
    fn tandawire_element_id(table: *const u8, len: usize, i: usize) -> u64;
    fn tandawire_holds_id(table: *const u8, len: usize, id: u64) -> u8;
    fn tandawire_holds_hash(table: *const u8, len: usize, hash: *const u8, hash_len: usize) -> u8;
    fn tandawire_id_position(table: *const u8, len: usize, id: u64) -> usize;
    fn tandawire_hash_position(
        table: *const u8,
        len: usize,
        hash: *const u8,
        hash_len: usize,
    ) -> usize;
    fn tandawire_build(
        table: *const u8,
        table_len: usize,
        ids: *mut u64,
        ids_len: usize,
        hashes: *mut u32,
        hashes_len: usize,
        counts: *mut i64,
        counts_len: usize,
        size: u32,
        salt: u32,
    ) -> u32;
    fn tandawire_read(
        table: *const u8,
        table_len: usize,
        ids: *mut u64,
        ids_len: usize,
        hashes: *mut u32,
        hashes_len: usize,
        counts: *mut i64,
        counts_len: usize,
        ours: *mut u64,
        ours_len: usize,
        theirs: *mut u64,
        theirs_len: usize,
        size: u32,
        salt: u32,
    ) -> TandawireReading;
}

#[repr(C)]
struct TandawireReading {
    refusal: u32,
    complete: u32,
    ours: usize,
    theirs: usize,
    looked: usize,
}

// Safety, for all below: as in library.rs.
// Where nothing is lent the pointer is NULL: a length of 0 must be enough.

fn start<T>(s: &[T]) -> *const T {
    match s {
        [] => null(),
        _ => s.as_ptr(),
    }
}

pub fn start_mut<T>(s: &mut [T]) -> *mut T {
    match s {
        [] => null_mut(),
        _ => s.as_mut_ptr(),
    }
}

pub fn is_table(table: &[u8]) -> bool {
    yes(unsafe { tandawire_is_table(start(table), table.len()) })
}

pub fn element_id(table: &[u8], i: usize) -> u64 {
    unsafe { tandawire_element_id(start(table), table.len(), i) }
}

pub fn holds_id(table: &[u8], id: u64) -> bool {
    yes(unsafe { tandawire_holds_id(start(table), table.len(), id) })
}

pub fn holds_hash(table: &[u8], hash: &[u8]) -> bool {
    yes(unsafe { tandawire_holds_hash(start(table), table.len(), start(hash), hash.len()) })
}

pub fn id_position(table: &[u8], id: u64) -> usize {
    unsafe { tandawire_id_position(start(table), table.len(), id) }
}

pub fn hash_position(table: &[u8], hash: &[u8]) -> usize {
    unsafe { tandawire_hash_position(start(table), table.len(), start(hash), hash.len()) }
}

// The two below take the table as if it might be written to: should it be, it must show.

pub fn build(table: &mut [u8], columns: Columns, size: u32, salt: u32) -> u32 {
    unsafe {
        tandawire_build(
            start_mut(table),
            table.len(),
            start_mut(columns.ids),
            columns.ids.len(),
            start_mut(columns.hashes),
            columns.hashes.len(),
            start_mut(columns.counts),
            columns.counts.len(),
            size,
            salt,
        )
    }
}

pub fn read(
    table: &mut [u8],
    columns: Columns,
    [ours, theirs]: [&mut [u64]; 2],
    size: u32,
    salt: u32,
) -> Reading {
    let reading = unsafe {
        tandawire_read(
            start_mut(table),
            table.len(),
            start_mut(columns.ids),
            columns.ids.len(),
            start_mut(columns.hashes),
            columns.hashes.len(),
            start_mut(columns.counts),
            columns.counts.len(),
            start_mut(ours),
            ours.len(),
            start_mut(theirs),
            theirs.len(),
            size,
            salt,
        )
    };
    Reading {
        refusal: reading.refusal,
        complete: reading.complete,
        ours: reading.ours,
        theirs: reading.theirs,
        looked: reading.looked,
    }
}
