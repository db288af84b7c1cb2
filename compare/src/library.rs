//! The library's exported functions behind safe wrappers: the only unsafe code here,
//! with that of the layers above in library/filters.rs, library/estimator.rs,
//! library/messages.rs and library/session.rs.
//!
//! Each wrapper lends whole slices by pointer and length, and the library keeps to them;
//! the comparisons lend them out of larger buffers, to see that it does.

pub mod estimator;
pub mod filters;
pub mod messages;
pub mod session;

use crate::model::Bucket;

// C's `bool` is taken as the byte it is: an answer that is neither 0 nor 1 must show.
extern "C" {
    fn tandawire_crc_bytes(s: *const u8, len: usize) -> u32;
    fn tandawire_crc(x: u64) -> u32;
    fn tandawire_crc_by_tables(x: u64) -> u32;
    fn tandawire_salt(x: u64, salt: u32) -> u64;
    fn tandawire_unsalt(x: u64, salt: u32) -> u64;
    fn tandawire_place_count(size: u32) -> usize;
    fn tandawire_places(draw0: u32, size: u32, k: usize, out: *mut u32, len: usize);
    fn tandawire_stratum(x: u64) -> u32;
    fn tandawire_width(n: u32) -> u32;
    fn tandawire_fits(counts: *const i64, n: usize, w: u32) -> u8;
    fn tandawire_pack(
        counts: *const i64,
        n: usize,
        w: u32,
        out: *mut u8,
        len: usize,
        at: usize,
    ) -> usize;
    fn tandawire_counter_at(s: *const u8, len: usize, at: usize, n: usize, w: u32, i: usize)
        -> u32;
    fn tandawire_spare_is_zero(s: *const u8, len: usize, at: usize, n: usize, w: u32) -> u8;
    fn tandawire_unpack(
        s: *const u8,
        len: usize,
        at: usize,
        n: usize,
        w: u32,
        counts: *mut i64,
        clen: usize,
        from: usize,
    ) -> u8;
    fn tandawire_is_zero(idsum: u64, hashsum: u32, count: i64) -> u8;
    fn tandawire_looks_pure(
        idsum: u64,
        hashsum: u32,
        count: i64,
        i: u32,
        size: u32,
        k: usize,
    ) -> u8;
    fn tandawire_number_at(s: *const u8, len: usize, at: usize, k: usize) -> u64;
    fn tandawire_put_number(s: *mut u8, len: usize, at: usize, k: usize, x: u64);
}

fn yes(answer: u8) -> bool {
    assert!(
        answer <= 1,
        "the library answered {answer:#x} where a C bool is due"
    );
    answer == 1
}

// Safety, for all below: pointer and length are of one live slice, lent alone where it is
// written, and each function answers every input.

pub fn crc_bytes(s: &[u8]) -> u32 {
    unsafe { tandawire_crc_bytes(s.as_ptr(), s.len()) }
}

pub fn crc(x: u64) -> u32 {
    unsafe { tandawire_crc(x) }
}

pub fn crc_by_tables(x: u64) -> u32 {
    unsafe { tandawire_crc_by_tables(x) }
}

pub fn salt(x: u64, salt: u32) -> u64 {
    unsafe { tandawire_salt(x, salt) }
}

pub fn unsalt(x: u64, salt: u32) -> u64 {
    unsafe { tandawire_unsalt(x, salt) }
}

pub fn place_count(size: u32) -> usize {
    unsafe { tandawire_place_count(size) }
}

pub fn write_places(draw0: u32, size: u32, k: usize, out: &mut [u32]) {
    unsafe { tandawire_places(draw0, size, k, out.as_mut_ptr(), out.len()) }
}

pub fn stratum(x: u64) -> u32 {
    unsafe { tandawire_stratum(x) }
}

pub fn width(n: u32) -> u32 {
    unsafe { tandawire_width(n) }
}

pub fn fits(counts: &[i64], w: u32) -> bool {
    yes(unsafe { tandawire_fits(counts.as_ptr(), counts.len(), w) })
}

pub fn pack(counts: &[i64], w: u32, out: &mut [u8], at: usize) -> usize {
    let (lent, len) = (out.as_mut_ptr(), out.len());
    unsafe { tandawire_pack(counts.as_ptr(), counts.len(), w, lent, len, at) }
}

pub fn counter_at(s: &[u8], at: usize, n: usize, w: u32, i: usize) -> u32 {
    unsafe { tandawire_counter_at(s.as_ptr(), s.len(), at, n, w, i) }
}

pub fn spare_is_zero(s: &[u8], at: usize, n: usize, w: u32) -> bool {
    yes(unsafe { tandawire_spare_is_zero(s.as_ptr(), s.len(), at, n, w) })
}

pub fn unpack(s: &[u8], at: usize, n: usize, w: u32, counts: &mut [i64], from: usize) -> bool {
    let (lent, clen) = (counts.as_mut_ptr(), counts.len());
    yes(unsafe { tandawire_unpack(s.as_ptr(), s.len(), at, n, w, lent, clen, from) })
}

pub fn is_zero(bucket: Bucket) -> bool {
    yes(unsafe { tandawire_is_zero(bucket.idsum, bucket.hashsum, bucket.count) })
}

pub fn looks_pure(bucket: Bucket, i: u32, size: u32, k: usize) -> bool {
    let Bucket {
        idsum,
        hashsum,
        count,
    } = bucket;
    yes(unsafe { tandawire_looks_pure(idsum, hashsum, count, i, size, k) })
}

pub fn number_at(s: &[u8], at: usize, k: usize) -> u64 {
    unsafe { tandawire_number_at(s.as_ptr(), s.len(), at, k) }
}

pub fn put_number(s: &mut [u8], at: usize, k: usize, x: u64) {
    unsafe { tandawire_put_number(s.as_mut_ptr(), s.len(), at, k, x) }
}
