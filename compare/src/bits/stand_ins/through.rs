//! The messages of filters with the counters packed and read by a stand-in; all else is the
//! library's.

use super::super::slices::{Calls, Part};
use super::super::{bytes_of, flip, set_spare, Packer};
use crate::library::messages as library;
use crate::messages::layout::{Header, MALFORMED, REFUSED};
use crate::messages::writers::Written;
use crate::model::{self, Columns};

pub struct Through(pub Packer);

/// The slice that a message is, but for its spare bits: they are cleared.
fn cleared(message: &[u8]) -> Option<(Vec<u8>, Part)> {
    let number = |at, k| model::number_at(message, at, k) as usize;
    let (size, offset, w) = (number(4, 4), number(8, 4), number(14, 2));
    let part = Part::all(size.min(4096), w);
    let part = *part.iter().find(|part| part.offset == offset)?;
    let mut cleared = message.to_vec();
    if message.len() != part.message_len() {
        return None;
    }
    while let Some(j) = set_spare(&cleared[part.counters()..], part.n, w) {
        flip(&mut cleared[part.counters()..], j);
    }
    Some((cleared, part))
}

impl Calls for Through {
    fn write(&self, columns: Columns, size: u32, salt: u32, out: &mut [u8], at: usize) -> Written {
        let counts = columns.counts.to_vec();
        let old = out.to_vec();
        let written = library::filter_write(columns, size, salt, out, at);
        if written.refusal != 0 {
            return written;
        }
        let w = model::number_at(out, at + 14, 2) as usize;
        let (mut start, mut next) = (at, at);
        for part in Part::all(size as usize, w) {
            let from = start + part.counters();
            let end = from + bytes_of(part.n, w);
            out[from..end].copy_from_slice(&old[from..end]);
            let counts = &counts[part.offset..part.offset + part.n];
            let behind = out[end..].to_vec();
            next = (self.0.pack)(counts, w as u32, out, from);
            // The next message covers what the packer did where it stands.
            if part.offset + part.n < size as usize {
                out[end..].copy_from_slice(&behind);
            }
            start = end;
        }
        Written { refusal: 0, next }
    }

    fn lay(&self, message: &mut [u8], columns: Columns) -> u32 {
        let Some((mut cleared, part)) = cleared(message) else {
            return library::filter_lay(message, columns);
        };
        let (n, w) = (part.n, part.w as u32);
        if !(self.0.spare_is_zero)(message, part.counters(), n, w) {
            return REFUSED;
        }
        let old = columns.counts.to_vec();
        let lent = Columns {
            ids: columns.ids,
            hashes: columns.hashes,
            counts: &mut *columns.counts,
        };
        let answer = library::filter_lay(&mut cleared, lent);
        if answer == 0 {
            columns.counts.copy_from_slice(&old);
            (self.0.unpack)(message, part.counters(), n, w, columns.counts, part.offset);
        }
        answer
    }

    fn read(&self, message: &mut [u8]) -> Header {
        let Some((mut cleared, part)) = cleared(message) else {
            return library::message_read(message);
        };
        match (self.0.spare_is_zero)(message, part.counters(), part.n, part.w as u32) {
            true => library::message_read(&mut cleared),
            false => Header {
                refusal: REFUSED,
                kind: MALFORMED,
                ..Header::default()
            },
        }
    }

    fn counter(&self, message: &mut [u8], n: usize, w: u32, i: usize) -> u32 {
        (self.0.counter_at)(message, 16 + 12 * n, n, w, i)
    }
}
