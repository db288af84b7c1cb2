//! The writers: what is cut into how many messages, what is refused, and with which number.

use super::layout::{Message, Slice, MOST_BUCKETS, MOST_CONTENT, MOST_IDS, MOST_LISTED};
use crate::filters::{a_column_is_shorter, range_is_good, HASH, MOST_COUNT};
use crate::model::{self, Columns};

/// What a writer answers.
#[derive(Clone, Copy, Debug, PartialEq)]
pub struct Written {
    pub refusal: u32,
    pub next: usize,
}

fn refused(refusal: u32) -> Written {
    Written { refusal, next: 0 }
}

/// Writes the messages end to end from `at` on; 2 where there is no room for all of them.
fn write(messages: &[Message], out: &mut [u8], at: usize) -> Written {
    let bytes: Vec<u8> = messages.iter().flat_map(Message::bytes).collect();
    if at as u128 + bytes.len() as u128 > out.len() as u128 {
        return refused(2);
    }
    let next = at + bytes.len();
    out[at..next].copy_from_slice(&bytes);
    Written { refusal: 0, next }
}

pub fn element(content: &[u8], out: &mut [u8], at: usize) -> Written {
    if at as u128 + 4 + content.len() as u128 > out.len() as u128 {
        return refused(2);
    }
    if content.is_empty() || content.len() > MOST_CONTENT {
        return refused(4);
    }
    write(&[Message::Element(content.to_vec())], out, at)
}

/// The slices of a whole filter, all of the smallest width that holds its largest counter.
pub fn slices(ids: &[u64], hashes: &[u32], counts: &[i64], salt: u32) -> Vec<Message> {
    let largest = counts.iter().copied().max().unwrap_or(0);
    let width = model::width(u32::try_from(largest).expect("a filter's COUNT"));
    let mut slices = Vec::new();
    for offset in (0..ids.len()).step_by(MOST_BUCKETS) {
        let end = ids.len().min(offset + MOST_BUCKETS);
        slices.push(Message::Slice(Slice {
            size: ids.len() as u32,
            offset: offset as u32,
            salt,
            width,
            ids: ids[offset..end].to_vec(),
            hashes: hashes[offset..end].to_vec(),
            counts: counts[offset..end].to_vec(),
        }));
    }
    slices
}

pub fn filter(columns: Columns, size: u32, salt: u32, out: &mut [u8], at: usize) -> Written {
    let all = size as usize;
    let mut judged = columns.counts.iter().take(all);
    if judged.any(|count| !(0..=MOST_COUNT).contains(count)) {
        return refused(1);
    }
    if !range_is_good(size, salt) {
        return refused(3);
    }
    if a_column_is_shorter(&columns, size) {
        return refused(2);
    }
    let (ids, hashes) = (&columns.ids[..all], &columns.hashes[..all]);
    let slices = slices(ids, hashes, &columns.counts[..all], salt);
    write(&slices, out, at)
}

/// Full messages and a last one.
pub fn inquiries(ids: &[u64], salt: u32) -> Vec<Message> {
    let parts = ids.chunks(MOST_IDS).map(<[u64]>::to_vec);
    parts.map(|ids| Message::Inquiry { salt, ids }).collect()
}

pub fn inquiry(ids: &[u64], salt: u32, out: &mut [u8], at: usize) -> Written {
    match salt <= 63 {
        true => write(&inquiries(ids, salt), out, at),
        false => refused(3),
    }
}

/// Likewise, of hashes end to end.
pub fn listed(hashes: &[u8], kind: fn(Vec<u8>) -> Message) -> Vec<Message> {
    let parts = hashes.chunks(MOST_LISTED * HASH).map(<[u8]>::to_vec);
    parts.map(kind).collect()
}

pub fn offer(hashes: &[u8], out: &mut [u8], at: usize) -> Written {
    match hashes.len() % HASH {
        0 => write(&listed(hashes, Message::Offer), out, at),
        _ => refused(1),
    }
}

pub fn demand(hashes: &[u8], out: &mut [u8], at: usize) -> Written {
    match hashes.len() % HASH {
        0 => write(&listed(hashes, Message::Demand), out, at),
        _ => refused(1),
    }
}

pub fn done(check: &[u8], out: &mut [u8], at: usize) -> Written {
    match check.get(..HASH) {
        Some(check) => write(&[Message::Done(check.to_vec())], out, at),
        None => refused(2),
    }
}
