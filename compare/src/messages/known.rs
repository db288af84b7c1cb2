//! Tests of the messages by numbers that come from outside the model: the paper's sizes, and bytes
//! written by hand.

use super::layout::{self, parse, Header, Message, Slice, MALFORMED};
use super::{calls, some, writers};
use crate::filters::HASH;
use crate::random::Random;
use crate::Tally;

fn check(what: &str, right: bool) -> Result<(), String> {
    if right {
        Ok(())
    } else {
        Err(format!("messages: {what}"))
    }
}

/// Bytes that are one message, and that message.
fn by_hand() -> Vec<(&'static str, Vec<u8>, Message)> {
    let sixty_four: Vec<u8> = (1..=64).collect();
    let behind = |four: [u8; 4], n: usize| [&four[..], &sixty_four.repeat(n)].concat();
    let three_buckets = vec![
        0x00, 0x36, 0x02, 0x37, // 54 bytes, 567
        0x00, 0x00, 0x09, 0xDB, // of 2,523 buckets
        0x00, 0x00, 0x09, 0xD8, // those from 2,520 on
        0x00, 0x09, 0x00, 0x03, // salt 9, width 3
        0x01, 0x02, 0x03, 0x04, 0x05, 0x06, 0x07, 0x08, // three IDSUMs
        0x00, 0x00, 0x00, 0x00, 0x00, 0x00, 0x00, 0xFF, //
        0xFE, 0x00, 0x00, 0x00, 0x00, 0x00, 0x00, 0x00, //
        0x11, 0x12, 0x13, 0x14, // three HASHSUMs
        0x00, 0x00, 0x00, 0x01, //
        0x80, 0x00, 0x00, 0x00, //
        0xA3, 0x80, // 5, 0, 7
    ];
    let slice = Slice {
        size: 2523,
        offset: 2520,
        salt: 9,
        width: 3,
        ids: vec![0x0102_0304_0506_0708, 0xFF, 0xFE << 56],
        hashes: vec![0x1112_1314, 1, 1 << 31],
        counts: vec![5, 0, 7],
    };
    let inquiry = vec![
        0x00, 0x18, 0x02, 0x31, // 24 bytes, 561
        0x00, 0x00, 0x00, 0x3F, // salt 63
        0x01, 0x02, 0x03, 0x04, 0x05, 0x06, 0x07, 0x08, //
        0x00, 0x00, 0x00, 0x00, 0x00, 0x00, 0x00, 0x0A, //
    ];
    let ids = vec![0x0102_0304_0506_0708, 10];
    vec![
        ("a slice", three_buckets, Message::Slice(slice)),
        ("an INQUIRY", inquiry, Message::Inquiry { salt: 63, ids }),
        (
            "an OFFER",
            behind([0x00, 0x84, 0x02, 0x32], 2),
            Message::Offer(sixty_four.repeat(2)),
        ),
        (
            "the longest OFFER",
            behind([0xFF, 0xC4, 0x02, 0x32], 1023),
            Message::Offer(sixty_four.repeat(1023)),
        ),
        (
            "a DEMAND",
            behind([0x00, 0x44, 0x02, 0x30], 1),
            Message::Demand(sixty_four.clone()),
        ),
        (
            "an ELEMENT",
            vec![0x00, 0x05, 0x02, 0x36, 0xAA],
            Message::Element(vec![0xAA]),
        ),
        (
            "the longest ELEMENT",
            [&[0xFF, 0xFF, 0x02, 0x36][..], &[7; 65531]].concat(),
            Message::Element(vec![7; 65531]),
        ),
        (
            "a DONE",
            behind([0x00, 0x44, 0x02, 0x38], 1),
            Message::Done(sixty_four.clone()),
        ),
    ]
}

/// The slices of a filter of this size that holds this counter once, in its last bucket.
fn filter(size: usize, counter: i64) -> Vec<Vec<u8>> {
    let mut counts = vec![0; size];
    counts[size - 1] = counter;
    let slices = writers::slices(&vec![0; size], &vec![0; size], &counts, 5);
    slices.iter().map(Message::bytes).collect()
}

fn lengths(messages: &[Vec<u8>]) -> Vec<usize> {
    messages.iter().map(Vec::len).collect()
}

/// Says what the model gets wrong.
pub fn check_model() -> Result<(), String> {
    for (name, bytes, message) in by_hand() {
        check(name, message.bytes() == bytes)?;
        check(name, parse(&bytes) == Some(message))?;
        check(name, parse(&bytes[..bytes.len() - 1]).is_none())?;
    }
    let small = filter(37, 2);
    check("37 buckets at width 2", lengths(&small) == [470])?;
    check("37 empty buckets", lengths(&filter(37, 0)) == [465])?;
    let large = filter(4096, 15);
    check("4,096 buckets", lengths(&large) == [31_516, 19_716])?;
    check("2,520 buckets", filter(2520, 1).len() == 1)?;
    check("2,521 buckets", filter(2521, 1).len() == 2)?;
    let first = [
        0x7B, 0x1C, 0x02, 0x35, 0, 0, 0x10, 0, 0, 0, 0, 0, 0, 5, 0, 4,
    ];
    let second = [
        0x4D, 0x04, 0x02, 0x37, 0, 0, 0x10, 0, 0, 0, 0x09, 0xD8, 0, 5, 0, 4,
    ];
    check("the first slice begins", large[0][..16] == first)?;
    check("the second slice begins", large[1][..16] == second)?;
    check("the last counter", large[1].last() == Some(&0x0F))?;
    let read_first = Header {
        refusal: 0,
        kind: 565,
        size: 4096,
        offset: 0,
        salt: 5,
        width: 4,
        count: 2520,
        start: 0,
        next: 31_516,
    };
    check("numbers of a slice", layout::read(&large[0]) == read_first)?;

    // Three spare bits.
    let mut spare = filter(37, 0).remove(0);
    for bit in 0..8 {
        spare[464] = 1 << bit;
        check("spare bits", parse(&spare).is_some() == (bit >= 3))?;
    }
    check_cutting()?;
    check_walk()?;
    // Reading is the inverse of writing.
    let mut random = Random::new(0x160);
    for _ in 0..400 {
        let message = some::any_message(&mut random);
        let back = parse(&message.bytes());
        check("there and back", back.as_ref() == Some(&message))?;
    }
    Ok(())
}

fn check_cutting() -> Result<(), String> {
    let cut = |n: usize| {
        let messages = writers::inquiries(&vec![0; n], 0);
        let bytes: Vec<Vec<u8>> = messages.iter().map(Message::bytes).collect();
        lengths(&bytes)
    };
    check("no IDs", cut(0).is_empty())?;
    check("8,190 IDs", cut(8190) == [65_528])?;
    check("8,191 IDs", cut(8191) == [65_528, 16])?;
    check("16,381 IDs", cut(16_381) == [65_528, 65_528, 16])?;
    let mut out = vec![0; 200_000];
    let mut end = |n: usize| writers::offer(&vec![0; n * HASH], &mut out, 3).next - 3;
    check("1,023 hashes", end(1023) == 65_476)?;
    check("1,024 hashes", end(1024) == 65_476 + 68)?;
    check("2,047 hashes", end(2047) == 65_476 * 2 + 68)?;
    check("no hashes", end(0) == 0)?;
    let written = writers::done(&[9; 64], &mut out, 7);
    check("DONE is 68", written.next == 75 && out[7..9] == [0, 68])
}

/// An ELEMENT, a DONE and three bytes left over, walked.
fn check_walk() -> Result<(), String> {
    let mut buffer = vec![0x00, 0x06, 0x02, 0x36, 1, 2];
    buffer.extend([0x00, 0x44, 0x02, 0x38]);
    buffer.extend([3; 64]);
    let steps = |buffer: &[u8], from: usize| {
        let header = layout::at(buffer, from);
        let numbers = (header.count, header.start, header.next);
        (header.refusal, header.kind, numbers)
    };
    check(
        "the first of a walk",
        steps(&buffer, 0) == (0, 566, (2, 0, 6)),
    )?;
    check(
        "the second of a walk",
        steps(&buffer, 6) == (0, 568, (1, 6, 74)),
    )?;
    check(
        "the end of a walk",
        steps(&buffer, 74) == (0, 1, (0, 74, 74)),
    )?;
    check("past the end", steps(&buffer, 90) == (0, 1, (0, 90, 90)))?;
    check("an empty buffer", steps(&[], 0) == (0, 1, (0, 0, 0)))?;
    buffer.extend([0, 5, 2]);
    check("bytes left over", steps(&buffer, 74) == (4, 0, (0, 74, 74)))?;
    let nothing = layout::read(&[]);
    check("nothing read", (nothing.refusal, nothing.kind) == (4, 0))
}

/// The library reads and walks what was written by hand.
pub fn compare(tally: &mut Tally) {
    let mut random = tally.subject("messages by hand", 0x161);
    let random = &mut random;
    let mut all = Vec::new();
    for (_, bytes, message) in by_hand() {
        assert!(calls::read(tally, random, &bytes) == message.kind());
        all.extend(bytes);
    }
    for bytes in [filter(37, 2), filter(4096, 15), filter(37, 0)].concat() {
        assert!(calls::read(tally, random, &bytes) != MALFORMED);
        all.extend(bytes);
    }
    let mut position = 0;
    while position < all.len() {
        position = calls::step(tally, random, &all, position).next;
    }
    calls::step(tally, random, &all, position);
}
