//! Comparisons of the writers of ELEMENT, INQUIRY, OFFER, DEMAND and DONE: the bytes, the cuts
//! and the refusals.

use super::calls::{self, far_room, few_rooms, rooms, Room};
use super::layout::{MOST_CONTENT, MOST_IDS, MOST_LISTED};
use super::some;
use super::writers::Written;
use crate::building::EDGE_SALTS;
use crate::filters::HASH;
use crate::random::Random;
use crate::sets::some_salt;
use crate::Tally;

/// Numbers of items about those at which a list is cut.
const NUMBERS: [usize; 13] = [
    0, 1, 2, 1022, 1023, 1024, 2046, 2047, 4096, 8189, 8190, 8191, 16_381,
];

/// Lengths of content about the longest, and those that are good modulo 2^16.
const CONTENTS: [usize; 14] = [
    0, 1, 2, 65_530, 65_531, 65_532, 65_533, 65_535, 65_536, 65_537, 70_000, 131_067, 131_072,
    196_613,
];

pub fn compare(tally: &mut Tally) {
    elements(tally);
    inquiries(tally);
    hashes(tally);
    dones(tally);
}

/// The bytes of the messages that so many items of so many bytes are cut into.
fn cut(n: usize, most: usize, header: usize, each: usize) -> usize {
    n.div_ceil(most) * header + n * each
}

/// Room for the first messages only: nothing may be written then.
fn part_rooms(random: &mut Random, bytes: usize, full: usize) -> Vec<Room> {
    let at = random.below(20) as usize;
    let fulls = (1..=bytes / full).map(|k| k * full);
    let lens = fulls.flat_map(|len| [len - 1, len, len + 3, len + 4]);
    lens.map(|len| Room { len: at + len, at }).collect()
}

fn elements(tally: &mut Tally) {
    let mut random = tally.subject("writing elements", 0x162);
    let random = &mut random;
    for i in 0..1_500 {
        let n = random.below(2 + i % 300) as usize;
        let content = random.bytes(n);
        for room in rooms(random, 4 + n) {
            calls::element(tally, random, &content, room);
        }
    }
    for n in 0..40 {
        let content = random.bytes(n);
        let room = far_room(random, 4 + n);
        calls::element(tally, random, &content, room);
    }
    for n in CONTENTS {
        let content = random.bytes(n);
        let mut all = few_rooms(random, 4 + n);
        all.extend(rooms(random, n));
        // Room for what a length modulo 2^16 would take, and for all that can be had.
        for len in [4 + n % 65_536, MOST_CONTENT + 4, n, n + 3, n + 4, n + 90] {
            all.push(Room { len, at: 0 });
        }
        for room in all {
            let answer = calls::element(tally, random, &content, room);
            let good = (1..=MOST_CONTENT).contains(&n);
            assert!(good || answer.refusal != 0);
        }
    }
}

fn inquiries(tally: &mut Tally) {
    let mut random = tally.subject("writing inquiries", 0x163);
    let random = &mut random;
    for i in 0..2_000 {
        let n = random.below(2 + i % 40) as usize;
        let ids = some::ids(random, n);
        let salt = match random.below(6) {
            0 => random.pick(&EDGE_SALTS),
            _ => some_salt(random),
        };
        for room in rooms(random, cut(n, MOST_IDS, 8, 8)) {
            calls::inquiry(tally, random, &ids, salt, room);
        }
    }
    for salt in 0..=70 {
        calls::inquiry(tally, random, &[1, 2], salt, Room { len: 24, at: 0 });
    }
    for n in NUMBERS {
        let ids = some::ids(random, n);
        let bytes = cut(n, MOST_IDS, 8, 8);
        let mut all = few_rooms(random, bytes);
        all.extend(part_rooms(random, bytes, 8 + 8 * MOST_IDS));
        for room in all {
            let salt = random.pick(&[0, 1, 63, 63, 64]);
            calls::inquiry(tally, random, &ids, salt, room);
        }
        let room = Room { len: bytes, at: 0 };
        assert!(calls::inquiry(tally, random, &ids, 9, room).next == bytes);
    }
}

/// Both lists of hashes by turns.
fn either(tally: &mut Tally, random: &mut Random, hashes: &[u8], room: Room) -> [Written; 2] {
    [
        calls::offer(tally, random, hashes, room),
        calls::demand(tally, random, hashes, room),
    ]
}

fn hashes(tally: &mut Tally) {
    let mut random = tally.subject("writing offers and demands", 0x164);
    let random = &mut random;
    for i in 0..400 {
        let n = random.below(2 + i % 9) as usize;
        let mut hashes = some::hashes(random, n);
        if i % 3 == 0 {
            // The last is not whole, or something is left over.
            let broken = random.pick(&[1, 2, 32, 62, 63]);
            hashes.extend(random.bytes(broken));
        }
        let n = hashes.len() / HASH;
        for room in rooms(random, cut(n, MOST_LISTED, 4, HASH)) {
            either(tally, random, &hashes, room);
        }
    }
    for broken in 0..=2 * HASH {
        let hashes = random.bytes(broken);
        either(tally, random, &hashes, Room { len: 200, at: 5 });
    }
    for n in NUMBERS {
        let hashes = some::hashes(random, n);
        let bytes = cut(n, MOST_LISTED, 4, HASH);
        let mut all = few_rooms(random, bytes);
        if n < 5000 {
            all.extend(part_rooms(random, bytes, 4 + HASH * MOST_LISTED));
        }
        for room in all {
            either(tally, random, &hashes, room);
        }
        let room = Room { len: bytes, at: 0 };
        let answers = either(tally, random, &hashes, room);
        assert!(answers.iter().all(|answer| answer.next == bytes));
        if n > 0 {
            // One byte less than whole hashes, and one more.
            either(tally, random, &hashes[1..], room);
            let more = [&hashes[..], &[7]].concat();
            either(
                tally,
                random,
                &more,
                Room {
                    len: bytes + 70,
                    at: 0,
                },
            );
        }
    }
}

fn dones(tally: &mut Tally) {
    let mut random = tally.subject("writing DONE", 0x165);
    let random = &mut random;
    for len in (0..=130).chain([256, 4096]) {
        let check = random.bytes(len);
        for room in rooms(random, 4 + HASH) {
            calls::done(tally, random, &check, room);
        }
    }
    for _ in 0..20 {
        let check = random.bytes(HASH);
        let room = far_room(random, 4 + HASH);
        calls::done(tally, random, &check, room);
    }
    for len in 0..=140 {
        for at in [0, 1, 67, 68, 69, 72] {
            let check = random.bytes(HASH);
            calls::done(tally, random, &check, Room { len, at });
        }
    }
}
