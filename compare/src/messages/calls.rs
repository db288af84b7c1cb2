//! One call by the model and the library, with all that is lent.

use super::items;
use super::layout::{self, Header};
use super::writers::{self, Written};
use crate::library::messages as library;
use crate::model::Columns;
use crate::random::Random;
use crate::{lent, Tally, GUARD};
use std::fmt::Debug;
use std::ops::Range;

/// These with any others before and behind them.
pub fn guarded(random: &mut Random, bytes: &[u8]) -> Vec<u8> {
    let mut whole = random.bytes(GUARD);
    whole.extend(bytes);
    whole.extend(random.bytes(GUARD));
    whole
}

/// Reads the bytes as exactly one message.
pub fn read(tally: &mut Tally, random: &mut Random, bytes: &[u8]) -> u32 {
    let whole = guarded(random, bytes);
    read_part(tally, &whole, GUARD..GUARD + bytes.len())
}

/// Reads a part of a whole buffer, so that what stands behind it goes on as it is there.
pub fn read_part(tally: &mut Tally, whole: &[u8], part: Range<usize>) -> u32 {
    let mut by_library = whole.to_vec();
    let model = layout::read(&whole[part.clone()]);
    let library = library::message_read(&mut by_library[part.clone()]);
    let call = || {
        let len = part.len();
        let bytes = &whole[part.clone()];
        format!("message_read({len:#x} bytes {bytes:02x?})")
    };
    tally.same(call, (model, whole), (library, &by_library[..]));
    tally.messages.answered("message_read", model.refusal);
    *tally.messages.read.entry(model.kind).or_default() += 1;
    model.kind
}

/// One step of a walk.
pub fn step(tally: &mut Tally, random: &mut Random, buffer: &[u8], at: usize) -> Header {
    let whole = guarded(random, buffer);
    step_part(tally, &whole, GUARD..GUARD + buffer.len(), at)
}

/// Likewise in a part of a whole buffer.
pub fn step_part(tally: &mut Tally, whole: &[u8], part: Range<usize>, at: usize) -> Header {
    let mut by_library = whole.to_vec();
    let model = layout::at(&whole[part.clone()], at);
    let library = library::message_at(&mut by_library[part.clone()], at);
    let call = || {
        let len = part.len();
        let buffer = &whole[part.clone()];
        format!("message_at({len:#x} bytes {buffer:02x?}, at {at:#x})")
    };
    tally.same(call, (model, whole), (library, &by_library[..]));
    tally.messages.answered("message_at", model.refusal);
    *tally.messages.met.entry(model.kind).or_default() += 1;
    model
}

/// Where a writer is to write: the length of the buffer, and the position.
#[derive(Clone, Copy, Debug)]
pub struct Room {
    pub len: usize,
    pub at: usize,
}

/// Rooms that suffice and that do not for so many bytes.
pub fn rooms(random: &mut Random, bytes: usize) -> Vec<Room> {
    let at = random.between(1, 20) as usize;
    let more = random.between(1, 20) as usize;
    let less = random.between(1, bytes as u64 + 1) as usize;
    let far = random.huge();
    let room = |len, at| Room { len, at };
    vec![
        room(bytes, 0),
        room(at + bytes, at),
        room(at + bytes + more, at),
        room(at + bytes - 1, at),
        room(bytes.saturating_sub(1), 0),
        room((at + bytes).saturating_sub(less), at),
        room(at + bytes.min(4), at),
        room(at + bytes / 2, at),
        room(0, 0),
        room(0, at),
        room(bytes + more, bytes + more),
        room(bytes + more, bytes + more + 1),
        room(bytes + more, far),
        // Sums of position and bytes that come back to the start if they are not taken with care.
        room(bytes + more, 0usize.wrapping_sub(bytes)),
        room(bytes + more, 1usize.wrapping_sub(bytes)),
        room(bytes + more, more.wrapping_sub(bytes)),
        room(bytes + more, usize::MAX - bytes),
        room(bytes + more, usize::MAX),
    ]
}

/// Those that cost little where the bytes are many: enough, one too short, half, one that wraps,
/// and enough at a position of more than 16 bits.
pub fn few_rooms(random: &mut Random, bytes: usize) -> Vec<Room> {
    let all = rooms(random, bytes);
    let mut few = [1, 3, 7, 14].map(|i| all[i]).to_vec();
    few.push(far_room(random, bytes));
    few
}

/// Enough room at a position of more than 16 bits.
pub fn far_room(random: &mut Random, bytes: usize) -> Room {
    let at = random.between(65_530, 66_000) as usize;
    let len = at + bytes + random.below(3) as usize;
    Room { len, at }
}

/// One writer's call. What it is given is lent likewise, and left as it was.
fn written<T: Clone + PartialEq + Debug>(
    tally: &mut Tally,
    random: &mut Random,
    name: &'static str,
    given: &T,
    room: Room,
    model: impl FnOnce(&mut T, &mut [u8]) -> Written,
    library: impl FnOnce(&mut T, &mut [u8]) -> Written,
) -> Written {
    let before = random.bytes(room.len + 2 * GUARD);
    let mut by_model = (given.clone(), before.clone());
    let mut by_library = by_model.clone();
    let answer = model(&mut by_model.0, lent(&mut by_model.1));
    let other = library(&mut by_library.0, lent(&mut by_library.1));
    let call = || format!("{name} with {room:x?} of {given:x?} on {before:02x?}");
    tally.same(call, (answer, by_model), (other, by_library));
    tally.messages.answered(name, answer.refusal);
    answer
}

pub fn element(tally: &mut Tally, random: &mut Random, content: &[u8], room: Room) -> Written {
    let given = guarded(random, content);
    written(
        tally,
        random,
        "element_write",
        &given,
        room,
        |given, out| writers::element(lent(given), out, room.at),
        |given, out| library::element_write(lent(given), out, room.at),
    )
}

pub fn inquiry(
    tally: &mut Tally,
    random: &mut Random,
    ids: &[u64],
    salt: u32,
    room: Room,
) -> Written {
    let given = [&random.numbers(GUARD), ids, &random.numbers(GUARD)].concat();
    written(
        tally,
        random,
        "inquiry_write",
        &given,
        room,
        |given, out| writers::inquiry(lent(given), salt, out, room.at),
        |given, out| library::inquiry_write(lent(given), salt, out, room.at),
    )
}

pub fn offer(tally: &mut Tally, random: &mut Random, hashes: &[u8], room: Room) -> Written {
    let given = guarded(random, hashes);
    written(
        tally,
        random,
        "offer_write",
        &given,
        room,
        |given, out| writers::offer(lent(given), out, room.at),
        |given, out| library::offer_write(lent(given), out, room.at),
    )
}

pub fn demand(tally: &mut Tally, random: &mut Random, hashes: &[u8], room: Room) -> Written {
    let given = guarded(random, hashes);
    written(
        tally,
        random,
        "demand_write",
        &given,
        room,
        |given, out| writers::demand(lent(given), out, room.at),
        |given, out| library::demand_write(lent(given), out, room.at),
    )
}

pub fn done(tally: &mut Tally, random: &mut Random, check: &[u8], room: Room) -> Written {
    let given = guarded(random, check);
    written(
        tally,
        random,
        "done_write",
        &given,
        room,
        |given, out| writers::done(lent(given), out, room.at),
        |given, out| library::done_write(lent(given), out, room.at),
    )
}

/// Three columns, each with what stands before and behind it.
#[derive(Clone, Debug, PartialEq)]
pub struct Whole {
    pub ids: Vec<u64>,
    pub hashes: Vec<u32>,
    pub counts: Vec<i64>,
}

impl Whole {
    /// Columns of these lengths that hold anything.
    pub fn of_lengths(random: &mut Random, lens: [usize; 3]) -> Whole {
        Whole {
            ids: random.numbers(lens[0] + 2 * GUARD),
            hashes: random.words(lens[1] + 2 * GUARD),
            counts: random.signed(lens[2] + 2 * GUARD),
        }
    }

    pub fn lent(&mut self) -> Columns<'_> {
        Columns {
            ids: lent(&mut self.ids),
            hashes: lent(&mut self.hashes),
            counts: lent(&mut self.counts),
        }
    }
}

pub fn filter(
    tally: &mut Tally,
    random: &mut Random,
    columns: &Whole,
    (size, salt): (u32, u32),
    room: Room,
) -> Written {
    written(
        tally,
        random,
        "filter_write",
        &(columns.clone(), size, salt),
        room,
        |given, out| writers::filter(given.0.lent(), size, salt, out, room.at),
        |given, out| library::filter_write(given.0.lent(), size, salt, out, room.at),
    )
}

pub fn lay(tally: &mut Tally, random: &mut Random, message: &[u8], columns: &Whole) -> u32 {
    let before = guarded(random, message);
    let (mut by_model, mut by_library) = (columns.clone(), columns.clone());
    let mut lent_message = before.clone();
    let model = layout::lay(message, by_model.lent());
    let library = library::filter_lay(lent(&mut lent_message), by_library.lent());
    let call = || format!("filter_lay {message:02x?} in {columns:x?}");
    tally.same(
        call,
        (model, by_model, before),
        (library, by_library, lent_message),
    );
    tally.messages.answered("filter_lay", model);
    model
}

/// Items of any bytes by number, taken as a slice of n buckets of this width where that matters.
pub fn pick(
    tally: &mut Tally,
    random: &mut Random,
    s: &[u8],
    (n, width): (usize, u32),
    indices: &[usize],
) {
    let before = guarded(random, s);
    let mut whole = before.clone();
    for &i in indices {
        let lent = lent(&mut whole);
        let library = (
            library::message_id(lent, i),
            library::message_idsum(lent, n, i),
            library::message_hashsum(lent, n, i),
            library::message_counter(lent, n, width, i),
        );
        let model = (
            items::id(s, i),
            items::idsum(s, n, i),
            items::hashsum(s, n, i),
            items::counter(s, n, width, i),
        );
        let call = || {
            let len = s.len();
            let which = format!("{i:#x}, n {n:#x}, width {width:#x}");
            format!("ID, IDSUM, HASHSUM, counter {which} of {len:#x} bytes {s:02x?}")
        };
        tally.same(call, model, library);
    }
    tally.same(|| format!("items of {s:02x?}"), before, whole);
}

/// Bytes of hashes and of the content, at these positions.
pub fn pick_bytes(
    tally: &mut Tally,
    random: &mut Random,
    s: &[u8],
    indices: &[usize],
    positions: &[(usize, usize)],
) {
    let before = guarded(random, s);
    let mut whole = before.clone();
    for &(at, k) in positions {
        let lent = lent(&mut whole);
        for &i in indices {
            let call = || format!("message_hash({s:02x?}, i {i:#x}, at {at:#x}, k {k:#x})");
            let library = library::message_hash(lent, i, at, k);
            tally.same(call, items::hash(s, i, at, k), library);
        }
        let call = || format!("message_content({s:02x?}, at {at:#x}, k {k:#x}) and its length");
        let model = (items::content(s, at, k), items::content_length(s));
        let library = (
            library::message_content(lent, at, k),
            library::message_content_length(lent),
        );
        tally.same(call, model, library);
    }
    tally.same(|| format!("bytes of {s:02x?}"), before, whole);
}
