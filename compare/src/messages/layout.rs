//! The layout of each message (document 01) in plain Rust, written from the paper's table alone:
//! the bytes of a message from its parts, bytes read as exactly one message, and the walk.

use crate::filters::HASH;
use crate::model;

/// The numbers that 000 registers as MSG TYPE.
pub const DEMAND: u32 = 560;
pub const INQUIRY: u32 = 561;
pub const OFFER: u32 = 562;
pub const IBF: u32 = 565;
pub const ELEMENT: u32 = 566;
pub const IBF_LAST: u32 = 567;
pub const DONE: u32 = 568;
pub const KINDS: [u32; 7] = [DEMAND, INQUIRY, OFFER, IBF, ELEMENT, IBF_LAST, DONE];

/// Instead of a MSG TYPE: what is malformed, and the end of a buffer.
pub const MALFORMED: u32 = 0;
pub const END: u32 = 1;

/// "message malformed" in the table of refusal numbers.
pub const REFUSED: u32 = 4;

/// The most buckets of a slice, IDs of an INQUIRY, hashes of an OFFER or a DEMAND, and bytes of
/// an ELEMENT's content.
pub const MOST_BUCKETS: usize = 2520;
pub const MOST_IDS: usize = 8190;
pub const MOST_LISTED: usize = 1023;
pub const MOST_CONTENT: usize = 65531;

/// What the library answers to a reading: the refusal, a message's numbers, and where it stands.
#[derive(Clone, Copy, Debug, Default, PartialEq)]
pub struct Header {
    pub refusal: u32,
    pub kind: u32,
    pub size: u32,
    pub offset: u32,
    pub salt: u32,
    pub width: u32,
    pub count: usize,
    pub start: usize,
    pub next: usize,
}

/// A filter, or the part of one that goes into a message.
#[derive(Clone, Debug, PartialEq)]
pub struct Slice {
    pub size: u32,
    pub offset: u32,
    pub salt: u32,
    pub width: u32,
    pub ids: Vec<u64>,
    pub hashes: Vec<u32>,
    pub counts: Vec<i64>,
}

/// What a message holds. Hashes stand end to end.
#[derive(Clone, Debug, PartialEq)]
pub enum Message {
    Slice(Slice),
    Inquiry { salt: u32, ids: Vec<u64> },
    Offer(Vec<u8>),
    Demand(Vec<u8>),
    Element(Vec<u8>),
    Done(Vec<u8>),
}

/// MSG SIZE, MSG TYPE and what follows. Of too large a size the low 16 bits are written.
pub fn framed(kind: u32, body: &[u8]) -> Vec<u8> {
    let mut bytes = Vec::new();
    put(&mut bytes, 2, 4 + body.len() as u64);
    put(&mut bytes, 2, u64::from(kind));
    bytes.extend(body);
    bytes
}

/// Puts the low k bytes of a number behind the others, in network order.
pub fn put(bytes: &mut Vec<u8>, k: usize, number: u64) {
    bytes.extend(&number.to_be_bytes()[8 - k..]);
}

impl Slice {
    /// Whether this is the slice that reaches the end.
    pub fn is_last(&self) -> bool {
        self.offset as usize + self.ids.len() == self.size as usize
    }

    /// What follows the four bytes.
    pub fn body(&self) -> Vec<u8> {
        let mut bytes = Vec::new();
        put(&mut bytes, 4, u64::from(self.size));
        put(&mut bytes, 4, u64::from(self.offset));
        put(&mut bytes, 2, u64::from(self.salt));
        put(&mut bytes, 2, u64::from(self.width));
        for &id in &self.ids {
            put(&mut bytes, 8, id);
        }
        for &hash in &self.hashes {
            put(&mut bytes, 4, u64::from(hash));
        }
        let at = bytes.len();
        let packed = model::packed_len(self.counts.len(), self.width) as usize;
        bytes.resize(at + packed, 0);
        let end = model::pack(&self.counts, self.width, &mut bytes, at);
        assert!(end == at + packed, "the counters fit the width");
        bytes
    }
}

impl Message {
    pub fn kind(&self) -> u32 {
        match self {
            Message::Slice(slice) if slice.is_last() => IBF_LAST,
            Message::Slice(_) => IBF,
            Message::Inquiry { .. } => INQUIRY,
            Message::Offer(_) => OFFER,
            Message::Demand(_) => DEMAND,
            Message::Element(_) => ELEMENT,
            Message::Done(_) => DONE,
        }
    }

    pub fn bytes(&self) -> Vec<u8> {
        let body = match self {
            Message::Slice(slice) => slice.body(),
            Message::Inquiry { salt, ids } => {
                let mut body = Vec::new();
                put(&mut body, 4, u64::from(*salt));
                ids.iter().for_each(|&id| put(&mut body, 8, id));
                body
            }
            Message::Offer(hashes) | Message::Demand(hashes) => hashes.clone(),
            Message::Element(content) => content.clone(),
            Message::Done(check) => check.clone(),
        };
        let bytes = framed(self.kind(), &body);
        assert!(bytes.len() <= 65535, "MSG SIZE has 16 bits");
        bytes
    }

    /// The numbers of this message, that takes so many bytes from `start` on.
    fn header(&self, start: usize, len: usize) -> Header {
        let mut header = Header {
            kind: self.kind(),
            start,
            next: start + len,
            ..Header::default()
        };
        match self {
            Message::Slice(slice) => {
                header.size = slice.size;
                header.offset = slice.offset;
                header.salt = slice.salt;
                header.width = slice.width;
                header.count = slice.ids.len();
            }
            Message::Inquiry { salt, ids } => {
                header.salt = *salt;
                header.count = ids.len();
            }
            Message::Offer(hashes) | Message::Demand(hashes) => header.count = hashes.len() / HASH,
            Message::Element(content) => header.count = content.len(),
            Message::Done(_) => header.count = 1,
        }
        header
    }
}

/// A number in network order.
fn number(bytes: &[u8], at: usize, k: usize) -> u32 {
    u32::try_from(model::number_at(bytes, at, k)).expect("at most four bytes are asked for")
}

/// The bytes as exactly one message; none where they are malformed.
pub fn parse(bytes: &[u8]) -> Option<Message> {
    if bytes.len() < 4 || number(bytes, 0, 2) as usize != bytes.len() {
        return None;
    }
    let kind = number(bytes, 2, 2);
    let body = &bytes[4..];
    let n = body.len() / HASH;
    let hashes = body.len() == HASH * n && (1..=MOST_LISTED).contains(&n);
    match kind {
        IBF | IBF_LAST => parse_slice(kind, body).map(Message::Slice),
        INQUIRY => parse_inquiry(body),
        OFFER if hashes => Some(Message::Offer(body.to_vec())),
        DEMAND if hashes => Some(Message::Demand(body.to_vec())),
        ELEMENT if (1..=MOST_CONTENT).contains(&body.len()) => {
            Some(Message::Element(body.to_vec()))
        }
        DONE if body.len() == HASH => Some(Message::Done(body.to_vec())),
        _ => None,
    }
}

fn parse_inquiry(body: &[u8]) -> Option<Message> {
    let n = body.len().saturating_sub(4) / 8;
    if body.len() != 4 + 8 * n || !(1..=MOST_IDS).contains(&n) {
        return None;
    }
    let salt = number(body, 0, 4);
    let ids = body[4..].chunks(8).map(|id| model::number_at(id, 0, 8));
    match salt {
        0..=63 => Some(Message::Inquiry {
            salt,
            ids: ids.collect(),
        }),
        _ => None,
    }
}

fn parse_slice(kind: u32, body: &[u8]) -> Option<Slice> {
    if body.len() < 12 {
        return None;
    }
    let (size, offset) = (number(body, 0, 4), number(body, 4, 4));
    let (salt, width) = (number(body, 8, 2), number(body, 10, 2));
    if !(37..=4096).contains(&size) || salt > 63 || !(1..=32).contains(&width) {
        return None;
    }
    if offset != 0 && offset != 2520 || offset >= size {
        return None;
    }
    let n = MOST_BUCKETS.min((size - offset) as usize);
    let packed = model::packed_len(n, width) as usize;
    if 4 + body.len() != 16 + 12 * n + packed {
        return None;
    }
    let columns = &body[12..];
    let (ids, hashes) = (&columns[..8 * n], &columns[8 * n..12 * n]);
    if !model::spare_is_zero(columns, 12 * n, n, width) {
        return None;
    }
    let counters = model::counters(columns, 12 * n, n, width).expect("all are there");
    let slice = Slice {
        size,
        offset,
        salt,
        width,
        ids: ids.chunks(8).map(|id| model::number_at(id, 0, 8)).collect(),
        hashes: hashes.chunks(4).map(|hash| number(hash, 0, 4)).collect(),
        counts: counters.into_iter().map(i64::from).collect(),
    };
    // IBF LAST is the slice that reaches the end, IBF any other.
    match slice.is_last() == (kind == IBF_LAST) {
        true => Some(slice),
        false => None,
    }
}

impl Header {
    /// Of no message that begins at this position: malformed bytes are refused, an end is not.
    fn of_none(refusal: u32, kind: u32, at: usize) -> Header {
        Header {
            refusal,
            kind,
            start: at,
            next: at,
            ..Header::default()
        }
    }
}

/// The whole of the bytes read as exactly one message.
pub fn read(bytes: &[u8]) -> Header {
    match parse(bytes) {
        Some(message) => message.header(0, bytes.len()),
        None => Header::of_none(REFUSED, MALFORMED, 0),
    }
}

/// The message that begins at a position of a buffer.
pub fn at(buffer: &[u8], at: usize) -> Header {
    if at >= buffer.len() {
        return Header::of_none(0, END, at);
    }
    let rest = &buffer[at..];
    if rest.len() < 4 || number(rest, 0, 2) as usize > rest.len() {
        return Header::of_none(REFUSED, MALFORMED, at);
    }
    let bytes = &rest[..number(rest, 0, 2) as usize];
    match parse(bytes) {
        Some(message) => message.header(at, bytes.len()),
        None => Header::of_none(REFUSED, MALFORMED, at),
    }
}

/// Lays the slice in the columns from its offset on and answers the refusal.
pub fn lay(bytes: &[u8], columns: model::Columns) -> u32 {
    let Some(Message::Slice(slice)) = parse(bytes) else {
        return REFUSED;
    };
    let from = slice.offset as usize;
    let end = from + slice.ids.len();
    let shortest = columns.ids.len().min(columns.hashes.len());
    if shortest.min(columns.counts.len()) < end {
        return 2;
    }
    columns.ids[from..end].copy_from_slice(&slice.ids);
    columns.hashes[from..end].copy_from_slice(&slice.hashes);
    columns.counts[from..end].copy_from_slice(&slice.counts);
    0
}
