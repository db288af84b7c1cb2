//! Comparisons of steps on ledgers that break the form, in one clause alone or in any way.

use super::calls::Compared;
use super::counts::row;
use super::craft::new_hash;
use super::ledger::Hash;
use super::ledgers::{each_row, some_parts, Good, ROWS};
use super::memory::{set, Memory, Numbers, DEMANDED_MARKS};
use crate::filters::{id_of, HASH};
use crate::random::Random;
use crate::tables::break_table;
use crate::{lent, Tally};

pub fn compare(tally: &mut Tally) {
    tally.sessions.sort = "ledgers";
    one_clause(tally);
    too_many(tally);
    counts_of_columns(tally);
    any_way(tally);
}

/// Breaks something, if the ledger has what it takes.
type Break = fn(&mut Random, &mut Good, &mut Memory) -> Option<()>;

fn at(random: &mut Random, n: usize) -> Option<usize> {
    match n {
        0 => None,
        _ => Some(random.below(n as u64) as usize),
    }
}

fn number(random: &mut Random, good: &mut Good, _: &mut Memory) -> Option<()> {
    let huge = random.pick(&[u32::MAX, 1 << 31, 65_536]);
    let Numbers {
        state,
        first,
        size,
        salt,
        swaps,
        done,
        demanded,
        inquired,
        ..
    } = &mut good.numbers;
    match random.below(10) {
        0 => *state = random.pick(&[4, 4, 8, 9, 10, huge]),
        1 => *first = random.pick(&[2, 2, 3, huge]),
        2 => *done = random.pick(&[2, 2, 3, huge]),
        3 => *size = random.pick(&[36, 0, 4097, huge]),
        4 => *salt = random.pick(&[64, 65, 128, huge]),
        5 => *swaps = random.pick(&[17, 17, 18, huge]),
        6 => *demanded = random.pick(&[4097, 4098, huge]),
        7 => *inquired = random.pick(&[4097, 4098, huge]),
        8 => *demanded = demanded.wrapping_add(1),
        _ => *inquired = inquired.wrapping_add(1),
    }
    Some(())
}

fn table(random: &mut Random, _: &mut Good, memory: &mut Memory) -> Option<()> {
    let mut bytes = lent(&mut memory.table).to_vec();
    match bytes.len() / HASH {
        0 | 1 => bytes.push(7),
        _ => break_table(random, &mut bytes),
    }
    set(random, &mut memory.table, &bytes);
    Some(())
}

fn table_mark(random: &mut Random, good: &mut Good, memory: &mut Memory) -> Option<()> {
    let i = at(random, good.ledger.table.len())?;
    let mark = &mut lent(&mut memory.marks)[i];
    *mark |= random.pick(&[8, 8, 16, 128]);
    Some(())
}

/// Any mark of the table that has its range.
fn table_mark_in_range(random: &mut Random, good: &mut Good, memory: &mut Memory) -> Option<()> {
    let i = at(random, good.ledger.table.len())?;
    lent(&mut memory.marks)[i] = random.pick(&[1, 2, 4, 4, 5, 6, 7]);
    Some(())
}

fn record_mark(random: &mut Random, good: &mut Good, memory: &mut Memory) -> Option<()> {
    let j = at(random, good.ledger.demanded.len())?;
    let mark = &mut lent(&mut memory.marks)[DEMANDED_MARKS + j];
    *mark |= random.pick(&[16, 16, 32, 128]);
    Some(())
}

/// An unmet one that was asked, offered, served; or a met one that was served and not offered.
fn record_mark_in_range(random: &mut Random, good: &mut Good, memory: &mut Memory) -> Option<()> {
    let j = at(random, good.ledger.demanded.len())?;
    let mark = &mut lent(&mut memory.marks)[DEMANDED_MARKS + j];
    *mark = match *mark & 8 {
        0 => random.pick(&[1, 2, 4, 3, 6, 7]),
        _ => random.pick(&[12, 13]),
    };
    Some(())
}

fn record(memory: &mut Memory, j: usize) -> &mut [u8] {
    &mut lent(&mut memory.records)[HASH * j..HASH * (j + 1)]
}

/// Two neighbours change their places, marks and all, or one is put twice.
fn records_order(random: &mut Random, good: &mut Good, memory: &mut Memory) -> Option<()> {
    let j = at(random, good.ledger.demanded.len().checked_sub(1)?)?;
    let (a, b) = (record(memory, j).to_vec(), record(memory, j + 1).to_vec());
    match random.below(3) {
        0 => record(memory, j).copy_from_slice(&b),
        _ => {
            record(memory, j).copy_from_slice(&b);
            record(memory, j + 1).copy_from_slice(&a);
            lent(&mut memory.marks)[DEMANDED_MARKS + j..].swap(0, 1);
        }
    }
    Some(())
}

fn inquired_order(random: &mut Random, good: &mut Good, memory: &mut Memory) -> Option<()> {
    let i = at(random, good.ledger.inquired.len().checked_sub(1)?)?;
    let inquired = lent(&mut memory.inquired);
    match random.below(2) {
        0 => inquired.swap(i, i + 1),
        _ => {
            // One more, that is its neighbour once more.
            inquired.copy_within(i..good.ledger.inquired.len(), i + 1);
            good.numbers.inquired = good.numbers.inquired.wrapping_add(1);
        }
    }
    Some(())
}

/// A record gets the ID of an element of the table, or of its neighbour, or is an element of it.
fn shared_id(random: &mut Random, good: &mut Good, memory: &mut Memory) -> Option<()> {
    let j = at(random, good.ledger.demanded.len())?;
    let own = good.ledger.demanded[j];
    let mut other: Hash = match random.below(2) {
        0 => *good
            .ledger
            .table
            .get(at(random, good.ledger.table.len())?)?,
        _ => *good.ledger.demanded.get(j + 1)?,
    };
    if random.once_in(2) {
        other = new_hash(random, id_of(&other));
    }
    // Put in at its place instead of this one, with the mark of this one.
    let mark = lent(&mut memory.marks)[DEMANDED_MARKS + j];
    good.ledger.demanded[j] = other;
    let mut list: Vec<(Hash, u8)> = Vec::new();
    for (i, hash) in good.ledger.demanded.iter().enumerate() {
        let now = lent(&mut memory.marks)[DEMANDED_MARKS + i];
        list.push((*hash, if i == j { mark } else { now }));
    }
    list.sort_unstable();
    for (i, (hash, mark)) in list.into_iter().enumerate() {
        record(memory, i).copy_from_slice(&hash);
        lent(&mut memory.marks)[DEMANDED_MARKS + i] = mark;
    }
    // In 2 its ID was inquired, as that of the one it stands for.
    if good.numbers.state == 2 {
        let mut inquired = good.ledger.inquired.clone();
        inquired.retain(|&id| id != id_of(&own));
        inquired.push(id_of(&other));
        inquired.sort_unstable();
        inquired.dedup();
        good.numbers.inquired = inquired.len() as u32;
        lent(&mut memory.inquired)[..inquired.len()].copy_from_slice(&inquired);
    }
    Some(())
}

/// DONE went where it cannot have, or did not where it must have.
fn done(_: &mut Random, good: &mut Good, _: &mut Memory) -> Option<()> {
    good.numbers.done = u32::from(good.numbers.done == 0);
    Some(())
}

/// An ID is inquired no more, or one more is.
fn inquired(random: &mut Random, good: &mut Good, memory: &mut Memory) -> Option<()> {
    let mut inquired = good.ledger.inquired.clone();
    match random.below(2) {
        0 => {
            let i = at(random, inquired.len())?;
            inquired.remove(i);
        }
        _ => inquired.push(random.next()),
    }
    inquired.sort_unstable();
    good.numbers.inquired = inquired.len() as u32;
    lent(&mut memory.inquired)[..inquired.len()].copy_from_slice(&inquired);
    Some(())
}

/// Where nothing is demanded yet, something is.
fn demanded(random: &mut Random, good: &mut Good, memory: &mut Memory) -> Option<()> {
    if good.numbers.demanded > 0 {
        return None;
    }
    good.numbers.demanded = 1;
    lent(&mut memory.marks)[DEMANDED_MARKS] = random.pick(&[0, 8]);
    Some(())
}

fn column(random: &mut Random, _: &mut Good, memory: &mut Memory) -> Option<()> {
    let i = random.pick(&[0, 1, 2518, 2519, 2519, 2520, 2521, 4095]);
    lent(&mut memory.counts)[i] = random.pick(&[-1, 1 << 32, i64::MIN, i64::MAX]);
    Some(())
}

const BREAKS: [Break; 16] = [
    number,
    number,
    number,
    table,
    table_mark,
    table_mark_in_range,
    table_mark_in_range,
    record_mark,
    record_mark_in_range,
    records_order,
    inquired_order,
    shared_id,
    done,
    inquired,
    demanded,
    column,
];

/// Each clause by itself, in each state.
fn one_clause(tally: &mut Tally) {
    let mut random = tally.subject("broken ledgers", 0x231);
    let random = &mut random;
    let mut broken = 0;
    for i in 0..12_000 {
        let parts = some_parts(random);
        let mut good = Good::new(random, ROWS[i % ROWS.len()], parts);
        let delivery = good.message(random);
        let mut memory = good.memory(random);
        let breaking = random.pick(&BREAKS);
        if breaking(random, &mut good, &mut memory).is_none() {
            continue;
        }
        let (step, _) = Compared::new(memory).step(tally, random, good.numbers, &delivery);
        broken += u64::from(step.refusal == 1);
    }
    assert!(broken > 6_000, "{broken}");
}

/// Exactly 4,096 held and wanted, and one more: an element, a demand, an inquired ID.
fn too_many(tally: &mut Tally) {
    let mut random = tally.subject("ledgers at the limit", 0x232);
    let random = &mut random;
    for (row_of, i) in each_row(12) {
        if row_of.0 < 2 || row_of == (3, 1) {
            continue;
        }
        let [met, unmet, open] = random.pick(&[[3, 4, 5], [600, 1000, 900], [1, 0, 2], [0, 1, 1]]);
        let table = 4096 - met - unmet - open;
        let over = i % 2;
        let parts = [table, met, unmet, open + over];
        let good = Good::new(random, row_of, parts);
        let delivery = good.message(random);
        let mut compared = good.compared(random);
        let (step, _) = compared.step(tally, random, good.numbers, &delivery);
        assert!((step.refusal == 1) == (over == 1), "{}", row(&good.numbers));
    }
}

/// Counts at the limits of what is judged, in each state and with each kind of message.
fn counts_of_columns(tally: &mut Tally) {
    let mut random = tally.subject("counts in the columns of a session", 0x233);
    let random = &mut random;
    for row_of in ROWS {
        for place in [0, 1, 2518, 2519, 2520, 4095] {
            for count in [-1, 1 << 32, i64::MIN, i64::MAX, (1 << 32) - 1, 0] {
                let parts = some_parts(random);
                let good = Good::new(random, row_of, parts);
                let delivery = good.message(random);
                let mut compared = good.compared(random);
                compared.change(|memory| lent(&mut memory.counts)[place] = count);
                let (step, _) = compared.step(tally, random, good.numbers, &delivery);
                let broken = row_of.0 == 1 && place < 2520 && !(0..1 << 32).contains(&count);
                assert!((step.refusal == 1) == broken);
            }
        }
    }
}

/// Any bytes in the ledger, any numbers, several breaks at once.
fn any_way(tally: &mut Tally) {
    let mut random = tally.subject("ledgers broken anyhow", 0x234);
    let random = &mut random;
    for i in 0..6_000 {
        let parts = some_parts(random);
        let mut good = Good::new(random, ROWS[i % ROWS.len()], parts);
        let delivery = good.message(random);
        let mut memory = good.memory(random);
        match random.below(6) {
            0 => {
                let n = good.ledger.table.len();
                let any = random.bytes(n);
                lent(&mut memory.marks)[..n].copy_from_slice(&any);
            }
            1 => {
                let n = good.ledger.demanded.len();
                let any = random.bytes(n);
                let marks = &mut lent(&mut memory.marks)[DEMANDED_MARKS..];
                marks[..n].copy_from_slice(&any);
                marks[..n].iter_mut().for_each(|mark| *mark &= 15);
            }
            2 => good.numbers.demanded = random.pick(&[0, 1, 2, 4096]),
            3 => good.numbers.inquired = random.pick(&[0, 1, 2, 4096]),
            4 => good.numbers.state = random.below(11) as u32,
            _ => {
                for _ in 0..random.between(2, 4) {
                    let breaking = random.pick(&BREAKS);
                    let _ = breaking(random, &mut good, &mut memory);
                }
            }
        }
        Compared::new(memory).step(tally, random, good.numbers, &delivery);
    }
}
