//! Comparisons of readings of honest filters: what the far end sends is made by the rules.

use crate::filters::{End, Filter};
use crate::random::Random;
use crate::sets::{some_ids, some_salt, some_size, table_of, Call};
use crate::{lent, Tally};

pub fn compare(tally: &mut Tally) {
    small(tally);
    powers_of_two(tally);
    large(tally);
}

/// Reads the filter of one set against the table of another: so many elements are in both, in the
/// table alone, and in the far set alone.
fn one(
    tally: &mut Tally,
    random: &mut Random,
    (size, salt): (u32, u32),
    [common, ours, theirs]: [usize; 3],
) -> End {
    let mut ids = some_ids(random, common + ours + theirs);
    let mut ours = ids.split_off(common);
    let mut theirs = ours.split_off(ours.len() - theirs);
    let table = table_of(random, &[&ids[..], &ours].concat());
    let far = Filter::of(&[&ids[..], &theirs].concat(), size, salt);
    let call = Call::of_filter(random, &table, &far, salt);
    let (mut listed_ours, mut listed_theirs) = (Vec::new(), Vec::new());
    let (reading, end) = call.compare_and_then(tally, |left| {
        listed_ours = lent(&mut left.ours).to_vec();
        listed_theirs = lent(&mut left.theirs).to_vec();
    });
    // The model's own: what is complete is the true difference.
    if end == Some(End::Complete) {
        listed_ours.truncate(reading.ours);
        listed_theirs.truncate(reading.theirs);
        for list in [&mut listed_ours, &mut listed_theirs, &mut ours, &mut theirs] {
            list.sort_unstable();
        }
        assert!((listed_ours, listed_theirs) == (ours, theirs));
    }
    end.expect("not refused with 1 to 3")
}

fn small(tally: &mut Tally) {
    let mut random = tally.subject("honest filters", 0x40);
    let random = &mut random;
    let mut complete = 0;
    for i in 0..18_000 {
        let size = some_size(random, 150);
        let salt = some_salt(random);
        let common = random.pick(&[0, 0, 1, 5, 20, 60]);
        // Around what a filter can tell apart: eight elements for ten buckets.
        let most = random
            .pick(&[4, size / 2, size * 4 / 5, size, size * 5 / 4])
            .into();
        let differing = random.between(most / 3, most) as usize;
        let ours = match i % 4 {
            0 => 0,
            1 => differing,
            2 => random.below(differing as u64 + 1) as usize,
            _ => differing - differing.min(random.below(3) as usize),
        };
        let sets = [common, ours, differing - ours];
        let end = one(tally, random, (size, salt), sets);
        complete += u64::from(end == End::Complete);
    }
    assert!((6_000..16_000).contains(&complete), "{complete}");
}

/// Two-sided differences at powers of two are often false.
fn powers_of_two(tally: &mut Tally) {
    let mut random = tally.subject("honest filters, powers of two", 0x41);
    let random = &mut random;
    let mut ends = [0; 5];
    for _ in 0..5_000 {
        let size = random.pick(&[64, 64, 64, 128, 128, 256]);
        let salt = some_salt(random);
        let ours = random.between(1, u64::from(size) * 2 / 5) as usize;
        let theirs = random.between(1, u64::from(size) * 2 / 5) as usize;
        let common = random.below(30) as usize;
        let end = one(tally, random, (size, salt), [common, ours, theirs]);
        ends[end as usize] += 1;
    }
    assert!(ends[End::Complete as usize] > 500, "{ends:?}");
    assert!(ends.iter().skip(2).sum::<u64>() > 500, "{ends:?}");
}

/// The largest filters and tables, and far sets that no table could hold.
fn large(tally: &mut Tally) {
    let mut random = tally.subject("honest filters, large", 0x42);
    let random = &mut random;
    for (size, sets) in [
        (4096, [4096, 0, 0]),
        (4096, [4090, 6, 2000]),
        (4096, [2000, 2096, 700]),
        (4095, [3000, 1096, 1500]),
        (4095, [0, 1500, 1500]),
        (4095, [1000, 0, 3200]),
        (4096, [0, 0, 3300]),
        (4096, [0, 3300, 0]),
        (4096, [3496, 600, 600]),
        (2520, [1000, 900, 900]),
        (2521, [4000, 90, 9000]),
        (1024, [3000, 300, 400]),
        (1000, [3000, 400, 300]),
        (37, [4096, 0, 10]),
        (37, [4086, 10, 0]),
        (40, [0, 0, 70_000]),
    ] {
        let salt = some_salt(random);
        one(tally, random, (size, salt), sets);
    }
    for _ in 0..300 {
        let size = random.between(65, 700) as u32;
        let salt = some_salt(random);
        let differing = random.below(u64::from(size) * 9 / 10) as usize;
        let ours = random.below(differing as u64 + 1) as usize;
        let common = random.below(300) as usize;
        let sets = [common, ours, differing - ours];
        one(tally, random, (size, salt), sets);
    }
}
