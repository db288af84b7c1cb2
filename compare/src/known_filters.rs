//! Tests of the model of filters: values that come from outside it.

use crate::differ;
use crate::filters::{self, End, Filter};
use crate::{model, quick};

fn check(what: &str, right: bool) -> Result<(), String> {
    match right {
        true => Ok(()),
        false => Err(String::from(what)),
    }
}

/// Says which value the model gets wrong.
pub fn check_model() -> Result<(), String> {
    quick::check()?;
    for (key, places) in [
        (u64::MAX, [292, 54, 90]),
        (0, [133, 53, 89]),
        (0xFFFF_FFFF, [118, 196, 278]),
        (0xC662_B629_8512_A22D, [37, 6, 155]),
        (0xF20F_A7C0_AA05_85BE, [1, 83, 103]),
    ] {
        let what = format!("the places of {key:#x} at size 300");
        check(&what, quick::places(key, 300) == places)?;
    }

    let (mut first, mut second) = (Filter::empty(4), Filter::empty(4));
    (first.counts, second.counts) = (vec![1, 2, 0, 1], vec![0, 1, 1, 1]);
    (first.ids[0], second.ids[0]) = (0x0206, 0x0102);
    let less = first.less(&second);
    check("counts subtracted", less.counts == [1, 1, -1, 0])?;
    check("IDSUMs subtracted", less.ids[0] == 0x0304)?;

    let one = [[1; 64], [2; 64]].concat();
    let same_id = [&[1; 64][..], &[1; 63], &[2]].concat();
    check("a good table", filters::is_table(&one))?;
    check("the empty table", filters::is_table(&[]))?;
    check("65 bytes", !filters::is_table(&[0; 65]))?;
    check("equal IDs", !filters::is_table(&same_id))?;

    let worked = [&[0, 37, 0, 2, 0, 1][..], &one, &[2; 64]].concat();
    let output = "size 37 salt 0 complete 1\nours 0101010101010101\n";
    check("the worked example", differ::output(&worked) == output)?;
    let nothing = [0, 37, 0, 0, 0, 0];
    let output = "size 37 salt 0 complete 1\n";
    check("two empty tables", differ::output(&nothing) == output)?;
    check("513", differ::output(&[2, 1, 0, 0, 0, 0]) == "refused 3\n")?;
    check("five bytes", differ::output(&nothing[1..]) == "refused 1\n")?;

    // ID 0 is an ID as any other.
    let mut zero = Filter::of(&[0], 37, 5);
    let read = filters::peel(&mut zero, &[0; 64], 5);
    check("ID 0", read == (End::Complete, vec![(0, true)]))?;
    // A lone key at one of its three places comes again on the other side.
    let key = 0x0123_4567_89AB_CDEF;
    let mut lone = Filter::empty(37);
    lone.put_at(quick::places(key, 37)[0], key, -1);
    let read = filters::peel(&mut lone, &[], 0);
    check("a repeat", read == (End::Repeated, vec![(key, false)]))?;
    // Listed as ours though the table is empty: false when nothing remains, else it stands.
    let mut wrong = Filter::of(&[key], 37, 63);
    let listed = vec![(key, true)];
    let read = filters::peel(&mut wrong.clone(), &[], 63);
    check(
        "a contradiction",
        read == (End::Contradicted, listed.clone()),
    )?;
    let places = quick::places(model::salt(key, 63), 37);
    let free = (0..37).find(|i| !places.contains(&(*i as u32)));
    wrong.ids[free.expect("34 are free")] = 1;
    let read = filters::peel(&mut wrong, &[], 63);
    check("a stuck one", read == (End::Stuck, listed))
}
