//! The program `differ`: its output as the paper has it, compared over many inputs.

use crate::filters::{self, End, Filter, HASH};
use crate::random::Random;
use crate::sets::{some_ids, some_table, table_of};
use crate::tables::break_table;
use crate::Tally;
use std::io::Write;
use std::path::PathBuf;
use std::process::{exit, Command, Stdio};

/// Both counts together.
const MOST: usize = 1000;

/// What it prints for this input.
pub fn output(input: &[u8]) -> String {
    if input.len() < 6 {
        return String::from("refused 1\n");
    }
    let number = |at: usize| usize::from(input[at]) * 256 + usize::from(input[at + 1]);
    let (size, a, b) = (number(0), number(2), number(4));
    if a + b > MOST || input.len() != 6 + HASH * (a + b) {
        return String::from("refused 1\n");
    }
    let (a, b) = input[6..].split_at(HASH * a);
    if !filters::is_table(a) || !filters::is_table(b) {
        return String::from("refused 1\n");
    }
    if !(37..=512).contains(&size) {
        return String::from("refused 3\n");
    }
    let ours = Filter::of(&filters::ids(a), size as u32, 0);
    let received = Filter::of(&filters::ids(b), size as u32, 0);
    let (end, listed) = filters::peel(&mut ours.less(&received), a, 0);
    let complete = match end {
        End::Complete => 1,
        End::Stuck => 0,
        _ => return String::from("refused 6\n"),
    };
    let mut text = format!("size {size} salt 0 complete {complete}\n");
    for (side, name) in [(true, "ours"), (false, "theirs")] {
        for (id, _) in listed.iter().filter(|&&(_, ours)| ours == side) {
            text += &format!("{name} {id:016x}\n");
        }
    }
    text
}

/// The program: the one that DIFFER names, else the one beside the crate.
fn program() -> PathBuf {
    match std::env::var_os("DIFFER") {
        Some(path) => PathBuf::from(path),
        None => PathBuf::from(env!("CARGO_MANIFEST_DIR")).join("../target/bin/differ"),
    }
}

/// Stops the comparison, for want of the program.
fn cannot_run(why: &str) -> ! {
    println!("cannot run {}: {why}", program().display());
    println!("(make it with `make differ` in the root, or name it in DIFFER)");
    exit(1);
}

/// Told before all else is compared.
pub fn must_be_there() {
    if !program().is_file() {
        cannot_run("there is no such file");
    }
}

/// All that the program prints, on either output, and whether it ended by itself.
fn run(input: &[u8]) -> std::io::Result<(String, String, bool)> {
    let mut child = Command::new(program())
        .stdin(Stdio::piped())
        .stdout(Stdio::piped())
        .stderr(Stdio::piped())
        .spawn()?;
    let mut stdin = child.stdin.take().expect("piped");
    // It may stop reading where it refuses.
    let _ = stdin.write_all(input);
    drop(stdin);
    let all = child.wait_with_output()?;
    let text = |bytes: &[u8]| String::from_utf8_lossy(bytes).into_owned();
    let ended = all.status.code().is_some();
    Ok((text(&all.stdout), text(&all.stderr), ended))
}

fn one(tally: &mut Tally, kinds: &mut Vec<String>, input: &[u8]) {
    let printed = run(input).unwrap_or_else(|error| cannot_run(&error.to_string()));
    let text = output(input);
    let first = text.lines().next().unwrap_or("");
    kinds.push(
        first
            .split_once("salt")
            .map_or(first, |(_, rest)| rest)
            .to_string(),
    );
    let call = || format!("differ < {} bytes {input:02x?}", input.len());
    tally.same(call, (text, String::new(), true), printed);
}

fn input(size: usize, counts: [usize; 2], tables: [&[u8]; 2]) -> Vec<u8> {
    let mut input = Vec::new();
    for number in [size, counts[0], counts[1]] {
        input.extend((number as u16).to_be_bytes());
    }
    [&input[..], tables[0], tables[1]].concat()
}

/// Two tables with so many elements in both, in the first alone, and in the second alone.
fn two(random: &mut Random, [common, ours, theirs]: [usize; 3]) -> [Vec<u8>; 2] {
    let mut ids = some_ids(random, common + ours + theirs);
    let theirs = ids.split_off(common + ours);
    let a = table_of(random, &ids);
    let b = table_of(random, &[&ids[..common], &theirs].concat());
    [a, b]
}

fn of_tables(size: usize, [a, b]: &[Vec<u8>; 2]) -> Vec<u8> {
    input(size, [a.len() / HASH, b.len() / HASH], [a, b])
}

/// A good input or one that is broken in one way.
fn some_input(random: &mut Random, i: u64) -> Vec<u8> {
    let mut size = random.between(37, 512) as usize;
    let differing = random.below(size.min(400) as u64) as usize;
    let ours = random.pick(&[0, differing, differing / 2, differing / 3]);
    let sets = [random.below(100) as usize, ours, differing - ours];
    let mut tables = two(random, sets);
    match i % 12 {
        // Good ones, with small differences too.
        0 | 1 => {}
        2 | 3 => {
            let sets = [0; 3].map(|_| random.below(8) as usize);
            tables = two(random, sets);
        }
        // Powers of two with two sides are often false.
        4 | 5 => {
            size = random.pick(&[64, 128, 256, 512]);
            let most = size as u64 * 2 / 5;
            let sets = [0; 3].map(|_| random.between(1, most) as usize);
            tables = two(random, sets);
        }
        6 => size = random.pick(&[0, 1, 35, 36, 37, 512, 513, 514, 4096, 0xFFFF]),
        // A bad table, at times with a bad size.
        7 => {
            size = random.pick(&[size, size, 36, 513]);
            let mut bad = some_table(random, 9);
            break_table(random, &mut bad);
            bad.truncate(bad.len() / HASH * HASH);
            tables[random.below(2) as usize] = bad;
        }
        // Bytes missing or left over.
        8 => {
            let mut whole = of_tables(size, &tables);
            let cut = random.below(whole.len() as u64) as usize;
            let short = random.pick(&[cut, whole.len() - 1, 5, 0]);
            whole.truncate(short);
            return whole;
        }
        9 => {
            let more = random.pick(&[1, 63, 64, 128]);
            let more = random.bytes(more);
            return [of_tables(size, &tables), more].concat();
        }
        // Counts that do not fit the bytes, or are above the limit.
        10 => {
            let [a, b] = [&tables[0], &tables[1]];
            let (n, m) = (a.len() / HASH + 1, (b.len() / HASH).saturating_sub(1));
            return input(size, [n, m], [a, b]);
        }
        _ => {
            let a = random.pick(&[0, 1, 500, 1000, 1001]);
            let b = random.pick(&[1000 - a.min(1000), 1001 - a]);
            tables = [some_table(random, a), some_table(random, b)];
        }
    }
    of_tables(size, &tables)
}

pub fn compare(tally: &mut Tally) {
    let mut random = tally.subject("differ", 0xD1);
    let random = &mut random;
    let mut kinds = Vec::new();
    let worked = [[1; 64], [2; 64], [2; 64]].concat();
    one(tally, &mut kinds, &input(37, [2, 1], [&worked, &[]]));
    for i in 0..480 {
        one(tally, &mut kinds, &some_input(random, i));
    }
    // Counts whose sum leaves 16 bits, the largest good input, and one that goes on for long.
    one(tally, &mut kinds, &input(37, [0xFFFF, 1], [&[], &[]]));
    one(tally, &mut kinds, &input(37, [0xFFFF, 0xFFFF], [&[], &[]]));
    let largest = two(random, [200, 300, 300]);
    one(tally, &mut kinds, &of_tables(511, &largest));
    one(
        tally,
        &mut kinds,
        &[of_tables(511, &largest), random.bytes(300_000)].concat(),
    );

    for kind in [
        "refused 1",
        "refused 3",
        "refused 6",
        " 0 complete 0",
        " 0 complete 1",
    ] {
        let tried = kinds.iter().filter(|&other| other == kind).count();
        assert!(tried > 20, "{kind}: {tried}");
    }
}
