//! Cases for a program of the proved side that converts registers: a source and a target, with the answer and the whole
//! target that the reference leaves.
//!
//! A case is a line `ANSWER convert FROM TO AFTER`, the bytes written in hexadecimal digits, where a buffer of no bytes
//! is nothing between two spaces. A line that opens with `#` begins a group and names it.

use std::fmt::Write;

use crate::file::LONGEST_REGISTER;
use crate::recipe::registers::any_pair;
use crate::recipe::rng::Rng;
use crate::reference::{convert, Version};

/// The bytes of the head.
const HEAD: usize = 9;

/// A call in the making.
struct Conversion {
    from: Vec<u8>,
    to: Vec<u8>,
}

/// Makes calls that belong together.
type Group = fn(&mut Rng) -> Vec<Conversion>;

const GROUPS: [(&str, Group); 16] = [
    ("no row used", no_row),
    ("a target with just enough room", just_enough),
    ("a target with more room", more_room),
    ("a target with too little room", too_little_room),
    ("a source of fewer bytes than a head", short_sources),
    ("another mark", marks),
    ("another version", versions),
    ("more rows used than there are", too_many_used),
    ("all rows used", all_used),
    ("rows behind those used", rows_behind),
    ("states", states),
    ("a pair twice", twice),
    ("a bad source and too little room", both_bad),
    ("a target that was a register before", register_before),
    ("many rows", many_rows),
    ("any bytes", noise),
];

/// The bytes that a target needs for so many rows.
fn needed(used: usize) -> usize {
    Version::Two.length(used)
}

/// A row of version 1.
fn row(rng: &mut Rng) -> Vec<u8> {
    let pair = any_pair(rng);
    [&pair[..], &[rng.of(&[1, 1, 2, 2, 0, 3, 255])]].concat()
}

/// A register of version 1 with so many rows used, and so many bytes behind them.
fn source(rng: &mut Rng, used: usize, behind: usize) -> Vec<u8> {
    let mut source = Version::One.head(used as u32);
    for _ in 0..used {
        source.extend(row(rng));
    }
    source.extend(rng.bytes(behind));
    source
}

/// A register of version 2 with so many rows used, and any days in them.
fn version_2(rng: &mut Rng, used: usize) -> Vec<u8> {
    let mut register = Version::Two.head(used as u32);
    for _ in 0..used {
        register.extend(row(rng));
        register.extend(rng.bytes(4));
    }
    register
}

/// A target of so many bytes. What they are makes no difference to the call, so they are any.
fn target(rng: &mut Rng, length: usize) -> Vec<u8> {
    let any = rng.bytes(length);
    rng.of(&[&any, &any, &any, &vec![0xff; length], &vec![0; length]]).to_vec()
}

/// A source and a target with just enough room for its rows.
fn fitting(rng: &mut Rng, used: usize, behind: usize) -> Conversion {
    Conversion { from: source(rng, used, behind), to: target(rng, needed(used)) }
}

/// How many rows are used, where nothing depends on it.
fn few(rng: &mut Rng) -> usize {
    rng.of(&[1, 1, 1, 2])
}

fn no_row(rng: &mut Rng) -> Vec<Conversion> {
    let (some, any) = (rng.between(1, 73), rng.between(10, 120));
    let shapes = [(0, 9), (some, 9), (74, 10), (74, any), (0, 8), (some, 0)];
    shapes.map(|(behind, length)| Conversion { from: source(rng, 0, behind), to: target(rng, length) }).into()
}

fn just_enough(rng: &mut Rng) -> Vec<Conversion> {
    [1, 1, 2, 3].map(|used| fitting(rng, used, 0)).into()
}

fn more_room(rng: &mut Rng) -> Vec<Conversion> {
    let any = rng.between(2, 100);
    let more = [1, any, Version::One.width(), Version::Two.width()];
    let mut calls = Vec::new();
    for more in more {
        let used = few(rng);
        calls.push(Conversion { from: source(rng, used, 0), to: target(rng, needed(used) + more) });
    }
    calls
}

/// One byte too few, room for the rows as they are in version 1, for the head alone, for less, for nothing.
fn too_little_room(rng: &mut Rng) -> Vec<Conversion> {
    let mut calls = Vec::new();
    for kind in 0..7 {
        let used = few(rng);
        let length = match kind {
            0 | 1 => needed(used) - 1,
            2 => Version::One.length(used),
            3 => needed(used - 1),
            4 => HEAD,
            5 => rng.below(needed(used)),
            _ => rng.of(&[0, HEAD - 1]),
        };
        calls.push(Conversion { from: source(rng, used, 0), to: target(rng, length) });
    }
    calls
}

fn short_sources(rng: &mut Rng) -> Vec<Conversion> {
    let mut calls = Vec::new();
    for length in [0, rng.between(1, 4), rng.between(5, 7), HEAD - 1] {
        let mut from = Version::One.head(0);
        from.truncate(length);
        calls.push(Conversion { from, to: target(rng, needed(0)) });
    }
    calls
}

fn marks(rng: &mut Rng) -> Vec<Conversion> {
    let other = rng.of(&[b"trn", b"LEI", b"NRT"]);
    let mut calls = Vec::new();
    for place in 0..4 {
        let used = rng.below(2);
        let mut call = fitting(rng, used, 0);
        if place < 3 {
            call.from[place] ^= rng.of(&[1, 0x20, 0x80]);
        } else {
            call.from[..3].copy_from_slice(other);
        }
        calls.push(call);
    }
    calls
}

/// Over rows of version 1, and version 2 over its own.
fn versions(rng: &mut Rng) -> Vec<Conversion> {
    let mut calls = Vec::new();
    for number in [0u16, 2, 3, 255, 256, 257, 512, 513, 65535] {
        let used = rng.below(2);
        let mut call = fitting(rng, used, 0);
        call.from[3..5].copy_from_slice(&number.to_le_bytes());
        calls.push(call);
    }
    for used in [0, 1, 2] {
        calls.push(Conversion { from: version_2(rng, used), to: target(rng, needed(used)) });
    }
    calls
}

/// One more than there are, one that lacks a byte, and numbers that are too large by far: of the last two the bytes
/// of all rows are the same in 32 bits, or the lowest byte is.
fn too_many_used(rng: &mut Rng) -> Vec<Conversion> {
    let mut calls = Vec::new();
    for kind in 0..6 {
        let rows = rng.of(&[0, 1, 1, 2]);
        let mut from = source(rng, rows, 0);
        let rows = rows as u32;
        let used = match kind {
            0 => rows + 1,
            1 => {
                from.extend(rng.bytes(Version::One.width() - 1));
                rows + 1
            }
            2 => u32::MAX,
            3 => rows + 1000,
            4 => rows + (1 << 31),
            _ => rows + (1 << 8),
        };
        from[5..HEAD].copy_from_slice(&used.to_le_bytes());
        calls.push(Conversion { from, to: target(rng, needed(rows as usize + 1)) });
    }
    calls
}

/// With no byte behind the last row, or fewer than another row has.
fn all_used(rng: &mut Rng) -> Vec<Conversion> {
    let some = rng.between(2, 72);
    let mut calls = Vec::new();
    for behind in [0, 1, some, 73] {
        let used = few(rng);
        calls.push(fitting(rng, used, behind));
    }
    calls
}

/// The target has room for them, too, or for none of them.
fn rows_behind(rng: &mut Rng) -> Vec<Conversion> {
    let mut calls = Vec::new();
    for (behind, room) in [(1, 1), (1, 0), (2, 1)] {
        let used = rng.below(2);
        let mut from = source(rng, used, 0);
        for _ in 0..behind {
            from.extend(row(rng));
        }
        calls.push(Conversion { from, to: target(rng, needed(used + room)) });
    }
    calls
}

fn states(rng: &mut Rng) -> Vec<Conversion> {
    let any = rng.next() as u8;
    let mut calls = Vec::new();
    for state in [0, 1, 2, 3, 255, any] {
        let mut call = fitting(rng, 1, 0);
        call.from[Version::One.length(1) - 1] = state;
        calls.push(call);
    }
    calls
}

/// Rows with one pair and states of their own.
fn twice(rng: &mut Rng) -> Vec<Conversion> {
    let mut calls = Vec::new();
    for states in [[1, 2], [2, 1], [1, 1]] {
        let mut call = fitting(rng, 2, 0);
        let pair = call.from[HEAD..HEAD + 73].to_vec();
        for (row, state) in call.from[HEAD..].chunks_exact_mut(Version::One.width()).zip(states) {
            row[..73].copy_from_slice(&pair);
            row[73] = state;
        }
        calls.push(call);
    }
    calls
}

/// Every way in which a source is bad.
fn both_bad(rng: &mut Rng) -> Vec<Conversion> {
    let mut calls = Vec::new();
    for bad in [short_sources, marks, versions, too_many_used] {
        let some = bad(rng);
        let which = rng.below(some.len());
        let mut call = some.into_iter().nth(which).expect("one of them");
        let length = rng.of(&[0, HEAD - 1, call.to.len() - 1]).min(call.to.len() - 1);
        call.to.truncate(if call.from.get(5..HEAD) == Some(&[0; 4]) { length.min(HEAD - 1) } else { length });
        calls.push(call);
    }
    calls
}

/// One of either version, with as many rows as are converted or one more; and one too short for them.
fn register_before(rng: &mut Rng) -> Vec<Conversion> {
    let mut calls = Vec::new();
    for more in 0..2 {
        let used = few(rng);
        let old = source(rng, used + more, 4 * (used + more));
        calls.push(Conversion { from: source(rng, used, 0), to: old });
        calls.push(Conversion { from: source(rng, used, 0), to: version_2(rng, used + more) });
    }
    calls.push(Conversion { from: source(rng, 1, 0), to: source(rng, 1, 0) });
    calls
}

/// As many as fit once in a while.
fn many_rows(rng: &mut Rng) -> Vec<Conversion> {
    let most = Version::Two.capacity(LONGEST_REGISTER as u64) as usize;
    let used = rng.of(&[5, 8, 12, most]);
    let more = rng.of(&[-1, 0, LONGEST_REGISTER as isize - needed(most) as isize]);
    let length = needed(used).checked_add_signed(more).expect("rows");
    vec![Conversion { from: source(rng, used, 0), to: target(rng, length) }]
}

/// Nothing but noise, and noise behind a head that is right.
fn noise(rng: &mut Rng) -> Vec<Conversion> {
    let (long, length) = (rng.below(120), rng.below(120));
    let headed = [Version::One.head(1), rng.bytes(long)].concat();
    vec![
        Conversion { from: rng.bytes(long), to: target(rng, length) },
        Conversion { from: headed, to: target(rng, length) },
    ]
}

impl Conversion {
    /// The call as a row, with what the reference makes of it.
    fn row(&self) -> String {
        assert!([&self.from, &self.to].iter().all(|bytes| bytes.len() <= LONGEST_REGISTER));
        let mut after = self.to.clone();
        let answer = convert(&self.from, &mut after);
        format!("{answer} convert {} {} {}\n", digits(&self.from), digits(&self.to), digits(&after))
    }
}

fn digits(bytes: &[u8]) -> String {
    let mut text = String::with_capacity(2 * bytes.len());
    for byte in bytes {
        write!(text, "{byte:02X}").expect("a text takes all");
    }
    text
}

/// So many conversions with what is expected of them, in rounds of some seventy. The same seed and count make the same
/// cases everywhere.
pub fn cases(seed: u64, count: usize) -> String {
    let mut rng = Rng::new(seed);
    let mut cases = String::new();
    let mut left = count;
    while left > 0 {
        for (name, group) in GROUPS {
            let mut calls = group(&mut rng);
            calls.truncate(left);
            left -= calls.len();
            if !calls.is_empty() {
                cases += &format!("# conversion: {name}\n");
                cases.extend(calls.iter().map(Conversion::row));
            }
        }
    }
    cases
}

#[cfg(test)]
mod tests {
    use std::collections::BTreeMap;

    use super::*;

    /// A case as it is written.
    struct Shown {
        group: String,
        answer: u16,
        from: Vec<u8>,
        to: Vec<u8>,
        after: Vec<u8>,
    }

    fn bytes(digits: &str) -> Vec<u8> {
        assert!(digits.bytes().all(|digit| b"0123456789ABCDEF".contains(&digit)));
        (0..digits.len()).step_by(2).map(|at| u8::from_str_radix(&digits[at..at + 2], 16).unwrap()).collect()
    }

    fn shown(cases: &str) -> Vec<Shown> {
        let mut group = String::new();
        let mut shown = Vec::new();
        for line in cases.lines() {
            if let Some(name) = line.strip_prefix("# ") {
                group = name.to_string();
                continue;
            }
            let [answer, "convert", from, to, after] = line.split(' ').collect::<Vec<&str>>()[..] else {
                panic!("{line}")
            };
            let (answer, group) = (answer.parse().unwrap(), group.clone());
            shown.push(Shown { group, answer, from: bytes(from), to: bytes(to), after: bytes(after) });
        }
        shown
    }

    /// The answer and the target afterwards, put together anew from the source's bytes.
    fn expected(from: &[u8], to: &[u8]) -> (u16, Vec<u8>) {
        let number = |at: usize| usize::from(from[at]);
        let framed = from.len() > 8 && from.starts_with(b"TRN\x01\x00");
        let used = if framed { number(5) + 256 * (number(6) + 256 * (number(7) + 256 * number(8))) } else { 0 };
        if !framed || from.len() - 9 < 74 * used {
            return (6, to.to_vec());
        }
        if to.len() < 9 + 78 * used {
            return (12, to.to_vec());
        }
        let mut after = b"TRN\x02\x00".to_vec();
        after.extend(&from[5..9]);
        for row in 0..used {
            after.extend(&from[9 + 74 * row..9 + 74 * (row + 1)]);
            after.extend([0, 0, 0, 0]);
        }
        after.extend(&to[after.len()..]);
        (0, after)
    }

    #[test]
    fn what_is_expected_is_what_the_bytes_say() {
        for seed in 1..=5 {
            let cases = cases(seed, 500);
            assert!(cases.len() < 500_000, "{} bytes", cases.len());
            let shown = shown(&cases);
            assert_eq!(shown.len(), 500);
            for case in &shown {
                let (answer, after) = expected(&case.from, &case.to);
                assert!(case.answer == answer && case.after == after, "{}", case.group);
                assert!(case.from.len().max(case.to.len()) <= 2048);
            }
            assert!(shown.iter().any(|case| case.from.is_empty()) && shown.iter().any(|case| case.to.is_empty()));
        }
    }

    #[test]
    fn groups_hold_what_they_say() {
        let shown = shown(&cases(1, 500));
        let mut answers: BTreeMap<(&str, u16), usize> = BTreeMap::new();
        for case in &shown {
            *answers.entry((case.group.strip_prefix("conversion: ").unwrap(), case.answer)).or_default() += 1;
        }
        let found = |name, answer| answers.get(&(name, answer)).copied().unwrap_or(0);
        for (name, _) in GROUPS {
            let answered = match name {
                "a target with too little room" => [false, false, true],
                "a source of fewer bytes than a head" | "another mark" | "another version" => [false, true, false],
                "more rows used than there are" | "a bad source and too little room" => [false, true, false],
                "no row used" | "many rows" | "a target that was a register before" => [true, false, true],
                "any bytes" => continue,
                _ => [true, false, false],
            };
            assert_eq!([0, 6, 12].map(|answer| found(name, answer) > 0), answered, "{name}");
        }
        // Were the source good, the room would be too little.
        for case in shown.iter().filter(|case| case.group.ends_with("a bad source and too little room")) {
            let used = case.from.get(5..9).map_or(0, |used| u32::from_le_bytes(used.try_into().unwrap()));
            assert!((case.to.len() as u64) < 9 + 78 * u64::from(used));
        }
    }

    #[test]
    fn the_same_seed_makes_the_same_cases() {
        assert!(cases(1, 300) == cases(1, 300) && cases(1, 300) != cases(2, 300));
        assert!(cases(1, 0).is_empty());
        assert!(cases(1, 300).starts_with(&cases(1, 100)));
    }
}
