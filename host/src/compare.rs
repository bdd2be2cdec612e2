//! Holds the results of the proved side against the expected ones.

use std::fmt::Write as _;
use std::io::{self, BufRead, Write};

use crate::codes::{answer_words, words, CODES};
use crate::file::{Answered, Case, Reader, MARKS};
use crate::reference::{Outcome, Version};

/// How many differences are printed in full.
pub(crate) const SHOWN: usize = 10;

/// Compares, prints the first differences and a summary, and says whether there was none.
pub fn run(cases: impl BufRead, mut results: impl BufRead, mut output: impl Write) -> io::Result<bool> {
    let mut reader = Reader::new(cases)?;
    let (mut count, mut differences) = (0, 0);
    while let Some((case, expected)) = reader.next_case()? {
        count += 1;
        let ours = match Answered::read(&mut results, expected.findings.len(), expected.register.len()) {
            Ok(ours) => Some(ours),
            Err(error) if error.kind() == io::ErrorKind::UnexpectedEof => None,
            Err(error) => return Err(error),
        };
        if ours.as_ref() == Some(&expected) {
            continue;
        }
        differences += 1;
        if differences <= SHOWN {
            write!(output, "{}", describe(count, &case, &expected, ours.as_ref()))?;
        } else if differences == SHOWN + 1 {
            writeln!(output, "... further differences are only counted")?;
        }
    }
    let mut left = Vec::new();
    results.read_to_end(&mut left)?;
    if !left.is_empty() {
        differences += 1;
        writeln!(output, "the results go on for {} bytes after the last case", left.len())?;
    }
    if count != reader.cases as usize {
        differences += 1;
        writeln!(output, "the file says it holds {} cases", reader.cases)?;
    }
    writeln!(output, "{count} cases, {differences} differences")?;
    output.flush()?;
    Ok(differences == 0)
}

/// Judges each case anew and writes the results as the proved side would.
pub fn answer(cases: impl BufRead, mut results: impl Write) -> io::Result<()> {
    let mut reader = Reader::new(cases)?;
    while let Some((case, _)) = reader.next_case()? {
        case.judge().write(&mut results)?;
    }
    results.flush()
}

/// A line as text, with `\x..` for what cannot be printed.
pub(crate) fn shown(line: &[u8]) -> String {
    let mut text = String::new();
    for chunk in line.utf8_chunks() {
        for character in chunk.valid().chars() {
            if character.is_control() || character == '\\' {
                let _ = write!(text, "{}", character.escape_default());
            } else {
                text.push(character);
            }
        }
        for byte in chunk.invalid() {
            let _ = write!(text, "\\x{byte:02x}");
        }
    }
    text
}

/// One difference in words.
fn describe(number: usize, case: &Case, expected: &Answered, ours: Option<&Answered>) -> String {
    let mut text = format!("case {number}\n{}{}", call(case), outcome("expected", expected.outcome));
    match ours {
        None => text += "  ours: the results end before this case\n",
        Some(ours) => {
            text += &outcome("ours", ours.outcome);
            text += &codes(expected, ours);
            text += &buffers(case, expected, ours);
        }
    }
    text
}

fn call(case: &Case) -> String {
    let mut text = format!("  line ({} bytes): {}\n", case.line.len(), shown(&case.line));
    let _ = write!(text, "  submitted {} at microsecond {}; ", case.day, case.micro);
    let _ = write!(text, "Polish identifiers: {}; ", case.polish);
    let _ = write!(text, "{} findings entries; register of {} bytes", case.findings.len(), case.register.len());
    if let Some(&[_, _, _, v, w, a, b, c, d]) = case.register.first_chunk() {
        let (version, used) = (u16::from_le_bytes([v, w]), u32::from_le_bytes([a, b, c, d]));
        let _ = write!(text, ", version {version}, {used} rows used");
    }
    for (mark, list) in MARKS.iter().zip(&case.lists) {
        let _ = write!(text, "; {mark} {} bytes", list.len());
    }
    text.push('\n');
    text
}

pub(crate) fn outcome(name: &str, Outcome { answer, count, words: [first, second, third] }: Outcome) -> String {
    let meaning = answer_words(answer);
    format!("  {name}: answer {answer} ({meaning}), count {count}, words {first:016x} {second:016x} {third:016x}\n")
}

/// The codes listed and the bits set, in words where only one side has them.
fn codes(expected: &Answered, ours: &Answered) -> String {
    let (listed, found) = (expected.codes(), ours.codes());
    let without = |these: &[u16], those: &[u16]| -> Vec<u16> {
        these.iter().copied().filter(|code| !those.contains(code)).collect()
    };
    let both = listed.iter().copied().filter(|code| found.contains(code)).collect();
    let (bits, our_bits) = (codes_of(expected.outcome.words), codes_of(ours.outcome.words));
    let mut text = String::new();
    for (name, codes) in [
        ("in both", both),
        ("only expected", without(listed, found)),
        ("only ours", without(found, listed)),
        ("bit only expected", without(&bits, &our_bits)),
        ("bit only ours", without(&our_bits, &bits)),
    ] {
        for code in codes {
            let _ = writeln!(text, "  {name}: {code} {}", words(code));
        }
    }
    text
}

/// The codes whose bits are set.
pub(crate) fn codes_of(words: [u64; 3]) -> Vec<u16> {
    CODES.iter().enumerate().filter(|(place, _)| words[place / 64] >> (place % 64) & 1 == 1).map(|row| *row.1).collect()
}

/// The first entry and the first byte that differ.
fn buffers(case: &Case, expected: &Answered, ours: &Answered) -> String {
    let mut text = String::new();
    if let Some(at) = (0..case.findings.len()).find(|&at| expected.findings[at] != ours.findings[at]) {
        let (before, wanted, got) = (case.findings[at], expected.findings[at], ours.findings[at]);
        let _ = writeln!(text, "  findings entry {at}: expected {wanted}, ours {got}, before {before}");
    }
    if let Some(at) = (0..case.register.len()).find(|&at| expected.register[at] != ours.register[at]) {
        let (before, wanted, got) = (case.register[at], expected.register[at], ours.register[at]);
        let place = place_in(&case.register, at);
        let _ = writeln!(text, "  register byte {at} ({place}): expected {wanted}, ours {got}, before {before}");
    }
    text
}

/// Where a byte of a register stands, by the rows of its version.
pub(crate) fn place_in(register: &[u8], at: usize) -> String {
    let version = register.get(3..5).and_then(|number| Version::of(u16::from_le_bytes([number[0], number[1]])));
    match (at.checked_sub(9), version) {
        (None, _) => "in its head".to_string(),
        (Some(_), None) => "behind its head".to_string(),
        (Some(at), Some(version)) => format!("row {}, byte {} of it", at / version.width(), at % version.width()),
    }
}

#[cfg(test)]
mod tests {
    use super::*;

    /// The reference's cases and results for a seed.
    fn answered() -> (Vec<u8>, Vec<u8>) {
        let (mut cases, mut results) = (Vec::new(), Vec::new());
        crate::recipe::run(7, 300, &mut cases, io::sink()).unwrap();
        answer(&cases[..], &mut results).unwrap();
        (cases, results)
    }

    /// Whether all is the same, the last line printed, and all that is printed.
    fn compared(cases: &[u8], results: &[u8]) -> (bool, String, String) {
        let mut output = Vec::new();
        let same = run(cases, results, &mut output).unwrap();
        let text = String::from_utf8(output).unwrap();
        (same, text.lines().last().unwrap().to_string(), text)
    }

    #[test]
    fn any_byte_counts() {
        let (cases, results) = answered();
        let (same, last, _) = compared(&cases, &results);
        assert!(same && last == "300 cases, 0 differences");
        for at in [0, 2, 4, 12, 28, 200, results.len() - 1] {
            let mut changed = results.clone();
            changed[at] ^= 1;
            let (same, last, text) = compared(&cases, &changed);
            assert!(!same && last == "300 cases, 1 differences", "{text}");
        }
    }

    #[test]
    fn results_that_end_early_or_go_on() {
        let (cases, results) = answered();
        let (same, _, text) = compared(&cases, &results[..results.len() - 1]);
        assert!(!same && text.contains("end before this case"));
        let (same, _, text) = compared(&cases, &[&results[..], b"x"].concat());
        assert!(!same && text.contains("go on for 1 bytes"));
        let (same, last, _) = compared(&cases, b"");
        assert!(!same && last == "300 cases, 300 differences");
    }

    #[test]
    fn differences_are_told_in_words() {
        let case = Case {
            line: b"NEW|a\xff".to_vec(),
            lists: std::array::from_fn(|_| b"123".to_vec().into()),
            register: [Version::One.head(0), vec![0; 74]].concat(),
            day: 20250322,
            micro: 7,
            polish: 256,
            findings: vec![9; 138],
        };
        let mut expected =
            Answered { findings: case.findings.clone(), register: case.register.clone(), ..Default::default() };
        let mut ours = expected.clone();
        expected.outcome = Outcome { answer: 0, count: 2, words: [3, 0, 0] };
        expected.findings[..2].copy_from_slice(&[23, 24]);
        ours.outcome = Outcome { answer: 9, count: 1, words: [1, 0, 1 << 9] };
        ours.findings[0] = 23;
        ours.register[82] = 1;
        let told = describe(5, &case, &expected, Some(&ours));
        for part in [
            "case 5\n  line (6 bytes): NEW|a\\xff\n",
            "at microsecond 7; Polish identifiers: 256; 138 findings entries; register of 83 bytes, version 1, 0 rows used; LEI 3 bytes; CTY 3 bytes;",
            "expected: answer 0 (judged), count 2, words 0000000000000003 0000000000000000 0000000000000000\n",
            "ours: answer 9 (The line is over 4,096 bytes), count 1, words 0000000000000001 0000000000000000 00",
            "in both: 23 A NEW line for a reference",
            "only expected: 24 A cancellation of something that was never accepted",
            "bit only expected: 24 A cancellation",
            "bit only ours: 1065 Blank, or neither TRUE nor FALSE (65 securities financing flag)\n",
            "findings entry 1: expected 24, ours 9, before 9\n",
            "register byte 82 (row 0, byte 73 of it): expected 0, ours 1, before 0\n",
        ] {
            assert!(told.contains(part), "{part}\n{told}");
        }
    }

    #[test]
    fn places_in_a_register() {
        for (version, place) in [(1, "row 2, byte 6 of it"), (2, "row 1, byte 76 of it"), (3, "behind its head")] {
            assert_eq!(place_in(&[b'T', b'R', b'N', version, 0, 3, 0, 0, 0], 9 + 154), place);
            assert_eq!(place_in(&[b'T', b'R', b'N', version, 0, 3, 0, 0, 0], 8), "in its head");
        }
    }

    #[test]
    fn lines_are_shown() {
        assert_eq!(shown(b"a|\\\x7f\xff\xc3\xa9\0"), "a|\\\\\\u{7f}\\xff\u{e9}\\u{0}");
    }
}
