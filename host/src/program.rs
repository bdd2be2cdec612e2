//! The paper's program: judges each line of a report with five empty lists and a small register, and does not ask for
//! Polish identifiers. Where it is asked for, the day's summary follows.

use std::io::{self, BufRead, Write};

use crate::codes::{CODES, COUNT_WITHOUT_POLISH};
use crate::reference::{judge_line, note, Lists, Moment, Record, Register, Version, MOST_RECORDS};

/// A list without rows.
fn empty(mark: &str) -> Vec<u8> {
    [mark.as_bytes(), &1u16.to_le_bytes(), &0u32.to_le_bytes()].concat()
}

/// One line of the summary: whose it is, the five counts of lines, and each code that occurs with its count.
fn write_record(output: &mut impl Write, name: &[u8], record: &Record) -> io::Result<()> {
    output.write_all(name)?;
    for lines in record.headings() {
        write!(output, " {lines}")?;
    }
    for (code, times) in CODES.iter().zip(record.codes).filter(|(_, times)| *times > 0) {
        write!(output, " {code}:{times}")?;
    }
    writeln!(output)
}

/// The records that are taken, in order of their entities' first lines, and the common one.
fn write_summary(output: &mut impl Write, records: &[Record], common: &Record) -> io::Result<()> {
    writeln!(output, "summary")?;
    for record in records.iter().filter(|record| !record.is_free()) {
        write_record(output, &record.entity, record)?;
    }
    write_record(output, b"common", common)
}

/// Reads a report, skips its first line, and prints for each other line its number, answer, count and codes. Behind them
/// all comes the summary, where it is asked for.
pub fn run(mut input: impl BufRead, mut output: impl Write, summary: bool) -> io::Result<()> {
    let lists = Lists::read(&empty("LEI"), &empty("CTY"), &empty("CCY"), &empty("VEN"), &empty("INS"))
        .expect("empty lists are well framed");
    let mut bytes = Version::One.head(0);
    bytes.resize(Version::One.length(4), 0);
    let mut register = Register::open(&mut bytes).expect("an empty register is well framed");
    let moment = Moment::new(20250322, 43_200_000_000).expect("a real moment");
    let (mut records, mut common) = (vec![Record::blank(); MOST_RECORDS], Record::blank());

    let mut line = Vec::new();
    for number in 1u64.. {
        line.clear();
        if input.read_until(b'\n', &mut line)? == 0 {
            break;
        }
        if line.ends_with(b"\n") {
            line.pop();
            if line.ends_with(b"\r") {
                line.pop();
            }
        }
        if number == 1 {
            continue;
        }
        let mut findings = [0; COUNT_WITHOUT_POLISH];
        let outcome = judge_line(&lists, &mut register, moment, false, &mut findings, &line);
        write!(output, "{number} {} {}", outcome.answer, outcome.count)?;
        for code in &findings[..outcome.count as usize] {
            write!(output, " {code}")?;
        }
        writeln!(output)?;
        note(&mut records, &mut common, &line, &outcome);
    }
    if summary {
        write_summary(&mut output, &records, &common)?;
    }
    output.flush()
}

#[cfg(test)]
mod tests {
    const E: &str = "00000000000000000098";

    fn printed(input: &[u8], summary: bool) -> String {
        let mut output = Vec::new();
        super::run(input, &mut output, summary).unwrap();
        String::from_utf8(output).unwrap()
    }

    fn judged(input: &str) -> String {
        printed(input.as_bytes(), false)
    }

    /// What comes behind the answers.
    fn summed(input: &str) -> String {
        let all = printed(input.as_bytes(), true);
        all.strip_prefix(&judged(input)).expect("the answers come first").to_string()
    }

    #[test]
    fn the_papers_example() {
        let input = format!("h\nCXL|R1||{E}||{E}{}\nx\n", "|".repeat(59));
        assert_eq!(judged(&input), "2 0 2 24 60\n3 10 0\n");
        assert_eq!(summed(&input), format!("summary\n{E} 0 0 1 0 0 24:1 60:1\ncommon 0 0 0 0 1\n"));
    }

    #[test]
    fn line_ends() {
        let bars = "|".repeat(64);
        assert_eq!(judged(""), "");
        assert_eq!(judged("h\n"), "");
        assert_eq!(judged("h\n\n"), "2 10 0\n");
        assert_eq!(judged(&format!("h\r\nNEW{bars}|\r\n{bars}")), "2 10 0\n3 0 1 1001\n");
        let long = "x".repeat(4097);
        assert_eq!(judged(&format!("h\n{long}\r\n{}\r\n{}", &long[1..], &long[2..])), "2 9 0\n3 10 0\n4 10 0\n");
    }

    #[test]
    fn summaries() {
        // The first line is not noted, whatever it holds.
        for input in ["", "h", "h\n", &format!("CXL|R1||{E}||{E}{}\n", "|".repeat(59))] {
            assert_eq!(summed(input), "summary\ncommon 0 0 0 0 0\n");
        }
        let f = "00000000000000000195";
        let bars = "|".repeat(59);
        let lines = format!(
            "h\nCXL|R||{f}||{bars}\nCXL|R||{E}||{bars}\n|||{f}|{bars}|\r\n\nCXL|||{f}||{bars}\nCXL|R||||{bars}"
        );
        let common = "common 0 0 2 0 1 1001:1 1004:1 1006:1";
        let (first, second) = ("0 0 2 0 0 24:1 1002:1 1006:2", "0 0 1 0 0 24:1 1006:1");
        assert_eq!(summed(&lines), format!("summary\n{f} {first}\n{E} {second}\n{common}\n"));
    }

    #[test]
    fn entities_that_find_no_record() {
        let line = |number: usize| format!("CXL|R||{number:020}||{}\n", "|".repeat(59));
        let input: String = ["h\n".to_string()].into_iter().chain((1..=258).chain(1..=258).map(line)).collect();
        let summed = summed(&input);
        let lines: Vec<&str> = summed.lines().collect();
        assert_eq!((lines.len(), lines[0]), (258, "summary"));
        for (at, line) in lines[1..257].iter().enumerate() {
            assert_eq!(*line, format!("{:020} 0 0 2 0 0 24:2 1006:2", at + 1));
        }
        assert_eq!(lines[257], "common 0 0 4 0 0 24:4 1006:4");
    }
}
