//! Holds what the proved side made of days against what is expected.

use std::collections::BTreeSet;
use std::fmt::Write as _;
use std::io::{self, BufRead, Write};

use super::{CallAnswer, DayCall, Entry, Kept, Reader};
use crate::codes::CODES;
use crate::compare::{codes_of, outcome, place_in, shown, SHOWN};
use crate::reference::{Noted, Record};

/// The headings of a record, in its order.
const HEADINGS: [&str; 5] =
    ["accepted as NEW", "accepted as CXL", "with findings", "refused by 11", "refused by 1 to 10"];

/// Counts differences and tells the first ones.
struct Told<W> {
    output: W,
    differences: usize,
    days: BTreeSet<usize>,
}

impl<W: Write> Told<W> {
    fn difference(&mut self, day: usize, text: impl FnOnce() -> String) -> io::Result<()> {
        self.differences += 1;
        self.days.insert(day);
        if self.differences <= SHOWN {
            write!(self.output, "{}", text())?;
        } else if self.differences == SHOWN + 1 {
            writeln!(self.output, "... further differences are only counted")?;
        }
        Ok(())
    }
}

/// Compares, prints the first differences and a summary, and says whether there was none. Each call is one comparison,
/// and so is the end of each day.
pub fn run(days: impl BufRead, mut results: impl BufRead, output: impl Write) -> io::Result<bool> {
    let mut reader = Reader::new(days)?;
    let mut told = Told { output, differences: 0, days: BTreeSet::new() };
    let (mut day, mut call, mut calls) = (0, 0, 0);
    while let Some(entry) = reader.next_entry()? {
        match entry {
            Entry::Begin(_) => (day, call) = (day + 1, 0),
            Entry::Call(made, expected) => {
                (call, calls) = (call + 1, calls + 1);
                let ours = there(CallAnswer::read(&mut results, made.entries))?;
                if ours.as_ref() != Some(&expected) {
                    told.difference(day, || of_call(day, call, &made, &expected, ours.as_ref()))?;
                }
            }
            Entry::End(expected) => {
                let ours = there(Kept::read(&mut results, expected.records.len(), expected.register.len()))?;
                if ours.as_ref() != Some(&expected) {
                    told.difference(day, || of_end(day, &expected, ours.as_ref()))?;
                }
            }
        }
    }
    let mut left = Vec::new();
    results.read_to_end(&mut left)?;
    if !left.is_empty() {
        told.difference(day, || format!("the results go on for {} bytes after the last day\n", left.len()))?;
    }
    if day != reader.days as usize {
        told.difference(day, || format!("the file says it holds {} days\n", reader.days))?;
    }
    let Told { mut output, differences, days } = told;
    if differences > 0 {
        writeln!(output, "{} of the days differ", days.len())?;
    }
    writeln!(output, "{day} days, {calls} calls, {differences} differences")?;
    output.flush()?;
    Ok(differences == 0)
}

/// Judges and notes each call anew and writes the results as the proved side would.
pub fn answer(days: impl BufRead, mut results: impl Write) -> io::Result<()> {
    let mut reader = Reader::new(days)?;
    let mut kept = None;
    let begun = || io::Error::other("a call before any day");
    while let Some(entry) = reader.next_entry()? {
        match entry {
            Entry::Begin(start) => kept = Some(start),
            Entry::Call(call, _) => kept.as_mut().ok_or_else(begun)?.call(&call).write(&mut results)?,
            Entry::End(_) => kept.take().ok_or_else(begun)?.write(&mut results)?,
        }
    }
    results.flush()
}

/// What was read, or nothing where the results end before it.
fn there<T>(read: io::Result<T>) -> io::Result<Option<T>> {
    match read {
        Err(error) if error.kind() == io::ErrorKind::UnexpectedEof => Ok(None),
        other => other.map(Some),
    }
}

fn of_call(day: usize, number: usize, call: &DayCall, expected: &CallAnswer, ours: Option<&CallAnswer>) -> String {
    let DayCall { line, day: s, micro, polish, entries, lent, other, .. } = call;
    let mut text = format!("day {day}, call {number}\n  line ({} bytes): {}\n", line.len(), shown(line));
    let _ = write!(text, "  submitted on {s} at microsecond {micro}; Polish identifiers: {polish}; ");
    let _ = writeln!(text, "{entries} findings entries; {lent} bytes of the register");
    text.push_str(&outcome("expected", expected.outcome));
    let Some(ours) = ours else { return text + "  the results end before this call\n" };
    if ours.outcome != expected.outcome {
        text.push_str(&outcome("ours", ours.outcome));
    }
    if let Some(at) = (0..*entries).find(|&at| expected.findings[at] != ours.findings[at]) {
        let (wanted, got) = (expected.findings[at], ours.findings[at]);
        let _ = writeln!(text, "  findings entry {at}: expected {wanted}, ours {got}");
    }
    if let Some(other) = other {
        text.push_str(&outcome("noted with", *other));
        let _ = writeln!(text, "  of which the codes are {:?}", codes_of(other.words));
    }
    if ours.noted != expected.noted {
        let _ = writeln!(text, "  noted: expected {}, ours {}", noted(expected.noted), noted(ours.noted));
    }
    text
}

fn noted(Noted { common, stuck }: Noted) -> String {
    let place = if common { "in the common record" } else { "in a record of its own" };
    let counter = if stuck { "with a counter at its top" } else { "with no counter at its top" };
    format!("{place}, {counter}")
}

fn of_end(day: usize, expected: &Kept, ours: Option<&Kept>) -> String {
    let mut text = format!("day {day}, at its end\n");
    let Some(ours) = ours else { return text + "  the results end before the end of this day\n" };
    let differing: Vec<usize> =
        (0..expected.records.len()).filter(|&at| expected.records[at] != ours.records[at]).collect();
    if let Some(&at) = differing.first() {
        let (wanted, got) = (&expected.records[at], &ours.records[at]);
        let _ = writeln!(text, "  {} records differ; record {at}: {}", differing.len(), of_record(wanted, got));
    }
    if expected.common != ours.common {
        let _ = writeln!(text, "  the common record: {}", of_record(&expected.common, &ours.common));
    }
    if let Some(at) = (0..expected.register.len()).find(|&at| expected.register[at] != ours.register[at]) {
        let (place, wanted, got) = (place_in(&expected.register, at), expected.register[at], ours.register[at]);
        let _ = writeln!(text, "  register byte {at} ({place}): expected {wanted}, ours {got}");
    }
    text
}

/// The first thing of a record that differs.
fn of_record(expected: &Record, ours: &Record) -> String {
    if expected.entity != ours.entity {
        return format!("expected the entity {}, ours {}", shown(&expected.entity), shown(&ours.entity));
    }
    let entity = shown(&expected.entity);
    let headings = HEADINGS.iter().zip(expected.headings().into_iter().zip(ours.headings()));
    if let Some((name, (wanted, got))) = headings.into_iter().find(|(_, (wanted, got))| wanted != got) {
        return format!("entity {entity}, {name}: expected {wanted}, ours {got}");
    }
    let place = (0..CODES.len()).find(|&place| expected.codes[place] != ours.codes[place]).expect("a difference");
    let (code, wanted, got) = (CODES[place], expected.codes[place], ours.codes[place]);
    format!("entity {entity}, code {code}: expected {wanted}, ours {got}")
}
