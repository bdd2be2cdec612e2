//! Counts what a file of days reaches.

use std::collections::BTreeSet;
use std::io::{self, BufRead, Write};

use super::{CallAnswer, DayCall, Entry, Kept, Reader};
use crate::compare::codes_of;
use crate::reference::{Heading, Record, MOST_RECORDS};

/// Why a line is the common record's, in the order in which it is looked at.
pub const REASONS: [&str; 6] =
    ["refused by 1 to 10, or by no number", "1001", "1004", "1001 and 1004", "no entity in cell 4", "no record free"];

/// What came of the calls of all days.
#[derive(Default)]
pub struct Coverage {
    pub days: usize,
    pub calls: usize,
    /// Lines under each heading, with the verdict that they got, and with another.
    pub headings: [[usize; 5]; 2],
    /// Lines by the answer that they got.
    pub answers: [usize; 12],
    /// Lines in the common record, by reason, with the verdict that they got, and with another.
    pub reasons: [[usize; REASONS.len()]; 2],
    /// Lines with a counter at its top, in a record and in the common one.
    pub stuck: [usize; 2],
    /// Records that were taken, and of these such as had held something.
    pub taken: [usize; 2],
    /// Lines of an entity that had a record.
    pub back: usize,
    /// Days with more entities than records are used, by whether the table has more of them.
    pub over: [usize; 2],
    /// The most entities of a day, and all of them, each counted once a day.
    pub entities: [usize; 2],
    /// The rooms of the tables, and whether they were zero at first.
    pub rooms: Vec<(usize, bool)>,
    /// The entities of the day under way.
    today: BTreeSet<Vec<u8>>,
}

/// The entity of a line as it is noted, or the reason why there is none.
fn entity(call: &DayCall, answer: &CallAnswer) -> Result<Vec<u8>, usize> {
    let verdict = call.other.unwrap_or(answer.outcome);
    if ![0, 11].contains(&verdict.answer) {
        return Err(0);
    }
    let codes = codes_of(verdict.words);
    match [1001, 1004].map(|code| codes.contains(&code)) {
        [true, true] => return Err(3),
        [true, false] => return Err(1),
        [false, true] => return Err(2),
        _ => {}
    }
    let cells: Vec<&[u8]> = call.line.split(|byte| *byte == b'|').collect();
    match cells.get(3) {
        Some(cell) if cell.len() == 20 && cell[0] != 0 => Ok(cell.to_vec()),
        _ => Err(4),
    }
}

impl Coverage {
    fn begin(&mut self, kept: &Kept) {
        self.days += 1;
        self.rooms.push((kept.records.len(), kept.records.iter().all(|record| *record == Record::blank())));
        self.today.clear();
    }

    /// Counts a call, by the records before it and by those behind it.
    fn call(&mut self, call: &DayCall, answer: &CallAnswer, before: &[Record], after: &[Record]) {
        self.calls += 1;
        let other = usize::from(call.other.is_some());
        let verdict = call.other.unwrap_or(answer.outcome);
        self.headings[other][Heading::of(&call.line, &verdict) as usize] += 1;
        self.answers[usize::from(answer.outcome.answer)] += 1;
        self.stuck[usize::from(answer.noted.common)] += usize::from(answer.noted.stuck);
        match entity(call, answer) {
            Err(reason) => self.reasons[other][reason] += 1,
            Ok(entity) => {
                self.reasons[other][5] += usize::from(answer.noted.common);
                self.today.insert(entity);
            }
        }
        let changed = before.iter().zip(after).find(|(before, after)| before.entity != after.entity);
        if let Some((before, _)) = changed {
            self.taken[0] += 1;
            self.taken[1] += usize::from(*before != Record::blank());
        } else if !answer.noted.common {
            self.back += 1;
        }
    }

    fn end(&mut self, kept: &Kept) {
        let today = self.today.len();
        self.entities = [self.entities[0].max(today), self.entities[1] + today];
        if today > MOST_RECORDS {
            self.over[usize::from(kept.records.len() > MOST_RECORDS)] += 1;
        }
    }

    pub fn print(&self, mut output: impl Write) -> io::Result<()> {
        let named = |names: &[&str], [own, other]: [&[usize]; 2]| -> Vec<String> {
            (0..names.len()).map(|at| format!("  {}: {} / {}", names[at], own[at], other[at])).collect()
        };
        writeln!(output, "lines by heading, with the verdict that they got / with another:")?;
        let headings = ["accepted as NEW", "accepted as CXL", "with findings", "refused by 11", "otherwise refused"];
        writeln!(output, "{}", named(&headings, [&self.headings[0], &self.headings[1]]).join("\n"))?;
        writeln!(output, "lines in the common record, the same:")?;
        writeln!(output, "{}", named(&REASONS, [&self.reasons[0], &self.reasons[1]]).join("\n"))?;
        writeln!(output, "answers 0 to 11: {:?}", self.answers)?;
        let [most, all] = self.entities;
        writeln!(output, "entities: {all}, at most {most} in a day")?;
        let [taken, held] = self.taken;
        writeln!(
            output,
            "records taken: {taken}, of these with something in them: {held}; coming back: {}",
            self.back
        )?;
        let [own, common] = self.stuck;
        writeln!(output, "lines with a counter at its top: {own} in a record, {common} in the common one")?;
        let [up_to, more] = self.over;
        writeln!(output, "days with over 256 entities: {up_to} with up to 256 records, {more} with more")?;
        let rooms: Vec<String> =
            self.rooms.iter().map(|(room, zero)| format!("{room}{}", if *zero { "" } else { "*" })).collect();
        writeln!(output, "records of the days, * where not zero at first: {}", rooms.join(" "))?;
        writeln!(output, "{} days, {} calls", self.days, self.calls)?;
        output.flush()
    }
}

/// What a file of days reaches.
pub fn of(days: impl BufRead) -> io::Result<Coverage> {
    let mut reader = Reader::new(days)?;
    let mut coverage = Coverage::default();
    let mut kept: Option<Kept> = None;
    while let Some(entry) = reader.next_entry()? {
        match (entry, &mut kept) {
            (Entry::Begin(start), _) => {
                coverage.begin(&start);
                kept = Some(start);
            }
            (Entry::Call(call, expected), Some(kept)) => {
                let before = kept.records.clone();
                kept.call(&call);
                coverage.call(&call, &expected, &before, &kept.records);
            }
            (Entry::End(expected), Some(_)) => coverage.end(&expected),
            _ => return Err(io::Error::other("a call before any day")),
        }
    }
    Ok(coverage)
}

/// Prints what a file of days reaches.
pub fn run(days: impl BufRead, output: impl Write) -> io::Result<()> {
    of(days)?.print(output)
}
