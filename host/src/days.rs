//! The file of days, described in docs/CASES.md: lines that are judged and noted one after another, over one register and
//! one table of records.

mod compare;
mod coverage;

pub use compare::{answer, run as compare};
pub use coverage::run as coverage;

use std::io::{self, BufRead, Read, Write};
use std::rc::Rc;

use crate::file::{
    invalid, read_array, read_bytes, read_entries, read_exact, read_length, read_outcome, read_u32, read_u64,
    write_bytes, write_entries, write_outcome, write_u32, List, FILLER, LISTS, LONGEST_LINE, MOST_FINDINGS,
};
use crate::recipe::DayRecipe;
use crate::reference::{judge, note, Call, Noted, Outcome, Record, RECORD_BYTES};

/// How a file starts.
pub const MAGIC: [u8; 4] = *b"DAYS";
pub const VERSION: u32 = 1;

/// The kinds of records of a file: 1 to 5 replace a list.
const BEGIN: u32 = 6;
const CALL: u32 = 7;
const END: u32 = 8;

/// What a reader without heap may count on.
pub const LONGEST_LIST: usize = 16_384;
pub const LONGEST_REGISTER: usize = 65_536;
pub const MOST_RECORDS: usize = 300;

/// What the host keeps over a day.
#[derive(Clone, Debug, PartialEq, Eq)]
pub struct Kept {
    pub register: Vec<u8>,
    pub records: Vec<Record>,
    pub common: Record,
}

/// One line, judged and then noted.
#[derive(Clone, Debug, PartialEq, Eq)]
pub struct DayCall {
    pub line: Vec<u8>,
    /// LEI, CTY, CCY, VEN, INS.
    pub lists: [List; LISTS],
    /// How many bytes of the register are lent for judging, from its start.
    pub lent: usize,
    pub day: u32,
    pub micro: u64,
    /// 0 where Polish identifiers are not judged.
    pub polish: u32,
    /// The entries of the findings buffer.
    pub entries: usize,
    /// The verdict that the line is noted with, where it is not the one that it got.
    pub other: Option<Outcome>,
}

/// What comes of a call, beside what it makes of the register and the records.
#[derive(Clone, Debug, PartialEq, Eq)]
pub struct CallAnswer {
    pub outcome: Outcome,
    pub findings: Vec<u16>,
    pub noted: Noted,
}

/// What stands in a file one behind another.
pub enum Entry {
    Begin(Kept),
    Call(Box<DayCall>, CallAnswer),
    End(Kept),
}

impl Kept {
    /// Asks the reference: judges the line over the register and notes it in the records.
    pub fn call(&mut self, call: &DayCall) -> CallAnswer {
        let [lei, cty, ccy, ven, ins] = &call.lists;
        let mut findings = vec![FILLER; call.entries];
        let outcome = judge(Call {
            line: &call.line,
            lei,
            cty,
            ccy,
            ven,
            ins,
            register: &mut self.register[..call.lent],
            day: call.day,
            micro: call.micro,
            polish: call.polish,
            findings: &mut findings,
        });
        let noted = note(&mut self.records, &mut self.common, &call.line, &call.other.unwrap_or(outcome));
        CallAnswer { outcome, findings, noted }
    }

    /// Writes the records, the common one behind them, and the register.
    fn write(&self, to: &mut impl Write) -> io::Result<()> {
        for record in self.records.iter().chain([&self.common]) {
            to.write_all(&record.to_bytes())?;
        }
        to.write_all(&self.register)
    }

    /// Reads as many records and register bytes as there were.
    fn read(from: &mut impl Read, records: usize, register: usize) -> io::Result<Kept> {
        let mut record = || read_array::<RECORD_BYTES>(from).map(|bytes| Record::from_bytes(&bytes));
        let records = (0..records).map(|_| record()).collect::<io::Result<_>>()?;
        Ok(Kept { records, common: record()?, register: read_exact(from, register)? })
    }
}

impl CallAnswer {
    fn write(&self, to: &mut impl Write) -> io::Result<()> {
        write_outcome(to, &self.outcome)?;
        write_entries(to, &self.findings)?;
        to.write_all(&[u8::from(self.noted.common), u8::from(self.noted.stuck)])
    }

    fn read(from: &mut impl Read, entries: usize) -> io::Result<CallAnswer> {
        let outcome = read_outcome(from)?;
        let findings = read_entries(from, entries)?;
        match read_array(from)? {
            [common @ 0..=1, stuck @ 0..=1] => {
                let noted = Noted { common: common == 1, stuck: stuck == 1 };
                Ok(CallAnswer { outcome, findings, noted })
            }
            other => Err(invalid(format!("neither true nor false: {other:?}"))),
        }
    }
}

/// Writes days one after another; a list goes out only where it differs from the one before.
pub struct Writer<W> {
    to: W,
    lists: [Option<List>; LISTS],
}

impl<W: Write> Writer<W> {
    pub fn new(mut to: W, days: usize) -> io::Result<Writer<W>> {
        to.write_all(&MAGIC)?;
        to.write_all(&VERSION.to_le_bytes())?;
        write_u32(&mut to, days)?;
        Ok(Writer { to, lists: [const { None }; LISTS] })
    }

    pub fn begin(&mut self, kept: &Kept) -> io::Result<()> {
        assert!(kept.records.len() <= MOST_RECORDS && kept.register.len() <= LONGEST_REGISTER);
        self.to.write_all(&BEGIN.to_le_bytes())?;
        write_u32(&mut self.to, kept.records.len())?;
        write_u32(&mut self.to, kept.register.len())?;
        kept.write(&mut self.to)
    }

    pub fn call(&mut self, call: &DayCall, expected: &CallAnswer) -> io::Result<()> {
        for (number, (current, list)) in self.lists.iter_mut().zip(&call.lists).enumerate() {
            if current.as_ref() != Some(list) {
                write_u32(&mut self.to, number + 1)?;
                write_bytes(&mut self.to, list, LONGEST_LIST)?;
                *current = Some(list.clone());
            }
        }
        assert!(call.entries <= MOST_FINDINGS);
        self.to.write_all(&CALL.to_le_bytes())?;
        write_bytes(&mut self.to, &call.line, LONGEST_LINE)?;
        write_u32(&mut self.to, call.lent)?;
        self.to.write_all(&call.day.to_le_bytes())?;
        self.to.write_all(&call.micro.to_le_bytes())?;
        self.to.write_all(&call.polish.to_le_bytes())?;
        write_u32(&mut self.to, call.entries)?;
        write_u32(&mut self.to, usize::from(call.other.is_some()))?;
        write_outcome(&mut self.to, &call.other.unwrap_or_default())?;
        expected.write(&mut self.to)
    }

    pub fn end(&mut self, kept: &Kept) -> io::Result<()> {
        self.to.write_all(&END.to_le_bytes())?;
        kept.write(&mut self.to)
    }

    pub fn finish(mut self) -> io::Result<()> {
        self.to.flush()
    }
}

/// Reads what days hold, one thing after another.
pub struct Reader<R> {
    from: R,
    /// The number of days that the file says it holds.
    pub days: u32,
    lists: [List; LISTS],
    /// Records and register bytes of the day that is under way.
    sizes: (usize, usize),
}

impl<R: BufRead> Reader<R> {
    pub fn new(mut from: R) -> io::Result<Reader<R>> {
        let mut head = || Ok((read_array(&mut from)?, read_u32(&mut from)?, read_u32(&mut from)?));
        let (mark, version, days) = head().map_err(cut_short)?;
        if (mark, version) != (MAGIC, VERSION) {
            return Err(invalid("not a file of days".to_string()));
        }
        Ok(Reader { from, days, lists: std::array::from_fn(|_| Rc::from([])), sizes: (0, 0) })
    }

    /// The next thing, or nothing at the end.
    pub fn next_entry(&mut self) -> io::Result<Option<Entry>> {
        self.up_to_entry().map_err(cut_short)
    }

    fn up_to_entry(&mut self) -> io::Result<Option<Entry>> {
        loop {
            if self.from.fill_buf()?.is_empty() {
                return Ok(None);
            }
            match read_u32(&mut self.from)? {
                number @ 1..=5 => {
                    self.lists[number as usize - 1] = read_bytes(&mut self.from, LONGEST_LIST)?.into();
                }
                BEGIN => {
                    let records = read_length(&mut self.from, MOST_RECORDS)?;
                    self.sizes = (records, read_length(&mut self.from, LONGEST_REGISTER)?);
                    return self.kept().map(|kept| Some(Entry::Begin(kept)));
                }
                CALL => return self.call().map(Some),
                END => return self.kept().map(|kept| Some(Entry::End(kept))),
                other => return Err(invalid(format!("a record of kind {other}"))),
            }
        }
    }

    fn kept(&mut self) -> io::Result<Kept> {
        let (records, register) = self.sizes;
        Kept::read(&mut self.from, records, register)
    }

    fn call(&mut self) -> io::Result<Entry> {
        let from = &mut self.from;
        let line = read_bytes(from, LONGEST_LINE)?;
        let lent = read_length(from, self.sizes.1)?;
        let day = read_u32(from)?;
        let micro = read_u64(from)?;
        let polish = read_u32(from)?;
        let entries = read_length(from, MOST_FINDINGS)?;
        let is_other = read_u32(from)? != 0;
        let other = Some(read_outcome(from)?).filter(|_| is_other);
        let expected = CallAnswer::read(from, entries)?;
        let call = DayCall { line, lists: self.lists.clone(), lent, day, micro, polish, entries, other };
        Ok(Entry::Call(Box::new(call), expected))
    }
}

/// Says in words that the end came too early.
fn cut_short(error: io::Error) -> io::Error {
    match error.kind() {
        io::ErrorKind::UnexpectedEof => invalid("the file of days ends in the middle of a record".to_string()),
        _ => error,
    }
}

/// Writes N days, and says how many calls there are.
pub fn run(seed: u64, days: usize, to: impl Write, mut output: impl Write) -> io::Result<()> {
    let mut writer = Writer::new(to, days)?;
    let mut calls = 0;
    for number in 0..days {
        let mut recipe = DayRecipe::new(seed, number);
        writer.begin(&recipe.kept)?;
        while let Some((call, expected)) = recipe.next_call() {
            writer.call(&call, &expected)?;
            calls += 1;
        }
        writer.end(&recipe.kept)?;
    }
    writer.finish()?;
    writeln!(output, "{days} days of seed {seed} with {calls} calls")?;
    output.flush()
}

#[cfg(test)]
mod tests;
