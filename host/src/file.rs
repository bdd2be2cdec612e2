//! The file of cases, described in docs/CASES.md: little-endian numbers, byte strings after a 32-bit length.

use std::io::{self, BufRead, Read, Write};
use std::rc::Rc;

use crate::reference::{judge, Call, Outcome};

/// How a file starts.
pub const MAGIC: [u8; 4] = *b"CASE";
pub const VERSION: u32 = 2;

/// The kinds of records: 1 to 5 replace a list, 6 is a case.
pub const LISTS: usize = 5;
pub const MARKS: [&str; LISTS] = ["LEI", "CTY", "CCY", "VEN", "INS"];
pub const CASE: u32 = 6;

/// What a reader without heap may count on.
pub const LONGEST_LINE: usize = 4200;
pub const LONGEST_LIST: usize = 4096;
pub const LONGEST_REGISTER: usize = 2048;
pub const MOST_FINDINGS: usize = 200;

/// What every entry of a findings buffer holds before the call.
pub const FILLER: u16 = 0xA5A5;

/// A list, shared between the cases that use it.
pub type List = Rc<[u8]>;

/// One call.
#[derive(Clone, Debug, PartialEq, Eq)]
pub struct Case {
    pub line: Vec<u8>,
    /// LEI, CTY, CCY, VEN, INS.
    pub lists: [List; LISTS],
    pub register: Vec<u8>,
    pub day: u32,
    pub micro: u64,
    /// 0 where Polish identifiers are not judged.
    pub polish: u32,
    /// The findings buffer before the call.
    pub findings: Vec<u16>,
}

/// What comes of a call: the outcome and the two buffers afterwards.
#[derive(Clone, Debug, Default, PartialEq, Eq)]
pub struct Answered {
    pub outcome: Outcome,
    pub findings: Vec<u16>,
    pub register: Vec<u8>,
}

impl Case {
    /// Asks the reference.
    pub fn judge(&self) -> Answered {
        let [lei, cty, ccy, ven, ins] = &self.lists;
        let mut findings = self.findings.clone();
        let mut register = self.register.clone();
        let outcome = judge(Call {
            line: &self.line,
            lei,
            cty,
            ccy,
            ven,
            ins,
            register: &mut register,
            day: self.day,
            micro: self.micro,
            polish: self.polish,
            findings: &mut findings,
        });
        Answered { outcome, findings, register }
    }
}

impl Answered {
    /// The codes listed.
    pub fn codes(&self) -> &[u16] {
        &self.findings[..usize::from(self.outcome.count).min(self.findings.len())]
    }

    /// Writes what came of a call: the rest of a case in the file, and one result of the proved side.
    pub fn write(&self, to: &mut impl Write) -> io::Result<()> {
        write_outcome(to, &self.outcome)?;
        write_entries(to, &self.findings)?;
        to.write_all(&self.register)
    }

    /// Reads what came of a call with so many findings entries and so many register bytes.
    pub fn read(from: &mut impl Read, entries: usize, register: usize) -> io::Result<Answered> {
        Ok(Answered {
            outcome: read_outcome(from)?,
            findings: read_entries(from, entries)?,
            register: read_exact(from, register)?,
        })
    }
}

pub(crate) fn write_outcome(to: &mut impl Write, outcome: &Outcome) -> io::Result<()> {
    to.write_all(&outcome.answer.to_le_bytes())?;
    to.write_all(&outcome.count.to_le_bytes())?;
    outcome.words.iter().try_for_each(|word| to.write_all(&word.to_le_bytes()))
}

pub(crate) fn read_outcome(from: &mut impl Read) -> io::Result<Outcome> {
    Ok(Outcome {
        answer: read_u16(from)?,
        count: read_u16(from)?,
        words: [read_u64(from)?, read_u64(from)?, read_u64(from)?],
    })
}

pub(crate) fn write_u32(to: &mut impl Write, number: usize) -> io::Result<()> {
    let number = u32::try_from(number).map_err(io::Error::other)?;
    to.write_all(&number.to_le_bytes())
}

pub(crate) fn write_bytes(to: &mut impl Write, bytes: &[u8], longest: usize) -> io::Result<()> {
    assert!(bytes.len() <= longest, "{} bytes where at most {longest} are allowed", bytes.len());
    write_u32(to, bytes.len())?;
    to.write_all(bytes)
}

pub(crate) fn write_entries(to: &mut impl Write, entries: &[u16]) -> io::Result<()> {
    let bytes: Vec<u8> = entries.iter().flat_map(|entry| entry.to_le_bytes()).collect();
    to.write_all(&bytes)
}

pub(crate) fn read_array<const LENGTH: usize>(from: &mut impl Read) -> io::Result<[u8; LENGTH]> {
    let mut bytes = [0; LENGTH];
    from.read_exact(&mut bytes)?;
    Ok(bytes)
}

pub(crate) fn read_u16(from: &mut impl Read) -> io::Result<u16> {
    read_array(from).map(u16::from_le_bytes)
}

pub(crate) fn read_u32(from: &mut impl Read) -> io::Result<u32> {
    read_array(from).map(u32::from_le_bytes)
}

pub(crate) fn read_u64(from: &mut impl Read) -> io::Result<u64> {
    read_array(from).map(u64::from_le_bytes)
}

pub(crate) fn read_exact(from: &mut impl Read, length: usize) -> io::Result<Vec<u8>> {
    let mut bytes = vec![0; length];
    from.read_exact(&mut bytes)?;
    Ok(bytes)
}

pub(crate) fn invalid(message: String) -> io::Error {
    io::Error::new(io::ErrorKind::InvalidData, message)
}

/// Says in words that the end came too early.
fn cut_short(error: io::Error) -> io::Error {
    match error.kind() {
        io::ErrorKind::UnexpectedEof => invalid("the file of cases ends in the middle of a record".to_string()),
        _ => error,
    }
}

pub(crate) fn read_length(from: &mut impl Read, longest: usize) -> io::Result<usize> {
    let length = read_u32(from)? as usize;
    if length > longest {
        return Err(invalid(format!("a length of {length} where at most {longest} is allowed")));
    }
    Ok(length)
}

pub(crate) fn read_bytes(from: &mut impl Read, longest: usize) -> io::Result<Vec<u8>> {
    let length = read_length(from, longest)?;
    read_exact(from, length)
}

pub(crate) fn read_entries(from: &mut impl Read, entries: usize) -> io::Result<Vec<u16>> {
    let bytes = read_exact(from, entries * 2)?;
    Ok(bytes.chunks_exact(2).map(|pair| u16::from_le_bytes([pair[0], pair[1]])).collect())
}

/// Writes cases one after another; a list goes out only where it differs from the one before.
pub struct Writer<W> {
    to: W,
    lists: [Option<List>; LISTS],
}

impl<W: Write> Writer<W> {
    pub fn new(mut to: W, cases: usize) -> io::Result<Writer<W>> {
        to.write_all(&MAGIC)?;
        to.write_all(&VERSION.to_le_bytes())?;
        write_u32(&mut to, cases)?;
        Ok(Writer { to, lists: [const { None }; LISTS] })
    }

    pub fn write(&mut self, case: &Case, expected: &Answered) -> io::Result<()> {
        for (number, (current, list)) in self.lists.iter_mut().zip(&case.lists).enumerate() {
            if current.as_ref() != Some(list) {
                write_u32(&mut self.to, number + 1)?;
                write_bytes(&mut self.to, list, LONGEST_LIST)?;
                *current = Some(list.clone());
            }
        }
        self.to.write_all(&CASE.to_le_bytes())?;
        write_bytes(&mut self.to, &case.line, LONGEST_LINE)?;
        write_bytes(&mut self.to, &case.register, LONGEST_REGISTER)?;
        self.to.write_all(&case.day.to_le_bytes())?;
        self.to.write_all(&case.micro.to_le_bytes())?;
        self.to.write_all(&case.polish.to_le_bytes())?;
        assert!(case.findings.len() <= MOST_FINDINGS);
        write_u32(&mut self.to, case.findings.len())?;
        write_entries(&mut self.to, &case.findings)?;
        expected.write(&mut self.to)
    }

    pub fn finish(mut self) -> io::Result<()> {
        self.to.flush()
    }
}

/// Reads cases one after another, each with what is expected of it.
pub struct Reader<R> {
    from: R,
    /// The number of cases that the file says it holds.
    pub cases: u32,
    lists: [List; LISTS],
}

impl<R: BufRead> Reader<R> {
    pub fn new(mut from: R) -> io::Result<Reader<R>> {
        let head: [u8; 12] = read_array(&mut from).map_err(cut_short)?;
        let [m1, m2, m3, m4, v1, v2, v3, v4, c1, c2, c3, c4] = head;
        if [m1, m2, m3, m4] != MAGIC || u32::from_le_bytes([v1, v2, v3, v4]) != VERSION {
            return Err(invalid("not a file of cases".to_string()));
        }
        let cases = u32::from_le_bytes([c1, c2, c3, c4]);
        Ok(Reader { from, cases, lists: std::array::from_fn(|_| Rc::from([])) })
    }

    /// The next case, or nothing at the end.
    pub fn next_case(&mut self) -> io::Result<Option<(Case, Answered)>> {
        self.up_to_case().map_err(cut_short)
    }

    fn up_to_case(&mut self) -> io::Result<Option<(Case, Answered)>> {
        loop {
            if self.from.fill_buf()?.is_empty() {
                return Ok(None);
            }
            match read_u32(&mut self.from)? {
                CASE => return self.case().map(Some),
                number @ 1..=5 => {
                    self.lists[number as usize - 1] = read_bytes(&mut self.from, LONGEST_LIST)?.into();
                }
                other => return Err(invalid(format!("a record of kind {other}"))),
            }
        }
    }

    fn case(&mut self) -> io::Result<(Case, Answered)> {
        let from = &mut self.from;
        let line = read_bytes(from, LONGEST_LINE)?;
        let register = read_bytes(from, LONGEST_REGISTER)?;
        let day = read_u32(from)?;
        let micro = read_u64(from)?;
        let polish = read_u32(from)?;
        let entries = read_length(from, MOST_FINDINGS)?;
        let findings = read_entries(from, entries)?;
        let expected = Answered::read(from, entries, register.len())?;
        let case = Case { line, lists: self.lists.clone(), register, day, micro, polish, findings };
        Ok((case, expected))
    }
}

#[cfg(test)]
mod tests {
    use super::*;

    /// Reads all cases of a file.
    fn all(bytes: &[u8]) -> io::Result<Vec<(Case, Answered)>> {
        let mut reader = Reader::new(bytes)?;
        std::iter::from_fn(|| reader.next_case().transpose()).collect()
    }

    #[test]
    fn what_is_written_is_read() {
        let mut recipe = crate::recipe::Recipe::new(3);
        let cases: Vec<Case> = (0..150).map(|_| recipe.next_case().0).collect();
        let mut bytes = Vec::new();
        let mut writer = Writer::new(&mut bytes, cases.len()).unwrap();
        for case in &cases {
            writer.write(case, &case.judge()).unwrap();
        }
        writer.finish().unwrap();
        let read = all(&bytes).unwrap();
        assert!(read.iter().map(|(case, _)| case).eq(&cases));
        assert!(read.iter().all(|(case, expected)| *expected == case.judge()));
    }

    #[test]
    fn files_that_are_none() {
        let message = |bytes: &[u8]| all(bytes).unwrap_err().to_string();
        assert_eq!(message(b"CASE\x01\0\0\0\0\0\0\0"), "not a file of cases");
        assert_eq!(message(b"CASE\x02"), "the file of cases ends in the middle of a record");
        assert_eq!(message(b"CASE\x02\0\0\0\0\0\0\0\x06\0\0"), "the file of cases ends in the middle of a record");
        assert_eq!(message(b"CASE\x02\0\0\0\0\0\0\0\x07\0\0\0"), "a record of kind 7");
        assert!(all(b"CASE\x02\0\0\0\0\0\0\0").unwrap().is_empty());
    }
}
