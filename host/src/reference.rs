//! The reference: what the paper says of one call.
//!
//! `judge` takes a whole call, as it comes over the boundary. A service that judges many lines reads its lists
//! and register once (`Lists::read`, `Register::open`) and calls `judge_line`. `note` counts what came of a line in the
//! day's summary.

mod calendar;
mod cfi;
mod forms;
mod lists;
mod polish;
mod register;
mod report;
mod rules;
mod summary;
mod underlying;
mod verdict;

pub use calendar::{Day, Moment, MICROS};
pub use forms::{price, quantity, signed_amount, Decimal, Price, Quantity};
pub use lists::{LeiTerms, Lists, VenueKinds};
pub use register::{frame as register_frame, Pair, Register, Standing, Version};
pub use summary::{note, Heading, Noted, Record, MOST_RECORDS, RECORD_BYTES};

use report::{Cancellation, Report};
use verdict::Verdict;

use crate::codes;

/// A legal entity identifier, well formed or not by its check digits.
pub type Lei = [u8; 20];
/// A market identifier.
pub type Mic = [u8; 4];
/// A securities identifier.
pub type Isin = [u8; 12];

/// The longest line that is read.
pub const LONGEST_LINE: usize = 4096;
/// The cells of a line.
pub const CELLS: usize = 65;

/// Why a call is refused; the numbers are the paper's, and the lowest that applies is given.
#[derive(Clone, Copy, Debug, PartialEq, Eq, PartialOrd, Ord)]
#[repr(u16)]
pub enum Refusal {
    LeiList = 1,
    CountryList = 2,
    CurrencyList = 3,
    VenueList = 4,
    InstrumentList = 5,
    Register = 6,
    Moment = 7,
    Findings = 8,
    LongLine = 9,
    Cells = 10,
    RegisterFull = 11,
    /// Of a conversion alone.
    ShortTarget = 12,
}

/// The answer to a call. The findings themselves and the register are in what the caller lent.
#[derive(Clone, Copy, Debug, Default, PartialEq, Eq)]
pub struct Outcome {
    /// 0, or the number of the refusal.
    pub answer: u16,
    /// How many findings there are.
    pub count: u16,
    /// One bit for each code in rising order.
    pub words: [u64; 3],
}

impl From<Refusal> for Outcome {
    fn from(refusal: Refusal) -> Outcome {
        Outcome { answer: refusal as u16, ..Outcome::default() }
    }
}

/// One whole call.
#[derive(Debug)]
pub struct Call<'a> {
    pub line: &'a [u8],
    pub lei: &'a [u8],
    pub cty: &'a [u8],
    pub ccy: &'a [u8],
    pub ven: &'a [u8],
    pub ins: &'a [u8],
    pub register: &'a mut [u8],
    pub day: u32,
    pub micro: u64,
    /// Whether Polish identifiers are judged: 0 for no, any other number for yes.
    pub polish: u32,
    pub findings: &'a mut [u16],
}

/// Judges one call.
pub fn judge(call: Call) -> Outcome {
    judge_or_refuse(call).unwrap_or_else(Outcome::from)
}

/// Writes a register of version 1 into `to` as one of version 2. Hands back 0, or the number of the refusal, and then
/// `to` is as it was.
pub fn convert(from: &[u8], to: &mut [u8]) -> u16 {
    match register::convert(from, to) {
        Ok(()) => 0,
        Err(refusal) => refusal as u16,
    }
}

fn judge_or_refuse(call: Call) -> Result<Outcome, Refusal> {
    let lists = Lists::read(call.lei, call.cty, call.ccy, call.ven, call.ins)?;
    let mut register = Register::open(call.register)?;
    let moment = Moment::new(call.day, call.micro).ok_or(Refusal::Moment)?;
    Ok(judge_line(&lists, &mut register, moment, call.polish != 0, call.findings, call.line))
}

/// Judges one line against lists and a register that were read before, Polish identifiers too where that is asked.
pub fn judge_line(
    lists: &Lists,
    register: &mut Register,
    moment: Moment,
    polish: bool,
    findings: &mut [u16],
    line: &[u8],
) -> Outcome {
    if findings.len() < codes::count(polish) {
        return Refusal::Findings.into();
    }
    if line.len() > LONGEST_LINE {
        return Refusal::LongLine.into();
    }
    let Some(cells) = split(line) else { return Refusal::Cells.into() };
    match judge_cells(lists, register, moment, polish, &cells) {
        Ok(verdict) => {
            for (entry, code) in findings.iter_mut().zip(verdict.codes()) {
                *entry = code;
            }
            Outcome { answer: 0, count: verdict.count(), words: verdict.words() }
        }
        Err(refusal) => refusal.into(),
    }
}

/// The codes found. Where there is none, the register takes the pair in.
fn judge_cells(
    lists: &Lists,
    register: &mut Register,
    moment: Moment,
    polish: bool,
    cells: &[&[u8]; CELLS],
) -> Result<Verdict, Refusal> {
    let mut verdict = Verdict::default();
    match cells[0] {
        b"NEW" => {
            let report = Report::read(cells, &mut verdict);
            let pair = report.pair();
            rules::judge_new(&report, lists, moment, pair.map(|pair| register.standing(&pair)), &mut verdict);
            if polish {
                polish::judge(&report, &mut verdict);
            }
            if let (Ok(pair), true) = (pair, verdict.is_clean()) {
                register.set_live(&pair, moment.day)?;
            }
        }
        b"CXL" => {
            let report = Cancellation::read(cells, &mut verdict);
            let pair = report.pair();
            rules::judge_cancellation(&report, lists, moment, pair.map(|pair| register.standing(&pair)), &mut verdict);
            if let (Ok(pair), true) = (pair, verdict.is_clean()) {
                register.set_cancelled(&pair, moment.day);
            }
        }
        _ => verdict.add(1001),
    }
    Ok(verdict)
}

/// The cells of a line, if there are exactly 65.
fn split(line: &[u8]) -> Option<[&[u8]; CELLS]> {
    let mut cells = [&line[..0]; CELLS];
    let mut count = 0;
    for cell in line.split(|&byte| byte == b'|') {
        *cells.get_mut(count)? = cell;
        count += 1;
    }
    (count == CELLS).then_some(cells)
}

#[cfg(test)]
mod tests;
