//! The register of pairs already reported.

use std::collections::HashMap;

use super::calendar::Day;
use super::lists::head;
use super::{Lei, Refusal};

const MARK: &[u8; 3] = b"TRN";
const HEAD: usize = 9;

/// Where state and day stand in a row, behind the pair.
const STATE: usize = 73;
const DAY: usize = STATE + 1;

const LIVE: u8 = 1;
const CANCELLED: u8 = 2;

/// What the rows of a register hold: version 1 a pair and its state, version 2 also the day on which the pair's last
/// accepted line was submitted.
#[derive(Clone, Copy, Debug, PartialEq, Eq, PartialOrd, Ord)]
#[repr(u16)]
pub enum Version {
    One = 1,
    Two = 2,
}

impl Version {
    pub const ALL: [Version; 2] = [Version::One, Version::Two];

    /// The version of a number, if there is one.
    pub fn of(number: u16) -> Option<Version> {
        Version::ALL.into_iter().find(|version| version.number() == number)
    }

    pub fn number(self) -> u16 {
        self as u16
    }

    /// The bytes of a row.
    pub const fn width(self) -> usize {
        match self {
            Version::One => DAY,
            Version::Two => DAY + 4,
        }
    }

    /// The head of a register with so many rows used.
    pub fn head(self, used: u32) -> Vec<u8> {
        [&MARK[..], &self.number().to_le_bytes(), &used.to_le_bytes()].concat()
    }

    /// The bytes of a register that has room for just so many rows.
    pub fn length(self, rows: usize) -> usize {
        HEAD + rows * self.width()
    }

    /// Whole rows that fit into a register of so many bytes.
    pub fn capacity(self, length: u64) -> u64 {
        (length.saturating_sub(HEAD as u64) / self.width() as u64).min(u64::from(u32::MAX))
    }
}

/// The version of a register and how many of its rows are used; nothing where it is badly framed.
pub fn frame(register: &[u8]) -> Option<(Version, u32)> {
    let (number, used, _) = head(register, MARK)?;
    let version = Version::of(number)?;
    (u64::from(used) <= version.capacity(register.len() as u64)).then_some((version, used))
}

/// An executing entity and its reference, as the first 73 bytes of a row: entity, length, reference filled
/// up with zeros.
#[derive(Clone, Copy, Debug, PartialEq, Eq, Hash)]
pub struct Pair([u8; STATE]);

impl Pair {
    /// The reference has at most 52 bytes.
    pub fn new(entity: &Lei, reference: &[u8]) -> Pair {
        let mut bytes = [0; STATE];
        bytes[..20].copy_from_slice(entity);
        bytes[20] = reference.len() as u8;
        bytes[21..21 + reference.len()].copy_from_slice(reference);
        Pair(bytes)
    }

    pub fn bytes(&self) -> &[u8; STATE] {
        &self.0
    }
}

/// How a pair stands in the register.
#[derive(Clone, Copy, Debug, PartialEq, Eq)]
pub enum Standing {
    Absent,
    Live,
    Cancelled,
}

/// A register lent to us, with an index of its own over the used rows.
#[derive(Debug)]
pub struct Register<'a> {
    bytes: &'a mut [u8],
    version: Version,
    used: u32,
    /// For each pair the first used row that holds it.
    rows: HashMap<Pair, u32>,
}

impl<'a> Register<'a> {
    /// Opens a register; refusal 6 where it cannot be read.
    pub fn open(bytes: &'a mut [u8]) -> Result<Register<'a>, Refusal> {
        let (version, used) = frame(bytes).ok_or(Refusal::Register)?;
        let mut rows = HashMap::with_capacity(used as usize);
        for (number, row) in (0..used).zip(bytes[HEAD..].chunks_exact(version.width())) {
            let pair = Pair(row[..STATE].try_into().expect("73 bytes"));
            rows.entry(pair).or_insert(number);
        }
        Ok(Register { bytes, version, used, rows })
    }

    /// Where a row begins.
    fn at(&self, number: u32) -> usize {
        self.version.length(number as usize)
    }

    pub fn standing(&self, pair: &Pair) -> Standing {
        match self.rows.get(pair) {
            None => Standing::Absent,
            Some(&number) if self.bytes[self.at(number) + STATE] == LIVE => Standing::Live,
            Some(_) => Standing::Cancelled,
        }
    }

    /// What an accepted line of this day makes of a row. Only version 2 has a place for the day.
    fn write(&mut self, number: u32, state: u8, day: Day) {
        let at = self.at(number);
        self.bytes[at + STATE] = state;
        if self.version == Version::Two {
            self.bytes[at + DAY..at + DAY + 4].copy_from_slice(&day.number().to_le_bytes());
        }
    }

    /// Makes a pair live, in its row or in the next one; refusal 11 where there is none.
    pub fn set_live(&mut self, pair: &Pair, day: Day) -> Result<(), Refusal> {
        let number = match self.rows.get(pair) {
            Some(&number) => number,
            None => self.add(pair)?,
        };
        self.write(number, LIVE, day);
        Ok(())
    }

    /// Takes the next row for a pair that has none.
    fn add(&mut self, pair: &Pair) -> Result<u32, Refusal> {
        let number = self.used;
        if u64::from(number) >= self.version.capacity(self.bytes.len() as u64) {
            return Err(Refusal::RegisterFull);
        }
        let at = self.at(number);
        self.bytes[at..at + STATE].copy_from_slice(pair.bytes());
        self.used += 1;
        self.bytes[5..HEAD].copy_from_slice(&self.used.to_le_bytes());
        self.rows.insert(*pair, number);
        Ok(number)
    }

    /// Cancels a pair that is in the register.
    pub fn set_cancelled(&mut self, pair: &Pair, day: Day) {
        if let Some(&number) = self.rows.get(pair) {
            self.write(number, CANCELLED, day);
        }
    }
}

/// Writes a register of version 1 into `to` as one of version 2: its used rows as they are, each with day 0 behind it.
/// Refusal 6 where `from` is no such register, else 12 where `to` is too short for these rows.
pub fn convert(from: &[u8], to: &mut [u8]) -> Result<(), Refusal> {
    let Some((Version::One, used)) = frame(from) else { return Err(Refusal::Register) };
    let target = to.get_mut(..Version::Two.length(used as usize)).ok_or(Refusal::ShortTarget)?;
    let (head, rows) = target.split_at_mut(HEAD);
    head.copy_from_slice(&Version::Two.head(used));
    // There is room for as many rows as are used, so those behind them are left.
    let old_rows = from[HEAD..].chunks_exact(Version::One.width());
    for (new, old) in rows.chunks_exact_mut(Version::Two.width()).zip(old_rows) {
        new[..DAY].copy_from_slice(old);
        new[DAY..].fill(0);
    }
    Ok(())
}

#[cfg(test)]
mod tests {
    use super::*;

    #[test]
    fn versions_and_their_rows() {
        assert_eq!([Version::of(1), Version::of(2)], [Some(Version::One), Some(Version::Two)]);
        for number in [0, 3, 255, 256, 257, 258, 512, 513, 514, u16::MAX] {
            assert_eq!(Version::of(number), None);
        }
        assert_eq!(Version::ALL.map(Version::width), [74, 78]);
        assert_eq!(Version::Two.head(0x0102_0304), *b"TRN\x02\x00\x04\x03\x02\x01");
    }

    #[test]
    fn capacity_counts_whole_rows_up_to_the_cap() {
        for version in Version::ALL {
            let width = version.width() as u64;
            assert_eq!([0, 8, 9, 8 + width].map(|length| version.capacity(length)), [0; 4]);
            assert_eq!(version.capacity(9 + width), 1);
            assert_eq!(version.capacity(9 + width * 5 - 1), 4);
            assert_eq!(version.capacity(9 + width * 4_294_967_295), 4_294_967_295);
            assert_eq!(version.capacity(9 + width * 4_294_967_296), 4_294_967_295);
            assert_eq!(version.capacity(u64::MAX), 4_294_967_295);
        }
        assert_eq!(Version::ALL.map(|version| version.capacity(9 + 1482)), [20, 19]);
    }

    /// A register of version 1 with room for three rows, two of them used, and five bytes more.
    fn old() -> Vec<u8> {
        let mut old = Version::One.head(2);
        for (first, state) in [(b'A', 1), (b'B', 7), (b'C', 2)] {
            old.extend([first; STATE]);
            old.push(state);
        }
        old.extend(b"stays");
        old
    }

    #[test]
    fn used_rows_are_converted_and_nothing_else() {
        let from = old();
        let mut to = vec![0xEE; 9 + 2 * 78 + 80];
        assert_eq!(crate::reference::convert(&from, &mut to), 0);
        assert_eq!(to[..9], *b"TRN\x02\x00\x02\x00\x00\x00");
        assert_eq!((&to[9..83], &to[83..87]), (&from[9..83], &[0; 4][..]));
        assert_eq!((&to[87..161], &to[161..165]), (&from[83..157], &[0; 4][..]));
        assert_eq!(to[165..], [0xEE; 80]);
        assert_eq!(frame(&to), Some((Version::Two, 2)));
    }

    #[test]
    fn conversions_are_refused_and_then_write_nothing() {
        let refused = |change: fn(&mut Vec<u8>), length: usize| {
            let mut from = old();
            change(&mut from);
            let mut to = vec![0xEE; length];
            let answer = crate::reference::convert(&from, &mut to);
            assert!(answer == 0 || to == vec![0xEE; length]);
            answer
        };
        for length in [0, 8, 9, 9 + 2 * 74, 9 + 2 * 78 - 1] {
            assert_eq!(refused(|_| {}, length), 12);
            // The source comes first.
            assert_eq!(refused(|from| from[0] = b't', length), 6);
        }
        assert_eq!(refused(|_| {}, 9 + 2 * 78), 0);
        assert_eq!(refused(|from| from.truncate(8), 500), 6);
        assert_eq!(refused(|from| from[2] = b'M', 500), 6);
        assert_eq!(refused(|from| from[3] = 2, 500), 6);
        assert_eq!(refused(|from| from[3] = 0, 500), 6);
        assert_eq!(refused(|from| from[4] = 1, 500), 6);
        assert_eq!(refused(|from| from[5] = 3, 500), 0);
        assert_eq!(refused(|from| from[5] = 4, 500), 6);
        assert_eq!(refused(|from| from[8] = 0x80, 500), 6);
        assert_eq!(refused(|from| from.truncate(9 + 2 * 74 - 1), 500), 6);
        assert_eq!(refused(|from| from[5] = 0, 9), 0);
        assert_eq!(refused(|from| from[5] = 0, 8), 12);
    }
}
