//! Days and moments.

/// A real Gregorian day of the years 1900 to 9999, held as the number yyyymmdd.
#[derive(Clone, Copy, Debug, PartialEq, Eq, PartialOrd, Ord, Hash)]
pub struct Day(u32);

/// Microseconds of one day.
pub const MICROS: u64 = 24 * 60 * 60 * 1_000_000;

fn is_leap(year: u32) -> bool {
    year.is_multiple_of(4) && (!year.is_multiple_of(100) || year.is_multiple_of(400))
}

fn month_length(year: u32, month: u32) -> u32 {
    match month {
        2 if is_leap(year) => 29,
        2 => 28,
        4 | 6 | 9 | 11 => 30,
        _ => 31,
    }
}

/// Is there such a day by the Gregorian calendar, in whichever year?
pub fn is_real(year: u32, month: u32, day: u32) -> bool {
    (1..=12).contains(&month) && (1..=month_length(year, month)).contains(&day)
}

impl Day {
    /// The day of a number yyyymmdd, if it is a real one.
    pub fn new(yyyymmdd: u32) -> Option<Day> {
        let (year, month, day) = (yyyymmdd / 10_000, yyyymmdd / 100 % 100, yyyymmdd % 100);
        ((1900..=9999).contains(&year) && is_real(year, month, day)).then_some(Day(yyyymmdd))
    }

    /// Reads yyyy-mm-dd.
    pub fn read(text: &[u8]) -> Option<Day> {
        let &[y1, y2, y3, y4, b'-', m1, m2, b'-', d1, d2] = text else { return None };
        Day::new(digits(&[y1, y2, y3, y4, m1, m2, d1, d2])?)
    }

    /// The number yyyymmdd.
    #[inline]
    pub fn number(self) -> u32 {
        self.0
    }

    /// The next day, if it still has four digits to its year.
    pub fn next(self) -> Option<Day> {
        let (year, month) = (self.0 / 10_000, self.0 / 100 % 100);
        Day::new(self.0 + 1)
            .or_else(|| Day::new(year * 10_000 + (month + 1) * 100 + 1))
            .or_else(|| Day::new((year + 1) * 10_000 + 101))
    }

    /// The day before, if it is not before 1900.
    pub fn previous(self) -> Option<Day> {
        let (year, month) = (self.0 / 10_000, self.0 / 100 % 100);
        let last = |year, month| Day::new(year * 10_000 + month * 100 + month_length(year, month));
        Day::new(self.0 - 1).or_else(|| last(year, month - 1)).or_else(|| last(year - 1, 12))
    }
}

/// The number that a text of digits spells, or nothing where it holds another character.
pub fn digits(text: &[u8]) -> Option<u32> {
    text.iter().try_fold(0, |number: u32, &byte| byte.is_ascii_digit().then(|| number * 10 + u32::from(byte - b'0')))
}

/// A day and the microsecond in it.
#[derive(Clone, Copy, Debug, PartialEq, Eq, PartialOrd, Ord)]
pub struct Moment {
    pub day: Day,
    pub micro: u64,
}

impl Moment {
    /// A moment, if the day is real and the microsecond within a day.
    pub fn new(yyyymmdd: u32, micro: u64) -> Option<Moment> {
        let day = Day::new(yyyymmdd)?;
        (micro < MICROS).then_some(Moment { day, micro })
    }

    /// Reads yyyy-mm-ddThh:mm:ss, optionally a point and 1 to 6 digits, and Z.
    pub fn read(text: &[u8]) -> Option<Moment> {
        let (day, rest) = text.split_at_checked(10)?;
        let (&[b'T', h1, h2, b':', m1, m2, b':', s1, s2], rest) = rest.split_first_chunk()? else { return None };
        let fraction = match rest.strip_suffix(b"Z")? {
            [] => 0,
            [b'.', places @ ..] if (1..=6).contains(&places.len()) => {
                digits(places)? * 10_u32.pow(6 - places.len() as u32)
            }
            _ => return None,
        };
        let (hour, minute, second) = (digits(&[h1, h2])?, digits(&[m1, m2])?, digits(&[s1, s2])?);
        if hour > 23 || minute > 59 || second > 59 {
            return None;
        }
        let seconds = u64::from((hour * 60 + minute) * 60 + second);
        Some(Moment { day: Day::read(day)?, micro: seconds * 1_000_000 + u64::from(fraction) })
    }
}

#[cfg(test)]
mod tests {
    use super::*;

    #[test]
    fn real_days() {
        assert!(Day::read(b"2000-02-29").is_some());
        assert!(Day::read(b"2100-02-29").is_none());
        assert!(Day::read(b"2023-02-29").is_none());
        assert!(Day::read(b"1900-01-01").is_some() && Day::read(b"1899-12-31").is_none());
        assert!(Day::read(b"9999-12-31").is_some() && Day::new(100_000_101).is_none());
        for bad in ["2021-00-10", "2021-13-01", "2021-01-00", "2021-04-31", "2021-1-01", "20210101", "2021-01-011", ""]
        {
            assert!(Day::read(bad.as_bytes()).is_none(), "{bad}");
        }
    }

    #[test]
    fn days_follow_one_another() {
        let mut day = Day::new(19000101).unwrap();
        assert_eq!(day.previous(), None);
        let mut days = 1;
        while let Some(next) = day.next() {
            assert!(next > day);
            assert_eq!(next.previous(), Some(day));
            day = next;
            days += 1;
        }
        assert_eq!(day.number(), 99991231);
        // 8,100 years: 2,025 are multiples of 4, 81 of 100 and 20 of 400.
        assert_eq!(days, 8_100 * 365 + 2_025 - 81 + 20);
    }

    #[test]
    fn moments() {
        let read = |text: &str| Moment::read(text.as_bytes()).map(|moment| (moment.day.number(), moment.micro));
        assert_eq!(read("2025-03-22T14:40:00Z"), Some((20250322, 52_800_000_000)));
        assert_eq!(read("2025-03-25T12:30:25.123456Z"), Some((20250325, 45_025_123_456)));
        assert_eq!(read("2025-03-25T00:00:00.5Z"), Some((20250325, 500_000)));
        assert_eq!(read("2025-03-25T23:59:59.999999Z"), Some((20250325, 86_399_999_999)));
        for bad in [
            "2025-03-25T24:00:00Z",
            "2025-03-25T23:60:00Z",
            "2025-03-25T23:59:60Z",
            "2025-03-25T23:59:59.Z",
            "2025-03-25T23:59:59.1234567Z",
            "2025-03-25T23:59:59",
            "2025-03-25t23:59:59Z",
            "2025-03-25T23:59:59z",
            "2025-02-29T23:59:59Z",
            "2025-03-25",
            "2025-03-25T",
            "2025-03-25T2:59:59Z",
            "2025-03-25T23:59:59,1Z",
        ] {
            assert_eq!(read(bad), None, "{bad}");
        }
    }
}
