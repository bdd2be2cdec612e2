//! Polish identifiers: 3307, 3308 and 3309, for calls that ask for them. No list is read, and not cell 28.

use super::calendar::is_real;
use super::forms::{Party, Person, Scheme};
use super::report::{Optional, PartyCells, Report};
use super::verdict::Verdict;

/// Looks at six cells, each by itself. Where a code comes from several of them it is still one.
pub fn judge(report: &Report, verdict: &mut Verdict) {
    let with_birth = [report.buyer, report.buyer_decider, report.seller, report.seller_decider];
    for PartyCells { party, birth } in with_birth {
        if let Some(Number::Pesel(pesel)) = judge_number(party, verdict) {
            verdict.rule(3309, || {
                let birth = birth?.map(|day| day.number());
                Ok(match birth_day(&pesel) {
                    Some(day) => birth.is_some_and(|birth| birth != day),
                    None => true,
                })
            });
        }
    }
    for party in [report.investor, report.executor.map(Some)] {
        judge_number(party, verdict);
    }
}

/// 3307 and 3308 of one cell. Hands back the number, if there is one.
fn judge_number(party: Optional<Party>, verdict: &mut Verdict) -> Option<Number> {
    let Ok(Some(Party::Person(person))) = party else { return None };
    let number = Number::read(behind_pl(&person)?);
    match number {
        None => verdict.add(3307),
        Some(number) if !number.has_right_check_digit() => verdict.add(3308),
        Some(_) => {}
    }
    number
}

/// What follows PL in a national identifier of the person shape.
fn behind_pl<'a>(person: &Person<'a>) -> Option<&'a [u8]> {
    let polish = person.scheme == Scheme::National && person.is_well_shaped();
    polish.then(|| person.identifier.strip_prefix(b"PL"))?
}

/// The digits of a number, each as its value.
#[derive(Clone, Copy, Debug, PartialEq, Eq)]
enum Number {
    /// Of a person.
    Pesel([u8; 11]),
    /// Of a taxpayer.
    Nip([u8; 10]),
}

impl Number {
    /// Which of the two it is goes by its length.
    fn read(text: &[u8]) -> Option<Number> {
        if !text.iter().all(u8::is_ascii_digit) {
            return None;
        }
        match text.len() {
            11 => Some(Number::Pesel(std::array::from_fn(|place| text[place] - b'0'))),
            10 => Some(Number::Nip(std::array::from_fn(|place| text[place] - b'0'))),
            _ => None,
        }
    }

    fn has_right_check_digit(&self) -> bool {
        match self {
            // The check digit fills the sum up to a multiple of ten.
            Number::Pesel([digits @ .., check]) => {
                (weighted(digits, [1, 3, 7, 9, 1, 3, 7, 9, 1, 3]) + u32::from(*check)).is_multiple_of(10)
            }
            // No digit is a remainder of ten.
            Number::Nip([digits @ .., check]) => {
                weighted(digits, [6, 5, 7, 2, 3, 4, 5, 6, 7]) % 11 == u32::from(*check)
            }
        }
    }
}

/// The sum of the digits, each times its weight.
fn weighted<const COUNT: usize>(digits: &[u8; COUNT], weights: [u32; COUNT]) -> u32 {
    digits.iter().zip(weights).map(|(digit, weight)| u32::from(*digit) * weight).sum()
}

/// The day of birth that a PESEL names, as yyyymmdd, if it is a real day. It is no `Day`, since it may lie in the 1800s.
fn birth_day(pesel: &[u8; 11]) -> Option<u32> {
    let two_digits = |place: usize| u32::from(pesel[place] * 10 + pesel[place + 1]);
    // The month tells the century too.
    let (century, month) = match two_digits(2) {
        month @ 81..=92 => (1800, month - 80),
        month @ 1..=12 => (1900, month),
        month @ 21..=32 => (2000, month - 20),
        month @ 41..=52 => (2100, month - 40),
        month @ 61..=72 => (2200, month - 60),
        _ => return None,
    };
    let (year, day) = (century + two_digits(0), two_digits(4));
    is_real(year, month, day).then_some(year * 10_000 + month * 100 + day)
}

#[cfg(test)]
mod tests {
    use super::*;

    fn is_right(text: &str) -> bool {
        Number::read(text.as_bytes()).unwrap().has_right_check_digit()
    }

    #[test]
    fn numbers_by_length() {
        let is_number = |text: &str| Number::read(text.as_bytes()).is_some();
        for length in 0..=33 {
            assert_eq!(is_number(&"0".repeat(length)), length == 10 || length == 11, "{length}");
        }
        for number in ["44051401359", "1234563218"] {
            assert!(is_number(number));
            for place in 0..number.len() {
                for other in ["A", "Z", "/", ":", " "] {
                    let mut text = number.to_string();
                    text.replace_range(place..=place, other);
                    assert!(!is_number(&text), "{text}");
                }
            }
        }
    }

    #[test]
    fn check_digits() {
        for number in ["44051401359", "02070803628", "1234563218", "0000000000", "00000000000"] {
            assert!(is_right(number), "{number}");
            // No other digit will do in any one place, neither last nor before.
            for place in 0..number.len() {
                for digit in b'0'..=b'9' {
                    let mut other = number.as_bytes().to_vec();
                    other[place] = digit;
                    let other = String::from_utf8(other).unwrap();
                    assert_eq!(is_right(&other), other == number, "{other}");
                }
            }
        }
    }

    #[test]
    fn a_remainder_of_ten_suits_no_digit() {
        // 7 x 3 is 21, which leaves 10; 7 x 3 + 6 x 2 is 33, which leaves 0.
        for digit in 0..=9 {
            assert!(!is_right(&format!("000000003{digit}")));
            assert_eq!(is_right(&format!("200000003{digit}")), digit == 0);
        }
        // A weighted sum that is a multiple of ten asks for 0 in a PESEL: 3 + 7.
        for digit in 0..=9 {
            assert_eq!(is_right(&format!("0110000000{digit}")), digit == 0);
        }
    }

    #[test]
    fn days_of_birth() {
        let born = |yymmdd: &str| match Number::read(format!("{yymmdd}00000").as_bytes()) {
            Some(Number::Pesel(pesel)) => birth_day(&pesel),
            _ => panic!("no PESEL"),
        };
        assert_eq!([born("440514"), born("020708")], [Some(19440514), Some(19020708)]);
        for (first, century) in [(80, 1800), (0, 1900), (20, 2000), (40, 2100), (60, 2200)] {
            for month in 0..20 {
                let named = (century + 99) * 10_000 + month * 100 + 1;
                let real = (1..=12).contains(&month).then_some(named);
                assert_eq!(born(&format!("99{:02}01", first + month)), real, "{first} {month}");
            }
            // Of the first years of these centuries only 2000 has a 29 February, of the fifth years all.
            assert_eq!(born(&format!("00{:02}29", first + 2)).is_some(), century == 2000);
            assert_eq!(born(&format!("04{:02}29", first + 2)), Some((century + 4) * 10_000 + 229));
            assert_eq!(born(&format!("04{:02}30", first + 2)), None);
            assert_eq!(born(&format!("99{:02}28", first + 2)), Some((century + 99) * 10_000 + 228));
            assert_eq!(born(&format!("99{:02}29", first + 2)), None);
            assert_eq!(born(&format!("00{:02}31", first + 12)), Some(century * 10_000 + 1231));
            for (month, day) in [(1, 0), (1, 32), (4, 31), (12, 99)] {
                assert_eq!(born(&format!("50{:02}{day:02}", first + month)), None);
            }
        }
    }
}
