//! The forms of single cells: each function reads a cell that is not blank and gives what it holds, or nothing
//! where the cell is malformed.

use std::ops::RangeInclusive;

use super::{Isin, Lei, Mic};

fn is_code_letter(byte: &u8) -> bool {
    byte.is_ascii_uppercase() || byte.is_ascii_digit()
}

fn is_printable(byte: &u8) -> bool {
    (b' '..=b'~').contains(byte)
}

/// Is the text of a length in the range and every byte of the kind wanted?
fn made_of(text: &[u8], length: RangeInclusive<usize>, kind: impl Fn(&u8) -> bool) -> bool {
    length.contains(&text.len()) && text.iter().all(kind)
}

/// Cells 2 and 3.
pub fn reference(cell: &[u8]) -> Option<&[u8]> {
    made_of(cell, 1..=52, is_code_letter).then_some(cell)
}

/// Cell 40.
pub fn component(cell: &[u8]) -> Option<&[u8]> {
    made_of(cell, 1..=35, u8::is_ascii_alphanumeric).then_some(cell)
}

/// Cell 36 and what follows `MIC:`.
pub fn mic(cell: &[u8]) -> Option<&Mic> {
    cell.iter().all(is_code_letter).then_some(cell)?.try_into().ok()
}

/// Cells 4, 6, 26, 27 and what follows `LEI:`.
pub fn lei(cell: &[u8]) -> Option<&Lei> {
    let lei: &Lei = cell.try_into().ok()?;
    let (start, check) = lei.split_at(18);
    (start.iter().all(is_code_letter) && check.iter().all(u8::is_ascii_digit)).then_some(lei)
}

/// Capitals, so many of them: countries and currencies.
pub fn capitals<const LENGTH: usize>(cell: &[u8]) -> Option<&[u8; LENGTH]> {
    cell.iter().all(u8::is_ascii_uppercase).then_some(cell)?.try_into().ok()
}

/// Cell 45.
pub fn second_currency(cell: &[u8]) -> Option<&[u8; 3]> {
    capitals(cell.strip_prefix(b"FX:").or_else(|| cell.strip_prefix(b"INTRST:"))?)
}

/// Cells 5, 25, 64 and 65.
pub fn truth(cell: &[u8]) -> Option<bool> {
    match cell {
        b"TRUE" => Some(true),
        b"FALSE" => Some(false),
        _ => None,
    }
}

/// One of some words.
pub fn one_of(words: &'static [&'static [u8]]) -> impl Fn(&[u8]) -> Option<&[u8]> {
    move |cell| words.contains(&cell).then_some(cell)
}

/// UTF-8 text of at least one and at most so many characters, without control characters below U+0020 and
/// without U+007F: the names and cell 42.
pub fn text(most: usize) -> impl Fn(&[u8]) -> Option<&str> {
    move |cell| {
        let text = std::str::from_utf8(cell).ok()?;
        let clean = !text.bytes().any(|byte| byte < 0x20 || byte == 0x7f);
        (clean && (1..=most).contains(&text.chars().count())).then_some(text)
    }
}

/// Printable ASCII of so many characters.
fn printable(cell: &[u8], length: RangeInclusive<usize>) -> Option<&[u8]> {
    made_of(cell, length, is_printable).then_some(cell)
}

/// Cell 48, and cell 49 where cell 47 does not tell of which kind it is.
pub fn index_text(cell: &[u8]) -> Option<&[u8]> {
    printable(cell, 1..=400)
}

/// How a person is identified.
#[derive(Clone, Copy, Debug, PartialEq, Eq)]
pub enum Scheme {
    Passport,
    National,
    Concat,
}

/// A person: a scheme and the identifier after the colon.
#[derive(Clone, Copy, Debug, PartialEq, Eq)]
pub struct Person<'a> {
    pub scheme: Scheme,
    pub identifier: &'a [u8],
}

impl<'a> Person<'a> {
    fn read(scheme: Scheme, rest: &'a [u8]) -> Option<Person<'a>> {
        printable(rest, 1..=35).map(|identifier| Person { scheme, identifier })
    }

    /// The first two characters, if they are capitals.
    pub fn country(&self) -> Option<&'a [u8; 2]> {
        self.identifier.first_chunk().filter(|country| country.iter().all(u8::is_ascii_uppercase))
    }

    /// Two capitals, then what the scheme allows.
    pub fn is_well_shaped(&self) -> bool {
        let Some(country) = self.country() else { return false };
        let rest = &self.identifier[2..];
        match self.scheme {
            Scheme::Concat => {
                let letter = u8::is_ascii_uppercase;
                let filled = |byte: &u8| letter(byte) || *byte == b'#';
                rest.len() == 18
                    && rest[..8].iter().all(u8::is_ascii_digit)
                    && letter(&rest[8])
                    && rest[9..13].iter().all(filled)
                    && letter(&rest[13])
                    && rest[14..].iter().all(filled)
            }
            Scheme::Passport | Scheme::National => made_of(rest, 1..=33, |byte| {
                is_code_letter(byte)
                    || (country == b"FI" && (*byte == b'+' || *byte == b'-'))
                    || (country == b"LV" && *byte == b'-')
            }),
        }
    }

    /// The day of birth in a CONCAT of the right shape, as the number yyyymmdd; it need not be a real day.
    pub fn birth(&self) -> Option<u32> {
        let concat = self.scheme == Scheme::Concat && self.is_well_shaped();
        concat.then(|| super::calendar::digits(&self.identifier[2..10]))?
    }
}

/// Who stands in a cell: 7, 12, 16, 21, 57, 59.
#[derive(Clone, Copy, Debug, PartialEq, Eq)]
pub enum Party<'a> {
    Internal,
    Lei(&'a Lei),
    Mic(&'a Mic),
    Person(Person<'a>),
    Algorithm(&'a [u8]),
    NoReport,
}

fn any_party(cell: &[u8]) -> Option<Party<'_>> {
    match cell {
        b"INTC" => Some(Party::Internal),
        b"NORE" => Some(Party::NoReport),
        [b'L', b'E', b'I', b':', rest @ ..] => lei(rest).map(Party::Lei),
        [b'M', b'I', b'C', b':', rest @ ..] => mic(rest).map(Party::Mic),
        [b'C', b'C', b'P', b'T', b':', rest @ ..] => Person::read(Scheme::Passport, rest).map(Party::Person),
        [b'N', b'I', b'D', b'N', b':', rest @ ..] => Person::read(Scheme::National, rest).map(Party::Person),
        [b'C', b'O', b'N', b'C', b'A', b'T', b':', rest @ ..] => Person::read(Scheme::Concat, rest).map(Party::Person),
        [b'A', b'L', b'G', b'O', b':', rest @ ..] => {
            made_of(rest, 1..=50, u8::is_ascii_alphanumeric).then_some(Party::Algorithm(rest))
        }
        _ => None,
    }
}

/// Cells 7 and 16: buyer and seller.
pub fn trader(cell: &[u8]) -> Option<Party<'_>> {
    any_party(cell).filter(|party| !matches!(party, Party::Algorithm(_) | Party::NoReport))
}

/// Cells 12 and 21: decision makers.
pub fn decider(cell: &[u8]) -> Option<Party<'_>> {
    any_party(cell).filter(|party| matches!(party, Party::Lei(_) | Party::Person(_)))
}

/// Cell 57: the investment decision.
pub fn investor(cell: &[u8]) -> Option<Party<'_>> {
    any_party(cell).filter(|party| match party {
        Party::Person(person) => person.is_well_shaped(),
        Party::Algorithm(_) => true,
        _ => false,
    })
}

/// Cell 59: the execution.
pub fn executor(cell: &[u8]) -> Option<Party<'_>> {
    if cell == b"NORE" {
        Some(Party::NoReport)
    } else {
        investor(cell)
    }
}

/// A decimal number: a whole number and how many of its digits stand after the point. These are the fewest that lose
/// nothing, so equal amounts are the same here, however they are written; zero has none.
#[derive(Clone, Copy, Debug, PartialEq, Eq)]
pub struct Decimal {
    pub digits: i64,
    pub places: u32,
}

/// What stands behind the point, without the zeros at its end: they add nothing to the number.
fn without_zeros_at_the_end(after: &[u8]) -> &[u8] {
    let kept = after.iter().rposition(|&digit| digit != b'0').map_or(0, |last| last + 1);
    &after[..kept]
}

/// D(whole, fraction, longest) of the paper. The form is judged as written, with all zeros. No form allows more than 18
/// digits.
fn decimal(text: &[u8], whole: usize, fraction: usize, longest: usize) -> Option<Decimal> {
    let (before, after) = match text.iter().position(|&byte| byte == b'.') {
        None => (text, &text[text.len()..]),
        Some(_) if text.len() > longest => return None,
        Some(point) => (&text[..point], &text[point + 1..]),
    };
    if before.is_empty() || before.len() > whole || after.len() > fraction {
        return None;
    }
    // Only zeros are left out: what is no digit is still met below.
    let after = without_zeros_at_the_end(after);
    let digits = before
        .iter()
        .chain(after)
        .try_fold(0, |number: i64, &byte| byte.is_ascii_digit().then(|| number * 10 + i64::from(byte - b'0')))?;
    Some(Decimal { digits, places: after.len() as u32 })
}

/// The same, after at most one sign. Zero stays zero behind a minus, for there is but one whole number 0.
fn signed(text: &[u8], whole: usize, fraction: usize, longest: usize) -> Option<Decimal> {
    match text {
        [b'-', rest @ ..] => {
            let Decimal { digits, places } = decimal(rest, whole, fraction, longest)?;
            Some(Decimal { digits: -digits, places })
        }
        [b'+', rest @ ..] => decimal(rest, whole, fraction, longest),
        _ => decimal(text, whole, fraction, longest),
    }
}

/// Cell 30.
#[derive(Clone, Copy, Debug, PartialEq, Eq)]
pub enum Quantity {
    Units(Decimal),
    Nominal(Decimal),
    Monetary(Decimal),
}

/// Cell 30.
pub fn quantity(cell: &[u8]) -> Option<Quantity> {
    if let Some(rest) = cell.strip_prefix(b"UNT:") {
        decimal(rest, 18, 17, 19).filter(|units| units.digits != 0).map(Quantity::Units)
    } else if let Some(rest) = cell.strip_prefix(b"NOM:") {
        decimal(rest, 18, 5, 19).map(Quantity::Nominal)
    } else {
        decimal(cell.strip_prefix(b"MON:")?, 18, 5, 19).map(Quantity::Monetary)
    }
}

/// Cells 33 and 51.
#[derive(Clone, Copy, Debug, PartialEq, Eq)]
pub enum Price {
    Pending,
    NotApplicable,
    Percent(Decimal),
    Money(Decimal),
    Yield(Decimal),
    BasisPoints(Decimal),
}

/// Cells 33 and 51.
pub fn price(cell: &[u8]) -> Option<Price> {
    match cell {
        b"PNDG" => Some(Price::Pending),
        b"NOAP" => Some(Price::NotApplicable),
        [b'P', b'C', b':', rest @ ..] => decimal(rest, 11, 10, 19).map(Price::Percent),
        [b'M', b'V', b':', rest @ ..] => signed(rest, 18, 13, 19).map(Price::Money),
        [b'Y', b'L', b'D', b':', rest @ ..] => decimal(rest, 11, 10, 12).map(Price::Yield),
        [b'B', b'P', b':', rest @ ..] => decimal(rest, 18, 17, 19).map(Price::BasisPoints),
        _ => None,
    }
}

/// Cell 35.
pub fn amount(cell: &[u8]) -> Option<Decimal> {
    decimal(cell, 18, 5, 19)
}

/// Cell 38.
pub fn signed_amount(cell: &[u8]) -> Option<Decimal> {
    signed(cell, 18, 5, 19)
}

/// Cell 46.
pub fn multiplier(cell: &[u8]) -> Option<Decimal> {
    decimal(cell, 18, 17, 19)
}

/// What a digit or a capital counts for: 0 to 9, A = 10 to Z = 35.
fn value(byte: u8) -> u32 {
    u32::from(if byte.is_ascii_digit() { byte - b'0' } else { byte - b'A' + 10 })
}

/// ISO 17442: remainder 1 by 97, letters read as two digits.
pub fn lei_check(lei: &Lei) -> bool {
    let remainder = lei.iter().fold(0, |remainder: u32, &byte| {
        let value = value(byte);
        (remainder * if value < 10 { 10 } else { 100 } + value) % 97
    });
    remainder == 1
}

/// Cell 41: the shape and the check digit.
pub fn isin(cell: &[u8]) -> Option<&Isin> {
    isin_shape(cell).filter(|isin| isin_check(isin))
}

/// The shape of an ISIN, the check digit aside.
pub fn isin_shape(text: &[u8]) -> Option<&Isin> {
    let isin: &Isin = text.try_into().ok()?;
    let shaped = isin[..2].iter().all(u8::is_ascii_uppercase)
        && isin[2..11].iter().all(is_code_letter)
        && isin[11].is_ascii_digit();
    shaped.then_some(isin)
}

/// ISO 6166: letters spread into two digits, every second digit from the right doubled, the sum of all resulting
/// digits divisible by ten.
pub fn isin_check(isin: &Isin) -> bool {
    let (mut sum, mut double) = (0, false);
    let mut add = |digit: u32| {
        let weighted = if double { digit * 2 } else { digit };
        sum += weighted / 10 + weighted % 10;
        double = !double;
    };
    for value in isin.iter().rev().map(|&byte| value(byte)) {
        add(value % 10);
        if value >= 10 {
            add(value / 10);
        }
    }
    sum % 10 == 0
}

#[cfg(test)]
mod tests {
    use super::*;

    fn person(cell: &str) -> Person<'_> {
        match any_party(cell.as_bytes()) {
            Some(Party::Person(person)) => person,
            other => panic!("{cell}: {other:?}"),
        }
    }

    #[test]
    fn lei_checks() {
        for right in ["00000000000000000098", "00000000000000000195", "00000000000000000A68"] {
            assert!(lei_check(lei(right.as_bytes()).unwrap()), "{right}");
        }
        assert!(!lei_check(lei(b"00000000000000000097").unwrap()));
        // Published LEIs: GLEIF, Deutsche Bank, Deutsche Boerse.
        for right in ["506700GE1G29325QX363", "7LTWFZYICNSX8D621K86", "529900G3SW56SHYNPR95"] {
            assert!(lei_check(lei(right.as_bytes()).unwrap()), "{right}");
        }
        assert!(lei(b"0000000000000000009A").is_none() && lei(b"0000000000000000098").is_none());
    }

    #[test]
    fn isins() {
        assert!(isin(b"AA0000000006").is_some() && isin(b"AA0000000005").is_none());
        for right in ["US0378331005", "DE000BAY0017", "AU0000XVGZA3", "GB0002634946", "DE0005557508"] {
            assert!(isin(right.as_bytes()).is_some(), "{right}");
        }
        for wrong in ["US0378331004", "US037833100", "US03783310055", "us0378331005", "U10378331005", "US037833100A"] {
            assert!(isin(wrong.as_bytes()).is_none(), "{wrong}");
            assert_eq!(isin_shape(wrong.as_bytes()).is_some(), wrong == "US0378331004", "{wrong}");
        }
    }

    #[test]
    fn person_shapes() {
        assert!(person("CONCAT:DE19800101JOHN#SMITH").is_well_shaped());
        assert!(!person("CONCAT:DE19800101#OHN#SMITH").is_well_shaped());
        assert!(person("CONCAT:DE19500630MAX##MUSTE").is_well_shaped());
        assert_eq!(person("CONCAT:DE19500630MAX##MUSTE").birth(), Some(19500630));
        assert_eq!(person("NIDN:DE19500630MAXXXMUSTE").birth(), None);
        for right in ["NIDN:DE1", "CCPT:FI+-1", "NIDN:LV-1", "CCPT:DEA"] {
            assert!(person(right).is_well_shaped(), "{right}");
        }
        for wrong in ["NIDN:DE", "CCPT:D", "NIDN:LV+1", "NIDN:DE-1", "NIDN:DE#1", "NIDN:De1", "NIDN:DE a", "NIDN:1E1"] {
            assert!(!person(wrong).is_well_shaped(), "{wrong}");
        }
        assert!(trader(b"CCPT:").is_none() && trader(&[b"CCPT:" as &[u8], &[b'A'; 36]].concat()).is_none());
        assert!(trader(b"ALGO:1").is_none() && trader(b"NORE").is_none() && trader(b"INTC").is_some());
        assert!(decider(b"INTC").is_none() && decider(b"MIC:XETR").is_none() && decider(b"NIDN:?").is_some());
        assert!(investor(b"NORE").is_none() && executor(b"NORE").is_some() && executor(b"NIDN:?").is_none());
        assert!(investor(b"LEI:00000000000000000098").is_none() && investor(b"ALGO:aZ9").is_some());
    }

    #[test]
    fn decimals() {
        let units = |text: &str| quantity(format!("UNT:{text}").as_bytes());
        assert!(units("5.").is_some() && units(".5").is_none());
        assert!(units("0").is_none() && units("0.000").is_none() && units("0.0001").is_some());
        assert!(units("999999999999999999").is_some() && units("1000000000000000000").is_none());
        assert!(units("1.00000000000000000").is_some() && units("1.000000000000000000").is_none());
        assert!(units("12.3456789012345678").is_some() && units("123.45678901234567890").is_none());
        assert!(
            quantity(b"NOM:0").is_some() && quantity(b"MON:0.00000").is_some() && quantity(b"MON:0.000000").is_none()
        );
        assert!(price(b"YLD:1234567890.1").is_some() && price(b"YLD:12345678901.1").is_none());
        assert!(price(b"YLD:12345678901.").is_some() && price(b"YLD:123456789012").is_none());
        for wrong in
            ["MV:-", "MV:+-1", "MV:--1", "PC:+1", "PC:1.2.3", "PC:", "MV", "BP:1e5", "MV:1 ", "MV:.5", "MV:-.5"]
        {
            assert!(price(wrong.as_bytes()).is_none(), "{wrong}");
        }
        assert!(signed_amount(b"+1.").is_some() && amount(b"+1.").is_none() && multiplier(b"-1").is_none());
    }

    /// Zeros that lose nothing count all the same where the form is judged.
    #[test]
    fn forms_are_judged_as_written() {
        let (most, too_many) = ("0".repeat(17), "0".repeat(18));
        for whole in ["0", "1", "5"] {
            assert!(multiplier(format!("{whole}.{most}").as_bytes()).is_some(), "{whole}");
            assert!(multiplier(format!("{whole}.{too_many}").as_bytes()).is_none(), "{whole}");
        }
        assert!(multiplier(format!("{most}1").as_bytes()).is_some());
        assert!(multiplier(format!("{too_many}1").as_bytes()).is_none());
        assert!(multiplier(format!("{too_many}.").as_bytes()).is_some());
        assert!(multiplier(format!("{too_many}.0").as_bytes()).is_none());
        assert!(amount(b"1.50000").is_some() && amount(b"1.500000").is_none());
        assert!(signed_amount(b"-0.00000").is_some() && signed_amount(b"-0.000000").is_none());
        assert!(price(b"YLD:1.0000000000").is_some() && price(b"YLD:01.0000000000").is_none());
        assert!(price(b"PC:1.50a").is_none() && price(b"PC:1.5a0").is_none() && price(b"PC:1.0.0").is_none());
        for zero in ["0", "00", "0.", "0.0", "000.000", "0.00000000000000000", "000000000000000000"] {
            assert!(quantity(format!("UNT:{zero}").as_bytes()).is_none(), "{zero}");
            assert!(price(format!("BP:{zero}").as_bytes()).is_some(), "{zero}");
        }
        assert!(quantity(b"UNT:1.0").is_some() && quantity(b"UNT:10").is_some() && quantity(b"UNT:0.10").is_some());
    }

    /// The whole number and the places of a text without a sign, and of one that may have a sign.
    fn held(text: &str) -> Option<(i64, u32)> {
        multiplier(text.as_bytes()).map(|decimal| (decimal.digits, decimal.places))
    }

    fn held_with_sign(text: &str) -> Option<(i64, u32)> {
        signed(text.as_bytes(), 18, 17, 19).map(|decimal| (decimal.digits, decimal.places))
    }

    #[test]
    fn equal_amounts_have_one_form() {
        for same in ["1.5", "1.50", "01.500", "001.5", "1.50000000000000000", "0000000000000001.50"] {
            assert_eq!(held(same), Some((15, 1)), "{same}");
            assert_eq!(held_with_sign(&format!("+{same}")), Some((15, 1)), "{same}");
            assert_eq!(held_with_sign(&format!("-{same}")), Some((-15, 1)), "{same}");
        }
        for same in ["5", "5.", "05", "5.0", "5.00000000000000000", "000000000000000005", "00000000000000005.0"] {
            assert_eq!(held(same), Some((5, 0)), "{same}");
        }
        for same in ["0.5", "00.5", "0.50", "0.50000000000000000"] {
            assert_eq!(held(same), Some((5, 1)), "{same}");
        }
    }

    /// The zeros of a whole number are kept: there are never fewer places than none.
    #[test]
    fn whole_numbers_keep_their_zeros() {
        for same in ["10", "10.", "10.0", "010.00", "10.0000000000000000"] {
            assert_eq!(held(same), Some((10, 0)), "{same}");
        }
        for same in ["100", "100.", "100.0", "0100.000"] {
            assert_eq!(held(same), Some((100, 0)), "{same}");
            assert_eq!(held_with_sign(&format!("-{same}")), Some((-100, 0)), "{same}");
        }
        for same in ["100000000000000000", "100000000000000000."] {
            assert_eq!(held(same), Some((100_000_000_000_000_000, 0)), "{same}");
        }
        assert_eq!(held("10000000000000000.0"), Some((10_000_000_000_000_000, 0)));
        assert_eq!(held("10.5"), Some((105, 1)));
        assert_eq!(held("100.10"), Some((1001, 1)));
    }

    #[test]
    fn zeros_among_the_digits_stay() {
        for same in ["1.05", "1.050", "1.0500", "01.05"] {
            assert_eq!(held(same), Some((105, 2)), "{same}");
        }
        assert_eq!(held("1.005"), Some((1005, 3)));
        assert_eq!(held("10.0203000"), Some((100_203, 4)));
        assert_eq!(held("0.05"), Some((5, 2)));
        assert_eq!(held("0.0500"), Some((5, 2)));
        assert_eq!(held("1.00000000000000001"), Some((100_000_000_000_000_001, 17)));
        assert_eq!(held("1.00000000000000010"), Some((10_000_000_000_000_001, 16)));
    }

    #[test]
    fn zero_is_one() {
        for zero in ["0", "0.", "0.0", "0.00", "00", "000.000", "0.00000000000000000", "000000000000000000"] {
            assert_eq!(held(zero), Some((0, 0)), "{zero}");
            for sign in ["", "+", "-"] {
                assert_eq!(held_with_sign(&format!("{sign}{zero}")), Some((0, 0)), "{sign}{zero}");
            }
        }
        for signs in ["--0", "+-0", "-+0.0", "-", "+", "-.0", "0-", "0.-0"] {
            assert_eq!(held_with_sign(signs), None, "{signs}");
        }
    }

    #[test]
    fn decimals_at_their_ends() {
        // 17 places, 16 and one too many.
        assert_eq!(held("0.00000000000000001"), Some((1, 17)));
        assert_eq!(held("0.00000000000000010"), Some((1, 16)));
        assert_eq!(held("0.000000000000000001"), None);
        assert_eq!(held("0.000000000000000010"), None);
        assert_eq!(held("9.99999999999999999"), Some((999_999_999_999_999_999, 17)));
        assert_eq!(held("9.99999999999999990"), Some((99_999_999_999_999_999, 16)));
        // 18 digits, 17 and one too many.
        assert_eq!(held("123456789012345678"), Some((123_456_789_012_345_678, 0)));
        assert_eq!(held("12345678901234567.0"), Some((12_345_678_901_234_567, 0)));
        assert_eq!(held("12345678901234567.8"), Some((123_456_789_012_345_678, 1)));
        assert_eq!(held("1234567890123456789"), None);
        assert_eq!(held("0123456789012345678"), None);
        assert_eq!(held("123456789012345678.0"), None);
        // The greatest numbers and the least, below zero too.
        for (sign, one) in [("", 1), ("+", 1), ("-", -1)] {
            let of = |number: &str| held_with_sign(&format!("{sign}{number}"));
            let nines = one * 999_999_999_999_999_999;
            assert_eq!(of("999999999999999999"), Some((nines, 0)));
            assert_eq!(of("999999999999999999."), Some((nines, 0)));
            assert_eq!(of("9.99999999999999999"), Some((nines, 17)));
            assert_eq!(of("0.00000000000000001"), Some((one, 17)));
            assert_eq!(of("1000000000000000000"), None);
        }
    }

    /// Every cell that holds a decimal holds it in its one form.
    #[test]
    fn all_amounts_follow() {
        let one_and_a_half = Decimal { digits: 15, places: 1 };
        let below = Decimal { digits: -15, places: 1 };
        let zero = Decimal { digits: 0, places: 0 };
        for text in ["1.5", "1.50", "01.500"] {
            let behind = |prefix: &str| [prefix, text].concat().into_bytes();
            assert_eq!(quantity(&behind("UNT:")), Some(Quantity::Units(one_and_a_half)));
            assert_eq!(quantity(&behind("NOM:")), Some(Quantity::Nominal(one_and_a_half)));
            assert_eq!(quantity(&behind("MON:")), Some(Quantity::Monetary(one_and_a_half)));
            assert_eq!(price(&behind("PC:")), Some(Price::Percent(one_and_a_half)));
            assert_eq!(price(&behind("MV:")), Some(Price::Money(one_and_a_half)));
            assert_eq!(price(&behind("MV:+")), Some(Price::Money(one_and_a_half)));
            assert_eq!(price(&behind("MV:-")), Some(Price::Money(below)));
            assert_eq!(price(&behind("YLD:")), Some(Price::Yield(one_and_a_half)));
            assert_eq!(price(&behind("BP:")), Some(Price::BasisPoints(one_and_a_half)));
            assert_eq!(amount(text.as_bytes()), Some(one_and_a_half));
            assert_eq!(multiplier(text.as_bytes()), Some(one_and_a_half));
            assert_eq!(signed_amount(text.as_bytes()), Some(one_and_a_half));
            assert_eq!(signed_amount(&behind("-")), Some(below));
        }
        for text in ["0", "-0", "+0.", "-0.00", "-000.00000"] {
            assert_eq!(price(format!("MV:{text}").as_bytes()), Some(Price::Money(zero)), "{text}");
            assert_eq!(signed_amount(text.as_bytes()), Some(zero), "{text}");
        }
        let least = Decimal { digits: -1, places: 13 };
        assert_eq!(price(b"MV:-0.0000000000001"), Some(Price::Money(least)));
        assert_eq!(price(b"MV:-0.00000000000010"), None);
        let greatest = Decimal { digits: -999_999_999_999_999_999, places: 0 };
        assert_eq!(price(b"MV:-999999999999999999"), Some(Price::Money(greatest)));
        assert_eq!(price(b"MV:-99999.9999999999999"), Some(Price::Money(Decimal { places: 13, ..greatest })));
    }

    #[test]
    fn texts() {
        let name = text(140);
        assert!(name("é".repeat(140).as_bytes()).is_some() && name("é".repeat(141).as_bytes()).is_none());
        assert!(name(b"a\x1f").is_none() && name(b"\x7f").is_none() && name("\u{80}".as_bytes()).is_some());
        for wrong in [&b"\xc0\x80"[..], b"\xed\xa0\x80", b"\xf4\x90\x80\x80", b"\xe2\x82", b"\x80", b"\xff"] {
            assert!(name(wrong).is_none());
        }
        assert!(index_text(&[b' '; 400]).is_some() && index_text(&[b' '; 401]).is_none());
        assert_eq!(second_currency(b"INTRST:EUR"), Some(b"EUR"));
        assert!(second_currency(b"FX:EURO").is_none() && second_currency(b"EUR").is_none());
    }
}
