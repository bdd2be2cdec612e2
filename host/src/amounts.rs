//! Cases for a program of the proved side that shows parsed amounts: texts for cells 30, 33 and 38, each with the kind,
//! the whole number and the places that the reference reads in it.
//!
//! A case is a line `EXPECTED CALL CELL`. A line that opens with `#` begins a group and names it: texts that belong
//! together, such as one value in several writings.

use std::fmt::Display;

use crate::recipe::rng::{Rng, DIGITS};
use crate::recipe::values::{decimals, malformed, Amount};
use crate::reference::{price, quantity, signed_amount, Decimal, Price, Quantity};

/// The cells that the texts are for.
const CELLS: [usize; 3] = [30, 33, 38];

/// Digits that are not zero.
const COUNTING: &[u8] = b"123456789";

/// Mistakes by their sorts; each `n` stands for a digit.
const MISTAKES: [&[&str]; 6] = [
    // Two points.
    &["n.n.n", "n..n", "n.n.", "n..", "n.0.0"],
    // Two signs.
    &["--n", "+-n.n", "-+n", "++n.", "--0", "-+0.0"],
    // A sign with no number behind it, or with a number in front.
    &["+", "-", "n-", "n+n", "n.-n", "n.n+"],
    // Letters and other characters that are no digits.
    &["nen", "na", "an", "n.nE", "O.n", "n,n", "n/n", "n:n", "n.n/", "n.:", "0xn", "n\u{663}"],
    // No digit before the point, or none at all.
    &[".n", ".", ".n0", ".00", ""],
    // Spaces.
    &[" n", "n ", "n n", "n. n", "n .n", "n.n0 ", " "],
];

/// A form with the signs that numbers of it open with here. Equal numbers are equal with any of them.
struct Form {
    cell: usize,
    amount: Amount,
    signs: &'static [&'static str],
}

impl Form {
    /// All forms of all cells; one that takes signs comes twice, once above and once below zero.
    fn all() -> Vec<Form> {
        let mut forms = Vec::new();
        for cell in CELLS {
            for &amount in decimals(cell) {
                let signs: &[&[&str]] = if amount.signed { &[&["", "+"], &["-"]] } else { &[&[""]] };
                forms.extend(signs.iter().map(|&signs| Form { cell, amount, signs }));
            }
        }
        forms
    }

    /// The cell, the prefix and the sign that there may be.
    fn name(&self) -> String {
        format!("{} {}{}", self.cell, self.amount.prefix, self.signs[self.signs.len() - 1])
    }

    /// A number as a text for the cell. Where it opens with a sign already, no other is added.
    fn text(&self, rng: &mut Rng, number: &str) -> Vec<u8> {
        let sign = if number.starts_with(['+', '-']) { "" } else { rng.of(self.signs) };
        [self.amount.prefix, sign, number].concat().into_bytes()
    }
}

/// Makes numbers of a form that belong together. Where a sign may stand, it is added later.
type Numbers = fn(&mut Rng, Amount) -> Vec<String>;

const GROUPS: [(&str, Numbers); 7] = [
    ("one value in several writings", writings),
    ("whole numbers that end in zeros", whole_numbers),
    ("zeros", zeros),
    ("zeros among the digits", zeros_inside),
    ("each number of places", each_number_of_places),
    ("the ends of the form, from both sides", ends),
    ("mistakes", mistakes),
];

/// How many places there may be behind so many digits.
fn room(form: Amount, before: usize) -> usize {
    form.f.min(form.m - 1 - before)
}

fn zero(count: usize) -> String {
    "0".repeat(count)
}

fn some_of(rng: &mut Rng, alphabet: &[u8], count: usize) -> String {
    (0..count).map(|_| char::from(rng.of(alphabet))).collect()
}

/// So many digits, neither the first nor the last of them zero.
fn solid(rng: &mut Rng, count: usize) -> String {
    (1..=count).map(|place| char::from(rng.of(if place == 1 || place == count { COUNTING } else { DIGITS }))).collect()
}

/// A value short enough for zeros on both sides: without any, with as many as there may be and with some, at the end,
/// in front and both. Where it is whole, a point with no zeros behind it is a bare one.
fn writings(rng: &mut Rng, form: Amount) -> Vec<String> {
    let (before, places) = (rng.below(5), rng.below(4));
    let whole = if before == 0 { zero(1) } else { solid(rng, before) };
    let fraction = solid(rng, if before == 0 { 1 } else { places });
    let pointed = format!("{whole}.{fraction}");
    let behind = room(form, whole.len()) - fraction.len();
    let in_front = (form.n - whole.len()).min(form.m - pointed.len());
    let (some_behind, some_in_front) = (rng.between(1, behind), rng.between(1, in_front - 1));
    let plain = pointed.trim_end_matches('.');
    vec![
        plain.to_string(),
        format!("{pointed}{}", zero(behind)),
        format!("{}{plain}", zero(in_front)),
        format!("{pointed}{}", zero(some_behind)),
        format!("{}{pointed}", zero(some_in_front)),
        format!("{}{pointed}0", zero(some_in_front)),
    ]
}

fn whole_numbers(rng: &mut Rng, form: Amount) -> Vec<String> {
    let length = rng.between(1, 4);
    let start = solid(rng, length);
    let most = form.n - length;
    let (some, behind) = (rng.between(1, most), rng.between(1, 3));
    vec![
        format!("{start}0"),
        format!("{start}{}", zero(most)),
        format!("{start}{}.", zero(some)),
        format!("{start}00.{}", zero(behind)),
    ]
}

/// Well formed but for units, which are not zero.
fn zeros(rng: &mut Rng, form: Amount) -> Vec<String> {
    let before = rng.between(2, form.n);
    let behind = rng.between(0, room(form, before));
    vec![
        zero(1),
        "0.".to_string(),
        zero(form.n),
        format!("0.{}", zero(form.f)),
        format!("{}.{}", zero(before), zero(behind)),
    ]
}

fn zeros_inside(rng: &mut Rng, form: Amount) -> Vec<String> {
    let (first, last, between) = (solid(rng, 1), solid(rng, 1), rng.between(0, 3));
    let before = rng.between(1, form.n);
    let behind = rng.between(0, room(form, before));
    vec![
        format!("{first}.0{last}"),
        format!("{first}.0{last}00"),
        format!("{first}0{last}.{}{last}0", zero(between)),
        format!("{}.{}", some_of(rng, b"00012", before), some_of(rng, b"00012", behind)),
    ]
}

fn each_number_of_places(rng: &mut Rng, form: Amount) -> Vec<String> {
    let mut numbers = Vec::new();
    for places in 0..=form.f {
        let before = rng.between(1, form.n.min(form.m - 1 - places));
        let behind = rng.between(0, room(form, before) - places);
        numbers.push(format!("{}.{}{}", solid(rng, before), solid(rng, places), zero(behind)));
    }
    numbers
}

/// The greatest and the least numbers, the longest ones, and what is one digit, one place or one character too long, be
/// it by a zero that says nothing.
fn ends(rng: &mut Rng, form: Amount) -> Vec<String> {
    let Amount { n, f, m, .. } = form;
    let nines = |count| "9".repeat(count);
    let before = rng.between(m - 1 - f, n);
    let before_too_long = rng.between(m - f, n);
    vec![
        nines(n),
        format!("{}.{}", nines(m - 1 - f), nines(f)),
        format!("0.{}1", zero(f - 1)),
        format!("0.{}1", zero(f)),
        format!("{}.", solid(rng, n)),
        format!("0{}", solid(rng, n)),
        format!("{}.{}", solid(rng, 1), solid(rng, f)),
        format!("{}.{}0", solid(rng, 1), solid(rng, f - 1)),
        format!("{}.{}0", solid(rng, 1), solid(rng, f)),
        format!("{}.{}", solid(rng, 1), zero(f)),
        format!("{}.{}", solid(rng, 1), zero(f + 1)),
        format!("{}.{}", solid(rng, before), solid(rng, m - 1 - before)),
        format!("{}.{}0", solid(rng, before_too_long), solid(rng, m - 1 - before_too_long)),
    ]
}

/// One of each sort, one that is far too long, and a sign where none may stand.
fn mistakes(rng: &mut Rng, form: Amount) -> Vec<String> {
    let mut mistakes = Vec::new();
    for sort in MISTAKES {
        let mistake = rng.of(sort);
        mistakes
            .push(mistake.chars().map(|mark| if mark == 'n' { char::from(rng.of(DIGITS)) } else { mark }).collect());
    }
    let (too_many, behind) = (rng.between(form.n + 1, 24), rng.below(4));
    mistakes.push(if rng.one_in(2) {
        format!("{}.{}", some_of(rng, DIGITS, too_many), zero(behind))
    } else {
        format!("{}.{}", solid(rng, 1), some_of(rng, b"0005", too_many))
    });
    if !form.signed {
        mistakes.push(format!("{}{}", rng.of(&["+", "-"]), some_of(rng, DIGITS, 1)));
    }
    mistakes
}

/// What holds no decimal: words, nothing, and what the recipe for whole lines has for malformed cells.
fn words(rng: &mut Rng, cell: usize) -> Vec<Vec<u8>> {
    let mut texts = vec![Vec::new()];
    if cell == 33 {
        texts.extend([b"PNDG".to_vec(), b"NOAP".to_vec()]);
    }
    texts.extend((0..5).map(|_| malformed(rng, cell)));
    // A case is one line.
    for byte in texts.iter_mut().flatten().filter(|byte| b"\n\r".contains(byte)) {
        *byte = b'\t';
    }
    texts
}

/// What the reference reads in a text for a cell: the number of its kind, 0 where it is malformed, and its decimal.
fn read(cell: usize, text: &[u8]) -> (u32, Option<Decimal>) {
    match cell {
        30 => match quantity(text) {
            None => (0, None),
            Some(Quantity::Units(decimal)) => (2, Some(decimal)),
            Some(Quantity::Nominal(decimal)) => (3, Some(decimal)),
            Some(Quantity::Monetary(decimal)) => (4, Some(decimal)),
        },
        33 => match price(text) {
            None => (0, None),
            Some(Price::Pending) => (2, None),
            Some(Price::NotApplicable) => (3, None),
            Some(Price::Percent(decimal)) => (4, Some(decimal)),
            Some(Price::Money(decimal)) => (5, Some(decimal)),
            Some(Price::Yield(decimal)) => (6, Some(decimal)),
            Some(Price::BasisPoints(decimal)) => (7, Some(decimal)),
        },
        _ => match signed_amount(text) {
            None => (0, None),
            Some(decimal) => (1, Some(decimal)),
        },
    }
}

/// The call that gives the kind, and what the names of the others begin with.
fn calls(cell: usize) -> (&'static str, &'static str) {
    match cell {
        30 => ("quantity_kind", "quantity"),
        33 => ("price_kind", "price"),
        _ => ("signed_18_5_19", "signed"),
    }
}

/// The call that asks for one decimal.
fn is_call(name: &str, Decimal { digits, places }: Decimal) -> String {
    format!("{name}_is.{digits}.{places}")
}

/// What another reading of the text might give: all digits as written, which is the likeliest, no zeros at the end even
/// of a whole number, the other sign, one digit changed, or other places.
fn wrong(rng: &mut Rng, right: Decimal, text: &[u8]) -> Decimal {
    let Decimal { digits, places } = right;
    let mut bare = digits;
    while bare != 0 && bare % 10 == 0 {
        bare /= 10;
    }
    let others = [
        as_written(right, text),
        as_written(right, text),
        Decimal { digits: bare, places },
        Decimal { digits: -digits, places },
        Decimal { digits: one_digit_off(rng, digits), places },
        Decimal { digits, places: as_written(right, text).places },
        Decimal { digits, places: places + 1 },
    ];
    rng.of_those(&others, |other| *other != right).expect("a digit is off")
}

/// All digits, and as many places as stand behind the point.
fn as_written(right: Decimal, text: &[u8]) -> Decimal {
    let digits: String = text.iter().filter(|byte| byte.is_ascii_digit()).map(|&digit| char::from(digit)).collect();
    let behind = text.iter().rev().position(|byte| *byte == b'.').unwrap_or(0);
    Decimal { digits: right.digits.signum() * digits.parse::<i64>().expect("at most 18 digits"), places: behind as u32 }
}

fn one_digit_off(rng: &mut Rng, number: i64) -> i64 {
    let mut digits = number.unsigned_abs().to_string().into_bytes();
    let place = rng.below(digits.len());
    digits[place] = b'0' + (digits[place] - b'0' + rng.between(1, 9) as u8) % 10;
    let other = digits.iter().fold(0, |other, digit| other * 10 + i64::from(digit - b'0'));
    if number < 0 {
        -other
    } else {
        other
    }
}

/// The cases so far, and how many texts are still to come.
struct Cases {
    rng: Rng,
    written: Vec<u8>,
    left: usize,
}

impl Cases {
    /// Each group of each form, and the words of each cell.
    fn round(&mut self) {
        for cell in CELLS {
            let texts = words(&mut self.rng, cell);
            self.group(cell, &format!("{cell} without a decimal"), texts);
        }
        for (name, numbers) in GROUPS {
            for form in Form::all() {
                let numbers = numbers(&mut self.rng, form.amount);
                let texts = numbers.iter().map(|number| form.text(&mut self.rng, number)).collect();
                self.group(form.cell, &format!("{} {name}", form.name()), texts);
            }
        }
    }

    /// As much of a group as is still to come.
    fn group(&mut self, cell: usize, name: &str, mut texts: Vec<Vec<u8>>) {
        texts.truncate(self.left);
        self.left -= texts.len();
        if !texts.is_empty() {
            self.written.extend(format!("# {name}\n").as_bytes());
        }
        for text in &texts {
            self.text(cell, text);
        }
    }

    /// A text with all that is asked of it; as often as not also whether it is a decimal that it is not.
    fn text(&mut self, cell: usize, text: &[u8]) {
        let (kind_call, name) = calls(cell);
        let (kind, decimal) = read(cell, text);
        self.row(kind, kind_call, text);
        if let Some(right) = decimal {
            self.row(1, is_call(name, right), text);
            if self.rng.one_in(2) {
                let wrong = wrong(&mut self.rng, right, text);
                self.row(0, is_call(name, wrong), text);
            }
        }
    }

    fn row(&mut self, expected: u32, call: impl Display, text: &[u8]) {
        self.written.extend(format!("{expected} {call} ").as_bytes());
        self.written.extend(text);
        self.written.push(b'\n');
    }
}

/// So many texts with what is expected of them, in rounds of about five hundred. The same seed and count make the same
/// cases everywhere.
pub fn cases(seed: u64, count: usize) -> Vec<u8> {
    let mut cases = Cases { rng: Rng::new(seed), written: Vec::new(), left: count };
    while cases.left > 0 {
        cases.round();
    }
    cases.written
}

#[cfg(test)]
mod tests {
    use std::collections::{BTreeMap, BTreeSet};

    use super::*;

    /// A text with what is expected of it.
    #[derive(Debug)]
    struct Shown {
        group: String,
        cell: usize,
        text: Vec<u8>,
        kind: u32,
        right: Option<Decimal>,
        wrong: Option<Decimal>,
    }

    impl Shown {
        /// The form that the text opens like, and the rest of it.
        fn form(&self) -> Option<(Amount, &str)> {
            let text = std::str::from_utf8(&self.text).ok()?;
            decimals(self.cell).iter().find_map(|form| Some((*form, text.strip_prefix(form.prefix)?)))
        }
    }

    /// The texts of written cases.
    fn shown(cases: &[u8]) -> Vec<Shown> {
        let mut all: Vec<Shown> = Vec::new();
        let mut group = String::new();
        for line in cases.strip_suffix(b"\n").unwrap().split(|byte| *byte == b'\n') {
            if let Some(name) = line.strip_prefix(b"# ") {
                group = String::from_utf8(name.to_vec()).unwrap();
                continue;
            }
            let mut parts = line.splitn(3, |byte| *byte == b' ');
            let mut word = || std::str::from_utf8(parts.next().unwrap()).unwrap();
            let (expected, call) = (word().parse().unwrap(), word());
            let text = parts.next().unwrap().to_vec();
            assert!(!text.contains(&b'\r'));
            if let Some(cell) = CELLS.into_iter().find(|cell| calls(*cell).0 == call) {
                let group = group.clone();
                all.push(Shown { group, cell, text, kind: expected, right: None, wrong: None });
                continue;
            }
            let last = all.last_mut().unwrap();
            assert_eq!(last.text, text);
            let asked = call.strip_prefix(calls(last.cell).1).unwrap().strip_prefix("_is.").unwrap();
            let (digits, places) = asked.split_once('.').unwrap();
            let decimal = Decimal { digits: digits.parse().unwrap(), places: places.parse().unwrap() };
            match expected {
                0 => last.wrong = Some(decimal),
                1 => last.right = Some(decimal),
                _ => panic!("{call}"),
            }
        }
        all
    }

    /// The value of a number times 10 to the power of 17, straight from its text.
    fn scaled(number: &str) -> i128 {
        let (sign, number) = match number.strip_prefix('-') {
            Some(number) => (-1, number),
            None => (1, number),
        };
        let (whole, fraction) = number.split_once('.').unwrap_or((number, ""));
        sign * format!("{whole}{fraction:0<17}").parse::<i128>().unwrap()
    }

    /// Whether a number has its form, by the lengths of its parts.
    fn has_form(form: Amount, number: &str) -> bool {
        let number = if form.signed { number.strip_prefix(['+', '-']).unwrap_or(number) } else { number };
        let parts: Vec<&str> = number.split('.').collect();
        let digits = parts.iter().all(|part| part.chars().all(|digit| digit.is_ascii_digit()));
        let lengths: Vec<usize> = parts.iter().map(|part| part.len()).collect();
        digits
            && (1..=form.n).contains(&lengths[0])
            && match lengths[1..] {
                [] => true,
                [places] => places <= form.f && number.len() <= form.m,
                _ => false,
            }
    }

    /// The number of a form's kind. Those of a cell follow each other in the order of the paper.
    fn kind_of(cell: usize, form: Amount) -> u32 {
        let place = decimals(cell).iter().position(|other| other.prefix == form.prefix).unwrap();
        let first = match cell {
            30 => 2,
            33 => 4,
            _ => 1,
        };
        first + place as u32
    }

    fn kind_of_word(cell: usize, text: &[u8]) -> u32 {
        match (cell, text) {
            (33, b"PNDG") => 2,
            (33, b"NOAP") => 3,
            _ => 0,
        }
    }

    #[test]
    fn what_is_expected_is_what_the_text_says() {
        for seed in 1..=5 {
            let cases = cases(seed, 2_500);
            assert!(cases.len() < 500_000, "{} bytes", cases.len());
            let shown = shown(&cases);
            assert_eq!(shown.len(), 2_500);
            for case in shown {
                let well_formed = |(form, number): &(Amount, &str)| {
                    has_form(*form, number) && (form.prefix != "UNT:" || scaled(number) != 0)
                };
                let Some((form, number)) = case.form().filter(well_formed) else {
                    assert_eq!(case.kind, kind_of_word(case.cell, &case.text), "{case:?}");
                    assert_eq!((case.right, case.wrong), (None, None), "{case:?}");
                    continue;
                };
                assert_eq!(case.kind, kind_of(case.cell, form), "{case:?}");
                let Decimal { digits, places } = case.right.unwrap();
                assert_eq!(i128::from(digits) * 10i128.pow(17 - places), scaled(number), "{case:?}");
                assert!(places == 0 || digits % 10 != 0, "{case:?}");
                assert!(case.wrong != case.right, "{case:?}");
                for decimal in [case.right, case.wrong].into_iter().flatten() {
                    assert!(decimal.digits.unsigned_abs() < 10u64.pow(18), "{case:?}");
                }
            }
        }
    }

    #[test]
    fn every_kind_of_text_occurs() {
        let shown = shown(&cases(1, 500));
        assert_eq!(shown.len(), 500);
        let kinds: BTreeSet<(usize, u32)> = shown.iter().map(|case| (case.cell, case.kind)).collect();
        let all = [(30, 0), (30, 2), (30, 3), (30, 4), (33, 0), (33, 2), (33, 3), (33, 4), (33, 5), (33, 6), (33, 7)];
        assert_eq!(kinds, all.into_iter().chain([(38, 0), (38, 1)]).collect());
        assert!(shown.iter().any(|case| case.text.is_empty()) && shown.iter().any(|case| case.wrong.is_some()));
        for form in Form::all() {
            let of_it = shown.iter().filter(|case| case.group.starts_with(&form.name()));
            let mut writings: BTreeMap<(i64, u32), BTreeSet<&[u8]>> = BTreeMap::new();
            for case in of_it {
                if let Some(Decimal { digits, places }) = case.right {
                    writings.entry((digits, places)).or_default().insert(&case.text);
                }
            }
            let places: BTreeSet<u32> = writings.keys().map(|(_, places)| *places).collect();
            assert_eq!(places, (0..=form.amount.f as u32).collect(), "{}", form.name());
            let several =
                |zero: bool| writings.iter().any(|((number, _), texts)| texts.len() > 3 && (*number == 0) == zero);
            assert!(several(false) && (several(true) || form.amount.prefix == "UNT:"), "{}", form.name());
            let below = writings.keys().any(|(number, _)| *number < 0);
            assert_eq!(below, form.signs == ["-"], "{}", form.name());
        }
    }

    /// Each group holds what it is named after.
    #[test]
    fn groups_hold_what_they_say() {
        for case in shown(&cases(2, 2_500)) {
            let of = |name: &str| case.group.ends_with(name);
            let units = case.text.starts_with(b"UNT:");
            if of("writings") || of("end in zeros") || of("places") || of("among the digits") {
                assert!(case.right.is_some() || units && of("among the digits"), "{case:?}");
            }
            if of(" zeros") && !of("end in zeros") {
                let zero = Decimal { digits: 0, places: 0 };
                assert!(case.right == if units { None } else { Some(zero) }, "{case:?}");
            }
            if of("end in zeros") {
                assert!(matches!(case.right, Some(Decimal { digits, places: 0 }) if digits % 10 == 0), "{case:?}");
            }
            if of("mistakes") {
                assert!(case.kind == 0, "{case:?}");
            }
        }
    }

    #[test]
    fn the_same_seed_makes_the_same_cases() {
        assert!(cases(1, 700) == cases(1, 700) && cases(1, 700) != cases(2, 700));
        assert!(cases(1, 0).is_empty());
        assert!(cases(1, 700).starts_with(&cases(1, 100)));
    }
}
