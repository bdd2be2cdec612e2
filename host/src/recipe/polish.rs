//! Polish identifiers: numbers that are right, numbers that just are not, and what comes of them, read a second time.

use crate::file::{Case, FILLER};
use crate::reference::Day;

use super::draft::{date, day_between, days_after, earliest, Draft, Maker, Want, NO_DEAL};
use super::rng::{Rng, CAPITALS, DIGITS};
use super::rules::party_codes;
use super::values::{well_shaped, BAD_DATES};
use super::Intent;

/// The cells in which such an identifier is looked at, each with its date cell, which the last two do not have.
const CELLS: [[usize; 2]; 6] = [[7, 11], [12, 15], [16, 20], [21, 24], [57, 0], [59, 0]];

/// How many of them have a date cell.
const DATED: usize = 4;

/// The months at which the reading of a PESEL changes, and those beside.
const MONTHS: [usize; 21] = [0, 1, 12, 13, 20, 21, 32, 33, 40, 41, 52, 53, 60, 61, 72, 73, 80, 81, 92, 93, 99];

/// Years of a century, months and days at their edges, real or not. 29 February of the year 0 is not among them.
const DAYS: [(usize, usize, usize); 16] = [
    (4, 2, 29),
    (99, 2, 29),
    (4, 2, 30),
    (0, 3, 0),
    (50, 7, 0),
    (1, 1, 32),
    (50, 1, 32),
    (99, 12, 32),
    (50, 4, 31),
    (50, 6, 31),
    (50, 9, 31),
    (50, 11, 31),
    (1, 1, 31),
    (50, 4, 30),
    (99, 12, 31),
    (0, 1, 1),
];

/// The centuries in the order of their months: 1 to 12, 21 to 32, 41 to 52, 61 to 72, 81 to 92.
const CENTURIES: [usize; 5] = [1900, 2000, 2100, 2200, 1800];

/// What the date cell holds.
#[derive(Clone, Debug)]
enum Birth {
    Blank,
    On(Day),
    Malformed,
}

/// A number behind PL, or what is none, with what the date cell holds.
type Situation = (Vec<u8>, Birth);

/// The kinds of situations.
#[derive(Clone, Copy, Debug, PartialEq, Eq)]
enum Kind {
    /// Right, with the day in the date cell; with nothing there; of a taxpayer.
    RightPesel,
    PeselAlone,
    RightNip,
    /// No number.
    OtherLength,
    LetterInPesel,
    LetterInNip,
    /// By the last digit: right only for some of those that end in 0 and where equal digits are exchanged.
    OtherLastDigit,
    OtherDigitOfPesel,
    OtherDigitOfNip,
    RemainderTen,
    EndingInZero,
    Exchanged,
    /// By the day: months and days at their edges, with a date cell that is blank or not.
    AnotherDay,
    AnotherCentury,
    MonthAlone,
    MonthBesideDate,
    DayAlone,
    DayBesideDate,
    Of1800s,
    /// By the last digit and the day; beside a malformed date cell.
    OtherLastDigitAndDay,
    OtherLastDigitAndNoDay,
    BesideMalformed,
    NoDayBesideMalformed,
}

use Kind::*;

/// All of them, those with days at their edges twice. Their number has no divisor in common with that of the cells, so
/// that all meet in turn.
const KINDS: [Kind; 25] = [
    RightPesel, OtherLength, DayAlone, OtherLastDigit, AnotherDay, DayBesideDate, PeselAlone, LetterInPesel,
    OtherDigitOfPesel, AnotherCentury, RightNip, LetterInNip, OtherDigitOfNip, MonthAlone, RemainderTen,
    MonthBesideDate, EndingInZero, DayAlone, Exchanged, DayBesideDate, Of1800s, OtherLastDigitAndDay,
    OtherLastDigitAndNoDay, BesideMalformed, NoDayBesideMalformed,
];

/// The flag of a call: as often 0 as not, and now and then a number of which only some bits might be looked at.
pub fn flag(rng: &mut Rng) -> u32 {
    if rng.one_in(2) {
        0
    } else {
        flag_on(rng)
    }
}

fn flag_on(rng: &mut Rng) -> u32 {
    if rng.one_in(4) {
        rng.of(&[2, 256, 1 << 16, 1 << 31, u32::MAX])
    } else {
        1
    }
}

/// The sum of digits, each times its weight.
fn sum(digits: &[u8], weights: &[usize]) -> usize {
    digits.iter().zip(weights).map(|(digit, weight)| usize::from(digit - b'0') * weight).sum()
}

/// The last digit of a PESEL, by the weights that ten lacks to those of the rule.
fn last_of_pesel(digits: &[u8]) -> u8 {
    b'0' + (sum(digits, &[9, 7, 3, 1, 9, 7, 3, 1, 9, 7]) % 10) as u8
}

/// Is the last digit right? For a NIP it takes away what the others leave by 11.
fn ends_right(number: &[u8]) -> bool {
    match number.len() {
        11 => last_of_pesel(number) == number[10],
        _ => sum(number, &[6, 5, 7, 2, 3, 4, 5, 6, 7, 10]).is_multiple_of(11),
    }
}

/// The real day that the first six digits of a PESEL name. Twenty months make a century, and after four centuries the
/// calendar begins anew.
fn named_day(number: &[u8]) -> Option<u32> {
    let part = |place| sum(&number[place..place + 2], &[10, 1]);
    let year = CENTURIES[part(2) / 20] + part(0);
    let later = ((year + 400) * 100 + part(2) % 20) * 100 + part(4);
    Day::new(later as u32).map(|day| day.number() - 4_000_000)
}

/// The codes of what stands behind PL in a cell, which has a date cell or not.
fn found(behind: &[u8], birth: Option<&Birth>) -> Vec<u16> {
    let digits = behind.iter().filter(|byte| DIGITS.contains(byte)).count();
    if digits != behind.len() || !(10..=11).contains(&digits) {
        return vec![3307];
    }
    let mut found = Vec::new();
    if !ends_right(behind) {
        found.push(3308);
    }
    if digits == 11 {
        let day = named_day(behind);
        match birth {
            Some(Birth::Blank) if day.is_none() => found.push(3309),
            Some(Birth::On(birth)) if day != Some(birth.number()) => found.push(3309),
            _ => {}
        }
    }
    found
}

/// A PESEL with these first six digits.
fn pesel(rng: &mut Rng, start: &[u8]) -> Vec<u8> {
    let mut number = [start, &rng.text(DIGITS, 4)].concat();
    number.push(last_of_pesel(&number));
    number
}

/// The first six digits for a day of a century; month and day need not be real.
fn start_of(year: usize, month: usize, day: usize) -> Vec<u8> {
    let century = CENTURIES.iter().position(|century| *century == year / 100 * 100).expect("a century");
    format!("{:02}{:02}{day:02}", year % 100, month + 20 * century).into_bytes()
}

/// A PESEL of a day up to 2299.
fn pesel_of(rng: &mut Rng, day: Day) -> Vec<u8> {
    let number = day.number() as usize;
    let start = start_of(number / 10_000, number / 100 % 100, number % 100);
    pesel(rng, &start)
}

/// Nine digits that leave this remainder by 11.
fn nine_leaving(rng: &mut Rng, remainder: usize) -> Vec<u8> {
    loop {
        let digits = rng.text(DIGITS, 9);
        if sum(&digits, &[6, 5, 7, 2, 3, 4, 5, 6, 7]) % 11 == remainder {
            return digits;
        }
    }
}

fn nip(rng: &mut Rng) -> Vec<u8> {
    let last = rng.below(10);
    let mut number = nine_leaving(rng, last);
    number.push(b'0' + last as u8);
    number
}

/// A day of birth up to T that a PESEL can name.
fn born(rng: &mut Rng, t: Day) -> Day {
    day_between(rng, earliest(), t.min(Day::new(22991231).expect("a real day")))
}

/// A real day of a century, often of its first or last months.
fn any_start(rng: &mut Rng, century: usize) -> Vec<u8> {
    let month = rng.between(1, 12);
    let month = rng.of(&[1, 12, month]);
    start_of(CENTURIES[century % CENTURIES.len()] + rng.below(100), month, rng.between(1, 28))
}

/// The first six digits of a PESEL that names no real day: by its month, or by the day alone.
fn start_of_no_day(rng: &mut Rng) -> Vec<u8> {
    loop {
        let start = if rng.one_in(3) {
            format!("44{:02}14", rng.of(&MONTHS)).into_bytes()
        } else {
            let (year, month, day) = if rng.one_in(4) { (0, 2, 29) } else { rng.of(&DAYS) };
            start_of(rng.of(&CENTURIES) + year, month, day)
        };
        if named_day(&start).is_none() {
            return start;
        }
    }
}

/// A right number, of a person born on this day where that is known.
fn right_number(rng: &mut Rng, birth: Option<Day>) -> Vec<u8> {
    match birth {
        _ if rng.one_in(3) => nip(rng),
        Some(day) if day.number() > 22991231 => nip(rng),
        Some(day) => pesel_of(rng, day),
        None => {
            let century = rng.below(CENTURIES.len());
            let start = any_start(rng, century);
            pesel(rng, &start)
        }
    }
}

/// Another day, a day, month, year or century or more away.
fn another_day(rng: &mut Rng, day: Day) -> Day {
    let away = |difference: i32| Day::new(day.number().wrapping_add_signed(difference));
    let days: Vec<Day> = [1, -1, 1, -1, 100, -100, 10_000, -10_000, 1_000_000, -1_000_000, 2_000_000]
        .into_iter()
        .filter_map(away)
        .collect();
    rng.of(&days)
}

/// Puts another digit at a place.
fn change_digit(rng: &mut Rng, number: &mut [u8], place: usize) {
    number[place] = b'0' + (number[place] - b'0' + rng.between(1, 9) as u8) % 10;
}

/// The day that a number names, for the date cell, where a date cell can hold it.
fn as_named(number: &[u8]) -> Birth {
    named_day(number).and_then(Day::new).map_or(Birth::Blank, Birth::On)
}

/// A situation; the round tells places and edges, T the latest day of birth.
fn situation(rng: &mut Rng, kind: Kind, round: usize, t: Day) -> Situation {
    let day = born(rng, t);
    match kind {
        RightPesel => (pesel_of(rng, day), Birth::On(day)),
        PeselAlone => {
            let start = any_start(rng, round);
            (pesel(rng, &start), Birth::Blank)
        }
        RightNip => (nip(rng), if rng.one_in(2) { Birth::Blank } else { Birth::On(day) }),
        OtherLength | LetterInPesel | LetterInNip => no_number(rng, kind, round, day),
        OtherLastDigit | OtherDigitOfPesel | OtherDigitOfNip | RemainderTen | EndingInZero | Exchanged => {
            by_last_digit(rng, kind, round, day)
        }
        AnotherDay | AnotherCentury | MonthAlone | MonthBesideDate | DayAlone | DayBesideDate => {
            by_day(rng, kind, round, day)
        }
        _ => by_day_and_more(rng, kind, day),
    }
}

/// What is no number by its length, or has a letter in it. The day in it may be right, wrong or none.
fn no_number(rng: &mut Rng, kind: Kind, round: usize, day: Day) -> Situation {
    let start = rng.text(DIGITS, 6);
    let number = if rng.one_in(2) { pesel_of(rng, day) } else { pesel(rng, &start) };
    let birth = match rng.below(3) {
        0 => Birth::Blank,
        1 => Birth::On(day),
        _ => Birth::On(another_day(rng, day)),
    };
    let mut behind = match (kind, round % 8) {
        (LetterInPesel, _) => number,
        (LetterInNip, _) => nip(rng),
        (_, 0) => nip(rng)[..9].to_vec(),
        (_, 1) => [&number[..], &rng.text(DIGITS, 1)].concat(),
        (_, 2) => [&rng.text(DIGITS, 1), &number[..]].concat(),
        (_, 3) => number[..9].to_vec(),
        (_, 4) => [b"00", &nip(rng)[..]].concat(),
        (_, 5) => rng.text(DIGITS, 1),
        (_, 6) => rng.text(DIGITS, 33),
        _ => [&number[..], &nip(rng)].concat(),
    };
    if kind != OtherLength {
        let place = round % behind.len();
        behind[place] = rng.of(CAPITALS);
    }
    (behind, birth)
}

/// Numbers whose last digit is wrong, or just right. What a PESEL names stands in the date cell, where it can.
fn by_last_digit(rng: &mut Rng, kind: Kind, round: usize, day: Day) -> Situation {
    let of_taxpayer = match kind {
        OtherDigitOfNip | RemainderTen => true,
        EndingInZero | Exchanged => rng.one_in(2),
        _ => false,
    };
    let mut number = if of_taxpayer { nip(rng) } else { pesel_of(rng, day) };
    match kind {
        OtherLastDigit => number[10] = b'0' + (number[10] - b'0' + 1 + (round % 9) as u8) % 10,
        OtherDigitOfPesel | OtherDigitOfNip => {
            let place = round % number.len();
            change_digit(rng, &mut number, place);
        }
        // No digit is right then, and 0 might seem to be.
        RemainderTen => {
            number = nine_leaving(rng, 10);
            number.push(if round.is_multiple_of(2) { b'0' } else { rng.of(DIGITS) });
        }
        Exchanged => {
            let place = round % (number.len() - 1);
            number.swap(place, place + 1);
        }
        _ if round.is_multiple_of(3) => number = vec![b'0'; number.len()],
        // Sums that leave nothing.
        _ => {
            while number[number.len() - 1] != b'0' {
                number = if of_taxpayer { nip(rng) } else { pesel_of(rng, day) };
            }
        }
    }
    let birth = if number.len() == 11 { as_named(&number) } else { Birth::On(day) };
    (number, birth)
}

/// PESELs whose day is another than that of the date cell, is none, or just is right.
fn by_day(rng: &mut Rng, kind: Kind, round: usize, day: Day) -> Situation {
    let number = match kind {
        MonthAlone | MonthBesideDate => {
            let month = MONTHS[round % MONTHS.len()];
            let start = format!("{:02}{month:02}{:02}", rng.below(100), rng.between(1, 28));
            pesel(rng, start.as_bytes())
        }
        DayAlone | DayBesideDate => {
            // Often the day on which the centuries differ.
            let (year, month, day) = if rng.one_in(3) { (0, 2, 29) } else { rng.of(&DAYS) };
            pesel(rng, &start_of(CENTURIES[round % CENTURIES.len()] + year, month, day))
        }
        _ => pesel_of(rng, day),
    };
    let birth = match kind {
        AnotherDay => Birth::On(another_day(rng, day)),
        AnotherCentury => Birth::On(another_century(rng, day)),
        MonthAlone | DayAlone => Birth::Blank,
        _ if rng.one_in(3) => Birth::On(day),
        _ => as_named(&number),
    };
    (number, birth)
}

/// PESELs of no day or of the 1800s; with wrong last digits; beside a malformed date cell.
fn by_day_and_more(rng: &mut Rng, kind: Kind, day: Day) -> Situation {
    let start = match kind {
        OtherLastDigitAndNoDay | NoDayBesideMalformed => start_of_no_day(rng),
        Of1800s => {
            let number = day.number() as usize;
            start_of(1800 + number / 10_000 % 100, number / 100 % 100, number % 100)
        }
        _ => pesel_of(rng, day)[..6].to_vec(),
    };
    let mut number = pesel(rng, &start);
    let other_last_digit = match kind {
        OtherLastDigitAndDay | OtherLastDigitAndNoDay => true,
        BesideMalformed => rng.one_in(2),
        _ => false,
    };
    if other_last_digit {
        change_digit(rng, &mut number, 10);
    }
    let birth = match kind {
        BesideMalformed | NoDayBesideMalformed => Birth::Malformed,
        OtherLastDigitAndDay => Birth::On(another_day(rng, day)),
        _ if rng.one_in(2) => Birth::Blank,
        _ => Birth::On(day),
    };
    (number, birth)
}

/// The same year, month and day of another century, where there is such a day.
fn another_century(rng: &mut Rng, day: Day) -> Day {
    let days: Vec<Day> = CENTURIES
        .iter()
        .filter_map(|century| Day::new(*century as u32 * 10_000 + day.number() % 1_000_000))
        .filter(|other| *other != day)
        .collect();
    if days.is_empty() {
        another_day(rng, day)
    } else {
        rng.of(&days)
    }
}

/// Which of the cells a code is met in, in turn. 3309 needs a date cell.
pub fn cell(code: u16, turn: usize) -> usize {
    turn % if code == 3309 { DATED } else { CELLS.len() }
}

/// The cells that a code reads, where it is met in this one of them.
pub fn reads(code: u16, which: usize) -> &'static [usize] {
    &CELLS[which][..if code == 3309 { 2 } else { 1 }]
}

impl Maker {
    /// An identifier of the right shape as it is, unless it happens to be a Polish one or, now and then, may become
    /// one: then with a right number, of a person born on this day where that is known.
    pub fn with_right_number(
        &mut self,
        scheme: &str,
        identifier: Vec<u8>,
        birth: Option<Day>,
        may_become: bool,
    ) -> Vec<u8> {
        let polish = self.polish && scheme == "NIDN:";
        if polish && (identifier.starts_with(b"PL") || (may_become && self.rng.one_in(3))) {
            return [b"PL", &right_number(&mut self.rng, birth)[..]].concat();
        }
        identifier
    }

    pub fn poland_listed(&self, day: Day) -> bool {
        self.world.country_good(b"PL", day)
    }

    /// A person from Poland in any of the situations, for a cell that is changed at random.
    pub fn any_polish(&mut self, t: Day) -> Vec<u8> {
        [b"NIDN:PL", &self.any_situation(t).0[..]].concat()
    }

    fn any_situation(&mut self, t: Day) -> Situation {
        let (kind, round) = (self.rng.of(&KINDS), self.rng.below(1000));
        situation(&mut self.rng, kind, round, t)
    }

    /// Puts a number behind PL into a cell and sets its date cell. Tells all that comes of it.
    fn put_number(&mut self, draft: &mut Draft, which: usize, (behind, birth): &Situation) -> Vec<u16> {
        let [cell, birth_cell] = CELLS[which];
        draft.set(cell, [b"NIDN:PL", &behind[..]].concat());
        let mut codes = Vec::new();
        if which < DATED {
            codes.extend(self.put_birth(draft, which, birth));
            if !self.poland_listed(draft.t) {
                codes.push(party_codes(cell)[1]);
            }
        }
        if draft.polish != 0 {
            codes.extend(found(behind, (birth_cell != 0).then_some(birth)));
        }
        codes
    }

    /// Sets the date cell. A day after T has a code of its own, and so has a cell that is malformed.
    fn put_birth(&mut self, draft: &mut Draft, which: usize, birth: &Birth) -> Option<u16> {
        let [cell, birth_cell] = CELLS[which];
        match birth {
            Birth::Blank => {
                draft.blank(birth_cell);
                None
            }
            Birth::On(day) => {
                draft.set(birth_cell, date(*day));
                (*day > draft.t).then_some(party_codes(cell)[5])
            }
            Birth::Malformed => {
                // Also such as the number itself might mean.
                let days = ["1900-02-29", "1844-05-14", "1899-12-31", "2100-02-29"];
                let value = if self.rng.one_in(2) { self.rng.of(&days) } else { self.rng.of(BAD_DATES) };
                draft.spoil(birth_cell, value);
                Some(1000 + birth_cell as u16)
            }
        }
    }

    /// A line that gives just this code, in this one of the cells, or just does not.
    pub fn polish_rule(&mut self, code: u16, which: usize, hit: bool) -> (Draft, Vec<u16>) {
        let capacity = Some(self.rng.of(NO_DEAL));
        let mut draft = self.clean(Want { t: Some(self.world.t), capacity, ..Want::default() });
        draft.polish = flag_on(&mut self.rng);
        let right = !hit && self.rng.one_in(2);
        loop {
            let situation = self.any_situation(draft.t);
            let found = self.put_number(&mut draft, which, &situation);
            if right && found.is_empty() {
                return (draft, found);
            }
            if !right && found == [code] {
                // Just missed where nobody asks for it.
                draft.polish = if hit { draft.polish } else { 0 };
                return (draft, if hit { found } else { Vec::new() });
            }
        }
    }

    /// The situations in the cells by turns: mostly one alone; of eight turns one has several cells at once, one what
    /// is no Polish identifier after all, and one a line in which something else is wrong or nothing is looked at.
    pub fn polish_turn(&mut self, turn: usize) -> (Draft, Vec<u16>) {
        let capacity = Some(self.rng.of(NO_DEAL));
        let mut draft = self.clean(Want { capacity, ..Want::default() });
        draft.polish = if self.rng.one_in(5) { 0 } else { flag_on(&mut self.rng) };
        let (round, step) = (turn / 8, turn % 8);
        let mut found = match step {
            0..=4 => {
                let single = round * 5 + step;
                let situation = situation(&mut self.rng, KINDS[single % KINDS.len()], single / KINDS.len(), draft.t);
                self.put_number(&mut draft, single % CELLS.len(), &situation)
            }
            6 => self.put_no_number(&mut draft, round),
            _ => self.put_several(&mut draft),
        };
        if step == 7 {
            self.overshadow(&mut draft, &mut found);
        }
        found.sort_unstable();
        found.dedup();
        (draft, found)
    }

    /// Room for as many findings as there are codes, without the three or with them, or for one fewer.
    pub fn in_little_room(&mut self, mut case: Case, codes: Vec<u16>) -> (Case, Intent) {
        let (entries, enough) = (self.rng.of(&[137, 138, 140, 141]), if case.polish == 0 { 138 } else { 141 });
        case.findings = vec![FILLER; entries];
        (case, if entries < enough { Intent::Refused(8) } else { Intent::Exactly(codes) })
    }

    /// Numbers in several of the cells, often in all.
    fn put_several(&mut self, draft: &mut Draft) -> Vec<u16> {
        let mut cells = [0, 1, 2, 3, 4, 5];
        self.rng.shuffle(&mut cells);
        let count = self.rng.of(&[2, 2, 3, 6]);
        let mut found = Vec::new();
        for which in &cells[..count] {
            let situation = self.any_situation(draft.t);
            found.extend(self.put_number(draft, *which, &situation));
        }
        found
    }

    /// A wrong number in a cell that is not looked at for it: another scheme, another country, no person shape, a form
    /// finding.
    fn put_no_number(&mut self, draft: &mut Draft, turn: usize) -> Vec<u16> {
        let which = turn % CELLS.len();
        let ([cell, _], dated) = (CELLS[which], which < DATED);
        let day = born(&mut self.rng, draft.t);
        let mut number = pesel_of(&mut self.rng, day);
        change_digit(&mut self.rng, &mut number, 10);
        let birth = if self.rng.one_in(2) { days_after(day, 1).min(draft.t) } else { day };
        let mut found = Vec::new();
        if dated {
            found.extend(self.put_birth(draft, which, &Birth::On(birth)));
        }
        let kind = turn / CELLS.len() % 5;
        let value = match kind {
            0 => [b"CCPT:PL", &number[..self.rng.of(&[9, 10, 11])]].concat(),
            1 => {
                let mut identifier = well_shaped(&mut self.rng, "CONCAT:", b"PL");
                identifier[2..10].copy_from_slice(birth.number().to_string().as_bytes());
                [b"CONCAT:", &identifier[..]].concat()
            }
            2 if dated => [b"NIDN:", &self.country_but_poland(draft.t)[..], &number].concat(),
            2 => [b"NIDN:", &self.rng.of(&[b"LP", b"PA", b"AL", b"DE"])[..], &number].concat(),
            3 => without_shape(&mut self.rng, &number),
            _ => without_form(&mut self.rng, &number),
        };
        let polish = ["CCPT:PL", "CONCAT:PL", "NIDN:PL"].iter().any(|start| value.starts_with(start.as_bytes()));
        match kind {
            3 if dated => found.push(party_codes(cell)[4]),
            3 | 4 => found.push(1000 + cell as u16),
            _ => {}
        }
        if dated && kind < 4 && polish && !self.poland_listed(draft.t) {
            found.push(party_codes(cell)[1]);
        }
        draft.set(cell, value);
        found
    }

    fn country_but_poland(&mut self, day: Day) -> [u8; 2] {
        loop {
            let country = self.country(day, true);
            if country != *b"PL" {
                return country;
            }
        }
    }

    /// Cell 28 malformed, which leaves form findings and the three codes; a cancellation, or neither that nor new.
    fn overshadow(&mut self, draft: &mut Draft, found: &mut Vec<u16>) {
        match self.rng.below(3) {
            0 => {
                self.malform(draft, 28);
                found.retain(|code| *code > 1000);
                found.push(1028);
            }
            1 => {
                draft.set(1, "CXL");
                draft.states = vec![1];
                found.clear();
            }
            _ => {
                self.malform(draft, 1);
                *found = vec![1001];
            }
        }
    }
}

/// NIDN: and what has not the person shape, though PL and the number stand in it.
fn without_shape(rng: &mut Rng, number: &[u8]) -> Vec<u8> {
    let text = match rng.below(8) {
        0 => b"PL".to_vec(),
        1 => [b"pl", number].concat(),
        2 => [b"Pl", number].concat(),
        3 => [b"pL", number].concat(),
        4 => [b"PL", &number[..10], &rng.text(b"az/:-+# ", 1)].concat(),
        5 => [b"PL", &rng.text(b"-+ #", 1)[..], number].concat(),
        6 => [number, b"PL"].concat(),
        _ => [b"PL", number, &rng.text(b" -a", 1)].concat(),
    };
    [b"NIDN:", &text[..]].concat()
}

/// What no party cell may hold, though PL and the number stand in it.
fn without_form(rng: &mut Rng, number: &[u8]) -> Vec<u8> {
    match rng.below(6) {
        0 => [b"NIDN:PL", number, &rng.text(b"\x7f\t\x80", 1)].concat(),
        1 => [b" NIDN:PL", number].concat(),
        2 => [b"nidn:PL", number].concat(),
        3 => [b"NIDN:PL", number, &[b'0'; 23]].concat(),
        4 => [b"NIDN PL", number].concat(),
        _ => [b"PL", number].concat(),
    }
}

#[cfg(test)]
mod tests {
    use super::*;

    #[test]
    fn published_numbers() {
        for number in [&b"44051401359"[..], b"02070803628", b"1234563218", b"0000000000"] {
            assert!(ends_right(number));
            assert_eq!(found(number, Some(&Birth::Blank)), []);
        }
        assert_eq!(named_day(b"44051401359"), Some(19440514));
        assert_eq!(start_of(1804, 2, 29), b"048229");
        assert_eq!(named_day(b"048229"), Some(18040229));
    }

    #[test]
    fn situations_of_every_kind() {
        let mut rng = Rng::new(1);
        let t = Day::new(20250322).unwrap();
        let mut seen = std::collections::BTreeSet::new();
        for (turn, kind) in KINDS.into_iter().cycle().take(KINDS.len() * 100).enumerate() {
            let (behind, birth) = situation(&mut rng, kind, turn / KINDS.len(), t);
            assert!((1..=33).contains(&behind.len()));
            seen.insert(found(&behind, Some(&birth)));
        }
        let kinds: [&[u16]; 5] = [&[], &[3307], &[3308], &[3308, 3309], &[3309]];
        assert!(seen.iter().map(Vec::as_slice).eq(kinds));
    }
}
