//! The lists that cases are judged against, made around a trading day T and a submission day S: keys that are
//! good on every day, keys that become or cease to be good on T or S or the day beside, and keys that are never
//! good. What is good is said here a second time, by plain scans over the rows.

use crate::file::{List, LISTS, LONGEST_LIST, MARKS};
use crate::reference::Day;

use super::classes::any_class;
use super::draft::{days_after, days_before};
use super::regimes;
use super::rng::{Rng, CAPITALS, CODE};

pub const EARLY: u32 = 19000101;
pub const LATE: u32 = 99991231;

/// The first trading day to be reported.
pub const FIRST: u32 = 20180103;

/// The first trading day on which a party has to be registered already.
const FIRST_OF_REGISTERED: u32 = 20180703;

/// Submission days at which 29 February matters or might seem to: in leap years, five years after them, in other
/// years, and round 2100, which is no leap year. The five years before one have 1,825, 1,826 or 1,827 days.
pub const ENDS_OF_FEBRUARY: [u32; 20] = [
    20240228, 20240229, 20240301, 20250228, 20250301, 20260228, 20260301, 20280229, 21000228, 21000301, 21010228,
    21010301, 21040228, 21040229, 21040301, 21050228, 21050301, 24000229, 24050228, 24050301,
];

pub const ANY_STATUS: &[u8] = &[1, 2, 3, 4];
pub const NOT_LAPSED: &[u8] = &[1, 3, 4];

/// The special currency codes.
pub const SPECIAL: [[u8; 3]; 12] =
    [*b"XAG", *b"XAU", *b"XBA", *b"XBB", *b"XBC", *b"XBD", *b"XDR", *b"XEU", *b"XFU", *b"XPD", *b"XPT", *b"XXX"];

/// First and last day.
type Span = (u32, u32);

/// What a row says of its LEI: status, entity, registration, update, which may be any day where the entity is active.
pub type LeiFacts = (u8, u8, u32, u32);

pub struct LeiRow {
    key: [u8; 20],
    status: u8,
    pub entity: u8,
    pub registered: u32,
    pub updated: u32,
}

impl LeiRow {
    fn bytes(&self) -> Vec<u8> {
        let days = [self.registered.to_le_bytes(), self.updated.to_le_bytes()].concat();
        [&self.key[..], &[self.status, self.entity], &days].concat()
    }

    /// Are its status and its entity bytes that can match?
    pub fn means_something(&self) -> bool {
        ANY_STATUS.contains(&self.status) && [1, 2].contains(&self.entity)
    }
}

/// A row of any other list: a key, what stands behind it, and its days.
pub struct Row<const KEY: usize, const MORE: usize> {
    key: [u8; KEY],
    more: [u8; MORE],
    from: u32,
    to: u32,
}

impl<const KEY: usize, const MORE: usize> Row<KEY, MORE> {
    fn on(&self, day: Day) -> bool {
        self.from <= day.number() && day.number() <= self.to
    }

    fn bytes(&self) -> Vec<u8> {
        [&self.key[..], &self.more, &self.from.to_le_bytes(), &self.to.to_le_bytes()].concat()
    }
}

/// A venue code and what it is on some day.
#[derive(Clone, Copy, Debug)]
pub struct Venue {
    pub mic: [u8; 4],
    /// XXXX or XOFF.
    pub off: bool,
    pub eea: bool,
    pub internaliser: bool,
    pub outside: bool,
}

impl Venue {
    pub fn known(&self) -> bool {
        self.off || self.eea || self.internaliser || self.outside
    }

    /// Cell 37 has to be filled.
    pub fn wants_country(&self) -> bool {
        self.eea || self.outside
    }

    /// Cell 37 has to be blank.
    pub fn bars_country(&self) -> bool {
        self.off || self.internaliser
    }

    /// Cell 3 has to be blank.
    pub fn bars_code(&self) -> bool {
        self.off || self.internaliser || self.outside
    }

    /// There is a way to fill the line for this venue.
    pub fn usable(&self) -> bool {
        self.known() && !(self.wants_country() && self.bars_country())
    }
}

pub struct World {
    pub s: Day,
    pub t: Day,
    lei_rows: Vec<LeiRow>,
    cty_rows: Vec<Row<2, 0>>,
    ccy_rows: Vec<Row<3, 1>>,
    ven_rows: Vec<Row<4, 1>>,
    ins_rows: Vec<Row<12, 6>>,
    /// LEIs whose check digits are wrong.
    wrong: Vec<[u8; 20]>,
    /// Every key worth using, with or without a row.
    pub leis: Vec<[u8; 20]>,
    /// LEIs whose rows matter in the first days of July 2018; none of them is among the others.
    pub july_leis: Vec<[u8; 20]>,
    pub countries: Vec<[u8; 2]>,
    pub currencies: Vec<[u8; 3]>,
    pub mics: Vec<[u8; 4]>,
    pub isins: Vec<[u8; 12]>,
    pub lists: [List; LISTS],
}

/// Digits, with A as 10 to Z as 35.
fn spread(text: &[u8]) -> String {
    text.iter()
        .map(|&byte| match byte {
            b'0'..=b'9' => (byte - b'0').to_string(),
            _ => (byte - b'A' + 10).to_string(),
        })
        .collect()
}

/// An LEI with right check digits.
pub fn make_lei(rng: &mut Rng) -> [u8; 20] {
    // Any start, or that of a real issuer.
    let mut start = rng.array::<18>(CODE);
    if rng.one_in(2) {
        start[..6].copy_from_slice(b"529900");
    }
    let number: u128 = spread(&start).parse().expect("at most 36 digits");
    let check = 98 - number % 97 * 100 % 97;
    let mut lei = [0; 20];
    lei[..18].copy_from_slice(&start);
    lei[18..].copy_from_slice(format!("{check:02}").as_bytes());
    lei
}

/// An ISIN with a right check digit.
pub fn make_isin(rng: &mut Rng) -> [u8; 12] {
    let mut isin = [0; 12];
    isin[..2].copy_from_slice(&rng.array::<2>(CAPITALS));
    let alphabet = if rng.one_in(2) { CODE } else { b"0123456789" };
    isin[2..11].copy_from_slice(&rng.array::<9>(alphabet));
    with_check_digit(isin)
}

/// The same with the check digit that its first eleven characters, digits and capitals, ask for.
pub fn with_check_digit(mut isin: [u8; 12]) -> [u8; 12] {
    let sum: u32 = spread(&isin[..11])
        .bytes()
        .rev()
        .map(|digit| u32::from(digit - b'0'))
        .enumerate()
        .map(|(place, digit)| if place % 2 == 0 { [0, 2, 4, 6, 8, 1, 3, 5, 7, 9][digit as usize] } else { digit })
        .sum();
    isin[11] = b'0' + ((10 - sum % 10) % 10) as u8;
    isin
}

/// A key that is none of these.
fn key_beside<const LENGTH: usize>(rng: &mut Rng, alphabet: &[u8], known: &[[u8; LENGTH]]) -> [u8; LENGTH] {
    loop {
        let key = rng.array(alphabet);
        if !known.contains(&key) {
            return key;
        }
    }
}

/// The number after or before that of a day, real or not.
fn after(day: Day) -> u32 {
    day.next().map_or(day.number() + 1, Day::number)
}

fn before(day: Day) -> u32 {
    day.previous().map_or(day.number() - 1, Day::number)
}

impl World {
    /// A world of any days, its lists now and then as long as the file of cases allows.
    pub fn make(rng: &mut Rng) -> World {
        let (s, t) = days(rng);
        let mut world = World::around(rng, s, t);
        world.complete(rng);
        world
    }

    /// The same with LEIs for the first days of July 2018, whatever its own days are.
    pub fn make_with_july(rng: &mut Rng) -> World {
        let (s, t) = days(rng);
        let mut world = World::around(rng, s, t);
        world.add_july_leis(rng);
        world.complete(rng);
        world
    }

    /// Adds Poland and frames the lists.
    fn complete(&mut self, rng: &mut Rng) {
        self.add_poland(rng);
        let filled = rng.one_in(8);
        self.lists = self.framed(rng, |rng, _, rows| {
            let width = rows[0].len();
            while filled && 9 + (rows.len() + 2) * width <= LONGEST_LIST {
                // A key that no cell holds.
                rows.push([&b"-"[..], &rng.bytes(width - 1)].concat());
            }
        });
    }

    /// A world of these days, its lists filled up to so many rows. What follows of `rng` does not depend on how many.
    pub fn padded(rng: &mut Rng, s: Day, t: Day, rows_wanted: usize) -> World {
        let mut world = World::around(rng, s, t);
        let mut framing = Rng::new(rng.next());
        world.lists = world.framed(&mut framing, |rng, list, rows| {
            while rows.len() < rows_wanted {
                rows.push(world.row_beside(rng, list));
            }
        });
        world
    }

    /// The rows of the lists, not framed yet.
    fn around(rng: &mut Rng, s: Day, t: Day) -> World {
        let mut world = World {
            s,
            t,
            lei_rows: Vec::new(),
            cty_rows: Vec::new(),
            ccy_rows: Vec::new(),
            ven_rows: Vec::new(),
            ins_rows: Vec::new(),
            wrong: Vec::new(),
            leis: Vec::new(),
            july_leis: Vec::new(),
            countries: Vec::new(),
            currencies: Vec::new(),
            mics: Vec::new(),
            isins: Vec::new(),
            lists: std::array::from_fn(|_| List::from([])),
        };
        world.add_leis(rng);
        world.add_countries(rng);
        world.add_currencies(rng);
        world.add_venues(rng);
        world.add_instruments(rng);
        world
    }

    /// Spans that hold T, the first of them always.
    fn spans_with_t(&self) -> [Span; 5] {
        let t = self.t.number();
        [(EARLY, LATE), (t, t), (EARLY, t), (t, LATE), (0, u32::MAX)]
    }

    /// Spans that do not hold T.
    fn spans_without_t(&self) -> [Span; 5] {
        [(EARLY, before(self.t)), (after(self.t), LATE), (after(self.t), before(self.t)), (LATE, EARLY), (0, 0)]
    }

    fn add_leis(&mut self, rng: &mut Rng) {
        let any = rng.of(&[0, EARLY, LATE]);
        let mut sets = self.lei_sets(rng, any);
        rng.shuffle(&mut sets);
        for set in sets {
            let key = make_lei(rng);
            self.leis.push(key);
            self.add_lei_rows(key, &set);
        }
        for _ in 0..2 {
            let key = self.make_wrong_lei(rng, (1, 1, EARLY, any));
            self.leis.push(key);
        }
    }

    fn add_july_leis(&mut self, rng: &mut Rng) {
        for set in regimes::lei_sets(rng) {
            let key = make_lei(rng);
            self.july_leis.push(key);
            self.add_lei_rows(key, &set);
        }
        for registered in [EARLY, 20180705] {
            let key = self.make_wrong_lei(rng, (1, 1, registered, EARLY));
            self.july_leis.push(key);
        }
    }

    /// An LEI with a good row and wrong check digits.
    fn make_wrong_lei(&mut self, rng: &mut Rng, row: LeiFacts) -> [u8; 20] {
        let mut key = make_lei(rng);
        let place = rng.between(18, 19);
        key[place] = b'0' + (key[place] - b'0' + rng.between(1, 9) as u8) % 10;
        self.wrong.push(key);
        self.add_lei_rows(key, &[row]);
        key
    }

    /// The rows of each LEI.
    fn lei_sets(&self, rng: &mut Rng, any: u32) -> Vec<Vec<LeiFacts>> {
        let (s, t) = (self.s, self.t);
        vec![
            // Good on every day.
            vec![(1, 1, EARLY, any)],
            vec![(1, 1, 0, any)],
            vec![(1, 1, EARLY, 0)],
            vec![(2, 1, EARLY, any)],
            vec![(2, 1, 0, LATE)],
            vec![(3, 1, EARLY, any)],
            vec![(4, 1, EARLY, any)],
            vec![(1, 2, EARLY, LATE)],
            vec![(rng.of(ANY_STATUS), 2, EARLY, u32::MAX)],
            vec![(5, 1, EARLY, any), (1, 1, EARLY, any)],
            vec![(1, 3, EARLY, any), (3, 1, EARLY, any)],
            // At the edge of T.
            vec![(rng.of(ANY_STATUS), 1, t.number(), any)],
            vec![(rng.of(ANY_STATUS), 1, after(t), any)],
            vec![(rng.of(ANY_STATUS), 2, EARLY, t.number())],
            vec![(rng.of(ANY_STATUS), 2, EARLY, before(t))],
            vec![(rng.of(ANY_STATUS), 2, t.number(), t.number())],
            vec![(1, 1, after(t), any), (1, 2, EARLY, before(t))],
            vec![(2, 1, EARLY, any), (1, 1, after(t), any)],
            // At the edge of S.
            vec![(rng.of(ANY_STATUS), 1, s.number(), any)],
            vec![(rng.of(ANY_STATUS), 1, after(s), any)],
            vec![(rng.of(ANY_STATUS), 2, EARLY, s.number())],
            vec![(rng.of(ANY_STATUS), 2, EARLY, before(s))],
            // Other bytes match nothing.
            vec![(rng.of(&[0, 5, 9, 255]), 1, EARLY, any)],
            vec![(1, rng.of(&[0, 3, 255]), EARLY, LATE)],
            // Without a row.
            vec![],
            vec![],
        ]
    }

    fn add_lei_rows(&mut self, key: [u8; 20], rows: &[LeiFacts]) {
        for &(status, entity, registered, updated) in rows {
            self.lei_rows.push(LeiRow { key, status, entity, registered, updated });
        }
    }

    fn add_countries(&mut self, rng: &mut Rng) {
        self.countries = vec![*b"DE", *b"FI", *b"LV", *b"FR", *b"GB"];
        while self.countries.len() < 18 {
            self.countries.push(key_beside(rng, CAPITALS, &self.countries));
        }
        let mut add = |key: [u8; 2], (from, to)| self.cty_rows.push(Row { key, more: [], from, to });
        for key in &self.countries[..5] {
            add(*key, (EARLY, LATE));
        }
        let t = self.t.number();
        let spans = [
            (t, t),
            (EARLY, t),
            (t, LATE),
            (EARLY, before(self.t)),
            (after(self.t), LATE),
            (after(self.t), before(self.t)),
            (LATE, EARLY),
        ];
        for (key, span) in self.countries[5..12].iter().zip(spans) {
            add(*key, span);
        }
        // Two rows: neither holds T; one of them does.
        add(self.countries[12], (EARLY, before(self.t)));
        add(self.countries[12], (after(self.t), LATE));
        add(self.countries[13], (after(self.t), LATE));
        add(self.countries[13], (EARLY, t));
        // The others have no row. Keys that no cell can hold do no harm.
        add(rng.array(b"0aZ "), (EARLY, LATE));
    }

    /// PL is a country on T at least, so that identifiers from there can be good.
    fn add_poland(&mut self, rng: &mut Rng) {
        let key = *b"PL";
        if !self.countries.contains(&key) {
            self.countries.push(key);
        }
        let (from, to) = if rng.one_in(3) { rng.of(&self.spans_with_t()) } else { (EARLY, LATE) };
        self.cty_rows.push(Row { key, more: [], from, to });
    }

    fn add_currencies(&mut self, rng: &mut Rng) {
        self.currencies = vec![*b"EUR", *b"USD", *b"GBP", *b"DEM", *b"FRF", *b"ITL"];
        while self.currencies.len() < 18 {
            let key = key_beside(rng, CAPITALS, &self.currencies);
            if !SPECIAL.contains(&key) {
                self.currencies.push(key);
            }
        }
        let with = self.spans_with_t();
        let without = self.spans_without_t();
        let keys = self.currencies.clone();
        let mut add = |key, kind, (from, to)| self.ccy_rows.push(Row { key, more: [kind], from, to });
        for key in &keys[..3] {
            add(*key, 1, (EARLY, LATE));
        }
        add(keys[3], 2, (19480620, 20011231));
        add(keys[4], 2, without[rng.below(5)]);
        add(keys[5], 2, with[rng.below(5)]);
        for (key, span) in keys[6..].iter().zip([with[1], with[2], with[3], without[0], without[1], without[2]]) {
            add(*key, 1, span);
        }
        add(keys[12], rng.of(&[0, 3, 255]), (EARLY, LATE));
        add(keys[13], 1, without[0]);
        add(keys[13], 2, without[1]);
        add(keys[14], 2, without[0]);
        add(keys[14], 1, with[1]);
        // The others have no row. Special codes have one of either kind, some none.
        for key in SPECIAL {
            if !rng.one_in(4) {
                add(key, rng.between(1, 2) as u8, (EARLY, LATE));
            }
        }
        self.currencies.extend(SPECIAL);
    }

    fn add_venues(&mut self, rng: &mut Rng) {
        self.mics = vec![*b"XXXX", *b"XOFF", *b"XETR", *b"XNYS"];
        while self.mics.len() < 28 {
            self.mics.push(key_beside(rng, CODE, &self.mics));
        }
        let sets = self.venue_sets(rng);
        for (key, set) in self.mics[2..].iter().zip(sets) {
            for (kind, (from, to)) in set {
                self.ven_rows.push(Row { key: *key, more: [kind], from, to });
            }
        }
        // The last keys have no row. Now and then the codes for off-venue trades have one: XXXX as an
        // internaliser at most, so that lines with it can still be clean.
        if rng.one_in(2) {
            let (from, to) = self.spans_with_t()[rng.below(5)];
            self.ven_rows.push(Row { key: *b"XOFF", more: [rng.of(&[1, 1, 2, 3, 3])], from, to });
        }
        if rng.one_in(6) {
            self.ven_rows.push(Row { key: *b"XXXX", more: [2], from: EARLY, to: LATE });
        }
    }

    /// The rows of each venue: kind and span.
    fn venue_sets(&self, rng: &mut Rng) -> Vec<Vec<(u8, Span)>> {
        let with = self.spans_with_t();
        let without = self.spans_without_t();
        vec![
            vec![(1, with[0])],
            vec![(3, with[0])],
            vec![(2, with[0])],
            vec![(1, with[rng.between(1, 4)])],
            vec![(2, with[rng.between(1, 4)])],
            vec![(3, with[rng.between(1, 4)])],
            vec![(1, without[rng.below(5)])],
            vec![(2, without[rng.below(5)])],
            vec![(3, without[rng.below(5)])],
            vec![(1, without[0]), (1, without[1])],
            vec![(rng.of(&[0, 4, 255]), with[0])],
            // More than one kind.
            vec![(1, with[0]), (3, with[1])],
            vec![(2, with[0]), (1, with[1])],
            vec![(3, with[0]), (2, with[2])],
            vec![(2, without[0]), (1, with[3])],
            vec![(3, without[0]), (2, with[3])],
            vec![(1, without[0]), (3, with[3])],
            vec![(1, with[2]), (2, without[1])],
            vec![(3, with[2]), (4, with[0])],
        ]
    }

    fn add_instruments(&mut self, rng: &mut Rng) {
        let with = self.spans_with_t();
        let without = self.spans_without_t();
        let mut sets: Vec<Vec<([u8; 6], Span)>> = Vec::new();
        for cfi in [b"ESVUFR", b"EPNRFR", b"CIOGES", b"RWSTCA", b"OCASPS", b"FFSPSX", b"SRCCSP"] {
            sets.push(vec![(*cfi, with[rng.below(5)])]);
        }
        for start in [b"DB", b"DC", b"DT", b"DN", b"DB", b"DD", b"DE", b"DY", b"DA"] {
            let mut cfi = rng.array(CAPITALS);
            cfi[..2].copy_from_slice(start);
            sets.push(vec![(cfi, with[rng.below(5)])]);
        }
        for start in [b"DB", b"DC", b"DT", b"DN"] {
            let mut cfi = rng.array(CAPITALS);
            cfi[..2].copy_from_slice(start);
            sets.push(vec![(cfi, without[rng.below(5)])]);
        }
        sets.push(vec![(*b"ESVUFR", with[0]), (*b"DBFTFB", with[1])]);
        sets.push(vec![(*b"DTFTFB", with[2]), (*b"EPNRFR", with[0]), (*b"RWSTCA", with[3])]);
        sets.push(vec![(*b"DBFTFB", without[0]), (*b"DEFTFB", with[1])]);
        sets.push(vec![(*b"ESVUFR", with[0]), (*b"DBFTFB", without[1])]);
        sets.push(vec![(*b"ESVUFR", without[0]), (*b"DTFTFB", without[1])]);
        // Bytes that are no capitals match no pattern.
        for cfi in [b"DBFTF*", b"D*****", b"dBFTFB", b"DB12FB", b"DBFTF\0", b"DBFTF ", b"\xc4BFTFB"] {
            sets.push(vec![(*cfi, with[0])]);
        }
        sets.push(vec![]);
        sets.push(vec![]);
        sets.push(vec![]);
        for set in sets {
            let key = make_isin(rng);
            self.isins.push(key);
            for (cfi, (from, to)) in set {
                self.ins_rows.push(Row { key, more: cfi, from, to });
            }
        }
    }

    /// The five lists: the rows in any order, a few of them twice, among those that `fill` adds.
    fn framed(&self, rng: &mut Rng, fill: impl Fn(&mut Rng, usize, &mut Vec<Vec<u8>>)) -> [List; LISTS] {
        let rows: [Vec<Vec<u8>>; LISTS] = [
            self.lei_rows.iter().map(LeiRow::bytes).collect(),
            self.cty_rows.iter().map(Row::bytes).collect(),
            self.ccy_rows.iter().map(Row::bytes).collect(),
            self.ven_rows.iter().map(Row::bytes).collect(),
            self.ins_rows.iter().map(Row::bytes).collect(),
        ];
        let mut numbered = rows.into_iter().enumerate();
        MARKS.map(|mark| {
            let (list, mut rows) = numbered.next().expect("as many marks as lists");
            for _ in 0..rng.below(3) {
                rows.push(rows[rng.below(rows.len())].clone());
            }
            fill(rng, list, &mut rows);
            rng.shuffle(&mut rows);
            let count = (rows.len() as u32).to_le_bytes();
            [mark.as_bytes(), &1u16.to_le_bytes(), &count, &rows.concat()].concat().into()
        })
    }

    /// A row as the list might have many, under a key that no line asks for.
    fn row_beside(&self, rng: &mut Rng, list: usize) -> Vec<u8> {
        let (from, to) = rng.of(&[(EARLY, LATE), (20180103, LATE), (EARLY, 20241231)]);
        match list {
            0 => {
                let (status, registered) = (rng.of(ANY_STATUS), rng.of(&[20121015, 20180103]));
                LeiRow { key: make_lei(rng), status, entity: 1, registered, updated: 20250101 }.bytes()
            }
            1 => Row { key: key_beside(rng, CAPITALS, &self.countries), more: [], from, to }.bytes(),
            2 => Row { key: key_beside(rng, CAPITALS, &self.currencies), more: [1], from, to }.bytes(),
            3 => {
                let kind = rng.between(1, 3) as u8;
                Row { key: key_beside(rng, CODE, &self.mics), more: [kind], from, to }.bytes()
            }
            _ => Row { key: make_isin(rng), more: any_class(rng), from, to }.bytes(),
        }
    }

    /// Adds entities to the list that are good on every day, or would be if their check digits were right.
    pub fn add_firms(&mut self, rng: &mut Rng, firms: &[[u8; 20]], right: bool) {
        let mut list = self.lists[0].to_vec();
        for &key in firms {
            let status = rng.of(&[1, 1, 1, 3, 4, 2]);
            let row = LeiRow { key, status, entity: 1, registered: EARLY, updated: EARLY };
            list.extend(row.bytes());
            self.lei_rows.push(row);
        }
        let rows = ((list.len() - 9) / 30) as u32;
        list[5..9].copy_from_slice(&rows.to_le_bytes());
        self.lists[0] = list.into();
        self.leis.extend(firms);
        if !right {
            self.wrong.extend(firms);
        }
    }

    pub fn lei_good(&self, lei: &[u8; 20], day: Day, statuses: &[u8]) -> bool {
        self.lei_serves(lei, day, statuses, day.number())
    }

    /// Is it good for a buyer, a seller or one who decides for them? For trades before that first day they may have been
    /// registered at any time, be it afterwards.
    pub fn party_good(&self, lei: &[u8; 20], t: Day) -> bool {
        let registered_by = if t.number() < FIRST_OF_REGISTERED { u32::MAX } else { t.number() };
        self.lei_serves(lei, t, ANY_STATUS, registered_by)
    }

    fn lei_serves(&self, lei: &[u8; 20], day: Day, statuses: &[u8], registered_by: u32) -> bool {
        !self.wrong.contains(lei)
            && self.lei_rows.iter().any(|row| {
                row.key == *lei
                    && statuses.contains(&row.status)
                    && row.registered <= registered_by
                    && (row.entity == 1 || (row.entity == 2 && row.updated >= day.number()))
            })
    }

    /// The LEIs for July 2018 that have such a row.
    pub fn july_leis_where(&self, condition: impl Fn(&LeiRow) -> bool) -> Vec<[u8; 20]> {
        let rows = self.lei_rows.iter().filter(|row| self.july_leis.contains(&row.key) && condition(row));
        rows.map(|row| row.key).collect()
    }

    pub fn country_good(&self, country: &[u8; 2], day: Day) -> bool {
        self.cty_rows.iter().any(|row| row.key == *country && row.on(day))
    }

    pub fn currency_good(&self, currency: &[u8; 3], day: Day, pre_euro_too: bool) -> bool {
        !SPECIAL.contains(currency)
            && self.ccy_rows.iter().filter(|row| row.key == *currency).any(|row| match row.more {
                [1] => row.on(day),
                [2] => pre_euro_too,
                _ => false,
            })
    }

    pub fn venue(&self, mic: [u8; 4], day: Day) -> Venue {
        let is = |kind| self.ven_rows.iter().any(|row| row.key == mic && row.more == [kind] && row.on(day));
        Venue { mic, off: [*b"XXXX", *b"XOFF"].contains(&mic), eea: is(1), internaliser: is(2), outside: is(3) }
    }

    pub fn venues(&self, day: Day) -> Vec<Venue> {
        self.mics.iter().map(|mic| self.venue(*mic, day)).collect()
    }

    pub fn instrument_listed(&self, isin: &[u8; 12], day: Day) -> bool {
        self.ins_rows.iter().any(|row| row.key == *isin && row.on(day))
    }

    fn listed_as(&self, isin: &[u8; 12], day: Day, starts: &[&str]) -> bool {
        self.ins_rows.iter().any(|row| {
            row.key == *isin
                && row.on(day)
                && row.more.iter().all(|letter| CAPITALS.contains(letter))
                && starts.iter().any(|start| row.more.starts_with(start.as_bytes()))
        })
    }

    pub fn listed_debt(&self, isin: &[u8; 12], day: Day) -> bool {
        self.listed_as(isin, day, &["D"])
    }

    pub fn listed_bond(&self, isin: &[u8; 12], day: Day) -> bool {
        self.listed_as(isin, day, &["DB", "DC", "DT", "DN"])
    }
}

/// The first trading day that is not too early for a submission day: the same day five years before or, where that
/// year has none, the day before it; but none before the first of all.
pub fn oldest(s: Day) -> Day {
    let first = Day::new(FIRST).expect("a real day");
    let same = s.number() - 5 * 10_000;
    Day::new(same).or_else(|| Day::new(same - 1)).unwrap_or(first).max(first)
}

/// A submission day and a trading day for which lines can be clean.
fn days(rng: &mut Rng) -> (Day, Day) {
    const SPECIAL_DAYS: [u32; 11] =
        [20180104, 20180703, 20200229, 20200301, 20230102, 20230103, 20230104, 20240322, 20250322, 20991231, 99991231];
    let s = if rng.one_in(3) {
        Day::new(rng.of(&SPECIAL_DAYS)).expect("real days")
    } else if rng.one_in(4) {
        Day::new(rng.of(&ENDS_OF_FEBRUARY)).expect("real days")
    } else {
        loop {
            let number = rng.between(2018, 2030) * 10_000 + rng.between(1, 12) * 100 + rng.between(1, 31);
            match Day::new(number as u32) {
                Some(day) if day.number() > FIRST => break day,
                _ => {}
            }
        }
    };
    let oldest = oldest(s);
    let t = if rng.one_in(3) {
        let later = rng.below(3);
        days_after(oldest, later)
    } else {
        let earlier = rng.of(&[0, 1, 2, 7, 30, 365, 1000]);
        days_before(s, earlier)
    };
    (s, t.clamp(oldest, s))
}
