//! The five lists, as hash maps from key to rows.

use std::collections::HashMap;
use std::hash::Hash;

use super::calendar::Day;
use super::cfi::Cfi;
use super::{Isin, Lei, Mic, Refusal};

/// The head of a list or register: a three-letter mark, a 16-bit version, a 32-bit count. Hands back the version, the
/// count and what follows.
pub(super) fn head<'a>(bytes: &'a [u8], mark: &[u8; 3]) -> Option<(u16, u32, &'a [u8])> {
    let (&[m1, m2, m3, v1, v2, c1, c2, c3, c4], rest) = bytes.split_first_chunk()?;
    let ours = [m1, m2, m3] == *mark;
    ours.then_some((u16::from_le_bytes([v1, v2]), u32::from_le_bytes([c1, c2, c3, c4]), rest))
}

/// The rows of a list, if it is well framed.
fn rows<'a, const WIDTH: usize>(list: &'a [u8], mark: &[u8; 3]) -> Option<&'a [[u8; WIDTH]]> {
    let (1, count, rest) = head(list, mark)? else { return None };
    let (rows, left) = rest.as_chunks();
    (left.is_empty() && rows.len() as u64 == u64::from(count)).then_some(rows)
}

/// The part of a row that starts at `at`.
fn part<const LENGTH: usize>(row: &[u8], at: usize) -> [u8; LENGTH] {
    row[at..at + LENGTH].try_into().expect("a part of the length asked for")
}

fn number(row: &[u8], at: usize) -> u32 {
    u32::from_le_bytes(part(row, at))
}

/// From one day to another, both included. The days are compared as numbers, real or not.
#[derive(Clone, Copy, Debug)]
struct Span {
    from: u32,
    to: u32,
}

impl Span {
    fn at(row: &[u8], at: usize) -> Span {
        Span { from: number(row, at), to: number(row, at + 4) }
    }

    fn holds(self, day: Day) -> bool {
        (self.from..=self.to).contains(&day.number())
    }
}

#[derive(Clone, Copy, Debug)]
struct LeiRow {
    lapsed: bool,
    active: bool,
    registered: u32,
    updated: u32,
}

/// What is asked of a row for an LEI, beside being active or updated no earlier than the day.
#[derive(Clone, Copy, Debug, PartialEq, Eq)]
pub enum LeiTerms {
    /// Registered by the day, and not lapsed.
    NotLapsed,
    /// Registered by the day.
    Registered,
    /// Registered on any day, a later one too.
    AnyRegistration,
}

impl LeiRow {
    fn meets(&self, terms: LeiTerms, day: u32) -> bool {
        let registered = self.registered <= day;
        let as_asked = match terms {
            LeiTerms::NotLapsed => registered && !self.lapsed,
            LeiTerms::Registered => registered,
            LeiTerms::AnyRegistration => true,
        };
        as_asked && (self.active || self.updated >= day)
    }
}

#[derive(Clone, Copy, Debug)]
struct CurrencyRow {
    pre_euro: bool,
    days: Span,
}

/// What a venue is on some day; more than one may hold.
#[derive(Clone, Copy, Debug, Default, PartialEq, Eq)]
pub struct VenueKinds {
    pub eea: bool,
    pub internaliser: bool,
    pub outside: bool,
}

impl VenueKinds {
    pub fn any(self) -> bool {
        self.eea || self.internaliser || self.outside
    }
}

#[derive(Clone, Copy, Debug)]
struct VenueRow {
    kind: u8,
    days: Span,
}

#[derive(Clone, Copy, Debug)]
struct InstrumentRow {
    cfi: [u8; 6],
    days: Span,
}

type Map<const KEY: usize, Row> = HashMap<[u8; KEY], Vec<Row>>;

/// Groups rows under their keys. Rows that can match nothing are given as `None` and left out.
fn group<Key: Hash + Eq, Row>(rows: impl ExactSizeIterator<Item = Option<(Key, Row)>>) -> HashMap<Key, Vec<Row>> {
    let mut map: HashMap<Key, Vec<Row>> = HashMap::with_capacity(rows.len());
    for (key, row) in rows.flatten() {
        map.entry(key).or_default().push(row);
    }
    map
}

/// The five lists.
#[derive(Debug)]
pub struct Lists {
    leis: Map<20, LeiRow>,
    countries: Map<2, Span>,
    currencies: Map<3, CurrencyRow>,
    venues: Map<4, VenueRow>,
    instruments: Map<12, InstrumentRow>,
}

impl Lists {
    /// Reads the lists, or gives the first of the refusals 1 to 5 that applies.
    pub fn read(lei: &[u8], cty: &[u8], ccy: &[u8], ven: &[u8], ins: &[u8]) -> Result<Lists, Refusal> {
        let lei = rows::<30>(lei, b"LEI").ok_or(Refusal::LeiList)?;
        let cty = rows::<10>(cty, b"CTY").ok_or(Refusal::CountryList)?;
        let ccy = rows::<12>(ccy, b"CCY").ok_or(Refusal::CurrencyList)?;
        let ven = rows::<13>(ven, b"VEN").ok_or(Refusal::VenueList)?;
        let ins = rows::<26>(ins, b"INS").ok_or(Refusal::InstrumentList)?;
        Ok(Lists {
            leis: group(lei.iter().map(|row| {
                let (status, entity) = (row[20], row[21]);
                let means_something = (1..=4).contains(&status) && (1..=2).contains(&entity);
                means_something.then(|| {
                    let (registered, updated) = (number(row, 22), number(row, 26));
                    (part(row, 0), LeiRow { lapsed: status == 2, active: entity == 1, registered, updated })
                })
            })),
            countries: group(cty.iter().map(|row| Some((part(row, 0), Span::at(row, 2))))),
            currencies: group(ccy.iter().map(|row| {
                let kind = row[3];
                (1..=2)
                    .contains(&kind)
                    .then(|| (part(row, 0), CurrencyRow { pre_euro: kind == 2, days: Span::at(row, 4) }))
            })),
            venues: group(ven.iter().map(|row| {
                let kind = row[4];
                (1..=3).contains(&kind).then(|| (part(row, 0), VenueRow { kind, days: Span::at(row, 5) }))
            })),
            instruments: group(
                ins.iter()
                    .map(|row| Some((part(row, 0), InstrumentRow { cfi: part(row, 12), days: Span::at(row, 18) }))),
            ),
        })
    }

    /// Does some row show this LEI as active, or as updated no earlier than the day, and meet the terms?
    pub fn lei_known(&self, lei: &Lei, day: Day, terms: LeiTerms) -> bool {
        self.leis.get(lei).is_some_and(|rows| rows.iter().any(|row| row.meets(terms, day.number())))
    }

    /// Is this a country on the day?
    pub fn country_on(&self, country: &[u8; 2], day: Day) -> bool {
        self.countries.get(country).is_some_and(|rows| rows.iter().any(|row| row.holds(day)))
    }

    /// Is this currency current on the day?
    pub fn currency_on(&self, currency: &[u8; 3], day: Day) -> bool {
        self.currencies.get(currency).is_some_and(|rows| rows.iter().any(|row| !row.pre_euro && row.days.holds(day)))
    }

    /// Is this a currency from before the euro? The days of the row are of no account.
    pub fn pre_euro(&self, currency: &[u8; 3]) -> bool {
        self.currencies.get(currency).is_some_and(|rows| rows.iter().any(|row| row.pre_euro))
    }

    /// What kinds of venue this is on the day.
    pub fn venue_on(&self, mic: &Mic, day: Day) -> VenueKinds {
        let mut kinds = VenueKinds::default();
        for row in self.venues.get(mic).into_iter().flatten().filter(|row| row.days.holds(day)) {
            match row.kind {
                1 => kinds.eea = true,
                2 => kinds.internaliser = true,
                _ => kinds.outside = true,
            }
        }
        kinds
    }

    /// The classifications of this instrument's rows on the day, as far as they are six capitals.
    pub fn cfis_on<'a>(&'a self, isin: &Isin, day: Day) -> impl Iterator<Item = Cfi<'a>> + 'a {
        self.instrument_rows(isin, day).filter_map(|row| Cfi::read(&row.cfi))
    }

    /// Has this instrument a row on the day?
    pub fn instrument_on(&self, isin: &Isin, day: Day) -> bool {
        self.instrument_rows(isin, day).next().is_some()
    }

    fn instrument_rows<'a>(&'a self, isin: &Isin, day: Day) -> impl Iterator<Item = &'a InstrumentRow> + 'a {
        self.instruments.get(isin).into_iter().flatten().filter(move |row| row.days.holds(day))
    }
}
