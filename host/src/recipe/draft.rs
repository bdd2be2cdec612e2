//! Lines in the making, and clean ones to start from.

use crate::codes;
use crate::file::{Case, FILLER};
use crate::reference::{Day, MICROS};

use super::classes::{any_class, needs, Need, Needs};
use super::polish;
use super::rng::{Rng, ALPHANUMERIC, CAPITALS, CODE};
use super::underlying::{self, Kind, Size};
use super::values;
use super::world::{oldest, Venue, World, ANY_STATUS, EARLY, LATE, NOT_LAPSED};

/// A call in the making: the cells of its line, its moment and how the register is to know the pair.
#[derive(Clone)]
pub struct Draft {
    cells: Vec<Vec<u8>>,
    /// The cells that were made malformed on purpose.
    malformed: Vec<usize>,
    pub t: Day,
    pub s: Day,
    pub micro: u64,
    /// 0 where the call does not ask for Polish identifiers.
    pub polish: u32,
    /// The states of the pair's own rows, in order; none where it is not in the register.
    pub states: Vec<u8>,
    /// The register has no room for another row.
    pub full: bool,
}

impl Draft {
    pub fn get(&self, cell: usize) -> &[u8] {
        &self.cells[cell - 1]
    }

    pub fn set(&mut self, cell: usize, value: impl AsRef<[u8]>) {
        self.malformed.retain(|malformed| *malformed != cell);
        self.cells[cell - 1] = value.as_ref().to_vec();
    }

    pub fn blank(&mut self, cell: usize) {
        self.set(cell, "");
    }

    /// Sets a cell to what is malformed.
    pub fn spoil(&mut self, cell: usize, value: impl AsRef<[u8]>) {
        self.set(cell, value);
        self.malformed.push(cell);
    }

    fn is_spoilt(&self, cell: usize) -> bool {
        self.malformed.contains(&cell)
    }

    /// Makes someone with an LEI a party, without names and a date of birth.
    pub fn set_party_lei(&mut self, (cell, names, birth_cell): PartyCells, lei: &[u8; 20]) {
        for cell in [names[0], names[1], birth_cell] {
            self.blank(cell);
        }
        self.set(cell, [b"LEI:", &lei[..]].concat());
    }

    /// Is it a swap by its classification?
    pub fn is_swap(&self) -> bool {
        self.get(43).starts_with(b"S")
    }

    pub fn is_blank(&self, cell: usize) -> bool {
        self.get(cell).is_empty()
    }

    /// The line.
    pub fn line(&self) -> Vec<u8> {
        self.cells.join(&b'|')
    }

    /// The 73 bytes of the pair, if its cells have lengths for it.
    pub fn pair(&self) -> Option<[u8; 73]> {
        let (entity, reference) = (self.get(4), self.get(2));
        if entity.len() != 20 || reference.len() > 52 {
            return None;
        }
        let mut pair = [0; 73];
        pair[..20].copy_from_slice(entity);
        pair[20] = reference.len() as u8;
        pair[21..21 + reference.len()].copy_from_slice(reference);
        Some(pair)
    }
}

/// What a clean line shall be like; anything where nothing is said.
#[derive(Clone, Default)]
pub struct Want {
    pub t: Option<Day>,
    pub s: Option<Day>,
    pub micro: Option<u64>,
    /// The microsecond of cell 28.
    pub time: Option<u64>,
    pub capacity: Option<&'static [u8]>,
    pub entity: Option<[u8; 20]>,
    pub firm: Option<bool>,
    pub submitter: Option<[u8; 20]>,
    pub venue: Option<fn(&Venue) -> bool>,
    pub instrument: Option<Instrument>,
}

/// How the instrument is given.
#[derive(Clone, Copy, PartialEq, Eq)]
pub enum Instrument {
    /// By cell 41 in the list, cell 43 blank.
    Listed([u8; 12]),
    /// By this classification; cell 41 is blank or not in the list on T.
    Class([u8; 6]),
    /// By neither.
    Nothing,
}

pub const NO_DEAL: &[&[u8]] = &[b"AOTC", b"MTCH"];

/// yyyy-mm-dd.
pub fn date(day: Day) -> String {
    let number = day.number();
    format!("{:04}-{:02}-{:02}", number / 10_000, number / 100 % 100, number % 100)
}

/// A day between two others, both included.
pub fn day_between(rng: &mut Rng, low: Day, high: Day) -> Day {
    for _ in 0..20 {
        let year = rng.between(low.number() as usize / 10_000, high.number() as usize / 10_000);
        let number = year * 10_000 + rng.between(1, 12) * 100 + rng.between(1, 31);
        match Day::new(number as u32) {
            Some(day) if low <= day && day <= high => return day,
            _ => {}
        }
    }
    if rng.one_in(2) {
        low
    } else {
        high
    }
}

pub fn earliest() -> Day {
    Day::new(EARLY).expect("a real day")
}

pub fn latest() -> Day {
    Day::new(LATE).expect("a real day")
}

/// So many days before, or the first day of all.
pub fn days_before(day: Day, count: usize) -> Day {
    (0..count).fold(day, |day, _| day.previous().unwrap_or(day))
}

/// So many days after, or the last day of all.
pub fn days_after(day: Day, count: usize) -> Day {
    (0..count).fold(day, |day, _| day.next().unwrap_or(day))
}

/// Cell 28 for a day and a microsecond of it. Whole seconds may go without a fraction, and zeros at its end
/// may be left out.
pub fn timestamp(rng: &mut Rng, day: Day, micro: u64) -> String {
    let (second, rest) = (micro / 1_000_000, micro % 1_000_000);
    let mut fraction = format!("{rest:06}");
    while fraction.len() > 1 && fraction.ends_with('0') && !rng.one_in(3) {
        fraction.pop();
    }
    let fraction = if rest == 0 && !rng.one_in(3) { String::new() } else { format!(".{fraction}") };
    format!("{}T{:02}:{:02}:{:02}{fraction}Z", date(day), second / 3600, second / 60 % 60, second % 60)
}

/// Names as they occur.
const NAMES: &[&str] =
    &["ANNA", "Jürgen", "Zoë", "O'NEILL", "Łukasz", "Αλέξης", "山田", "MUELLER", "de la Cruz", "Smith-Jones", "😀"];

/// A party cell with the cells that go with it: first name, surname, date of birth.
type PartyCells = (usize, [usize; 2], usize);

/// Buyer, seller and those who decide for them.
pub const PARTIES: [PartyCells; 4] = [(7, [9, 10], 11), (12, [13, 14], 15), (16, [18, 19], 20), (21, [22, 23], 24)];

/// Makes drafts within one world.
pub struct Maker {
    pub rng: Rng,
    pub world: World,
    /// Are there calls that ask for Polish identifiers, and more of these than happen to be?
    pub polish: bool,
}

impl Maker {
    pub fn lei_where(&mut self, condition: impl Fn(&World, &[u8; 20]) -> bool) -> [u8; 20] {
        let world = &self.world;
        self.rng.of_those(&world.leis, |lei| condition(world, lei)).expect("such an LEI")
    }

    pub fn good_lei(&mut self, day: Day, statuses: &[u8]) -> [u8; 20] {
        self.lei_where(|world, lei| world.lei_good(lei, day, statuses))
    }

    pub fn bad_lei(&mut self, day: Day, statuses: &[u8]) -> [u8; 20] {
        self.lei_where(|world, lei| !world.lei_good(lei, day, statuses))
    }

    /// An LEI that is good, or not, for a party in a trade of the day.
    pub fn party_lei(&mut self, t: Day, good: bool) -> [u8; 20] {
        self.lei_where(|world, lei| world.party_good(lei, t) == good)
    }

    pub fn country(&mut self, day: Day, good: bool) -> [u8; 2] {
        let world = &self.world;
        self.rng.of_those(&world.countries, |key| world.country_good(key, day) == good).expect("such a country")
    }

    pub fn currency(&mut self, day: Day, good: bool, pre_euro_too: bool) -> [u8; 3] {
        let world = &self.world;
        self.rng
            .of_those(&world.currencies, |key| world.currency_good(key, day, pre_euro_too) == good)
            .expect("such a currency")
    }

    pub fn venue(&mut self, day: Day, condition: impl Fn(&Venue) -> bool) -> Option<Venue> {
        let venues = self.world.venues(day);
        self.rng.of_those(&venues, condition)
    }

    pub fn isin_where(&mut self, condition: impl Fn(&World, &[u8; 12]) -> bool) -> [u8; 12] {
        let world = &self.world;
        self.rng.of_those(&world.isins, |isin| condition(world, isin)).expect("such an ISIN")
    }

    /// A clean new line.
    pub fn clean(&mut self, want: Want) -> Draft {
        let mut draft = self.begun(&want);
        let (t, s) = (draft.t, draft.s);
        let rng = &mut self.rng;
        let capacity = want.capacity.unwrap_or_else(|| rng.of(&[&b"AOTC"[..], b"AOTC", b"MTCH", b"DEAL"]));
        draft.set(29, capacity);
        let firm = want.firm.unwrap_or_else(|| !rng.one_in(3));
        draft.set(5, if firm { "TRUE" } else { "FALSE" });
        let entity = want.entity.unwrap_or_else(|| self.good_lei(t, if firm { NOT_LAPSED } else { ANY_STATUS }));
        draft.set(4, entity);
        let submitter = want.submitter.unwrap_or_else(|| self.good_lei(s, ANY_STATUS));
        draft.set(6, submitter);

        let venue = self.set_venue(&mut draft, want.venue);
        self.set_parties(&mut draft, &entity);
        let transmitted = capacity == b"AOTC" && venue.off && self.rng.one_in(2);
        draft.set(25, if transmitted { "TRUE" } else { "FALSE" });
        self.set_decision(&mut draft);
        self.set_instrument(&mut draft, &venue, want.instrument);
        self.set_rest(&mut draft);
        draft
    }

    /// Cells 1, 2 and 28, and when the line is submitted.
    fn begun(&mut self, want: &Want) -> Draft {
        let s = want.s.unwrap_or(self.world.s);
        let rng = &mut self.rng;
        let t = want.t.unwrap_or_else(|| if rng.one_in(5) { day_between(rng, oldest(s), s) } else { self.world.t });
        let mut micro = want.micro.unwrap_or_else(|| {
            let any = rng.next() % MICROS;
            rng.of(&[0, 1, 43_200_000_000, MICROS - 1, any, any, any])
        });
        let time = want.time.unwrap_or_else(|| {
            if t < s {
                let any = rng.next() % MICROS;
                rng.of(&[0, MICROS - 1, any, any / 1_000_000 * 1_000_000])
            } else {
                micro = micro.max(1);
                rng.next() % micro
            }
        });
        let polish = if self.polish { polish::flag(rng) } else { 0 };
        let cells = vec![Vec::new(); 65];
        let mut draft = Draft { cells, malformed: Vec::new(), t, s, micro, polish, states: Vec::new(), full: false };
        draft.set(1, "NEW");
        let length = rng.of(&[1, 8, 8, 20, 35, 51, 52]);
        draft.set(2, rng.text(CODE, length));
        draft.set(28, timestamp(rng, t, time));
        // A cancelled pair may be reported again.
        if rng.one_in(4) {
            draft.states = rng.of(&[&[2][..], &[0], &[2, 2], &[2, 1], &[255]]).to_vec();
        }
        draft
    }

    fn set_venue(&mut self, draft: &mut Draft, wanted: Option<fn(&Venue) -> bool>) -> Venue {
        let t = draft.t;
        let venue =
            self.venue(t, |venue| venue.usable() && wanted.is_none_or(|wanted| wanted(venue))).expect("such a venue");
        draft.set(36, venue.mic);
        if venue.wants_country() || (!venue.bars_country() && self.rng.one_in(2)) {
            let country = self.country(t, true);
            draft.set(37, country);
        }
        if !venue.bars_code() && self.rng.one_in(2) {
            let code = self.rng.text(CODE, 12);
            draft.set(3, code);
        }
        venue
    }

    /// Fills a party cell with someone good and a fitting date of birth.
    pub fn set_party(&mut self, draft: &mut Draft, cell: usize) {
        let t = draft.t;
        let (_, names, birth_cell) = PARTIES[PARTIES.iter().position(|party| party.0 == cell).expect("a party cell")];
        for cell in [names[0], names[1], birth_cell] {
            draft.blank(cell);
        }
        let kinds: &[&str] = if cell == 7 || cell == 16 {
            &["LEI:", "LEI:", "MIC:", "INTC", "CCPT:", "NIDN:", "CONCAT:", "CONCAT:"]
        } else {
            &["LEI:", "CCPT:", "NIDN:", "CONCAT:"]
        };
        let kind = self.rng.of(kinds);
        let rest = match kind {
            "LEI:" => self.party_lei(t, true).to_vec(),
            "MIC:" => self.venue(t, |venue| !venue.off && venue.wants_country()).expect("a venue").mic.to_vec(),
            "INTC" => Vec::new(),
            _ => self.set_person(draft, kind, names, birth_cell),
        };
        draft.set(cell, [kind.as_bytes(), &rest].concat());
    }

    fn set_person(&mut self, draft: &mut Draft, scheme: &str, names: [usize; 2], birth_cell: usize) -> Vec<u8> {
        let country = self.country(draft.t, true);
        let rng = &mut self.rng;
        let birth = day_between(rng, earliest(), draft.t);
        let mut identifier = values::well_shaped(rng, scheme, &country);
        if scheme == "CONCAT:" {
            identifier[2..10].copy_from_slice(birth.number().to_string().as_bytes());
        }
        if !rng.one_in(4) {
            draft.set(birth_cell, date(birth));
        }
        for cell in names {
            if !rng.one_in(4) {
                draft.set(cell, rng.of(NAMES));
            }
        }
        let known = (!draft.is_blank(birth_cell)).then_some(birth);
        let may_become = self.poland_listed(draft.t);
        self.with_right_number(scheme, identifier, known, may_become)
    }

    fn set_parties(&mut self, draft: &mut Draft, entity: &[u8; 20]) {
        let t = draft.t;
        self.set_party(draft, 7);
        self.set_party(draft, 16);
        if draft.get(29) == b"DEAL" {
            draft.set_party_lei(PARTIES[self.rng.of(&[0, 2])], entity);
        }
        for cell in [12, 21] {
            if self.rng.one_in(4) {
                self.set_party(draft, cell);
            }
        }
        for cell in [8, 17] {
            if self.rng.one_in(3) {
                let country = self.country(t, true);
                draft.set(cell, country);
            }
        }
    }

    /// Cells 26, 27, 57 and 59.
    fn set_decision(&mut self, draft: &mut Draft) {
        for cell in [26, 27] {
            if self.rng.one_in(5) {
                let lei = self.good_lei(draft.t, ANY_STATUS);
                draft.set(cell, lei);
            }
        }
        let needed = draft.get(29) == b"DEAL" && draft.is_blank(26) && draft.is_blank(27);
        if needed || self.rng.one_in(4) {
            let decision = self.decision();
            draft.set(57, decision);
        }
        let execution = if self.rng.one_in(3) { b"NORE".to_vec() } else { self.decision() };
        draft.set(59, execution);
    }

    /// A person or an algorithm, well formed for 57 and 59. No list is asked about them.
    pub fn decision(&mut self) -> Vec<u8> {
        let rng = &mut self.rng;
        if rng.one_in(3) {
            let length = rng.of(&[1, 6, 50]);
            return [b"ALGO:", &rng.text(ALPHANUMERIC, length)[..]].concat();
        }
        let scheme = values::scheme(rng);
        let country = if rng.one_in(3) { rng.of(&[*b"FI", *b"LV"]) } else { rng.array(CAPITALS) };
        let identifier = values::well_shaped(rng, scheme, &country);
        [scheme.as_bytes(), &self.with_right_number(scheme, identifier, None, true)].concat()
    }

    /// An ISIN that the list does not have on T.
    pub fn unlisted(&mut self, t: Day) -> [u8; 12] {
        self.isin_where(|world, isin| !world.instrument_listed(isin, t))
    }

    fn set_instrument(&mut self, draft: &mut Draft, venue: &Venue, wanted: Option<Instrument>) {
        let t = draft.t;
        let no_list = venue.mic == *b"XXXX";
        let instrument = wanted.unwrap_or_else(|| match self.rng.below(8) {
            0 => Instrument::Nothing,
            1..=3 if !no_list => Instrument::Listed(self.isin_where(|world, isin| world.instrument_listed(isin, t))),
            _ => Instrument::Class(any_class(&mut self.rng)),
        });
        if let Instrument::Listed(isin) = instrument {
            draft.set(41, isin);
        } else if self.rng.one_in(2) {
            let isin = self.unlisted(t);
            draft.set(41, isin);
        }
        match instrument {
            Instrument::Class(class) => self.set_class(draft, class),
            _ => self.set_amounts(draft, None),
        }
        if let Instrument::Listed(isin) = instrument {
            // Now and then a classification stands beside the ISIN.
            if wanted.is_none() && self.rng.one_in(4) {
                let class = any_class(&mut self.rng);
                self.set_class(draft, class);
            }
            self.suit_listed(draft, &isin);
        }
    }

    /// Quantity, price and net amount that suit what the list says of an ISIN.
    pub fn suit_listed(&mut self, draft: &mut Draft, isin: &[u8; 12]) {
        let t = draft.t;
        if self.world.listed_debt(isin, t) && draft.get(30).starts_with(b"UNT:") && draft.get(33).starts_with(b"PC:") {
            let price = self.price(false);
            draft.set(33, price);
        }
        if self.world.listed_bond(isin, t) && draft.is_blank(35) {
            draft.set(35, "98765.43");
        }
    }

    pub fn number(&mut self) -> String {
        let rng = &mut self.rng;
        match rng.below(4) {
            0 => rng.between(1, 1_000_000).to_string(),
            1 => format!("{}.{:02}", rng.between(1, 10_000), rng.below(100)),
            2 => format!("{}.", rng.between(1, 99)),
            _ => format!("0.{}", rng.between(1, 999)),
        }
    }

    /// A price; in per cent or not in per cent.
    pub fn price(&mut self, percent: bool) -> String {
        let number = self.number();
        if percent {
            return format!("PC:{number}");
        }
        match self.rng.below(8) {
            0 => "PNDG".to_string(),
            1 => "NOAP".to_string(),
            2 => format!("YLD:{number}"),
            3 => format!("BP:{number}"),
            4 => format!("MV:-{number}"),
            5 => format!("MV:+{number}"),
            _ => format!("MV:{number}"),
        }
    }

    /// A quantity; in units or not.
    pub fn quantity(&mut self, units: bool) -> String {
        let number = self.number();
        match (units, self.rng.one_in(2)) {
            (true, _) => format!("UNT:{number}"),
            (false, true) => format!("NOM:{number}"),
            (false, false) => format!("MON:{number}"),
        }
    }

    /// Cells 30, 33, 35 and 38.
    fn set_amounts(&mut self, draft: &mut Draft, needs: Option<&Needs>) {
        let units = self.rng.one_in(2);
        let percent = !(units && needs.is_some_and(|needs| needs.debt)) && self.rng.one_in(3);
        let (quantity, price) = (self.quantity(units), self.price(percent));
        draft.set(30, quantity);
        draft.set(33, price);
        let must = |need: fn(&Needs) -> Need| needs.is_some_and(|needs| need(needs) == Need::Must);
        if must(|needs| needs.net_amount) || self.rng.one_in(3) {
            let number = self.number();
            draft.set(35, number);
        }
        if must(|needs| needs.up_front) || self.rng.one_in(4) {
            let number = self.number();
            draft.set(38, format!("{}{number}", self.rng.of(&["", "+", "-"])));
        }
    }

    /// Is the cell to be filled, by what a classification asks of it?
    fn filled(&mut self, need: Need) -> bool {
        match need {
            Need::Must => true,
            Need::Never => false,
            Need::Free => self.rng.one_in(3),
        }
    }

    /// Fills every cell as a classification asks for it.
    pub fn set_class(&mut self, draft: &mut Draft, class: [u8; 6]) {
        let needs = needs(class);
        draft.set(43, class);
        self.set_amounts(draft, Some(&needs));
        for cell in 47..=56 {
            if cell != 52 {
                draft.blank(cell);
            }
        }
        if self.filled(needs.index_name) {
            draft.set(48, self.rng.of(&["{0:DAX 30}", "+{0:DAX 30};-{0:IBEX 35}", "X"]));
        }
        // A term of an index goes by cell 47, so that is filled then.
        let term = self.filled(needs.index_term);
        if needs.swap || term || self.rng.one_in(3) {
            self.set_underlying(draft, Size::Short);
            if term {
                self.set_index_term(draft, Size::Short);
            }
        }
        self.set_option(draft, &needs);
        for (cell, need) in [(54, needs.maturity), (55, needs.expiry)] {
            if self.filled(need) {
                let day = day_between(&mut self.rng, draft.t, latest());
                draft.set(cell, date(day));
            }
        }
        if let Some(delivery) = needs.wanted_delivery {
            draft.set(56, delivery);
        } else if self.rng.one_in(3) {
            draft.set(56, self.rng.of(&["PHYS", "CASH", "OPTL"]));
        }
    }

    /// Fills cell 47 so that no rule minds it, and keeps cell 49 to it. The classification and cell 48 are set before.
    pub fn set_underlying(&mut self, draft: &mut Draft, size: Size) {
        let kind = if draft.is_swap() { Kind::Swap } else { self.rng.of(&underlying::KINDS) };
        // A swap has a leg, unless an index is named.
        let legless = !(draft.is_swap() && draft.is_blank(48)) && self.rng.one_in(3);
        let value = if legless {
            underlying::without_legs(&mut self.rng, kind, size)
        } else {
            underlying::with_legs(&mut self.rng, kind, size)
        };
        self.put_underlying(draft, value);
    }

    /// Sets cell 47, well formed or blank, and keeps cell 49 to it.
    pub fn put_underlying(&mut self, draft: &mut Draft, value: impl AsRef<[u8]>) {
        draft.set(47, value);
        if draft.is_blank(47) {
            draft.blank(49);
        } else if !draft.is_blank(49) {
            self.set_index_term(draft, Size::Short);
        }
    }

    /// Fills cell 49 as cell 47 asks for it.
    pub fn set_index_term(&mut self, draft: &mut Draft, size: Size) {
        let kind = Kind::of(draft.get(47)).expect("a well formed cell 47");
        let value = underlying::index_term(&mut self.rng, kind, size);
        draft.set(49, value);
    }

    /// Makes a cell malformed, as the line stands. What was made malformed before stays so.
    pub fn malform(&mut self, draft: &mut Draft, cell: usize) {
        let value = match (cell, Kind::of(draft.get(47))) {
            (49, Some(kind)) if !draft.is_spoilt(47) => underlying::bad_index_term(&mut self.rng, kind),
            // Beside a blank cell 47 nothing is right.
            (49, _) if draft.is_blank(47) && self.rng.one_in(2) => underlying::any_index_term(&mut self.rng),
            _ => values::malformed(&mut self.rng, cell),
        };
        draft.spoil(cell, value);
        if cell == 47 && draft.is_spoilt(49) {
            self.malform(draft, 49);
        }
    }

    /// Cells 50, 51 and 53.
    fn set_option(&mut self, draft: &mut Draft, needs: &Needs) {
        if self.filled(needs.option_type) {
            let kind = needs.wanted_type.unwrap_or_else(|| self.rng.of(&["PUTO", "CALL", "OTHR"]));
            draft.set(50, kind);
        }
        if self.filled(needs.strike) {
            let percent = self.rng.one_in(4);
            let strike = self.price(percent);
            draft.set(51, strike);
        }
        if self.filled(needs.exercise) {
            draft.set(53, self.rng.of(&["EURO", "AMER", "ASIA", "BERM", "OTHR"]));
        }
    }

    /// Cells that hardly any rule reads.
    fn set_rest(&mut self, draft: &mut Draft) {
        let t = draft.t;
        if self.rng.one_in(3) {
            let currency = self.currency(t, true, true);
            draft.set(31, currency);
        }
        for cell in [34, 44, 45, 52] {
            if self.rng.one_in(3) {
                let currency = self.currency(t, true, false);
                let prefix = if cell == 45 { self.rng.of(&["FX:", "INTRST:"]) } else { "" };
                draft.set(cell, [prefix.as_bytes(), &currency].concat());
            }
        }
        for cell in [32, 39, 40, 42, 46, 58, 60, 61, 62, 63, 64] {
            if self.rng.one_in(5) {
                let value = values::well_formed(&mut self.rng, cell);
                // Long ones are for the cases about them.
                if value.len() <= 60 {
                    draft.set(cell, value);
                }
            }
        }
        draft.set(65, self.rng.of(&["TRUE", "FALSE"]));
    }

    /// A clean cancellation. Cells that are not read hold anything.
    pub fn cancellation(&mut self) -> Draft {
        let (s, t) = (self.world.s, self.world.t);
        let mut draft = self.clean(Want::default());
        draft.micro = self.rng.next() % MICROS;
        draft.set(1, "CXL");
        draft.states = self.rng.of(&[&[1][..], &[1], &[1, 2], &[1, 1]]).to_vec();
        let submitter = self.good_lei(s, ANY_STATUS);
        draft.set(6, submitter);
        if self.rng.one_in(3) {
            let entity = self.bad_lei(t, ANY_STATUS);
            draft.set(4, entity);
        }
        match self.rng.below(3) {
            0 => (1..=65).filter(|cell| ![1, 2, 4, 6].contains(cell)).for_each(|cell| draft.blank(cell)),
            1 => {
                for _ in 0..self.rng.between(1, 10) {
                    let cell = self.rng.between(7, 65);
                    let value = values::malformed(&mut self.rng, cell);
                    draft.set(cell, value);
                }
            }
            _ => {}
        }
        draft
    }

    /// The call of a draft, with a register made for it.
    pub fn case(&mut self, draft: &Draft) -> Case {
        let register = self.register(draft);
        let enough = codes::count(draft.polish != 0);
        let entries =
            if self.rng.below(10) < 7 { enough } else { self.rng.of(&[enough + 1, enough + 2, enough + 3, 200]) };
        Case {
            line: draft.line(),
            lists: self.world.lists.clone(),
            register,
            day: draft.s.number(),
            micro: draft.micro,
            polish: draft.polish,
            findings: vec![FILLER; entries],
        }
    }
}
