//! For every rule, lines that just violate it and nothing else, and lines that just do not.

use crate::reference::{Day, MICROS};

use super::classes::{any_class, class_beside, class_of, needs, patterns, Need, Needs};
use super::draft::{
    date, day_between, days_after, days_before, earliest, latest, Draft, Instrument, Maker, Want, NO_DEAL, PARTIES,
};
use super::rng::{CAPITALS, CODE, DIGITS};
use super::underlying::{self, Kind, Size};
use super::values::{badly_shaped, scheme, well_shaped};
use super::world::{oldest, Venue, ANY_STATUS, ENDS_OF_FEBRUARY, FIRST, NOT_LAPSED};

/// The cells that each rule reads, beside cell 1.
const READS: &[(&[u16], &[usize])] = &[
    (&[23, 24, 25], &[2, 4]),
    (&[30], &[3, 28, 36]),
    (&[40, 41], &[4, 5, 28]),
    (&[60], &[6]),
    (&[70, 71, 72], &[7, 28]),
    (&[73], &[7, 11]),
    (&[74], &[7]),
    (&[80], &[8, 28]),
    (&[110], &[11, 28]),
    (&[120, 121], &[12, 28]),
    (&[122], &[12, 15]),
    (&[123], &[12]),
    (&[150], &[15, 28]),
    (&[160, 161, 162], &[16, 28]),
    (&[163], &[16, 20]),
    (&[164], &[16]),
    (&[170], &[17, 28]),
    (&[200], &[20, 28]),
    (&[210, 211], &[21, 28]),
    (&[212], &[21, 24]),
    (&[213], &[21]),
    (&[240], &[24, 28]),
    (&[251], &[25, 29]),
    (&[260], &[26, 28]),
    (&[270], &[27, 28]),
    (&[280, 281], &[28]),
    (&[290], &[4, 7, 16, 29]),
    (&[310], &[28, 31]),
    (&[330], &[30, 33, 43]),
    (&[331], &[28, 30, 33, 41]),
    (&[340], &[28, 34]),
    (&[350], &[35, 43]),
    (&[351], &[28, 35, 41]),
    (&[360], &[28, 36]),
    (&[361], &[28, 36, 41]),
    (&[362], &[25, 36]),
    (&[370, 372], &[28, 36, 37]),
    (&[371], &[28, 37]),
    (&[380], &[38, 43]),
    (&[440], &[28, 44]),
    (&[451], &[28, 45]),
    (&[470], &[47]),
    (&[473], &[43, 47, 48]),
    (&[480, 481], &[43, 48]),
    (&[490], &[43, 49]),
    (&[500, 501, 502], &[43, 50]),
    (&[510, 511], &[43, 51]),
    (&[520], &[28, 52]),
    (&[530, 531], &[43, 53]),
    (&[540, 542], &[43, 54]),
    (&[541], &[28, 54]),
    (&[550, 551], &[43, 55]),
    (&[552], &[28, 55]),
    (&[560], &[43, 56]),
    (&[570], &[26, 27, 29, 57]),
];

/// The cells that a rule reads, beside cell 1.
pub fn reads(code: u16) -> &'static [usize] {
    READS.iter().find(|(codes, _)| codes.contains(&code)).expect("a rule").1
}

/// Submission days beside those round the end of February: while no day lies five years before; where that day is the
/// first trading day of all, or beside it; any day; the last day.
const OTHER_SUBMISSIONS: [u32; 8] = [19000301, 19040229, 20230102, 20230103, 20230104, 20240322, 20250322, 99991231];

/// While no day lies five years before, a trade of the same week is too early too: the first day of all is to come.
const EARLY_SUBMISSIONS: [u32; 3] = [19000301, 19020703, 19041231];

/// The codes of the rules on the party in a cell: LEI, country, MIC, birth in CONCAT, shape, birth after T.
pub fn party_codes(cell: usize) -> [u16; 6] {
    match cell {
        7 => [70, 71, 72, 73, 74, 110],
        12 => [120, 121, 0, 122, 123, 150],
        16 => [160, 161, 162, 163, 164, 200],
        _ => [210, 211, 0, 212, 213, 240],
    }
}

fn not_off(venue: &Venue) -> bool {
    !venue.off
}

fn is_off(venue: &Venue) -> bool {
    venue.off
}

fn is_xxxx(venue: &Venue) -> bool {
    venue.mic == *b"XXXX"
}

fn any_venue(_: &Venue) -> bool {
    true
}

impl Maker {
    /// A clean line in which no one deals on own account.
    fn plain(&mut self) -> Draft {
        let capacity = Some(self.rng.of(NO_DEAL));
        self.clean(Want { capacity, ..Want::default() })
    }

    /// A line that violates just this rule (`hit`) or just does not, with the codes that it shall give.
    pub fn rule(&mut self, code: u16, hit: bool) -> (Draft, Vec<u16>) {
        for (cell, _, birth_cell) in PARTIES {
            if let Some(which) = party_codes(cell).iter().position(|c| *c == code) {
                return self.party_rule(cell, birth_cell, which, hit);
            }
        }
        match code {
            23..=25 => self.register_rule(code, hit),
            40 | 41 | 60 | 260 | 270 => self.entity_rule(code, hit),
            30 | 360 | 361 | 362 | 370 | 372 => self.venue_rule(code, hit),
            80 => self.country_rule(code, 8, hit),
            170 => self.country_rule(code, 17, hit),
            371 => self.country_rule(code, 37, hit),
            251 => self.transmission_rule(hit),
            290 => self.own_account_rule(hit),
            570 => self.decision_rule(hit),
            280 => self.moment_rule(hit),
            281 => self.age_rule(hit),
            310 => self.currency_rule(code, 31, hit),
            340 => self.currency_rule(code, 34, hit),
            440 => self.currency_rule(code, 44, hit),
            451 => self.currency_rule(code, 45, hit),
            520 => self.currency_rule(code, 52, hit),
            331 | 351 => self.list_rule(code, hit),
            541 | 552 => self.date_rule(code, hit),
            470 => self.check_digit_rule(hit),
            _ => {
                let pattern = self.rng.of(patterns(code));
                self.class_rule(code, pattern, hit)
            }
        }
    }

    /// Countries in cells of their own.
    fn country_rule(&mut self, code: u16, cell: usize, hit: bool) -> (Draft, Vec<u16>) {
        let venue: fn(&Venue) -> bool = if cell == 37 { Venue::wants_country } else { any_venue };
        let mut draft = self.clean(Want { venue: Some(venue), ..Want::default() });
        let country = self.country(draft.t, !hit);
        draft.set(cell, country);
        (draft, codes(code, hit))
    }

    /// Currencies.
    fn currency_rule(&mut self, code: u16, cell: usize, hit: bool) -> (Draft, Vec<u16>) {
        let mut draft = self.clean(Want::default());
        let currency = self.currency(draft.t, !hit, code == 310);
        let prefix = if cell == 45 { self.rng.of(&["FX:", "INTRST:"]) } else { "" };
        draft.set(cell, [prefix.as_bytes(), &currency].concat());
        (draft, codes(code, hit))
    }

    /// 023, 024, 025.
    fn register_rule(&mut self, code: u16, hit: bool) -> (Draft, Vec<u16>) {
        let mut draft = if code == 23 { self.clean(Want::default()) } else { self.cancellation() };
        let states: &[u8] = match (code, hit) {
            (23, true) => self.rng.of(&[&[1][..], &[1], &[1, 2], &[1, 1], &[1, 0]]),
            (23, false) => self.rng.of(&[&[2][..], &[0], &[3], &[255], &[2, 1], &[]]),
            (24, true) => &[],
            (25, true) => self.rng.of(&[&[2][..], &[0], &[3], &[255], &[2, 1], &[0, 1]]),
            _ => self.rng.of(&[&[1][..], &[1, 2], &[1, 1]]),
        };
        draft.states = states.to_vec();
        (draft, codes(code, hit))
    }

    /// LEIs in cells of their own.
    fn entity_rule(&mut self, code: u16, hit: bool) -> (Draft, Vec<u16>) {
        let (s, t) = (self.world.s, self.world.t);
        let draft = match code {
            40 | 41 => {
                let firm = code == 40;
                let statuses = if firm { NOT_LAPSED } else { ANY_STATUS };
                let entity = if hit { self.bad_lei(t, statuses) } else { self.good_lei(t, statuses) };
                // As buyer or seller, too, a lapsed one is good enough, and one that was registered late may be.
                let capacity = if self.world.party_good(&entity, t) { None } else { Some(self.rng.of(NO_DEAL)) };
                self.clean(Want { t: Some(t), firm: Some(firm), entity: Some(entity), capacity, ..Want::default() })
            }
            60 => {
                let submitter = if hit { self.bad_lei(s, ANY_STATUS) } else { self.good_lei(s, ANY_STATUS) };
                let mut draft = if self.rng.one_in(2) { self.cancellation() } else { self.clean(Want::default()) };
                draft.set(6, submitter);
                draft
            }
            _ => {
                let mut draft = self.clean(Want { t: Some(t), ..Want::default() });
                let lei = if hit { self.bad_lei(t, ANY_STATUS) } else { self.good_lei(t, ANY_STATUS) };
                draft.set(usize::from(code / 10), lei);
                draft
            }
        };
        (draft, codes(code, hit))
    }

    /// The rules on a party and its date of birth.
    fn party_rule(&mut self, cell: usize, birth_cell: usize, which: usize, hit: bool) -> (Draft, Vec<u16>) {
        let all = party_codes(cell);
        let mut draft = self.plain();
        let t = draft.t;
        self.set_party(&mut draft, cell);
        if which == 5 {
            return self.birth_rule(draft, cell, birth_cell, hit);
        }
        if which == 3 {
            return self.concat_rule(draft, cell, birth_cell, hit);
        }
        draft.blank(birth_cell);
        match which {
            0 => {
                let lei = self.party_lei(t, !hit);
                draft.set(cell, [b"LEI:", &lei[..]].concat());
            }
            1 => {
                let scheme = scheme(&mut self.rng);
                let country = self.country(t, !hit);
                if !hit && self.rng.one_in(3) {
                    // Not two capitals: no country, only the wrong shape.
                    let start = self.rng.of(&["d", "A", "1E", "E1", "aB", "Ab", "#A", "  ", "A["]);
                    draft.set(cell, [scheme, start, if start.len() == 2 { "123" } else { "" }].concat());
                    return (draft, vec![all[4]]);
                }
                let identifier = well_shaped(&mut self.rng, scheme, &country);
                let identifier = self.with_right_number(scheme, identifier, None, false);
                draft.set(cell, [scheme.as_bytes(), &identifier].concat());
            }
            2 => {
                let venue = self.odd_venue(t, |venue| (venue.off || !venue.wants_country()) == hit);
                draft.set(cell, [b"MIC:", &venue.mic[..]].concat());
            }
            _ => self.set_shape(&mut draft, cell, birth_cell, hit),
        }
        (draft, codes(all[which], hit))
    }

    /// A person of the wrong shape, or of the right one.
    fn set_shape(&mut self, draft: &mut Draft, cell: usize, birth_cell: usize, wrong: bool) {
        let scheme = scheme(&mut self.rng);
        let country = if self.rng.one_in(2) { self.rng.of(&[*b"FI", *b"LV"]) } else { self.country(draft.t, true) };
        let identifier = if wrong {
            // The date in it does not matter then.
            if self.rng.one_in(2) {
                draft.set(birth_cell, date(earliest()));
            }
            badly_shaped(&mut self.rng, scheme, &country)
        } else {
            let identifier = well_shaped(&mut self.rng, scheme, &country);
            self.with_right_number(scheme, identifier, None, false)
        };
        draft.set(cell, [scheme.as_bytes(), &identifier].concat());
    }

    /// 110 and its like.
    fn birth_rule(&mut self, mut draft: Draft, cell: usize, birth_cell: usize, hit: bool) -> (Draft, Vec<u16>) {
        let t = draft.t;
        let next = t.next().unwrap_or(t);
        let birth = match (hit, self.rng.one_in(2)) {
            (false, _) => t,
            (true, true) => next,
            (true, false) => day_between(&mut self.rng, next, latest()),
        };
        if draft.get(cell).starts_with(b"CONCAT:") {
            let mut value = draft.get(cell).to_vec();
            value[9..17].copy_from_slice(birth.number().to_string().as_bytes());
            draft.set(cell, value);
        } else if let Some(identifier) = draft.get(cell).strip_prefix(b"NIDN:") {
            let identifier = self.with_right_number("NIDN:", identifier.to_vec(), Some(birth), false);
            draft.set(cell, [b"NIDN:", &identifier[..]].concat());
        }
        // A decision maker's date may stand alone.
        if (cell == 12 || cell == 21) && self.rng.one_in(3) {
            draft.blank(cell);
        }
        draft.set(birth_cell, date(birth));
        (draft, codes(party_codes(cell)[5], birth > t))
    }

    /// 073 and its like.
    fn concat_rule(&mut self, mut draft: Draft, cell: usize, birth_cell: usize, hit: bool) -> (Draft, Vec<u16>) {
        let all = party_codes(cell);
        let country = self.country(draft.t, true);
        let birth = day_between(&mut self.rng, earliest().next().expect("a next day"), draft.t);
        let mut identifier = well_shaped(&mut self.rng, "CONCAT:", &country);
        identifier[2..10].copy_from_slice(birth.number().to_string().as_bytes());
        draft.set(birth_cell, date(birth));
        let mut found = codes(all[3], hit);
        if hit {
            self.part_births(&mut draft, &mut identifier, birth_cell, birth);
        } else {
            match self.rng.below(4) {
                // No date, another scheme, a wrong shape: then the date is not compared.
                0 => {
                    draft.blank(birth_cell);
                    identifier[2..10].copy_from_slice(&self.rng.array::<8>(DIGITS));
                }
                1 => {
                    let other = [&country[..], &self.rng.text(DIGITS, 8), &self.rng.text(CAPITALS, 10)].concat();
                    // What follows PL would be no Polish number.
                    let schemes = if country == *b"PL" { ["CCPT:"; 2] } else { ["CCPT:", "NIDN:"] };
                    draft.set(cell, [self.rng.of(&schemes).as_bytes(), &other].concat());
                    return (draft, found);
                }
                2 => {
                    draft.set(birth_cell, date(earliest()));
                    identifier[10] = b'#';
                    found.push(all[4]);
                }
                _ => {}
            }
        }
        draft.set(cell, [b"CONCAT:", &identifier[..]].concat());
        (draft, found)
    }

    /// Another day in the cell, another in the identifier, no real day in the identifier.
    fn part_births(&mut self, draft: &mut Draft, identifier: &mut [u8], birth_cell: usize, birth: Day) {
        match self.rng.below(4) {
            0 => draft.set(birth_cell, date(birth.previous().expect("not the first day"))),
            1 => {
                let place = self.rng.between(2, 9);
                identifier[place] = b'0' + (identifier[place] - b'0' + self.rng.between(1, 9) as u8) % 10;
            }
            2 => {
                let unreal = self.rng.of(&[b"00000000", b"20230229", b"19991301", b"99999999"]);
                identifier[2..10].copy_from_slice(unreal);
            }
            _ => identifier[2..10].reverse(),
        }
        if identifier[2..10] == *birth.number().to_string().as_bytes() {
            draft.set(birth_cell, date(birth.previous().expect("not the first day")));
        }
    }

    /// The rules on cell 36 and what goes with it.
    fn venue_rule(&mut self, code: u16, hit: bool) -> (Draft, Vec<u16>) {
        let draft = match code {
            30 => {
                let mut draft = self.at(if hit { Venue::bars_code } else { |venue| !venue.bars_code() });
                let code_given = self.rng.text(CODE, 10);
                draft.set(3, code_given);
                draft
            }
            360 => {
                let mut draft = self.at(any_venue);
                if hit {
                    let venue = self.venue(draft.t, |venue| !venue.known()).expect("an unknown venue");
                    draft.set(36, venue.mic);
                    draft.set(25, "FALSE");
                    draft.set(3, "ABC");
                }
                draft
            }
            361 => self.at_xxxx(hit),
            362 => {
                let venue = Some(if hit { not_off } else { is_off });
                let t = Some(self.world.t);
                let mut draft = self.clean(Want { t, venue, capacity: Some(b"AOTC"), ..Want::default() });
                draft.set(25, "TRUE");
                draft
            }
            // Kind 1 or 3 wants a country, whatever else the venue is.
            370 => self.moved_to(|venue| venue.known() && venue.wants_country() == hit),
            _ => {
                let mut draft = self.moved_to(|venue| venue.known() && venue.bars_country() == hit);
                let country = self.country(draft.t, true);
                draft.set(37, country);
                draft
            }
        };
        (draft, codes(code, hit))
    }

    /// A clean line of the world's trading day at such a venue.
    fn at(&mut self, venue: fn(&Venue) -> bool) -> Draft {
        self.clean(Want { t: Some(self.world.t), venue: Some(venue), ..Want::default() })
    }

    /// 361. Off any venue under XXXX; the instrument is in the list on T, or under XOFF, or on another day.
    fn at_xxxx(&mut self, hit: bool) -> Draft {
        let t = self.world.t;
        let xoff = self.world.venue(*b"XOFF", t).usable() && !hit && self.rng.one_in(2);
        let listed = hit || xoff;
        let mut draft = self.at(if xoff { |venue| venue.mic == *b"XOFF" } else { is_xxxx });
        let isin = self.isin_where(|world, isin| world.instrument_listed(isin, t) == listed);
        draft.set(41, isin);
        self.suit_listed(&mut draft, &isin);
        draft
    }

    /// Such a venue, often one that wants and bars a country at once, as XOFF does where the list has it.
    fn odd_venue(&mut self, day: Day, condition: impl Fn(&Venue) -> bool) -> Venue {
        let odd = |venue: &Venue| condition(venue) && venue.wants_country() && venue.bars_country();
        let found = match self.rng.below(3) {
            0 => self.venue(day, odd),
            1 => self.venue(day, |venue| venue.off && odd(venue)),
            _ => None,
        };
        found.or_else(|| self.venue(day, condition)).expect("such a venue")
    }

    /// A line moved to such a venue, cell 37 blank and nothing else against it.
    fn moved_to(&mut self, condition: impl Fn(&Venue) -> bool) -> Draft {
        let mut draft = self.at(any_venue);
        let venue = self.odd_venue(draft.t, condition);
        draft.set(36, venue.mic);
        draft.set(25, "FALSE");
        draft.blank(3);
        draft.blank(37);
        if venue.mic == *b"XXXX" {
            let isin = self.unlisted(draft.t);
            draft.set(41, isin);
        }
        draft
    }

    /// 251.
    fn transmission_rule(&mut self, hit: bool) -> (Draft, Vec<u16>) {
        let capacity: &[u8] = match (hit, self.rng.one_in(2)) {
            (false, true) => b"AOTC",
            (_, true) => b"MTCH",
            (_, false) => b"DEAL",
        };
        let mut draft = self.clean(Want { capacity: Some(capacity), venue: Some(is_off), ..Want::default() });
        draft.set(25, if hit || capacity == b"AOTC" { "TRUE" } else { "FALSE" });
        (draft, codes(251, hit))
    }

    /// 290.
    fn own_account_rule(&mut self, hit: bool) -> (Draft, Vec<u16>) {
        if !hit && self.rng.one_in(3) {
            return (self.plain(), Vec::new());
        }
        let mut draft = self.clean(Want { capacity: Some(b"DEAL"), ..Want::default() });
        if hit {
            let own = [b"LEI:", draft.get(4)].concat();
            for cell in [7, 16] {
                while draft.get(cell) == own {
                    self.set_party(&mut draft, cell);
                }
            }
        }
        (draft, codes(290, hit))
    }

    /// 570.
    fn decision_rule(&mut self, hit: bool) -> (Draft, Vec<u16>) {
        let capacity = if !hit && self.rng.one_in(3) { self.rng.of(NO_DEAL) } else { b"DEAL" };
        let mut draft = self.clean(Want { capacity: Some(capacity), ..Want::default() });
        for cell in [26, 27, 57] {
            draft.blank(cell);
        }
        if !hit && capacity == b"DEAL" {
            let lei = self.good_lei(draft.t, ANY_STATUS);
            let decision = self.decision();
            match self.rng.below(3) {
                0 => draft.set(26, lei),
                1 => draft.set(27, lei),
                _ => draft.set(57, decision),
            }
        }
        (draft, codes(570, hit))
    }

    /// 280.
    fn moment_rule(&mut self, hit: bool) -> (Draft, Vec<u16>) {
        let s = self.world.s;
        let rng = &mut self.rng;
        let any = rng.next() % (MICROS - 1);
        // Often such that a fraction has few digits or none.
        let unit = rng.of(&[1, 1_000, 10_000, 100_000, 1_000_000]);
        let edge = rng.of(&[1, MICROS - 2, 43_200_000_000]);
        let micro = if rng.one_in(4) { edge } else { (any / unit * unit).max(1) };
        let (t, micro, time) = match (hit, s.next()) {
            (true, Some(next)) if rng.one_in(4) => (next, micro, rng.of(&[0, any])),
            (true, _) => {
                let later = rng.between(micro as usize, MICROS as usize - 1) as u64;
                (s, micro, rng.of(&[micro, micro, (micro + unit).min(MICROS - 1), later]))
            }
            (false, _) if rng.one_in(2) => (s, micro + 1, micro),
            (false, _) => (s, micro, micro - 1),
        };
        let want = Want { s: Some(s), t: Some(t), micro: Some(micro), time: Some(time), ..Want::default() };
        (self.clean(want), codes(280, hit))
    }

    /// 281.
    fn age_rule(&mut self, hit: bool) -> (Draft, Vec<u16>) {
        let day = |number| Day::new(number).expect("a real day");
        let first = day(FIRST);
        let rng = &mut self.rng;
        let (s, t) = match (hit, rng.below(5)) {
            // No day lies five years before these, so that the first day alone decides. A trade of that day or later
            // is not done yet.
            (true, 0) => {
                let s = day_between(rng, earliest(), day(19041231));
                (s, day_between(rng, earliest(), s))
            }
            (false, 0) => {
                let s = day_between(rng, earliest(), day(19041231));
                let t = if rng.one_in(2) { first } else { day_between(rng, first, latest()) };
                return (self.clean(Want { s: Some(s), t: Some(t), ..Want::default() }), vec![280]);
            }
            // The first day, while five years have not passed since.
            (true, 1) => (day_between(rng, first, day(20230102)), days_before(first, 1)),
            (false, 1) => (day_between(rng, day(20180104), day(20230103)), first),
            // Long before.
            (true, 2) => {
                let s = day_between(rng, first, latest());
                (s, day_between(rng, earliest(), days_before(oldest(s), 1)))
            }
            // At the edge of five years, or up to two days from it.
            _ => {
                let any = day_between(rng, day(20230103), latest());
                let s = if rng.one_in(3) { day(rng.of(&ENDS_OF_FEBRUARY)) } else { any };
                let t =
                    if hit { days_before(oldest(s), rng.between(1, 2)) } else { days_after(oldest(s), rng.below(3)) };
                (s, t)
            }
        };
        (self.clean(Want { s: Some(s), t: Some(t), ..Want::default() }), codes(281, hit))
    }

    /// Trading days up to two days from the edge of 281 by turns, on both sides of it, every third time with another
    /// mistake, and the codes that come of it. The 31 submission days, the 5 trading days of each and every third turn
    /// meet in all ways, as these numbers have no divisor in common.
    pub fn edge_of_age(&mut self, turn: usize) -> (Draft, Vec<u16>) {
        let day = |number: &u32| Day::new(*number).expect("a real day");
        let at_edge = ENDS_OF_FEBRUARY.iter().chain(&OTHER_SUBMISSIONS).map(day).map(|s| (s, oldest(s)));
        let far_from_it = EARLY_SUBMISSIONS.iter().map(day).map(|s| (s, days_before(s, 2)));
        let days: Vec<(Day, Day)> = at_edge.chain(far_from_it).collect();
        let (s, middle) = days[turn % days.len()];
        let t = days_before(days_after(middle, 2), turn % 5);
        let mut draft = self.clean(Want { s: Some(s), t: Some(t), ..Want::default() });
        let mut found = [codes(280, t > s), codes(281, t < oldest(s))].concat();
        if turn % 3 == 2 {
            found.push(self.add_mistake(&mut draft));
            found.sort_unstable();
        }
        (draft, found)
    }

    /// Adds a mistake that has nothing to do with the days, and tells its code.
    fn add_mistake(&mut self, draft: &mut Draft) -> u16 {
        match self.rng.below(4) {
            0 => {
                let submitter = self.bad_lei(draft.s, ANY_STATUS);
                draft.set(6, submitter);
                60
            }
            1 => {
                let country = self.country(draft.t, false);
                draft.set(8, country);
                80
            }
            2 => {
                let currency = self.currency(draft.t, false, false);
                draft.set(34, currency);
                340
            }
            _ => {
                let cell = self.rng.between(29, 65);
                self.malform(draft, cell);
                1000 + cell as u16
            }
        }
    }

    /// 331 and 351: by the list, cell 43 aside.
    fn list_rule(&mut self, code: u16, hit: bool) -> (Draft, Vec<u16>) {
        let t = self.world.t;
        let condition = |world: &super::world::World, isin: &[u8; 12]| {
            (if code == 331 { world.listed_debt(isin, t) } else { world.listed_bond(isin, t) }) == hit
        };
        let isin = self.isin_where(condition);
        let want = Want { t: Some(t), venue: Some(|venue| !is_xxxx(venue)), ..Want::default() };
        let mut draft = self.clean(Want { instrument: Some(Instrument::Listed(isin)), ..want });
        if self.rng.one_in(3) {
            // A classification in the line makes no difference, unless it speaks of debt itself.
            let class = any_class(&mut self.rng);
            if class[0] != b'D' {
                self.set_class(&mut draft, class);
                self.suit_listed(&mut draft, &isin);
            }
        }
        if code == 331 {
            self.set_units_at_percent(&mut draft);
        } else {
            draft.blank(35);
            // Not in units, so that 331 has nothing to say.
            let quantity = self.quantity(false);
            draft.set(30, quantity);
        }
        (draft, codes(code, hit))
    }

    fn set_units_at_percent(&mut self, draft: &mut Draft) {
        let (quantity, price) = (self.quantity(true), self.price(true));
        draft.set(30, quantity);
        draft.set(33, price);
    }

    /// 541 and 552: dates before T, whatever the classification.
    fn date_rule(&mut self, code: u16, hit: bool) -> (Draft, Vec<u16>) {
        let (cell, needing) = if code == 541 { (54, 540) } else { (55, 550) };
        let instrument = if self.rng.one_in(2) {
            Instrument::Nothing
        } else {
            let pattern = self.rng.of(patterns(needing));
            Instrument::Class(class_of(&mut self.rng, pattern))
        };
        let mut draft = self.clean(Want { instrument: Some(instrument), ..Want::default() });
        let day = match (hit, self.rng.one_in(2)) {
            (true, true) => draft.t.previous().expect("after 1900"),
            (true, false) => day_between(&mut self.rng, earliest(), draft.t.previous().expect("after 1900")),
            (false, _) => draft.t,
        };
        draft.set(cell, date(day));
        (draft, codes(code, hit))
    }

    /// 470: whatever the classification, though a swap by it asks for legs of a swap.
    fn check_digit_rule(&mut self, hit: bool) -> (Draft, Vec<u16>) {
        let mut draft = self.clean(Want::default());
        self.set_underlying(&mut draft, Size::Any);
        if hit {
            self.set_wrong_check_digit(&mut draft);
        }
        (draft, codes(470, hit))
    }

    /// Another text in cell 47, of the same kind, in which a check digit is wrong.
    pub fn set_wrong_check_digit(&mut self, draft: &mut Draft) {
        let kind = Kind::of(draft.get(47)).expect("a well formed cell 47");
        let value = underlying::with_wrong_check_digit(&mut self.rng, kind);
        draft.set(47, value);
    }

    /// 473: a swap by its classification that is none by cell 47, or has neither a leg nor an index; or just has one
    /// of the two, or another classification.
    fn swap_rule(&mut self, pattern: &str, hit: bool) -> (Draft, Vec<u16>) {
        let enough = !hit && self.rng.one_in(2);
        let swap = hit || enough;
        let class = if swap { class_of(&mut self.rng, pattern) } else { class_beside(&mut self.rng, pattern) };
        let mut draft = self.clean(Want { instrument: Some(Instrument::Class(class)), ..Want::default() });
        let needs = needs(class);
        if !enough {
            self.set_no_swap(&mut draft, &needs);
            return (draft, codes(473, needs.swap));
        }
        let value = if self.rng.one_in(2) {
            draft.blank(48);
            underlying::with_legs(&mut self.rng, Kind::Swap, Size::Any)
        } else {
            draft.set(48, self.rng.of(&["DAX", " ", "{0:DAX 30}"]));
            underlying::without_legs(&mut self.rng, Kind::Swap, Size::Any)
        };
        self.put_underlying(&mut draft, value);
        (draft, Vec::new())
    }

    /// Cell 47 as a swap may not have it: blank, of the other kind, or without a leg while no index is named. Other
    /// classifications may ask for cells 48 and 49.
    fn set_no_swap(&mut self, draft: &mut Draft, needs: &Needs) {
        let rng = &mut self.rng;
        let value = match rng.below(4) {
            0 if needs.index_term != Need::Must => Vec::new(),
            1 if needs.index_name != Need::Must => {
                draft.blank(48);
                underlying::without_legs(rng, Kind::Swap, Size::Any)
            }
            2 => underlying::without_legs(rng, Kind::Other, Size::Short),
            _ => underlying::with_legs(rng, Kind::Other, Size::Any),
        };
        self.put_underlying(draft, value);
    }

    /// The rules by classification: a class of a pattern, or one beside it, and the cell as the rule does not
    /// want it.
    pub fn class_rule(&mut self, code: u16, pattern: &str, hit: bool) -> (Draft, Vec<u16>) {
        if code == 473 {
            return self.swap_rule(pattern, hit);
        }
        let of = |class| Want { instrument: Some(Instrument::Class(class)), ..Want::default() };
        // Without a violation: often the class beside, sometimes the class itself and all as it should be.
        if !hit && self.rng.one_in(4) {
            let class = class_of(&mut self.rng, pattern);
            return (self.clean(of(class)), Vec::new());
        }
        let class = if hit { class_of(&mut self.rng, pattern) } else { class_beside(&mut self.rng, pattern) };
        let (needs, mut draft) = (needs(class), self.clean(of(class)));
        let found = self.set_unwanted(code, &mut draft, &needs);
        assert!(!hit || found == [code], "{code}: {found:?}");
        (draft, found)
    }

    /// Sets the cell as the rule does not want it, and tells what comes of it with this classification.
    fn set_unwanted(&mut self, code: u16, draft: &mut Draft, needs: &Needs) -> Vec<u16> {
        match code {
            330 => {
                self.set_units_at_percent(draft);
                codes(330, needs.debt)
            }
            502 => self.set_other_type(draft, needs),
            560 => {
                let wanted = needs.wanted_delivery.unwrap_or("");
                let delivery = self.rng.of_those(&["", "PHYS", "CASH", "OPTL"], |d| *d != wanted).expect("another");
                draft.set(56, delivery);
                codes(560, !wanted.is_empty())
            }
            481 | 501 | 511 | 531 | 542 | 551 => {
                let (cell, need) = needs.cell(code);
                let value = self.filling(cell, needs, draft.t);
                draft.set(cell, value);
                codes(code, need == Need::Never)
            }
            _ => {
                let (cell, need) = needs.cell(code);
                draft.blank(cell);
                // A swap beside the pattern may have gone without a leg.
                if cell == 48 && needs.swap {
                    self.set_underlying(draft, Size::Short);
                }
                codes(code, need == Need::Must)
            }
        }
    }

    /// 502: another option type than the classification wants.
    fn set_other_type(&mut self, draft: &mut Draft, needs: &Needs) -> Vec<u16> {
        let wanted = needs.wanted_type;
        let kind = self.rng.of_those(&["PUTO", "CALL", "OTHR"], |kind| Some(*kind) != wanted).expect("another");
        draft.set(50, kind);
        match (needs.option_type, wanted) {
            (Need::Never, _) => vec![501],
            (_, Some(_)) => vec![502],
            (_, None) => Vec::new(),
        }
    }

    /// Something for a cell that a classification may bar: a date of T or later, unless the cell holds another thing.
    fn filling(&mut self, cell: usize, needs: &Needs, t: Day) -> String {
        match cell {
            48 => "DAX".to_string(),
            50 => needs.wanted_type.unwrap_or_else(|| self.rng.of(&["PUTO", "CALL", "OTHR"])).to_string(),
            51 => self.price(false),
            53 => "EURO".to_string(),
            _ => date(day_between(&mut self.rng, t, latest())),
        }
    }
}

/// The code alone, or none.
pub fn codes(code: u16, hit: bool) -> Vec<u16> {
    if hit {
        vec![code]
    } else {
        Vec::new()
    }
}
