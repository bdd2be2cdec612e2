//! LEIs round 2 July 2018, the last trading day for which a party may have been registered on any day. What else is
//! asked of parties does not change with that day, and nothing changes for the other cells that hold an LEI.

use crate::reference::Day;

use super::draft::{days_after, days_before, Draft, Maker, Want, NO_DEAL, PARTIES};
use super::rng::Rng;
use super::rules::{codes, party_codes};
use super::world::{oldest, LeiFacts, ANY_STATUS, EARLY, LATE, NOT_LAPSED};

/// Trading days by turns: the last two of the one regime and the first two of the other, twice; the end of the month
/// before; the first trading day of all, and the day before that.
const TRADED: [u32; 11] =
    [20180701, 20180702, 20180703, 20180704, 20180630, 20180701, 20180702, 20180703, 20180704, 20180103, 20180102];

/// Submission days by turns: on both sides of the edge, so that some trades are still to come; on the last day of the
/// one regime a year later; and when that is five years ago, so that older trades are too early.
const SUBMITTED: [u32; 7] = [20180701, 20180702, 20180703, 20180704, 20180705, 20190702, 20230702];

/// The cells that hold an LEI, and what cell 5 says, which matters to cell 4 alone.
const PLACES: [(usize, bool); 9] =
    [(7, true), (4, true), (12, false), (26, true), (16, false), (6, true), (21, true), (4, false), (27, false)];

const LEI_CELLS: [usize; 8] = [4, 6, 7, 12, 16, 21, 26, 27];

/// The rows of LEIs that become or cease to be good in these days.
pub fn lei_sets(rng: &mut Rng) -> Vec<Vec<LeiFacts>> {
    let any = rng.of(&[0, EARLY, LATE]);
    let mut sets = vec![
        vec![(rng.of(ANY_STATUS), 1, 20180630, any)],
        vec![(rng.of(ANY_STATUS), 2, EARLY, 20180630)],
        // Registered later: in the same month, on the same day of the next year, on the last day of all, on none.
        vec![(rng.of(ANY_STATUS), 1, 20180731, any)],
        vec![(rng.of(ANY_STATUS), 1, 20190702, any)],
        vec![(rng.of(ANY_STATUS), 1, LATE, any)],
        vec![(rng.of(ANY_STATUS), 1, u32::MAX, any)],
        vec![(2, 1, EARLY, any)],
        vec![(2, 1, 20180705, any)],
        // Other bytes match nothing, whenever they were registered.
        vec![(rng.of(&[0, 5, 9, 255]), 1, EARLY, any)],
        vec![(rng.of(&[0, 5, 9, 255]), 1, 20180705, any)],
        vec![(rng.of(ANY_STATUS), rng.of(&[0, 3, 255]), 20180705, LATE)],
        // Good only if one row could make up for the other; good by the second row.
        vec![(5, 1, EARLY, any), (1, 2, EARLY, 20180101)],
        vec![(1, 3, EARLY, LATE), (0, 1, EARLY, any)],
        vec![(1, 2, EARLY, 20180630), (1, 1, 20180705, any)],
    ];
    for day in 20180701..=20180705 {
        // Registered on the day; inactive since the day; the same, registered only after it.
        sets.push(vec![(rng.of(ANY_STATUS), 1, day, any)]);
        sets.push(vec![(rng.of(ANY_STATUS), 2, EARLY, day)]);
        sets.push(vec![(rng.of(ANY_STATUS), 2, day + 1, day)]);
    }
    sets
}

impl Maker {
    /// A line of these days with such LEIs, and the codes that come of it. Trading days, submission days, cells and
    /// how many of these are filled so meet in all ways, as their numbers have no divisor in common.
    pub fn regime_turn(&mut self, turn: usize) -> (Draft, Vec<u16>) {
        let day = |number| Day::new(number).expect("a real day");
        let (t, s) = (day(TRADED[turn % TRADED.len()]), day(SUBMITTED[turn % SUBMITTED.len()]));
        let (cell, firm) = PLACES[turn % PLACES.len()];
        let want = Want { t: Some(t), s: Some(s), firm: Some(firm), ..Want::default() };
        let (mut draft, cells) = match turn % 5 {
            0..=2 => self.with_one_lei(want, cell),
            3 => self.with_one_lei_everywhere(want),
            _ => self.with_several_leis(want, cell),
        };
        if cells.contains(&6) && self.rng.one_in(3) {
            // Of the LEIs of a cancellation only this one is asked about.
            draft.set(1, "CXL");
            draft.states = vec![1];
            let found = self.code_of_lei(&draft, 6);
            return (draft, found.into_iter().collect());
        }
        let mut found: Vec<u16> = cells.iter().filter_map(|cell| self.code_of_lei(&draft, *cell)).collect();
        found.extend([codes(280, t > s), codes(281, t < oldest(s))].concat());
        found.sort_unstable();
        (draft, found)
    }

    /// A line with such an LEI in this cell, and the cells that have one.
    fn with_one_lei(&mut self, want: Want, cell: usize) -> (Draft, Vec<usize>) {
        let capacity = Some(self.rng.of(NO_DEAL));
        let mut draft = self.clean(Want { capacity, ..want });
        self.set_lei(&mut draft, cell);
        (draft, vec![cell])
    }

    /// The same LEI in every cell, so that what is asked of parties stands beside what is asked of others.
    fn with_one_lei_everywhere(&mut self, want: Want) -> (Draft, Vec<usize>) {
        let lei = self.lei_round(want.t.expect("a trading day"));
        let mut draft = self.clean(Want { entity: Some(lei), submitter: Some(lei), ..want });
        PARTIES.iter().for_each(|party| draft.set_party_lei(*party, &lei));
        draft.set(26, lei);
        draft.set(27, lei);
        (draft, LEI_CELLS.to_vec())
    }

    /// One in this cell and others in about half of the rest.
    fn with_several_leis(&mut self, want: Want, cell: usize) -> (Draft, Vec<usize>) {
        let capacity = Some(self.rng.of(NO_DEAL));
        let mut draft = self.clean(Want { capacity, ..want });
        let cells: Vec<usize> = LEI_CELLS.into_iter().filter(|other| *other == cell || self.rng.one_in(2)).collect();
        cells.iter().for_each(|cell| self.set_lei(&mut draft, *cell));
        (draft, cells)
    }

    /// Fills a cell with an LEI for the day that is asked about there.
    fn set_lei(&mut self, draft: &mut Draft, cell: usize) {
        let lei = self.lei_round(if cell == 6 { draft.s } else { draft.t });
        match PARTIES.iter().find(|party| party.0 == cell) {
            Some(party) => draft.set_party_lei(*party, &lei),
            None => draft.set(cell, lei),
        }
    }

    /// An LEI that was registered on the day or the day beside, that became inactive then, or that is odd otherwise.
    fn lei_round(&mut self, day: Day) -> [u8; 20] {
        let world = &self.world;
        let (before, after) = (days_before(day, 1).number(), days_after(day, 1).number());
        let registered = |day: u32| world.july_leis_where(|row| row.entity == 1 && row.registered == day);
        let inactive = |day: u32| world.july_leis_where(|row| row.entity == 2 && row.updated == day);
        let leis = match self.rng.below(12) {
            0 => registered(before),
            1 => registered(day.number()),
            2..=4 => registered(after),
            5 => inactive(before),
            6 => inactive(day.number()),
            7 => world.july_leis_where(|row| row.registered >= LATE),
            8 => world.july_leis_where(|row| !row.means_something()),
            9 => world.leis.clone(),
            _ => Vec::new(),
        };
        self.rng.of(if leis.is_empty() { &world.july_leis } else { &leis })
    }

    /// The code of the LEI in a cell if it is not good there.
    fn code_of_lei(&self, draft: &Draft, cell: usize) -> Option<u16> {
        let (world, value) = (&self.world, draft.get(cell));
        let lei = value.strip_prefix(b"LEI:").unwrap_or(value).try_into().expect("an LEI");
        let (code, good) = match cell {
            4 if draft.get(5) == b"TRUE" => (40, world.lei_good(lei, draft.t, NOT_LAPSED)),
            4 => (41, world.lei_good(lei, draft.t, ANY_STATUS)),
            6 => (60, world.lei_good(lei, draft.s, ANY_STATUS)),
            26 => (260, world.lei_good(lei, draft.t, ANY_STATUS)),
            27 => (270, world.lei_good(lei, draft.t, ANY_STATUS)),
            _ => (party_codes(cell)[0], world.party_good(lei, draft.t)),
        };
        (!good).then_some(code)
    }
}
