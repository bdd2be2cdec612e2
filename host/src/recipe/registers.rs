//! Registers of both versions: with the rows that a line asks for, full ones, odd ones and damaged ones; and sequences
//! of calls over one register.

use crate::file::{Case, LONGEST_REGISTER};
use crate::reference::{convert, register_frame, Day, Version};

use super::draft::{day_between, days_before, latest, Draft, Maker, Want};
use super::rng::{Rng, CODE};
use super::values::NEEDED;
use super::world::{make_lei, ANY_STATUS};
use super::Intent;

/// Numbers that are no version: those beside the versions, more often than others, and such as have a version in one of
/// their two bytes.
const NO_VERSIONS: [u16; 13] = [0, 0, 3, 3, 3, 255, 256, 257, 258, 512, 513, 514, 65535];

/// How many situations `register_turn` takes in turn, for each version.
const SITUATIONS: usize = 8;

/// A pair of a sequence.
struct Tracked {
    entity: [u8; 20],
    reference: Vec<u8>,
    /// What its last accepted line made of it.
    live: Option<bool>,
}

/// The 73 bytes of some pair.
pub fn any_pair(rng: &mut Rng) -> [u8; 73] {
    let mut pair = [0; 73];
    pair[..20].copy_from_slice(&make_lei(rng));
    let length = rng.between(1, 52);
    pair[20] = length as u8;
    pair[21..21 + length].copy_from_slice(&rng.text(CODE, length));
    pair
}

/// A row. In version 2 some day stands in it from before: none since a conversion, that of the call, another one, or
/// bytes that are no day. Nothing goes by it.
fn row(rng: &mut Rng, version: Version, pair: &[u8; 73], state: u8, s: Day) -> Vec<u8> {
    let mut row = [&pair[..], &[state]].concat();
    if version == Version::Two {
        let any = rng.next() as u32;
        let days = [0, 0, s.number(), days_before(s, 1).number(), 19000101, 20250230, u32::MAX, any, any];
        row.extend(rng.of(&days).to_le_bytes());
    }
    row
}

/// The version and the used rows of a register that the recipe made.
fn frame(register: &[u8]) -> (Version, usize) {
    let (version, used) = register_frame(register).expect("a well framed register");
    (version, used as usize)
}

fn set_used(register: &mut [u8], used: u32) {
    register[5..9].copy_from_slice(&used.to_le_bytes());
}

impl Maker {
    /// A register of either version in which the pair has rows of these states, among rows of other pairs, some of
    /// them nearly the same.
    pub fn register(&mut self, draft: &Draft) -> Vec<u8> {
        let version = self.rng.of(&Version::ALL);
        let others = self.rng.of(&[0, 0, 0, 0, 1, 1, 1, 1, 1, 2, 2, 2, 3, 3, 3, 6, 19]);
        let mut rows = self.used_rows(version, draft, others);
        let used = rows.len();
        if !draft.full {
            // Bytes behind the used rows mean nothing, even where they look like the pair.
            let most = version.capacity(LONGEST_REGISTER as u64) as usize - 1 - used;
            for _ in 0..self.rng.of(&[1, 1, 2, 5]).min(most) {
                let rng = &mut self.rng;
                rows.push(match (rng.below(4), draft.pair()) {
                    (0, Some(pair)) => {
                        let state = rng.of(&[1, 2]);
                        row(rng, version, &pair, state, draft.s)
                    }
                    (1, _) => rng.bytes(version.width()),
                    _ => vec![0; version.width()],
                });
            }
        }
        let tail = self.tail(version);
        let register = [version.head(used as u32), rows.concat(), self.rng.bytes(tail)].concat();
        assert!(register.len() <= LONGEST_REGISTER);
        register
    }

    /// Rows of so many other pairs, and among them those of the pair.
    fn used_rows(&mut self, version: Version, draft: &Draft, others: usize) -> Vec<Vec<u8>> {
        let pair = draft.pair();
        let mut rows = Vec::new();
        for _ in 0..others {
            let other = self.other_pair(pair.as_ref());
            let state = self.rng.of(&[0, 1, 1, 2, 3]);
            rows.push(row(&mut self.rng, version, &other, state, draft.s));
        }
        if let Some(pair) = &pair {
            let mut places: Vec<usize> = draft.states.iter().map(|_| self.rng.below(rows.len() + 1)).collect();
            places.sort_unstable();
            for (before, (place, state)) in places.iter().zip(&draft.states).enumerate() {
                rows.insert(place + before, row(&mut self.rng, version, pair, *state, draft.s));
            }
        }
        rows
    }

    /// How many bytes stand behind the last whole row: none, or fewer than a row has. In version 2 a row of version 1
    /// may fit into them.
    fn tail(&mut self, version: Version) -> usize {
        let any = self.rng.below(version.width());
        self.rng.of(&[0, 0, 0, 1, 73, version.width() - 1, any])
    }

    /// Another pair, often nearly the same.
    fn other_pair(&mut self, pair: Option<&[u8; 73]>) -> [u8; 73] {
        let rng = &mut self.rng;
        let Some(pair) = pair.filter(|_| rng.one_in(2)) else { return any_pair(rng) };
        let mut other = *pair;
        let length = usize::from(pair[20]);
        match rng.below(6) {
            // Another entity, another length, another last character, something after the end.
            0 => other[rng.below(20)] ^= 1,
            1 => other[20] = other[20].wrapping_add(1),
            2 => other[20] = other[20].wrapping_sub(1),
            3 if length > 0 => other[20 + length] ^= 1,
            4 if length < 52 => other[rng.between(21 + length, 72)] = rng.of(b"A\x01 0"),
            _ => other[72] ^= 0x40,
        }
        other
    }

    /// All rows used; or no row at all. The line has a finding, since there may be no room for it.
    pub fn odd_register(&mut self, mut draft: Draft, mut case: Case) -> (Case, Intent) {
        let (version, _) = frame(&case.register);
        if self.rng.one_in(2) {
            let rows = version.capacity(case.register.len() as u64);
            set_used(&mut case.register, rows as u32);
        } else {
            case.register = version.head(0);
        }
        draft.set(6, "");
        case.line = draft.line();
        (case, Intent::Judged)
    }

    pub fn damage_register(&mut self, register: &mut Vec<u8>) {
        let (version, _) = frame(register);
        let rows = version.capacity(register.len() as u64) as u32;
        let rng = &mut self.rng;
        match rng.below(7) {
            0 => register.truncate(rng.below(9)),
            1 => register[rng.below(3)] ^= rng.of(&[1, 0x20, 0x80]),
            2 => register[3..5].copy_from_slice(&rng.of(&NO_VERSIONS).to_le_bytes()),
            // More rows used than there are.
            3 | 4 => set_used(register, rows + 1),
            // A row has an even number of bytes, so that 2 to the power of 31 of them are none in 32 bits.
            5 => set_used(register, rng.of(&[u32::MAX, 1 << 31, 1000])),
            _ => {
                // The last row lacks a byte. In version 2 the row of version 1 in it is whole.
                let used = rows.max(1);
                register.resize(version.length(used as usize) - 1, 0);
                set_used(register, used);
            }
        }
    }

    /// A register with no room: a clean new pair is refused; one in it already, one with a finding, and a
    /// cancellation are not.
    pub fn full_register(&mut self, hit: bool) -> (Case, Intent) {
        let mut draft = self.clean(Want::default());
        draft.full = true;
        draft.states.clear();
        if hit {
            return (self.case(&draft), Intent::Refused(11));
        }
        match self.rng.below(5) {
            0 => {
                draft.states = self.rng.of(&[&[2][..], &[0], &[2, 1]]).to_vec();
                (self.case(&draft), Intent::Exactly(Vec::new()))
            }
            1 => {
                draft.states = vec![1];
                (self.case(&draft), Intent::Exactly(vec![23]))
            }
            2 => {
                let cell = self.rng.of(&NEEDED[1..]);
                self.malform(&mut draft, cell);
                (self.case(&draft), Intent::Exactly(vec![1000 + cell as u16]))
            }
            3 => {
                let mut draft = self.cancellation();
                draft.full = true;
                if self.rng.one_in(2) {
                    draft.states.clear();
                    return (self.case(&draft), Intent::Exactly(vec![24]));
                }
                (self.case(&draft), Intent::Exactly(Vec::new()))
            }
            _ => {
                // Room for just one more.
                let mut case = self.case(&draft);
                let (version, used) = frame(&case.register);
                let end = version.length(used);
                case.register.splice(end..end, vec![0; version.width()]);
                (case, Intent::Exactly(Vec::new()))
            }
        }
    }

    /// The next situation of a register by turns, each in both versions: what the number of its version and its room
    /// come to for lines that would be accepted, and for one that would not.
    pub fn register_turn(&mut self, turn: usize) -> (Case, Intent) {
        let (version, round) = (Version::ALL[turn % 2], turn / 2 / SITUATIONS);
        let mut draft = self.clean(Want::default());
        draft.states.clear();
        let accepted = Intent::Exactly(Vec::new());
        match turn / 2 % SITUATIONS {
            // Another number for the version, over rows of this one.
            0 => {
                let (mut case, _) = self.at_the_edge(version, draft, 0, accepted);
                case.register[3..5].copy_from_slice(&NO_VERSIONS[round % NO_VERSIONS.len()].to_le_bytes());
                (case, Intent::Refused(6))
            }
            // A new pair: the last row is left for it, none is, or more are used than there are.
            1 => self.at_the_edge(version, draft, -1, accepted),
            2 => self.at_the_edge(version, draft, 0, Intent::Refused(11)),
            3 => self.at_the_edge(version, draft, 1, Intent::Refused(6)),
            // A pair that has a row: new again after it was cancelled, cancelled, new though it is live.
            4 => {
                draft.states = self.rng.of(&[&[2][..], &[0], &[2, 1], &[255]]).to_vec();
                self.at_the_edge(version, draft, 0, accepted)
            }
            5 => {
                let draft = self.cancellation();
                self.at_the_edge(version, draft, 0, accepted)
            }
            6 => {
                draft.states = vec![1];
                self.at_the_edge(version, draft, 0, Intent::Exactly(vec![23]))
            }
            // One that is cancelled, but with a finding.
            _ => {
                draft.states = vec![2];
                self.malform(&mut draft, 6);
                self.at_the_edge(version, draft, 0, Intent::Exactly(vec![1006]))
            }
        }
    }

    /// A call whose register has room for few rows or for as many as there may be, and some bytes more. So many more
    /// rows are said to be used than there is room for.
    fn at_the_edge(&mut self, version: Version, draft: Draft, more: isize, intent: Intent) -> (Case, Intent) {
        let least = draft.states.len().max(usize::from(more < 0));
        let most = version.capacity(LONGEST_REGISTER as u64) as usize;
        let room = self.rng.of(&[0, 1, 2, 3, 18, 19, 20, most]).max(least);
        let used = room.checked_add_signed(more).expect("room for the row that is left");
        let mut register = version.head(used as u32);
        register.extend(self.used_rows(version, &draft, used - draft.states.len()).concat());
        let length = (version.length(room) + self.tail(version)).min(LONGEST_REGISTER);
        let fill = self.rng.of(&[0, 1, 0xff]);
        register.resize(length, fill);
        let mut case = self.case(&draft);
        case.register = register;
        (case, intent)
    }

    /// Calls one after another over one register: new, new again, cancelled, cancelled again, new in the same
    /// row, until there is no room. The register of each call is what the one before left, but that a register of
    /// version 1 may be converted on the way. Each call has a submission day of its own.
    pub fn sequence(&mut self) -> Vec<(Case, Intent)> {
        let rows = self.rng.of(&[0, 1, 2, 2, 3, 4]);
        let version = self.rng.of(&Version::ALL);
        let mut register = self.blank_register(version, rows);
        let count = self.rng.between(6, 16);
        let conversion = (version == Version::One && self.rng.one_in(2)).then(|| self.rng.between(1, 5));
        let days = self.submission_days(count);

        let mut pairs = self.like_pairs();
        let mut calls = Vec::new();
        for (call, s) in days.into_iter().enumerate() {
            if conversion == Some(call) {
                let mut target = self.blank_register(Version::Two, rows);
                assert_eq!(convert(&register, &mut target), 0, "room for as many rows");
                register = target;
            }
            let full = pairs.iter().filter(|pair| pair.live.is_some()).count() == rows;
            let which = self.rng.below(pairs.len());
            let (draft, intent) = self.step(&mut pairs[which], full, s);
            let mut case = self.case(&draft);
            case.register = register;
            register = case.judge().register;
            calls.push((case, intent));
        }
        calls
    }

    /// A register with room for so many rows, none of them used, and anything in it.
    fn blank_register(&mut self, version: Version, rows: usize) -> Vec<u8> {
        let tail = self.rng.of(&[0, 0, 1, version.width() - 1]);
        let fill = self.rng.of(&[0, 0, 1, 0xff]);
        let mut register = version.head(0);
        register.resize(version.length(rows) + tail, fill);
        register
    }

    /// Days on which a trade of T can be reported, each another as far as there are so many.
    fn submission_days(&mut self, count: usize) -> Vec<Day> {
        let t = self.world.t;
        let last = t.number() + 5 * 10_000;
        let last = Day::new(last).or_else(|| Day::new(last - 1)).unwrap_or_else(latest);
        let mut days = Vec::new();
        for _ in 0..count {
            let some: Vec<Day> = (0..20).map(|_| day_between(&mut self.rng, t, last)).collect();
            days.push(some.iter().copied().find(|day| !days.contains(day)).unwrap_or(some[0]));
        }
        days
    }

    /// Pairs that differ in entity or reference only.
    fn like_pairs(&mut self) -> Vec<Tracked> {
        let t = self.world.t;
        let entities = [self.good_lei(t, &[1]), self.good_lei(t, &[1])];
        let length = self.rng.of(&[1, 5, 51]);
        let reference = self.rng.text(CODE, length);
        let longer = [&reference[..], b"0"].concat();
        let entities = if entities[0] == entities[1] { &entities[1..] } else { &entities };
        let pair = |&entity| {
            [&reference, &longer].map(|reference| Tracked { entity, reference: reference.clone(), live: None })
        };
        entities.iter().flat_map(pair).collect()
    }

    /// A line for a pair, new or a cancellation, submitted on a day, and what it comes to with the register as it
    /// stands.
    fn step(&mut self, pair: &mut Tracked, full: bool, s: Day) -> (Draft, Intent) {
        let t = self.world.t;
        let new = !self.rng.one_in(3);
        let submitter = self.good_lei(s, ANY_STATUS);
        let mut draft = if new {
            let (entity, submitter) = (Some(pair.entity), Some(submitter));
            self.clean(Want { t: Some(t), s: Some(s), entity, submitter, firm: Some(true), ..Want::default() })
        } else {
            let mut draft = self.cancellation();
            draft.s = s;
            draft.set(4, pair.entity);
            draft.set(6, submitter);
            draft
        };
        draft.set(2, &pair.reference);
        let mut found = match (new, pair.live) {
            (true, Some(true)) => vec![23],
            (false, None) => vec![24],
            (false, Some(false)) => vec![25],
            _ => Vec::new(),
        };
        if self.rng.one_in(6) {
            // A rejected line leaves no trace.
            self.malform(&mut draft, 6);
            found.push(1006);
        }
        if found.is_empty() && pair.live.is_none() && full {
            return (draft, Intent::Refused(11));
        }
        if found.is_empty() {
            pair.live = Some(new);
        }
        (draft, Intent::Exactly(found))
    }
}

#[cfg(test)]
mod tests {
    use super::*;
    use crate::file::Answered;
    use crate::recipe::{Recipe, World};
    use crate::reference::Outcome;

    /// What a call leaves of its register, byte by byte: an accepted line writes its pair's row, and no other does
    /// anything.
    fn left_by(case: &Case, answered: &Answered) -> Vec<u8> {
        let mut register = case.register.clone();
        if !matches!(answered.outcome, Outcome { answer: 0, count: 0, .. }) {
            return register;
        }
        let width = if register[3] == 2 { 78 } else { 74 };
        let used = u32::from_le_bytes(register[5..9].try_into().unwrap());
        let cells: Vec<&[u8]> = case.line.split(|byte| *byte == b'|').collect();
        let (entity, reference) = (cells[3], cells[1]);
        let mut pair = [entity, &[reference.len() as u8], reference].concat();
        pair.resize(73, 0);
        let mut rows = register[9..].chunks_exact(width).take(used as usize);
        let found = rows.position(|row| row.starts_with(&pair));
        if found.is_none() {
            register[5..9].copy_from_slice(&(used + 1).to_le_bytes());
        }
        let row = &mut register[9 + width * found.unwrap_or(used as usize)..][..width];
        row[..73].copy_from_slice(&pair);
        row[73] = if cells[0] == b"NEW" { 1 } else { 2 };
        for (byte, shift) in row[74..].iter_mut().zip([0, 8, 16, 24]) {
            *byte = (case.day >> shift) as u8;
        }
        register
    }

    #[test]
    fn accepted_lines_write_their_row_alone() {
        for seed in 1..=3 {
            let mut recipe = Recipe::new(seed);
            for _ in 0..3000 {
                let (case, _) = recipe.next_case();
                let answered = case.judge();
                assert!(left_by(&case, &answered) == answered.register, "{}", String::from_utf8_lossy(&case.line));
            }
        }
    }

    #[test]
    fn calls_of_a_sequence_have_days_of_their_own() {
        let mut recipe = Recipe::new(1);
        let mut repeated = 0;
        for _ in 0..100 {
            let mut days: Vec<u32> = recipe.maker.sequence().iter().map(|(case, _)| case.day).collect();
            let calls = days.len();
            days.sort_unstable();
            days.dedup();
            repeated += usize::from(days.len() < calls);
            recipe.maker.world = World::make(&mut recipe.maker.rng);
        }
        // But where T is near the last day of all.
        assert!(repeated < 10, "{repeated}");
    }
}
