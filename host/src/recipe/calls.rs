//! Whole calls: cell forms, refusals, and calls at random.

use crate::codes;
use crate::file::{Case, FILLER, LONGEST_LINE};
use crate::reference::MICROS;

use super::draft::{timestamp, Draft, Maker, Want};
use super::rng::Rng;
use super::underlying::{self, Kind, Size};
use super::values::{nudged, scheme, well_formed, well_shaped};
use super::world::oldest;
use super::Intent;

/// Cells whose contents no rule reads: well formed, they leave a clean line clean.
const UNREAD: [usize; 21] = [9, 10, 13, 14, 18, 19, 22, 23, 32, 39, 40, 42, 46, 58, 59, 60, 61, 62, 63, 64, 65];

/// Cells that hold text of up to 140 or 350 characters.
const TEXTS: [(usize, usize); 9] =
    [(9, 140), (10, 140), (13, 140), (14, 140), (18, 140), (19, 140), (22, 140), (23, 140), (42, 350)];

/// The widths of the rows of the lists.
const WIDTHS: [usize; 5] = [30, 10, 12, 13, 26];

const UNREAL_DAYS: [u32; 18] = [
    0, 18991231, 19000229, 20230229, 21000229, 20250431, 20250100, 20250132, 20250001, 20251301, 20251232, 100000101,
    99999999, 4294967295, 20250230, 20240230, 2025032, 202503220,
];

impl Maker {
    /// A cell malformed, or well formed at the edge of its form.
    pub fn form(&mut self, cell: usize, hit: bool) -> (Draft, Intent) {
        let cancelled = [2, 4, 6].contains(&cell) && self.rng.one_in(4);
        let mut draft = if cancelled { self.cancellation() } else { self.clean(Want::default()) };
        let code = 1000 + cell as u16;
        if cell == 47 || cell == 49 {
            self.set_underlying_form(&mut draft, cell, hit);
            return (draft, Intent::Exactly(if hit { vec![code] } else { Vec::new() }));
        }
        if hit {
            self.malform(&mut draft, cell);
            if cell == 1 && self.rng.one_in(2) {
                // Nothing else is looked at then.
                for cell in [2, 4, 6, 7, 28, 36, 65] {
                    self.malform(&mut draft, cell);
                }
            }
            return (draft, Intent::Exactly(vec![code]));
        }
        let other_time = cell == 28 && draft.t < draft.s;
        let value = match cell {
            1 => draft.get(1).to_vec(),
            28 if other_time => {
                let time = self.rng.of(&[0, MICROS - 1, MICROS - 1_000_000, 500_000, 10_000_000]);
                timestamp(&mut self.rng, draft.t, time).into_bytes()
            }
            // Any country but PL, whose numbers have rules of their own.
            59 => loop {
                let value = well_formed(&mut self.rng, cell);
                if !value.starts_with(b"NIDN:PL") {
                    break value;
                }
            },
            _ => well_formed(&mut self.rng, cell),
        };
        draft.set(cell, value);
        let harmless = cell <= 2 || UNREAD.contains(&cell) || other_time || (cancelled && cell == 4);
        (draft, if harmless { Intent::Exactly(Vec::new()) } else { Intent::Without(code) })
    }

    /// Cell 47 or 49 malformed, or both well formed. Beside a malformed cell 47 any text will do in cell 49.
    fn set_underlying_form(&mut self, draft: &mut Draft, cell: usize, hit: bool) {
        if cell == 49 && hit && !draft.is_swap() && self.rng.one_in(4) {
            draft.blank(47);
        } else {
            self.set_underlying(draft, Size::Any);
        }
        if hit {
            self.malform(draft, cell);
        }
        if cell == 47 && hit && self.rng.one_in(2) {
            let value = underlying::any_index_term(&mut self.rng);
            draft.set(49, value);
        }
        if cell == 49 && !hit {
            self.set_index_term(draft, Size::Any);
        }
    }

    /// The next mistake in cell 47 or 49 by turns, in texts of both kinds; every fourth time there is none, or only a
    /// wrong check digit.
    pub fn underlying_form(&mut self, turn: usize) -> (Case, Intent) {
        let mut draft = self.clean(Want::default());
        let made = turn - turn / 4;
        let (which, rest) = (made % underlying::MISTAKE_COUNT, made / underlying::MISTAKE_COUNT);
        let (cell, kind) = ([47, 49][rest % 2], underlying::KINDS[rest / 2 % 2]);
        self.set_underlying(&mut draft, Size::Any);
        if turn % 4 == 3 {
            self.set_index_term(&mut draft, Size::Any);
            let wrong = turn % 8 == 7;
            if wrong {
                self.set_wrong_check_digit(&mut draft);
            }
            return (self.case(&draft), Intent::Exactly(if wrong { vec![470] } else { Vec::new() }));
        }
        if cell == 47 {
            let value = underlying::mistaken_underlying(&mut self.rng, kind, which);
            draft.spoil(47, value);
            return (self.case(&draft), Intent::Exactly(vec![1047]));
        }
        let kind = if draft.is_swap() { Kind::Swap } else { kind };
        let value = underlying::with_legs(&mut self.rng, kind, Size::Short);
        draft.set(47, value);
        let value = underlying::mistaken_index_term(&mut self.rng, kind, which);
        draft.spoil(49, value);
        (self.case(&draft), Intent::Exactly(vec![1049]))
    }

    /// A call that gets this refusal, or just does not.
    pub fn refusal(&mut self, number: u16, hit: bool) -> (Case, Intent) {
        let mut draft = if self.rng.one_in(4) { self.cancellation() } else { self.clean(Want::default()) };
        if number == 11 {
            return self.full_register(hit);
        }
        if number == 9 {
            // Just as long as a line may be, or a little longer.
            let length = if hit { self.rng.of(&[4097, 4097, 4098, LONGEST_LINE]) } else { 4096 };
            self.lengthen(&mut draft, length);
        }
        let mut case = self.case(&draft);
        if hit {
            self.damage(&mut case, number);
            return (case, Intent::Refused(number));
        }
        match number {
            1..=5 => {
                // An empty list is a list.
                let list = number as usize - 1;
                if self.rng.one_in(2) {
                    case.lists[list] = [&case.lists[list][..5], &[0; 4]].concat().into();
                }
                (case, Intent::Judged)
            }
            6 => self.odd_register(draft, case),
            7 => {
                case.day = self.rng.of(&[19000101, 20000229, 20240229, 20250430, 99991231, 19000228, case.day]);
                case.micro = self.rng.of(&[0, MICROS - 1]);
                (case, Intent::Judged)
            }
            8 => {
                case.findings = vec![FILLER; codes::count(case.polish != 0)];
                (case, Intent::Exactly(Vec::new()))
            }
            _ => (case, Intent::Exactly(Vec::new())),
        }
    }

    /// A call with two or three things wrong: the lowest refusal is given.
    pub fn refusals(&mut self) -> (Case, Intent) {
        let mut draft = if self.rng.one_in(4) { self.cancellation() } else { self.clean(Want::default()) };
        draft.full = self.rng.one_in(3);
        let mut case = self.case(&draft);
        let mut numbers: Vec<u16> = (1..=10).collect();
        self.rng.shuffle(&mut numbers);
        numbers.truncate(self.rng.of(&[2, 2, 3, 10]));
        // The length after the cells, which may shorten the line.
        numbers.sort_unstable_by(|a, b| b.cmp(a));
        for number in &numbers {
            self.damage(&mut case, *number);
        }
        (case, Intent::Refused(numbers[numbers.len() - 1]))
    }

    /// Damages a call so that it gets this refusal, if none before.
    pub fn damage(&mut self, case: &mut Case, number: u16) {
        match number {
            1..=5 => {
                let list = number as usize - 1;
                let damaged = self.damaged_list(&case.lists[list], WIDTHS[list]);
                case.lists[list] = damaged.into();
            }
            6 => self.damage_register(&mut case.register),
            7 => self.damage_moment(case),
            8 => {
                let enough = codes::count(case.polish != 0);
                let entries = self.rng.of(&[0, 1, 64, 137, enough - 3, enough - 2, enough - 1, enough - 1, enough - 1]);
                case.findings = vec![FILLER; entries];
            }
            9 => self.overfill(&mut case.line),
            _ => self.miscount(&mut case.line),
        }
    }

    fn damage_moment(&mut self, case: &mut Case) {
        if self.rng.one_in(2) {
            let large = self.rng.next() as u32 | 0x8000_0000;
            case.day = if self.rng.one_in(10) { large } else { self.rng.of(&UNREAL_DAYS) };
        } else {
            let far = self.rng.of(&[MICROS + 1, 1 << 37, 1 << 40, u64::MAX, (1 << 32) * 21, 86_400_000_000_000]);
            case.micro = self.rng.of(&[MICROS, far]);
        }
    }

    /// Makes a line too long: in the middle of a cell, at the start, or behind the last bar.
    fn overfill(&mut self, line: &mut Vec<u8>) {
        let length = self.rng.of(&[4097, 4098, LONGEST_LINE]);
        if line.len() < length {
            let place = self.rng.of(&[0, line.len() / 2, line.len()]);
            let fill = self.rng.of(b"A| \0\xff");
            line.splice(place..place, vec![fill; length - line.len()]);
        }
    }

    /// Gives a line another number of cells than 65.
    fn miscount(&mut self, line: &mut Vec<u8>) {
        let bars: Vec<usize> = (0..line.len()).filter(|&i| line[i] == b'|').collect();
        match self.rng.below(8) {
            // One cell fewer: a bar taken out, the last cell taken off.
            0 | 1 if !bars.is_empty() => {
                line.remove(self.rng.of(&bars));
            }
            2 if !bars.is_empty() => line.truncate(bars[bars.len() - 1]),
            // One more.
            3 => line.insert(0, b'|'),
            4 => line.push(b'|'),
            5 if !bars.is_empty() => line.insert(self.rng.of(&bars), b'|'),
            6 => *line = self.rng.of(&[&b""[..], b"NEW", b"x", b"|", b"CXL|R1"]).to_vec(),
            _ => *line = vec![b'|'; self.rng.of(&[62, 63, 65, 66, 128, 4096])],
        }
    }

    fn damaged_list(&mut self, list: &[u8], width: usize) -> Vec<u8> {
        let mut list = list.to_vec();
        let rng = &mut self.rng;
        let count = u32::from_le_bytes(list[5..9].try_into().expect("4 bytes"));
        match rng.below(9) {
            0 => list.truncate(rng.below(9)),
            1 => list.clear(),
            // Another mark, another version.
            2 => list[rng.below(3)] ^= rng.of(&[1, 0x20, 0x80]),
            3 => {
                let mark = rng.of(&[b"LEI", b"CTY", b"CCY", b"VEN", b"INS", b"TRN", b"lei"]);
                if list[..3] == *mark {
                    list[..3].reverse();
                } else {
                    list[..3].copy_from_slice(mark);
                }
            }
            4 => list[3..5].copy_from_slice(&rng.of(&[0u16, 2, 256, 257, 65535]).to_le_bytes()),
            // A length that does not agree.
            5 => {
                list.pop();
            }
            6 => {
                let more = rng.of(&[1, width - 1, width]);
                list.extend(rng.bytes(more));
            }
            7 => {
                let other = rng.of(&[count + 1, count.wrapping_sub(1), u32::MAX, 0, count ^ 0x0100_0000]);
                let other = if other == count { count + 1 } else { other };
                list[5..9].copy_from_slice(&other.to_le_bytes());
            }
            // A count whose product has the same lower 32 bits, where there is one.
            _ => {
                let turn = width & width.wrapping_neg();
                let other = if turn > 1 { count.wrapping_add(((1u64 << 32) / turn as u64) as u32) } else { count + 1 };
                list[5..9].copy_from_slice(&other.to_le_bytes());
            }
        }
        list
    }

    /// Fills the text cells so that the line gets this length and stays as it was otherwise.
    fn lengthen(&mut self, draft: &mut Draft, length: usize) {
        let mut cells = TEXTS.to_vec();
        self.rng.shuffle(&mut cells);
        for (cell, _) in &cells {
            draft.blank(*cell);
        }
        let mut missing = length - draft.line().len();
        for (cell, most) in cells {
            // At most four bytes for each character: as few of them as reach the length.
            let bytes = missing.min(4 * most);
            let mut text = "😀".repeat(bytes / 4);
            text.push_str(["", "a", "é", "山"][bytes % 4]);
            missing -= text.len();
            draft.set(cell, text);
        }
        assert_eq!(draft.line().len(), length);
    }

    /// Several cells changed at once, well formed or not.
    pub fn mixture(&mut self) -> (Case, Intent) {
        let mut draft = if self.rng.one_in(8) { self.cancellation() } else { self.clean(Want::default()) };
        for _ in 0..self.rng.of(&[1, 2, 3, 5, 8, 13]) {
            let first = if self.rng.one_in(30) { 1 } else { 2 };
            let cell = self.rng.between(first, 65);
            self.change(&mut draft, cell);
        }
        if self.rng.one_in(3) {
            draft.states = self.rng.of(&[&[1][..], &[2], &[], &[1, 2], &[2, 1], &[7]]).to_vec();
        }
        draft.full = self.rng.one_in(6);
        let mut case = self.case(&draft);
        case.line.truncate(LONGEST_LINE);
        self.disturb(&mut case);
        (case, Intent::Any)
    }

    /// Single bytes changed in several cells at once: parties and what is underlying always, others as it comes.
    pub fn nudges(&mut self) -> (Case, Intent) {
        let mut draft = self.clean(Want::default());
        let mut cells = vec![7, 12, 16, 21, 57, 59];
        cells.extend((0..10).map(|_| self.rng.between(2, 65)));
        for cell in cells {
            let party = [7, 12, 16, 21, 57, 59].contains(&cell);
            let value = if party && !self.rng.one_in(3) {
                let country = self.country(draft.t, true);
                let scheme = scheme(&mut self.rng);
                [scheme.as_bytes(), &well_shaped(&mut self.rng, scheme, &country)].concat()
            } else if party && self.rng.one_in(2) {
                self.any_polish(draft.t)
            } else {
                well_formed(&mut self.rng, cell)
            };
            let value = if self.rng.one_in(4) { value } else { nudged(&mut self.rng, value) };
            draft.set(cell, value);
        }
        self.nudge_underlying(&mut draft);
        let mut case = self.case(&draft);
        case.line.truncate(LONGEST_LINE);
        (case, Intent::Any)
    }

    /// A byte changed in cell 47 or in cell 49, which is looked at closely only where cell 47 is as it should be.
    fn nudge_underlying(&mut self, draft: &mut Draft) {
        let size = self.rng.of(&[Size::Short, Size::Any]);
        self.set_underlying(draft, size);
        self.set_index_term(draft, size);
        let cell = self.rng.of(&[47, 49]);
        let value = nudged(&mut self.rng, draft.get(cell).to_vec());
        draft.set(cell, value);
    }

    /// Every cell changed.
    pub fn wreck(&mut self) -> (Case, Intent) {
        let mut draft = self.clean(Want::default());
        let malformed_only = self.rng.one_in(3);
        let mut found = Vec::new();
        for cell in 2..=65 {
            if malformed_only {
                self.malform(&mut draft, cell);
                found.push(1000 + cell as u16);
            } else if !self.rng.one_in(4) {
                self.change(&mut draft, cell);
            }
        }
        let mut case = self.case(&draft);
        if case.line.len() > 4096 {
            case.line.truncate(LONGEST_LINE);
            return (case, Intent::Refused(9));
        }
        if malformed_only {
            return (case, Intent::Exactly(found));
        }
        self.disturb(&mut case);
        (case, Intent::Any)
    }

    fn change(&mut self, draft: &mut Draft, cell: usize) {
        let t = draft.t;
        let value = match self.rng.below(8) {
            0 => return self.malform(draft, cell),
            1 => Vec::new(),
            2 => {
                let other = self.rng.between(1, 65);
                draft.get(other).to_vec()
            }
            // Something of the world: good today, or not.
            3..=5 => {
                let rng = &mut self.rng;
                let world = &self.world;
                match cell {
                    4 | 6 | 26 | 27 => rng.of(&world.leis).to_vec(),
                    7 | 12 | 16 | 21 | 57 | 59 if rng.one_in(3) => self.any_polish(t),
                    7 | 12 | 16 | 21 if rng.one_in(2) => [b"LEI:", &rng.of(&world.leis)[..]].concat(),
                    7 | 16 if rng.one_in(2) => [b"MIC:", &rng.of(&world.mics)[..]].concat(),
                    7 | 12 | 16 | 21 => [b"NIDN:", &rng.of(&world.countries)[..], b"X1"].concat(),
                    8 | 17 | 37 | 58 | 60 => rng.of(&world.countries).to_vec(),
                    31 | 34 | 39 | 44 | 52 => rng.of(&world.currencies).to_vec(),
                    45 => [b"FX:", &rng.of(&world.currencies)[..]].concat(),
                    36 => rng.of(&world.mics).to_vec(),
                    41 => rng.of(&world.isins).to_vec(),
                    43 => super::classes::any_class(rng).to_vec(),
                    28 => {
                        let day = rng.of(&[t, world.t, world.s, oldest(world.s)]);
                        let near = rng.of(&[day.previous(), Some(day), day.next()]).unwrap_or(day);
                        timestamp(rng, near, 43_200_000_000).into_bytes()
                    }
                    _ => well_formed(rng, cell),
                }
            }
            _ => well_formed(&mut self.rng, cell),
        };
        draft.set(cell, value);
    }

    /// Now and then bytes changed anywhere: in the rows of a list, in the register, in the line, in the moment.
    fn disturb(&mut self, case: &mut Case) {
        let rng = &mut self.rng;
        match rng.below(16) {
            0 => {
                let list = rng.below(5);
                let mut bytes = case.lists[list].to_vec();
                for _ in 0..rng.between(1, 40) {
                    let place = rng.between(9, bytes.len() - 1);
                    bytes[place] = rng.of(&[0, 1, 2, 3, 4, 5, b'A', b'X', 0x34, 0xff]);
                }
                case.lists[list] = bytes.into();
            }
            1 => {
                for _ in 0..rng.between(1, 5) {
                    let place = rng.below(case.register.len());
                    case.register[place] = rng.of(&[0, 1, 2, b'A', b'0', 0xff]);
                }
            }
            2 => {
                for _ in 0..rng.between(1, 4) {
                    disturb_line(rng, &mut case.line);
                }
                case.line.truncate(LONGEST_LINE);
            }
            3 => {
                case.day = rng.of(&[20180103, 20180102, 20230103, 20250322, 19991231, 20400101]);
                case.micro = rng.next() % MICROS;
            }
            4 => case.findings = vec![FILLER; rng.between(130, 145)],
            _ => {}
        }
    }
}

/// Changes, adds or takes out a byte.
fn disturb_line(rng: &mut Rng, line: &mut Vec<u8>) {
    let place = rng.below(line.len());
    match rng.below(3) {
        0 => line[place] = rng.of(b"0A:|\0\xff .-#"),
        1 => line.insert(place, rng.of(b"0A:|\0\xff .-#")),
        _ => {
            line.remove(place);
        }
    }
}
