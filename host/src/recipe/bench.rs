//! Lines for a benchmark: a day's work of a reporting house over one set of lists and one register.

use crate::codes::{CODES, COUNT_WITHOUT_POLISH};
use crate::file::{List, LISTS};
use crate::reference::{convert, Day, Version, MICROS};

use super::draft::{days_before, Draft, Maker, Want};
use super::kinds::Kind;
use super::registers::any_pair;
use super::rng::{Rng, CODE};
use super::world::{make_lei, oldest, World, NOT_LAPSED};

/// How many rows the register has room for, beside those used before the first line.
const ROOM: usize = 1024;

/// How many pairs the clean lines are about. They stay fewer than there is room for.
const PAIRS: usize = 1000;

/// Lines with all that they are judged by. They are meant to be judged in order, over the one register, and without
/// asking for Polish identifiers.
#[derive(Clone, Debug)]
pub struct BenchDay {
    /// LEI, CTY, CCY, VEN, INS.
    pub lists: [List; LISTS],
    /// The register before the first line.
    pub register: Vec<u8>,
    /// The moment of submission, the same for all lines.
    pub day: u32,
    pub micro: u64,
    pub lines: Vec<Vec<u8>>,
    /// How many lines are accepted.
    pub clean: usize,
}

/// So many lines over lists of 64 rows and a register that is empty at first and has room for 1,024 rows, of which
/// fewer are used in the end. No line is refused. Half of the lines, spread at random, are clean: new pairs, and
/// known pairs cancelled and reported anew. The others have one finding or a few. The same seed and count make the
/// same day everywhere.
pub fn bench_day(seed: u64, count: usize) -> BenchDay {
    sized_bench_day(seed, count, 64, 0)
}

/// The same lines over lists of so many rows each (64 at least) and a register that has so many rows used before the
/// first line, and room for 1,024 more. The lines ask for no row that is there for the size alone.
pub fn sized_bench_day(seed: u64, count: usize, list_rows: usize, register_rows: usize) -> BenchDay {
    let mut rng = Rng::new(seed);
    let s = Day::new(20250322).expect("a real day");
    let world = World::padded(&mut rng, s, days_before(s, 1), list_rows.max(64));
    let lists = world.lists.clone();
    let register = register(Rng::new(rng.next()), register_rows);
    let mut house = House { maker: Maker { rng, world, polish: false }, pairs: Vec::new() };
    let mut clean: Vec<bool> = (0..count).map(|line| line % 2 == 1).collect();
    house.maker.rng.shuffle(&mut clean);
    let lines = clean.iter().map(|&clean| if clean { house.clean_line() } else { house.faulty_line() }.line());
    // The last moment of the day, so that every trade of it lies before.
    BenchDay { lists, register, day: s.number(), micro: MICROS - 1, lines: lines.collect(), clean: count / 2 }
}

impl BenchDay {
    /// The same day over a register of version 2, with room for as many rows: what conversion makes of the other.
    pub fn in_version_2(mut self) -> BenchDay {
        let rows = Version::One.capacity(self.register.len() as u64) as usize;
        let mut converted = vec![0; Version::Two.length(rows)];
        assert_eq!(convert(&self.register, &mut converted), 0, "a day starts with version 1");
        self.register = converted;
        self
    }

    /// The same lines, but of so many executing entities. They are no longer what they were by the lists.
    pub fn lines_of(&self, seed: u64, entities: usize) -> Vec<Vec<u8>> {
        let mut lines = self.lines.clone();
        spread(&mut Rng::new(seed), entities, &mut lines);
        lines
    }
}

/// Gives the lines whose cell 4 is as long as an entity other ones, so many in all: they come up one by one, and come back
/// in any order.
pub fn spread(rng: &mut Rng, firms: usize, lines: &mut [Vec<u8>]) {
    let firms: Vec<[u8; 20]> = (0..firms).map(|_| make_lei(rng)).collect();
    let mut seen = 0;
    for line in lines {
        let mut cells: Vec<&[u8]> = line.split(|&byte| byte == b'|').collect();
        if cells.get(3).is_none_or(|entity| entity.len() != 20) {
            continue;
        }
        seen = (seen + usize::from(seen == 0 || rng.one_in(3))).min(firms.len());
        cells[3] = &firms[rng.below(seen)];
        *line = cells.join(&b'|');
    }
}

/// So many rows of pairs that no line is about, and room for more.
fn register(mut rng: Rng, used: usize) -> Vec<u8> {
    let mut register = Version::One.head(used as u32);
    for _ in 0..used {
        register.extend(any_pair(&mut rng));
        register.push(rng.of(&[1, 1, 1, 2]));
    }
    register.resize(Version::One.length(used + ROOM), 0);
    register
}

/// A pair that was accepted.
#[derive(Clone, Copy)]
struct Known {
    entity: [u8; 20],
    reference: [u8; 20],
    live: bool,
}

impl Known {
    fn set_in(&self, draft: &mut Draft) {
        draft.set(4, self.entity);
        draft.set(2, self.reference);
    }
}

/// A reporting house at work.
struct House {
    maker: Maker,
    pairs: Vec<Known>,
}

impl House {
    /// A pair not known so far, or a known one cancelled, or a cancelled one anew.
    fn clean_line(&mut self) -> Draft {
        let t = self.maker.world.t;
        if self.pairs.is_empty() || (self.pairs.len() < PAIRS && self.maker.rng.one_in(4)) {
            let entity = self.maker.good_lei(t, NOT_LAPSED);
            self.pairs.push(Known { entity, reference: self.maker.rng.array(CODE), live: true });
            return self.new_line(self.pairs[self.pairs.len() - 1]);
        }
        let which = self.maker.rng.below(self.pairs.len());
        self.pairs[which].live ^= true;
        let pair = self.pairs[which];
        if pair.live {
            self.new_line(pair)
        } else {
            self.cancellation(pair)
        }
    }

    fn new_line(&mut self, pair: Known) -> Draft {
        let mut draft = self.trade(Want { entity: Some(pair.entity), firm: Some(true), ..Want::default() });
        pair.set_in(&mut draft);
        draft
    }

    /// Mostly shares and bonds.
    fn trade(&mut self, want: Want) -> Draft {
        let kind = match self.maker.rng.below(20) {
            0..=7 => Kind::Share,
            8..=11 => Kind::Bond,
            12..=13 => Kind::Option,
            14..=15 => Kind::Future,
            16..=17 => Kind::Swap,
            18 => Kind::Warrant,
            _ => Kind::Other,
        };
        self.maker.trade(kind, want)
    }

    fn cancellation(&mut self, pair: Known) -> Draft {
        let mut draft = self.maker.cancellation();
        pair.set_in(&mut draft);
        draft
    }

    /// A line that meets some code, and now and then a malformed cell or two beside. Such a cell may silence the
    /// code, but has one of its own.
    fn faulty_line(&mut self) -> Draft {
        let s = self.maker.world.s;
        let code = self.maker.rng.of(&CODES[..COUNT_WITHOUT_POLISH]);
        let mut draft = match code {
            23 | 25 => self.repeated(code == 23),
            // For these two the recipe would choose another moment of submission.
            280 => self.trade_on(s.next().expect("a next day")),
            281 => self.trade_on(days_before(oldest(s), 1)),
            1001.. => self.maker.form(usize::from(code) - 1000, true).0,
            _ => self.maker.rule(code, true).0,
        };
        for _ in 0..self.maker.rng.of(&[0, 0, 0, 1, 2]) {
            let cell = self.maker.rng.between(2, 65);
            self.maker.malform(&mut draft, cell);
        }
        draft
    }

    fn trade_on(&mut self, t: Day) -> Draft {
        self.maker.clean(Want { t: Some(t), ..Want::default() })
    }

    /// A live pair new again, or a cancelled one cancelled again; while there is none, a cancellation of an unknown
    /// one.
    fn repeated(&mut self, live: bool) -> Draft {
        match self.maker.rng.of_those(&self.pairs, |pair| pair.live == live) {
            Some(pair) if live => self.new_line(pair),
            Some(pair) => self.cancellation(pair),
            None => self.maker.rule(24, true).0,
        }
    }
}

#[cfg(test)]
mod tests {
    use super::*;
    use crate::reference::{judge_line, Lists, Moment, Register};

    fn used(register: &[u8]) -> usize {
        u32::from_le_bytes(register[5..9].try_into().unwrap()) as usize
    }

    fn list_rows(list: &[u8]) -> usize {
        u32::from_le_bytes(list[5..9].try_into().unwrap()) as usize
    }

    /// Judges a day, over registers of both versions, and looks at what was promised of it.
    fn check(day: &BenchDay, rows: usize, used_before: usize) {
        check_version(day, Version::One, rows, used_before);
        check_version(&day.clone().in_version_2(), Version::Two, rows, used_before);
    }

    fn check_version(day: &BenchDay, version: Version, rows: usize, used_before: usize) {
        assert!(day.lists.iter().all(|list| list_rows(list) == rows));
        let [lei, cty, ccy, ven, ins] = &day.lists;
        let lists = Lists::read(lei, cty, ccy, ven, ins).unwrap();
        assert!(day.register.starts_with(&version.head(used_before as u32)));
        assert_eq!(day.register.len(), 9 + version.width() * (used_before + 1024));
        let mut bytes = day.register.clone();
        let mut register = Register::open(&mut bytes).unwrap();
        let moment = Moment::new(day.day, day.micro).unwrap();
        let mut findings = [0; COUNT_WITHOUT_POLISH];
        let (mut clean, mut found) = (0, 0);
        for line in &day.lines {
            let outcome = judge_line(&lists, &mut register, moment, false, &mut findings, line);
            assert_eq!(outcome.answer, 0, "{}", String::from_utf8_lossy(line));
            assert!(outcome.count <= 8, "{}: {findings:?}", String::from_utf8_lossy(line));
            clean += usize::from(outcome.count == 0);
            found += usize::from(outcome.count);
        }
        let faulty = day.lines.len() - clean;
        assert_eq!((clean, clean), (day.clean, day.lines.len() / 2));
        assert!((faulty..3 * faulty).contains(&found));
        assert!(used(&bytes) < used_before + 1024);
    }

    #[test]
    fn half_of_the_lines_are_clean() {
        for seed in 1..=5 {
            check(&bench_day(seed, 4000), 64, 0);
        }
        check(&bench_day(6, 20_001), 64, 0);
        check(&sized_bench_day(7, 1000, 1000, 3000), 1000, 3000);
    }

    #[test]
    fn the_same_seed_makes_the_same_day() {
        assert_eq!(bench_day(1, 100).lines, bench_day(1, 100).lines);
        assert_ne!(bench_day(1, 100).lines, bench_day(2, 100).lines);
        assert_eq!(bench_day(1, 100).lines, sized_bench_day(1, 100, 200, 300).lines);
    }
}
