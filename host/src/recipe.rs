//! Makes calls by a fixed recipe, and writes them with the results expected of them.
//!
//! Most cases have an aim: one of the 141 codes or 11 refusals, to be met just so or just missed. The recipe
//! then knows what shall come out, from its own plain reading of the rules, and says so if the reference
//! disagrees. Others are clean lines of all kinds, registers of both versions at their edges, sequences over one
//! register, and calls at random.

mod bench;
mod calls;
mod classes;
mod days;
mod draft;
mod kinds;
mod polish;
mod regimes;
pub(crate) mod registers;
pub(crate) mod rng;
mod rules;
mod underlying;
pub(crate) mod values;
mod world;

use std::collections::VecDeque;
use std::io::{self, Write};

use crate::codes::{words, CODES, COUNT};
use crate::file::{Answered, Case, Writer, LONGEST_LINE};

pub(crate) use bench::spread;
pub use bench::{bench_day, sized_bench_day, BenchDay};
pub use days::DayRecipe;

use draft::{Draft, Maker, Want};
use kinds::KINDS;
use rng::Rng;
use world::World;

/// Cases made in one world.
const BLOCK: usize = 100;

/// What the recipe means a call to come to.
#[derive(Clone, Debug, PartialEq, Eq)]
pub enum Intent {
    Refused(u16),
    /// Judged, with just these codes.
    Exactly(Vec<u16>),
    /// Judged, without this code.
    Without(u16),
    Judged,
    Any,
}

impl Intent {
    pub fn is_met_by(&self, answered: &Answered) -> bool {
        let judged = answered.outcome.answer == 0;
        match self {
            Intent::Refused(number) => answered.outcome.answer == *number,
            Intent::Exactly(codes) => judged && answered.codes() == codes,
            Intent::Without(code) => judged && !answered.codes().contains(code),
            Intent::Judged => judged,
            Intent::Any => true,
        }
    }
}

/// Makes one case after another.
pub struct Recipe {
    maker: Maker,
    /// Cases made so far.
    made: usize,
    /// Aims, days at the edge of 281, LEIs round 2 July 2018, patterns, clean lines, mistakes in cells 47 and 49, Polish
    /// identifiers and registers take turns.
    aims: usize,
    ages: usize,
    regimes: usize,
    patterns: usize,
    kinds: usize,
    mistakes: usize,
    numbers: usize,
    registers: usize,
    /// The rest of a sequence.
    waiting: VecDeque<(Case, Intent)>,
}

impl Recipe {
    pub fn new(seed: u64) -> Recipe {
        let mut rng = Rng::new(seed);
        let world = World::make_with_july(&mut rng);
        let maker = Maker { rng, world, polish: true };
        let waiting = VecDeque::new();
        Recipe {
            maker,
            made: 0,
            aims: 0,
            ages: 0,
            regimes: 0,
            patterns: 0,
            kinds: 0,
            mistakes: 0,
            numbers: 0,
            registers: 0,
            waiting,
        }
    }

    /// The next case, with what it shall come to.
    pub fn next_case(&mut self) -> (Case, Intent) {
        self.made += 1;
        if self.made.is_multiple_of(BLOCK) {
            self.maker.world = World::make_with_july(&mut self.maker.rng);
        }
        if let Some(case) = self.waiting.pop_front() {
            return case;
        }
        match self.maker.rng.below(100) {
            0..=47 => self.aimed(),
            48..=50 => self.age(),
            51..=54 => self.regime(),
            55..=62 => self.pattern(),
            63..=68 => self.clean(),
            69..=72 => self.underlying(),
            73..=81 => self.polish(),
            82..=85 => self.register(),
            86..=90 => self.maker.mixture(),
            91..=94 => self.maker.nudges(),
            95..=96 => self.maker.wreck(),
            97..=98 => self.maker.refusals(),
            _ => {
                self.waiting = self.maker.sequence().into();
                self.waiting.pop_front().expect("a sequence is not empty")
            }
        }
    }

    /// The next aim in turn. Over six rounds each is met, missed, met and missed; in the last two a malformed cell
    /// is added to the line of a code.
    fn aimed(&mut self) -> (Case, Intent) {
        let (rounds, aim) = (self.aims / (COUNT + 11), self.aims % (COUNT + 11));
        self.aims += 1;
        let round = rounds % 6;
        let maker = &mut self.maker;
        if aim >= COUNT {
            return maker.refusal((aim - COUNT) as u16 + 1, round.is_multiple_of(2));
        }
        let code = CODES[aim];
        let hit = [0, 2, 4, 5].contains(&round);
        let (mut draft, mut intent, reads) = match code {
            1001..=1065 => {
                let (draft, intent) = maker.form(usize::from(code) - 1000, hit);
                (draft, intent, &[][..])
            }
            3307.. => {
                // Each kind of round goes through the cells.
                let cell = polish::cell(code, rounds + rounds / 6);
                let (draft, codes) = maker.polish_rule(code, cell, hit);
                (draft, Intent::Exactly(codes), polish::reads(code, cell))
            }
            _ => {
                let (draft, codes) = maker.rule(code, hit);
                (draft, Intent::Exactly(codes), rules::reads(code))
            }
        };
        match round {
            // A form finding in a cell that the rule reads, each in turn: the rule falls silent.
            4 if !reads.is_empty() => {
                let cell = reads[rounds / 6 % reads.len()];
                maker.malform(&mut draft, cell);
                intent = Intent::Exactly(vec![1000 + cell as u16]);
            }
            // One in another cell stands beside it. Beside 1001 nothing does.
            4 | 5 if code != 1001 => intent = add_form(maker, &mut draft, intent, reads),
            _ => {}
        }
        within_length(maker.case(&draft), intent)
    }

    /// The next days at the edge of 281 in turn.
    fn age(&mut self) -> (Case, Intent) {
        let (draft, codes) = self.maker.edge_of_age(self.ages);
        self.ages += 1;
        within_length(self.maker.case(&draft), Intent::Exactly(codes))
    }

    /// The next days round the change of what is asked of parties in turn.
    fn regime(&mut self) -> (Case, Intent) {
        let (draft, codes) = self.maker.regime_turn(self.regimes);
        self.regimes += 1;
        (self.maker.case(&draft), Intent::Exactly(codes))
    }

    /// The next pattern of a rule by classification in turn, met and missed by turns.
    fn pattern(&mut self) -> (Case, Intent) {
        let all: Vec<(u16, &str)> = classes::CODES
            .iter()
            .flat_map(|code| classes::patterns(*code).iter().map(|pattern| (*code, *pattern)))
            .collect();
        let (code, pattern) = all[self.patterns % all.len()];
        let hit = (self.patterns / all.len()).is_multiple_of(2);
        self.patterns += 1;
        let (draft, codes) = self.maker.class_rule(code, pattern, hit);
        (self.maker.case(&draft), Intent::Exactly(codes))
    }

    /// The next mistake in cell 47 or 49 in turn, now and then none.
    fn underlying(&mut self) -> (Case, Intent) {
        let turn = self.mistakes;
        self.mistakes += 1;
        self.maker.underlying_form(turn)
    }

    /// The next Polish identifier in turn, right or wrong.
    fn polish(&mut self) -> (Case, Intent) {
        let turn = self.numbers;
        self.numbers += 1;
        let (draft, codes) = self.maker.polish_turn(turn);
        let case = self.maker.case(&draft);
        // Lines of every status among them.
        if [4, 15].contains(&(turn % 16)) {
            return self.maker.in_little_room(case, codes);
        }
        (case, Intent::Exactly(codes))
    }

    /// The next situation of a register in turn.
    fn register(&mut self) -> (Case, Intent) {
        let turn = self.registers;
        self.registers += 1;
        self.maker.register_turn(turn)
    }

    /// The next kind of clean line in turn; after all of them a cancellation.
    fn clean(&mut self) -> (Case, Intent) {
        let kind = KINDS.get(self.kinds % (KINDS.len() + 1));
        self.kinds += 1;
        let draft = match kind {
            Some(kind) => self.maker.trade(*kind, Want::default()),
            None => self.maker.cancellation(),
        };
        (self.maker.case(&draft), Intent::Exactly(Vec::new()))
    }
}

/// Makes another cell malformed and says what comes of it. Of a cancellation only three cells are looked at.
fn add_form(maker: &mut Maker, draft: &mut Draft, intent: Intent, reads: &[usize]) -> Intent {
    let Intent::Exactly(mut codes) = intent else { unreachable!("what is met is known exactly") };
    let has = |cell: usize| reads.contains(&cell) || codes.contains(&(1000 + cell as u16));
    let cells: Vec<usize> = (2..=65).filter(|cell| !has(*cell)).collect();
    let cell = match codes[..] {
        // Cell 49 goes by cell 47, and otherwise beside a malformed one.
        [1047] if maker.rng.one_in(2) => 49,
        [1049] if maker.rng.one_in(2) => 47,
        _ => maker.rng.of(&cells),
    };
    maker.malform(draft, cell);
    if draft.get(1) == b"NEW" || [2, 4, 6].contains(&cell) {
        codes.push(1000 + cell as u16);
    }
    codes.sort_unstable();
    Intent::Exactly(codes)
}

/// Long cells can make a line too long.
fn within_length(mut case: Case, intent: Intent) -> (Case, Intent) {
    if case.line.len() <= 4096 {
        return (case, intent);
    }
    case.line.truncate(LONGEST_LINE);
    (case, Intent::Refused(9))
}

/// Writes N cases, and says how many and how large.
pub fn run(seed: u64, count: usize, to: impl Write, mut output: impl Write) -> io::Result<()> {
    let mut recipe = Recipe::new(seed);
    let mut writer = Writer::new(to, count)?;
    let mut clean = 0;
    for number in 1..=count {
        let (case, intent) = recipe.next_case();
        let expected = case.judge();
        if !intent.is_met_by(&expected) {
            return Err(io::Error::other(disagreement(number, &case, &intent, &expected)));
        }
        clean += usize::from(expected.outcome.answer == 0 && expected.outcome.count == 0);
        writer.write(&case, &expected)?;
    }
    writer.finish()?;
    writeln!(output, "{count} cases of seed {seed}, {clean} of them clean")?;
    output.flush()
}

fn disagreement(number: usize, case: &Case, intent: &Intent, answered: &Answered) -> String {
    let mut text = format!(
        "case {number}: the recipe means {intent:?}, the reference says {:?} {:?}\n{}\n{} {} {}",
        answered.outcome.answer,
        answered.codes(),
        String::from_utf8_lossy(&case.line),
        case.day,
        case.micro,
        case.polish
    );
    for code in answered.codes() {
        text.push_str(&format!("\n{code} {}", words(*code)));
    }
    text
}

#[cfg(test)]
mod tests {
    use super::*;

    #[test]
    fn recipe_and_reference_agree() {
        for seed in 1..=3 {
            let mut recipe = Recipe::new(seed);
            for number in 1..=3000 {
                let (case, intent) = recipe.next_case();
                let answered = case.judge();
                assert!(
                    intent.is_met_by(&answered),
                    "seed {seed}, {}",
                    disagreement(number, &case, &intent, &answered)
                );
            }
        }
    }

    /// The days and whether there is another mistake: each in every way, and only once.
    #[test]
    fn the_edge_of_age_from_both_sides() {
        let mut recipe = Recipe::new(1);
        let mut seen = std::collections::BTreeSet::new();
        for turn in 0..31 * 5 * 3 {
            let (case, intent) = recipe.age();
            let answered = case.judge();
            assert!(intent.is_met_by(&answered), "{}", disagreement(turn, &case, &intent, &answered));
            let traded = case.line.split(|byte| *byte == b'|').nth(27).unwrap()[..10].to_vec();
            seen.insert((case.day, traded, turn % 3));
        }
        assert_eq!(seen.len(), 31 * 5 * 3);
    }

    /// Trading days (four of them twice), submission days, places of an LEI and how many there are of it: in every way.
    #[test]
    fn the_change_of_regime_from_both_sides() {
        const TURNS: usize = 11 * 7 * 9 * 5;
        let mut recipe = Recipe::new(1);
        let mut seen = std::collections::BTreeSet::new();
        for turn in 0..TURNS {
            let (case, intent) = recipe.regime();
            let answered = case.judge();
            assert!(intent.is_met_by(&answered), "{}", disagreement(turn, &case, &intent, &answered));
            let traded = case.line.split(|byte| *byte == b'|').nth(27).unwrap()[..10].to_vec();
            seen.insert((traded, case.day, turn % 9, turn % 5));
        }
        assert_eq!(seen.len(), TURNS / 11 * 7);
    }

    #[test]
    fn every_code_and_refusal_occurs_alone() {
        let mut cases = Vec::new();
        run(1, 4000, &mut cases, io::sink()).unwrap();
        assert!(crate::coverage::run(&cases[..], 3, io::sink()).unwrap());
    }

    #[test]
    fn the_same_seed_makes_the_same_cases() {
        let made = |seed| {
            let mut cases = Vec::new();
            run(seed, 200, &mut cases, io::sink()).unwrap();
            cases
        };
        assert!(made(1) == made(1) && made(1) != made(2));
    }
}
