//! Counts what a file of cases reaches.

use std::collections::BTreeMap;
use std::io::{self, BufRead, Write};

use crate::codes::{answer_words, words, CODES};
use crate::file::{Answered, Case, Reader};
use crate::reference::{convert, Outcome};

#[derive(Clone, Copy, Debug, Default)]
struct Seen {
    times: usize,
    alone: usize,
}

/// What can come of a call's register.
const FATES: [&str; 8] = [
    "NEW accepted, next row", "NEW accepted, own row", "CXL accepted", "with findings", "refused by 6",
    "refused by 11", "refused otherwise", "just converted",
];

/// How often each comes, by the version that the head names: 1, 2, 3, or another or none.
#[derive(Default)]
struct Registers {
    times: [[usize; 4]; FATES.len()],
    /// What the case before left.
    before: Vec<u8>,
}

impl Registers {
    fn count(&mut self, case: &Case, expected: &Answered) {
        let version = match case.register.first_chunk() {
            Some(&[_, _, _, low, 0]) if (1..=3).contains(&low) => usize::from(low) - 1,
            _ => 3,
        };
        let grown = case.register.get(5..9) != expected.register.get(5..9);
        let fate = match expected.outcome {
            Outcome { answer: 0, count: 0, .. } if case.line.starts_with(b"CXL") => 2,
            Outcome { answer: 0, count: 0, .. } => usize::from(!grown),
            Outcome { answer: 0, .. } => 3,
            Outcome { answer: 6, .. } => 4,
            Outcome { answer: 11, .. } => 5,
            _ => 6,
        };
        self.times[fate][version] += 1;
        self.times[7][version] += usize::from(self.is_converted(&case.register));
        self.before.clone_from(&expected.register);
    }

    /// Is it what conversion makes of the register that the case before left, with a row or more used?
    fn is_converted(&self, register: &[u8]) -> bool {
        let mut again = register.to_vec();
        self.before.get(5..9).is_some_and(|used| used != [0; 4])
            && convert(&self.before, &mut again) == 0
            && again == register
    }

    fn print(&self, output: &mut impl Write) -> io::Result<()> {
        writeln!(
            output,
            "{:<22} {:>9} {:>9} {:>9} {:>6}",
            "registers", "version 1", "version 2", "version 3", "other"
        )?;
        for (fate, [one, two, three, other]) in FATES.iter().zip(self.times) {
            writeln!(output, "{fate:<22} {one:>9} {two:>9} {three:>9} {other:>6}")?;
        }
        Ok(())
    }
}

/// What the cases of a file come to.
struct Coverage {
    codes: BTreeMap<u16, Seen>,
    refusals: BTreeMap<u16, Seen>,
    cases: usize,
    clean: usize,
    /// The most findings of one case.
    most: usize,
}

impl Coverage {
    fn new() -> Coverage {
        let codes = CODES.iter().map(|&code| (code, Seen::default())).collect();
        let refusals = (1..=11).map(|number| (number, Seen::default())).collect();
        Coverage { codes, refusals, cases: 0, clean: 0, most: 0 }
    }

    fn count(&mut self, expected: &Answered) {
        self.cases += 1;
        if expected.outcome.answer != 0 {
            // A refusal never comes with anything else.
            let seen = self.refusals.entry(expected.outcome.answer).or_default();
            *seen = Seen { times: seen.times + 1, alone: seen.alone + 1 };
            return;
        }
        let found = expected.codes();
        self.clean += usize::from(found.is_empty());
        self.most = self.most.max(found.len());
        for code in found {
            let seen = self.codes.entry(*code).or_default();
            seen.times += 1;
            seen.alone += usize::from(found.len() == 1);
        }
    }
}

/// Prints how often each code and refusal is expected and how often alone; says whether each occurs alone at
/// least so many times.
pub fn run(cases: impl BufRead, at_least: usize, mut output: impl Write) -> io::Result<bool> {
    let mut reader = Reader::new(cases)?;
    let mut coverage = Coverage::new();
    let mut registers = Registers::default();
    while let Some((case, expected)) = reader.next_case()? {
        coverage.count(&expected);
        registers.count(&case, &expected);
    }
    let Coverage { codes, refusals, cases, clean, most } = coverage;
    writeln!(output, "{:>10} {:>6} {:>6}", "", "times", "alone")?;
    for (number, Seen { times, alone }) in &refusals {
        writeln!(output, "refusal{number:>3} {times:>6} {alone:>6}  {}", answer_words(*number))?;
    }
    for (code, Seen { times, alone }) in &codes {
        writeln!(output, "{code:>10} {times:>6} {alone:>6}  {}", words(*code))?;
    }
    registers.print(&mut output)?;
    let alone: Vec<usize> = refusals.values().chain(codes.values()).map(|seen| seen.alone).collect();
    let rarest = alone.iter().min().expect("codes and refusals");
    let short = alone.iter().filter(|times| **times < at_least).count();
    writeln!(output, "{cases} cases, {clean} clean, at most {most} findings in one")?;
    writeln!(
        output,
        "each of {} codes and refusals alone at least {rarest} times; {short} fewer than {at_least} times",
        alone.len()
    )?;
    output.flush()?;
    Ok(short == 0)
}

#[cfg(test)]
mod tests {
    use super::*;

    #[test]
    fn both_versions_come_to_everything() {
        let mut registers = Registers::default();
        let mut recipe = crate::recipe::Recipe::new(1);
        for _ in 0..10_000 {
            let (case, _) = recipe.next_case();
            registers.count(&case, &case.judge());
        }
        let times = registers.times;
        for (fate, at_least) in [900, 300, 100, 2000, 20, 60, 100].into_iter().enumerate() {
            for version in 0..2 {
                assert!(times[fate][version] >= at_least, "{}: {times:?}", FATES[fate]);
            }
        }
        // By its version, and by another mark or no head at all.
        assert!(times[4][2] >= 5 && times[4][3] >= 5, "{times:?}");
        assert!(times[7][1] >= 5 && times[7][0] == 0, "{times:?}");
        // Nothing but 6, or what is looked at before it, comes of a version that is none.
        assert!((0..7).all(|fate| fate == 4 || fate == 6 || times[fate][2..] == [0, 0]), "{times:?}");
    }
}
