//! The set of codes found.

use super::report::Form;
use crate::codes::{self, CODES};

/// One bit for each code, in rising order of the codes.
#[derive(Clone, Copy, Debug, Default, PartialEq, Eq)]
pub struct Verdict([u64; 3]);

impl Verdict {
    #[inline]
    pub fn add(&mut self, code: u16) {
        let place = codes::place(code);
        self.0[place / 64] |= 1 << (place % 64);
    }

    /// Adds the code if the rule is violated. A rule that met a malformed cell is not.
    #[inline]
    pub fn rule(&mut self, code: u16, violated: impl FnOnce() -> Form<bool>) {
        if violated() == Ok(true) {
            self.add(code);
        }
    }

    pub fn is_clean(&self) -> bool {
        self.0 == [0; 3]
    }

    pub fn words(&self) -> [u64; 3] {
        self.0
    }

    pub fn count(&self) -> u16 {
        self.0.iter().map(|word| word.count_ones() as u16).sum()
    }

    /// The codes found, in rising order.
    pub fn codes(&self) -> impl Iterator<Item = u16> {
        let mut words = self.0;
        let mut at = 0;
        std::iter::from_fn(move || loop {
            let word = words.get_mut(at)?;
            if *word == 0 {
                at += 1;
                continue;
            }
            let bit = word.trailing_zeros() as usize;
            *word &= *word - 1;
            return Some(CODES[at * 64 + bit]);
        })
    }
}
