//! Counts of what the cases of an entry came to.

use std::collections::BTreeMap;
use std::fmt::{Display, Formatter, Result};

use crate::entry::{Entry, Outcome, Side};
use crate::parts::{EDGES, WIDEST};

/// The counts of one entry.
#[derive(Default)]
pub struct Report {
    pub cases: u64,
    counts: BTreeMap<Outcome, u64>,
    /// How many inputs of each width are accepted, where the entry has a width.
    widths: BTreeMap<u64, u64>,
    /// How many inputs are one wider than the widest.
    too_wide: u64,
}

impl Report {
    pub fn add<E: Entry>(&mut self, input: &E::Input, outcomes: &[Outcome]) {
        self.cases += 1;
        for outcome in outcomes {
            *self.counts.entry(*outcome).or_default() += 1;
        }
        let Some(width) = E::width(input) else {
            return;
        };
        if E::refusal(input).is_ok() {
            *self.widths.entry(width).or_default() += 1;
        } else if width == WIDEST + 1 {
            self.too_wide += 1;
        }
    }

    /// How many accepted inputs are at most and more than 64 wide.
    #[must_use]
    pub fn narrow_and_wide(&self) -> [u64; 2] {
        [self.widths.range(..=64), self.widths.range(65..)].map(|part| part.map(|(_, k)| k).sum())
    }

    /// The edges of a width at which there is no case.
    fn missing_widths(&self) -> Vec<u64> {
        let has = |w: &u64| self.widths.contains_key(w) || (*w > WIDEST && self.too_wide > 0);
        let edges = EDGES.into_iter().chain([WIDEST + 1]);
        edges
            .filter(|w| !self.widths.is_empty() && !has(w))
            .collect()
    }

    fn count(&self, outcome: Outcome) -> u64 {
        self.counts.get(&outcome).copied().unwrap_or(0)
    }

    /// How often a number refused: where the Rust fails too, where it answers, where it cannot be
    /// asked.
    #[must_use]
    pub fn refused(&self, number: u64) -> [u64; 3] {
        [Side::Fails, Side::Answers, Side::NotAsked]
            .map(|side| self.count(Outcome::Refused(number, side)))
    }

    /// What document 01 says is possible and no case came to, and widths at an edge that no case
    /// has; listed differences where they count.
    #[must_use]
    pub fn missing<E: Entry>(&self, with_listed: bool) -> Vec<String> {
        let answers = E::ANSWERS.iter().map(|&name| Outcome::Answered(name));
        let listed = E::LISTED.iter().map(|&name| Outcome::Listed(name));
        let wanted = answers.chain(listed.filter(|_| with_listed));
        let mut missing: Vec<String> = wanted
            .filter(|&outcome| self.count(outcome) == 0)
            .map(|outcome| format!("{outcome:?}"))
            .collect();
        let numbers = E::REFUSALS.iter();
        let unused = numbers.filter(|&&number| self.refused(number) == [0; 3]);
        missing.extend(unused.map(|number| format!("refused {number}")));
        let widths = self.missing_widths();
        missing.extend(widths.iter().map(|width| format!("width {width}")));
        missing
    }
}

impl Display for Report {
    fn fmt(&self, f: &mut Formatter) -> Result {
        if !self.widths.is_empty() {
            let [narrow, wide] = self.narrow_and_wide();
            writeln!(
                f,
                "  accepted: {narrow} of a width to 64, {wide} of 65 to {WIDEST}"
            )?;
        }
        let mut numbers = vec![];
        for (outcome, count) in &self.counts {
            match outcome {
                Outcome::Answered(name) => writeln!(f, "  {name:<36}{count:>10}")?,
                Outcome::Listed(name) => writeln!(f, "  listed: {name:<28}{count:>10}")?,
                Outcome::Refused(number, _) => numbers.push(*number),
            }
        }
        numbers.dedup();
        for number in numbers {
            let [fails, answers, not_asked] = self.refused(number);
            let all = fails + answers + not_asked;
            write!(f, "  refused {number:<28}{all:>10}")?;
            writeln!(
                f,
                "   the Rust fails {fails}, answers {answers}, not asked {not_asked}"
            )?;
        }
        Ok(())
    }
}
