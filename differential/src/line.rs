//! A line of the stored answers: hexadecimal numbers with one space between them.

use std::fmt::{Display, Formatter, Result};

use crate::parts::{Profile, Text, Total};

/// Puts numbers on a line.
#[derive(Debug, Default)]
pub struct Line(Vec<u64>);

impl Line {
    pub fn word(&mut self, word: u64) -> &mut Self {
        self.0.push(word);
        self
    }

    pub fn words(&mut self, words: &[u64]) -> &mut Self {
        self.0.extend(words);
        self
    }

    /// A length and its elements.
    pub fn slice(&mut self, words: &[u64]) -> &mut Self {
        self.word(words.len() as u64).words(words)
    }

    /// A float is the number of its bits.
    pub fn float(&mut self, x: f64) -> &mut Self {
        self.word(x.to_bits())
    }

    /// The floats of all models, one after another.
    pub fn models<const N: usize>(&mut self, models: &[[f64; N]]) -> &mut Self {
        let floats = models.as_flattened();
        self.word(floats.len() as u64);
        self.0.extend(floats.iter().map(|x| x.to_bits()));
        self
    }

    pub fn text(&mut self, text: &Text) -> &mut Self {
        self.word(text.0.len() as u64);
        self.0.extend(text.0.iter().map(|&b| u64::from(b)));
        self
    }

    /// The length of a lent slice that the call writes.
    pub fn room(&mut self, room: usize) -> &mut Self {
        self.word(room as u64)
    }

    pub fn total(&mut self, total: Total) -> &mut Self {
        self.word(total.ceiling.into()).word(total.width)
    }

    /// The counts, and as many probabilities and domains as they say and the struct has.
    pub fn profile(&mut self, p: &Profile) -> &mut Self {
        self.words(&[p.domain_count, p.prob_count, p.runtime]);
        self.float(p.threshold);
        for prob in &p.probs[..p.prob_count.min(16) as usize] {
            self.float(*prob);
        }
        self.words(&p.domains[..p.domain_count.min(64) as usize])
    }

    #[must_use]
    pub fn len(&self) -> usize {
        self.0.len()
    }

    #[must_use]
    pub fn is_empty(&self) -> bool {
        self.0.is_empty()
    }
}

impl Display for Line {
    fn fmt(&self, f: &mut Formatter) -> Result {
        for (i, word) in self.0.iter().enumerate() {
            let gap = if i == 0 { "" } else { " " };
            write!(f, "{gap}{word:x}")?;
        }
        Ok(())
    }
}
