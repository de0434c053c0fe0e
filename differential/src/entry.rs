//! What the entries have in common: an input, two answers to it, and their comparison.

use std::fmt::{self, Debug, Formatter};

use oracle::api::{self, Fail};

use crate::document::Checked;
use crate::line::Line;
use crate::rng::Rng;

/// What an entry answers, as words. A float is its bits, every NaN the same.
#[derive(Clone, PartialEq, Eq)]
pub struct Answer {
    pub refusal: u64,
    /// The fields of the C struct behind the refusal.
    pub fields: Vec<u64>,
    /// The lent words as the call leaves them.
    pub lent: Vec<u64>,
}

/// What the Rust answers to an input.
pub struct Told {
    pub answer: Answer,
    /// What this comes to; several if the input is a sequence.
    pub outcomes: Vec<Outcome>,
    /// The port's answer, where docs/DIFFERENCES.md says that it is another one, overflows apart.
    pub listed: Option<Listed>,
}

/// A listed difference, recognised by a condition on the input, with both answers as the list has
/// them.
pub struct Listed {
    pub name: &'static str,
    pub rust: Answer,
    pub port: Answer,
}

/// `None` if the Rust cannot be asked: a number is above a byte, a table has no counterpart.
pub type Asked = Option<Result<Told, Fail>>;

/// What became of a case, for the counts.
#[derive(Debug, Clone, Copy, PartialEq, Eq, PartialOrd, Ord)]
pub enum Outcome {
    /// Both gave this answer.
    Answered(&'static str),
    /// Both gave the answer that this listed difference says.
    Listed(&'static str),
    /// The port refused with the document's number.
    Refused(u64, Side),
}

/// What the Rust does with an input that the port refuses.
#[derive(Debug, Clone, Copy, PartialEq, Eq, PartialOrd, Ord)]
pub enum Side {
    Fails,
    Answers,
    NotAsked,
}

impl Told {
    #[must_use]
    pub fn new(answer: Answer, class: &'static str) -> Told {
        Told {
            answer,
            outcomes: vec![Outcome::Answered(class)],
            listed: None,
        }
    }
}

impl Answer {
    #[must_use]
    pub fn fields(fields: Vec<u64>) -> Answer {
        Answer::lent(fields, vec![])
    }

    #[must_use]
    pub fn lent(fields: Vec<u64>, lent: Vec<u64>) -> Answer {
        Answer {
            refusal: 0,
            fields,
            lent,
        }
    }

    /// The port's answer, from the fields of a C struct, which are compared behind a refusal too.
    #[must_use]
    pub fn given<const N: usize>(refusal: u64, fields: [u64; N], lent: Vec<u64>) -> Answer {
        Answer {
            refusal,
            ..Answer::lent(fields.to_vec(), lent)
        }
    }

    /// The port's answer, from a call of the bindings.
    #[cfg(feature = "port")]
    pub fn of<T, const N: usize>(
        called: Result<T, callboard::Refusal>,
        lent: Vec<u64>,
        fields: impl FnOnce(T) -> [u64; N],
    ) -> Answer {
        match called {
            Ok(value) => Answer::lent(fields(value).to_vec(), lent),
            Err(callboard::Refusal(refusal)) => Answer {
                refusal,
                fields: vec![0; N],
                lent,
            },
        }
    }
}

impl Debug for Answer {
    fn fmt(&self, f: &mut Formatter) -> fmt::Result {
        let Answer {
            refusal,
            fields,
            lent,
        } = self;
        write!(f, "refusal {refusal}, fields {fields:x?}, lent {lent:x?}")
    }
}

/// An entry of the port.
pub trait Entry {
    type Input: Debug;

    /// Its name here and as a file of stored answers.
    const NAME: &'static str;
    /// The answers, the listed differences and the refusals that document 01 says are possible.
    /// None may stay without a case.
    const ANSWERS: &'static [&'static str];
    const LISTED: &'static [&'static str] = &[];
    const REFUSALS: &'static [u64];
    /// Those of the refusals that stand for an error of the Rust's; the others are limits of the
    /// port's own.
    const ERRORS: &'static [u64] = &[];
    /// The fields of the C struct behind the refusal, if every answer has as many.
    const FIELDS: usize;
    /// One random case in so many of those asked for: more than 1 where the Rust is slow.
    const ONE_IN: u64 = 1;

    /// Cases that are always run: the site sheet's, and edges.
    fn fixed() -> Vec<Self::Input>;
    /// Every case of a small space.
    fn small(each: &mut dyn FnMut(Self::Input));
    fn random(rng: &mut Rng) -> Self::Input;

    /// The width, where the entry has rows or data shards; of an accepted input at most 255.
    fn width(_: &Self::Input) -> Option<u64> {
        None
    }

    /// The document's refusal.
    fn refusal(input: &Self::Input) -> Checked;
    /// If the Rust's bytes overflow on an accepted input: what its release build answers, and the
    /// answer in whole numbers, which is the port's. They may be the same.
    fn overflow(_: &Self::Input) -> Option<Listed> {
        None
    }
    fn rust(input: &Self::Input) -> Asked;
    #[cfg(feature = "port")]
    fn port(input: &Self::Input) -> Answer;

    /// The lent words before the call; `None` if nothing is lent.
    fn lent(_: &Self::Input) -> Option<Vec<u64>> {
        None
    }
    /// The input in the order of the C function's parameters.
    fn words(input: &Self::Input, line: &mut Line);
    /// A line of the stored answers.
    fn line(input: &Self::Input, answer: &Answer) -> Line {
        let mut line = Line::default();
        Self::words(input, &mut line);
        line.word(answer.refusal).words(&answer.fields);
        if Self::lent(input).is_some() {
            line.slice(&answer.lent);
        }
        line
    }
    /// The input as a request to the oracle's line protocol, where that has one.
    fn request(_: &Self::Input) -> Option<String> {
        None
    }
}

/// The refusal that the document gives to an input, with lent words as they were.
pub fn refused<E: Entry>(input: &E::Input, refusal: u64) -> Answer {
    Answer {
        refusal,
        fields: vec![0; E::FIELDS],
        lent: E::lent(input).unwrap_or_default(),
    }
}

/// What the document and the Rust say of an input: the Rust's answer, or the port's where that is
/// listed, and what it comes to.
pub fn expected<E: Entry>(input: &E::Input) -> Result<(Answer, Vec<Outcome>), String> {
    let rust = E::rust(input);
    if let Err(number) = E::refusal(input) {
        let side = match rust {
            None => Side::NotAsked,
            Some(Err(_)) => Side::Fails,
            Some(Ok(_)) => Side::Answers,
        };
        if side == Side::Answers && E::ERRORS.contains(&number) {
            return Err(format!("document 01 gives {number}, and the Rust answers"));
        }
        let outcome = Outcome::Refused(number, side);
        return Ok((refused::<E>(input, number), vec![outcome]));
    }
    let overflow = E::overflow(input);
    match rust {
        None => Err("document 01 accepts it, and the Rust cannot be asked".into()),
        Some(asked) if api::debug_build() && overflow.is_some() => panicked(asked, overflow),
        Some(Err(fail)) => Err(format!(
            "document 01 accepts it, and the Rust fails: {fail:?}"
        )),
        Some(Ok(told)) => {
            let differs = |l: &Listed| l.rust != l.port;
            match told.listed.or(overflow.filter(differs)) {
                None => Ok((told.answer, told.outcomes)),
                Some(l) if l.rust == told.answer => Ok((l.port, vec![Outcome::Listed(l.name)])),
                Some(l) => Err(format!("{}: the Rust answers {:?}", l.name, told.answer)),
            }
        }
    }
}

/// The port's answer where the Rust's bytes overflow: a debug build of the Rust panics there.
fn panicked(
    asked: Result<Told, Fail>,
    overflow: Option<Listed>,
) -> Result<(Answer, Vec<Outcome>), String> {
    match (asked, overflow) {
        (Err(Fail::Panic(why)), Some(l)) if why.ends_with("with overflow") => {
            Ok((l.port, vec![Outcome::Listed(l.name)]))
        }
        (asked, _) => Err(format!(
            "bytes overflow, and the Rust's debug build gives {:?}",
            asked.map(|told| told.answer)
        )),
    }
}

/// Runs a case on both sides.
#[cfg(feature = "port")]
pub fn check<E: Entry>(input: &E::Input) -> Result<Vec<Outcome>, String> {
    let (expected, outcomes) = expected::<E>(input)?;
    let port = E::port(input);
    if port == expected {
        Ok(outcomes)
    } else {
        Err(format!("expected {expected:?}\nthe port {port:?}"))
    }
}
