//! `covers`: whether each listed failure leaves d distinct shards.

#[cfg(feature = "port")]
use callboard::raw;
use oracle::api;

use crate::document::{self, Checked};
use crate::entry::{Answer, Asked, Entry, Told};
use crate::line::Line;
use crate::parts::{
    Row, STARTS, WIDEST, above, all_below, byte, damage_faults, damage_rows, each_list, each_of,
    fault_lists, faults, has, hex, hex_row, list, population, row_words, rows, rows_below, rows_of,
    set, shards, table_at, tables,
};
use crate::rng::Rng;

pub struct Covers;

#[derive(Debug, Clone)]
pub struct Input {
    pub n: u64,
    pub d: u64,
    pub w: u64,
    pub heard: u64,
    /// Four words a row.
    pub rows: Vec<u64>,
    pub faults: Vec<u64>,
}

/// A function of the port with these parameters.
#[cfg(feature = "port")]
type Function =
    unsafe extern "C" fn(u64, u64, u64, u64, *const u64, usize, *const u64, usize) -> raw::Answer;

impl Input {
    /// One that is accepted.
    pub fn random(rng: &mut Rng) -> Input {
        let n = population(rng);
        let (d, w) = shards(rng);
        Input {
            n,
            d,
            w,
            heard: set(rng, n),
            rows: rows(rng, n, w),
            faults: faults(rng, n),
        }
    }

    pub fn damage(&mut self, rng: &mut Rng) {
        match rng.below(7) {
            0 => self.n = rng.around(16),
            1 => self.d = rng.around(self.w),
            2 => self.w = rng.around(WIDEST),
            3 => self.heard = above(rng, self.n),
            4 | 5 => damage_rows(rng, &mut self.rows, self.w),
            _ => damage_faults(rng, self.n, &mut self.faults),
        }
    }

    /// The rows of those heard, as the Rust holds them.
    pub fn acks(&self) -> Option<Vec<Option<Row>>> {
        let right = self.rows.len() == row_words(self.n)
            && all_below(&[self.heard], self.n)
            && all_below(&self.faults, self.n)
            && rows_below(&self.rows, self.w);
        let ack = |(s, &row)| has(self.heard, s).then_some(row);
        right.then(|| (0..).zip(rows_of(&self.rows)).map(ack).collect())
    }

    #[cfg(feature = "port")]
    pub fn given(&self, function: Function) -> Answer {
        let (rows, faults) = (&self.rows, &self.faults);
        // SAFETY: the tables are lent for the call, with their lengths.
        let answer = unsafe {
            function(
                self.n,
                self.d,
                self.w,
                self.heard,
                rows.as_ptr(),
                rows.len(),
                faults.as_ptr(),
                faults.len(),
            )
        };
        Answer::given(answer.refusal, [answer.value], vec![])
    }
}

/// Every table of n rows of these shards, under every fault list.
fn small_of(n: u64, shards: u64, from: u64, each: &mut dyn FnMut(Input)) {
    for faults in fault_lists(n, 7) {
        each_list(n as usize, 1 << shards, &mut |rows| {
            each_of(&[shards, 1 << n], &mut |k| {
                each(Input {
                    n,
                    d: k[0] + 1,
                    w: from + shards,
                    heard: k[1],
                    rows: table_at(from, rows),
                    faults: faults.clone(),
                });
            });
        });
    }
}

impl Entry for Covers {
    type Input = Input;
    const NAME: &'static str = "covers";
    const ANSWERS: &'static [&'static str] = &["covered", "not covered", "nobody heard"];
    const REFUSALS: &'static [u64] = &[1, 4, 16, 17];
    const FIELDS: usize = 1;

    fn fixed() -> Vec<Input> {
        let sheet = |rows: [u64; 3]| Input {
            n: 3,
            d: 2,
            w: 3,
            heard: 7,
            rows: table_at(0, &rows),
            faults: vec![1, 2, 4],
        };
        let mut fixed = vec![sheet([1, 2, 4]), sheet([1, 2, 1])];
        for w in [3, 64, 65, 130, WIDEST] {
            fixed.extend(tables(w, 20).into_iter().map(|rows| Input {
                w,
                rows,
                ..sheet([0; 3])
            }));
        }
        fixed
    }

    /// Up to 3 replicas and 2 shards under every fault list, and 2 replicas and 3 shards.
    fn small(each: &mut dyn FnMut(Input)) {
        for (n, shards) in [(1, 1), (1, 2), (2, 1), (2, 2), (2, 3), (3, 1), (3, 2)] {
            for from in STARTS {
                small_of(n, shards, from, each);
            }
        }
    }

    fn random(rng: &mut Rng) -> Input {
        let mut input = Input::random(rng);
        while rng.once_in(3) {
            input.damage(rng);
        }
        input
    }

    fn width(i: &Input) -> Option<u64> {
        Some(i.w)
    }

    fn refusal(i: &Input) -> Checked {
        document::covers(i)
    }

    fn rust(i: &Input) -> Asked {
        let (n, d, w) = (byte(i.n)?, byte(i.d)?, byte(i.w)?);
        let acks = i.acks()?;
        Some(api::covers(n, &i.faults, w, &acks, d).map(|yes| {
            let class = match (yes, i.heard) {
                (true, _) => "covered",
                (false, 0) => "nobody heard",
                _ => "not covered",
            };
            Told::new(Answer::fields(vec![yes.into()]), class)
        }))
    }

    #[cfg(feature = "port")]
    fn port(i: &Input) -> Answer {
        i.given(raw::callboard_covers)
    }

    fn words(i: &Input, line: &mut Line) {
        line.words(&[i.n, i.d, i.w, i.heard]);
        line.slice(&i.rows).slice(&i.faults);
    }

    fn request(i: &Input) -> Option<String> {
        let acks = i.acks()?;
        let rows = list(&acks, |a| a.as_ref().map_or("_".into(), hex_row));
        Some(format!(
            "covers {} {} {} {rows} {}",
            i.n,
            hex(&i.faults),
            i.w,
            i.d
        ))
    }
}
