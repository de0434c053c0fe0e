//! `min_shards_per_replica`: the fewest shards a replica under the peers now alive.

use oracle::api;

use crate::document::{self, Checked};
use crate::entry::{Answer, Asked, Entry, Listed, Told};
use crate::line::Line;
use crate::parts::{WIDEST, above, all_below, byte, low, population, set};
use crate::rng::Rng;

pub struct Floor;

#[derive(Debug, Clone)]
pub struct Input {
    pub n: u64,
    pub f: u64,
    pub d: u64,
    pub majority: u64,
    pub alive: u64,
}

/// The name of a listed difference.
pub const IN_A_BYTE: &str = "the floor's product in a byte";

/// "The floor is min((majority + f + 1 - alive, not below 0) × (d / majority), d), in whole
/// numbers".
#[must_use]
pub fn whole(f: u64, d: u64, majority: u64, alive: u64) -> u64 {
    product(f, d, majority, alive).min(d)
}

/// The same with the product in a byte, as the release Rust has it.
#[must_use]
pub fn in_a_byte(f: u64, d: u64, majority: u64, alive: u64) -> u64 {
    (product(f, d, majority, alive) % 256).min(d)
}

/// Whether the product is above a byte.
#[must_use]
pub fn overflows(f: u64, d: u64, majority: u64, alive: u64) -> bool {
    product(f, d, majority, alive) > 255
}

fn product(f: u64, d: u64, majority: u64, alive: u64) -> u64 {
    (majority + f + 1).saturating_sub(alive.count_ones().into()) * (d / majority)
}

/// A multiple of the majority, at most 255.
pub fn multiple(rng: &mut Rng, majority: u64) -> u64 {
    majority * rng.within(1..=WIDEST / majority)
}

impl Entry for Floor {
    type Input = Input;
    const NAME: &'static str = "floor";
    const ANSWERS: &'static [&'static str] = &["0", "between", "d"];
    const LISTED: &'static [&'static str] = &[IN_A_BYTE];
    const REFUSALS: &'static [u64] = &[1, 2, 4, 5, 14, 16];
    const FIELDS: usize = 1;

    fn fixed() -> Vec<Input> {
        vec![]
    }

    /// Everything that is accepted, those alive being the first ones.
    fn small(each: &mut dyn FnMut(Input)) {
        for (n, majority) in (1..=16).flat_map(|n| (1..=n).map(move |m| (n, m))) {
            for d in (majority..=WIDEST).step_by(majority as usize) {
                for (f, alive) in (0..n).flat_map(|f| (0..=n).map(move |k| (f, low(k)))) {
                    each(Input {
                        n,
                        f,
                        d,
                        majority,
                        alive,
                    });
                }
            }
        }
    }

    fn random(rng: &mut Rng) -> Input {
        let n = population(rng);
        let majority = rng.within(1..=n);
        let mut input = Input {
            n,
            f: rng.below(n),
            d: multiple(rng, majority),
            majority,
            alive: set(rng, n),
        };
        while rng.once_in(3) {
            match rng.below(5) {
                0 => input.n = rng.around(16),
                1 => input.f = rng.around(input.n),
                2 => input.d = rng.around(WIDEST),
                3 => input.majority = rng.around(input.n),
                _ => input.alive = above(rng, input.n),
            }
        }
        input
    }

    fn width(i: &Input) -> Option<u64> {
        Some(i.d)
    }

    fn refusal(i: &Input) -> Checked {
        document::floor(i)
    }

    fn overflow(i: &Input) -> Option<Listed> {
        overflows(i.f, i.d, i.majority, i.alive).then(|| Listed {
            name: IN_A_BYTE,
            rust: Answer::fields(vec![in_a_byte(i.f, i.d, i.majority, i.alive)]),
            port: Answer::fields(vec![whole(i.f, i.d, i.majority, i.alive)]),
        })
    }

    fn rust(i: &Input) -> Asked {
        let (d, majority, f) = (byte(i.d)?, byte(i.majority)?, byte(i.f)?);
        if !all_below(&[i.alive], i.n) {
            return None;
        }
        let asked = api::min_shards_per_replica(d, majority, f, i.alive.count_ones() as u8);
        Some(asked.map(|count| {
            let class = match count {
                0 => "0",
                k if k == d => "d",
                _ => "between",
            };
            Told::new(Answer::fields(vec![count.into()]), class)
        }))
    }

    #[cfg(feature = "port")]
    fn port(i: &Input) -> Answer {
        let called = callboard::min_shards_per_replica(i.n, i.f, i.d, i.majority, i.alive);
        Answer::of(called, vec![], |count| [count])
    }

    fn words(i: &Input, line: &mut Line) {
        line.words(&[i.n, i.f, i.d, i.majority, i.alive]);
    }

    fn request(i: &Input) -> Option<String> {
        let alive = i.alive.count_ones();
        Some(format!("floor {} {} {} {alive}", i.d, i.majority, i.f))
    }
}
