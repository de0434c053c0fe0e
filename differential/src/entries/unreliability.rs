//! `unreliability`: how likely a peer seems to fail.

use oracle::api;

use crate::document::{self, Checked};
use crate::entry::{Answer, Asked, Entry, Listed, Told};
use crate::line::Line;
use crate::parts::{Profile, bits, byte, population};
use crate::rng::Rng;

pub struct Unreliability;

#[derive(Debug, Clone)]
pub struct Input {
    pub n: u64,
    pub peer: u64,
    pub profile: Profile,
    pub down: f64,
}

/// The name of a listed difference.
pub const ZEROS: &str = "zeros of opposite sign";

impl Input {
    fn given(&self) -> f64 {
        if self.profile.prob_count == 0 {
            0.0
        } else {
            self.profile.probs[self.peer as usize]
        }
    }

    /// "Zeros of opposite sign give +0 (Rust leaves that open)."
    fn zeros(&self, rust: &Answer) -> Option<Listed> {
        let given = self.given();
        let opposite = self.profile.runtime != 0
            && (given, self.down) == (0.0, 0.0)
            && given.is_sign_negative() != self.down.is_sign_negative();
        (opposite && rust.fields == [bits(-0.0)]).then(|| Listed {
            name: ZEROS,
            rust: rust.clone(),
            port: Answer::fields(vec![0]),
        })
    }
}

impl Entry for Unreliability {
    type Input = Input;
    const NAME: &'static str = "unreliability";
    const ANSWERS: &'static [&'static str] = &["given", "downtime", "0"];
    const LISTED: &'static [&'static str] = &[ZEROS];
    const REFUSALS: &'static [u64] = &[1, 3, 9, 11, 12];
    const FIELDS: usize = 1;

    fn fixed() -> Vec<Input> {
        vec![]
    }

    /// One replica: every pair of these probabilities and downtimes.
    fn small(each: &mut dyn FnMut(Input)) {
        let numbers = [0.0, -0.0, 0.5, 1.0, -1.0, 2.0, 5e-324, f64::NAN, -f64::NAN];
        for (given, down) in numbers.iter().flat_map(|&g| numbers.map(|down| (g, down))) {
            for (probs, runtime) in [(0, 0), (0, 1), (1, 0), (1, 1)] {
                let mut profile = Profile::NOTHING.with_probs(&[given], 0.5);
                (profile.prob_count, profile.runtime) = (probs, runtime);
                each(Input {
                    n: 1,
                    peer: 0,
                    profile,
                    down,
                });
            }
        }
    }

    fn random(rng: &mut Rng) -> Input {
        let n = population(rng);
        let mut input = Input {
            n,
            peer: rng.below(n),
            profile: Profile::random(rng, n),
            down: match rng.below(4) {
                0 => rng.pick(&[0.0, -0.0, 1.0]),
                1 => rng.float(),
                _ => rng.probability(),
            },
        };
        while rng.once_in(3) {
            match rng.below(6) {
                0 => input.n = rng.around(16),
                1 => input.peer = rng.around(input.n),
                _ => input.profile.damage(rng, input.n),
            }
        }
        input
    }

    fn refusal(i: &Input) -> Checked {
        document::unreliability(i)
    }

    fn rust(i: &Input) -> Asked {
        let (n, peer, profile) = (byte(i.n)?, byte(i.peer)?, i.profile.rust(i.n)?);
        Some(api::unreliability(n, &profile, peer, i.down).map(|x| {
            let answer = Answer::fields(vec![bits(x)]);
            let class = match x {
                0.0 => "0",
                _ if i.profile.runtime != 0 && x == i.down => "downtime",
                _ => "given",
            };
            Told {
                listed: document::unreliability(i)
                    .ok()
                    .and_then(|()| i.zeros(&answer)),
                ..Told::new(answer, class)
            }
        }))
    }

    #[cfg(feature = "port")]
    fn port(i: &Input) -> Answer {
        let called = callboard::unreliability(i.n, i.peer, &i.profile.port(), i.down);
        Answer::of(called, vec![], |x| [bits(x)])
    }

    fn words(i: &Input, line: &mut Line) {
        line.words(&[i.n, i.peer]);
        line.profile(&i.profile).float(i.down);
    }
}
