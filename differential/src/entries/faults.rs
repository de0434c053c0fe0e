//! `fault_list`: the maximal sets of replicas whose failure must be survived.

use oracle::api;

use crate::document::{self, Checked};
use crate::entry::{Answer, Asked, Entry, Told};
use crate::line::Line;
use crate::parts::{Profile, byte, each_list, junk, population};
use crate::rng::Rng;

pub struct FaultList;

#[derive(Debug, Clone)]
pub struct Input {
    pub n: u64,
    pub f: u64,
    pub profile: Profile,
    pub room: usize,
}

/// The Rust's list in its own order, in a lent list whose words past it are untouched.
fn in_order(i: &Input, list: &[u64]) -> Answer {
    let mut lent = junk(i.room);
    if list.len() <= lent.len() {
        lent[..list.len()].copy_from_slice(list);
    }
    Answer::lent(vec![list.len() as u64], lent)
}

/// Whether the family has at most so many sets: the Rust compares each two of them.
fn is_within(i: &Input, most: usize) -> bool {
    let family = || document::family(i.n, i.f, &i.profile);
    i.n <= 10 || (is_known(i) && family().iter().filter(|&&m| m).count() <= most)
}

/// Whether the document works out the family.
fn is_known(i: &Input) -> bool {
    !matches!(document::faults(i), Err(..21))
}

/// The place of the probabilities among those of a small space.
const CHANCES: [f64; 4] = [0.0, 0.25, 0.5, 1.0];

fn small_of(n: u64, f: u64, domains: &[u64], each: &mut dyn FnMut(Input)) {
    let domains = Profile::NOTHING.with_domains(domains);
    let room = 1 << n;
    each(Input {
        n,
        f,
        profile: domains.clone(),
        room,
    });
    each_list(n as usize, 4, &mut |chosen| {
        let probs: Vec<f64> = chosen.iter().map(|&c| CHANCES[c as usize]).collect();
        for threshold in [0.25, 0.5, 1.0] {
            let profile = domains.clone().with_probs(&probs, threshold);
            each(Input {
                n,
                f,
                profile,
                room,
            });
        }
    });
}

impl Entry for FaultList {
    type Input = Input;
    const NAME: &'static str = "faults";
    const ANSWERS: &'static [&'static str] = &[
        "listed in the Rust's order",
        "listed, the Rust in another order",
    ];
    const REFUSALS: &'static [u64] = &[1, 2, 9, 11, 12, 21, 22];
    const ERRORS: &'static [u64] = &[21];
    const FIELDS: usize = 1;
    const ONE_IN: u64 = 2;

    fn fixed() -> Vec<Input> {
        let case = |n, f, profile, room| Input {
            n,
            f,
            profile,
            room,
        };
        let domain = |m| Profile::NOTHING.with_domains(&[m]);
        vec![
            case(3, 1, Profile::NOTHING, 3),
            case(3, 1, domain(3), 4),
            case(3, 1, domain(7), 4),
            case(3, 0, Profile::NOTHING, 1),
            case(
                3,
                1,
                Profile::NOTHING.with_probs(&[0.5, 0.5, 0.25], 0.25),
                2,
            ),
            case(16, 8, Profile::NOTHING, 12_870),
            case(16, 8, Profile::NOTHING, 12_869),
            case(16, 15, Profile::NOTHING, 16),
            case(16, 1, Profile::NOTHING, 15),
        ]
    }

    /// Up to 3 replicas with two domains, 4 with one, and 0 to 1 in quarters as probabilities.
    fn small(each: &mut dyn FnMut(Input)) {
        for (n, f) in (1..=4).flat_map(|n| (0..n).map(move |f| (n, f))) {
            small_of(n, f, &[], each);
            for a in 0..1 << n {
                small_of(n, f, &[a], each);
                for b in a..if n < 4 { 1 << n } else { 0 } {
                    small_of(n, f, &[b, a], each);
                }
            }
        }
    }

    fn random(rng: &mut Rng) -> Input {
        let n = population(rng);
        let mut input = Input {
            n,
            f: rng.below(n),
            profile: Profile::random(rng, n),
            room: 0,
        };
        while rng.once_in(3) {
            match rng.below(8) {
                0 => input.n = rng.around(16),
                1 => input.f = rng.around(input.n),
                _ => input.profile.damage(rng, input.n),
            }
        }
        if is_known(&input) && !is_within(&input, 1000) {
            (input.f, input.profile.prob_count) = (input.f % 3, 0);
        }
        input.room = room(rng, &input);
        input
    }

    fn refusal(i: &Input) -> Checked {
        document::faults(i)
    }

    fn rust(i: &Input) -> Asked {
        let (n, f, profile) = (byte(i.n)?, byte(i.f)?, i.profile.rust(i.n)?);
        let right = profile
            .probs
            .as_ref()
            .is_none_or(|(p, _)| p.len() as u64 == i.n);
        if !right || !is_within(i, 13_000) {
            return None;
        }
        Some(api::tolerance(n, f, &profile).map(|list| {
            let mut rising = list.clone();
            rising.sort_unstable();
            let class = usize::from(rising != list);
            Told::new(in_order(i, &rising), Self::ANSWERS[class])
        }))
    }

    #[cfg(feature = "port")]
    fn port(i: &Input) -> Answer {
        let mut list = junk(i.room);
        let called = callboard::fault_list(i.n, i.f, &i.profile.port(), &mut list);
        Answer::of(called, list, |count| [count as u64])
    }

    fn lent(i: &Input) -> Option<Vec<u64>> {
        Some(junk(i.room))
    }

    fn words(i: &Input, line: &mut Line) {
        line.words(&[i.n, i.f]).profile(&i.profile).room(i.room);
    }
}

/// A room beside the number of sets, or far from it.
fn room(rng: &mut Rng, i: &Input) -> usize {
    let count = match is_known(i) {
        true => document::maximal(i.n, i.f, &i.profile).len(),
        false => 0,
    };
    match rng.below(8) {
        0 => rng.index(count + 1),
        1 => count.saturating_sub(1),
        2 | 3 => count,
        _ => count + rng.index(20),
    }
}
