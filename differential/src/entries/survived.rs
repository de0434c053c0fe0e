//! `survived_by`: whether those heard are all survivors of some listed failure.

use oracle::api;

use crate::document::{self, Checked};
use crate::entry::{Answer, Asked, Entry, Told};
use crate::line::Line;
use crate::parts::{
    above, all_below, byte, damage_faults, fault_lists, faults, hex, low, population, set,
};
use crate::rng::Rng;

pub struct Survived;

#[derive(Debug, Clone)]
pub struct Input {
    pub n: u64,
    pub heard: u64,
    pub faults: Vec<u64>,
}

impl Entry for Survived {
    type Input = Input;
    const NAME: &'static str = "survived";
    const ANSWERS: &'static [&'static str] = &["survived", "not survived"];
    const REFUSALS: &'static [u64] = &[1, 16, 17];
    const FIELDS: usize = 1;

    fn fixed() -> Vec<Input> {
        vec![]
    }

    /// Every mask of up to 3 replicas under every list, and of 4 under every list of at most 3 sets.
    fn small(each: &mut dyn FnMut(Input)) {
        for (n, most) in [(1, 1), (2, 3), (3, 7), (4, 3)] {
            for faults in fault_lists(n, most) {
                for heard in 0..1 << n {
                    let faults = faults.clone();
                    each(Input { n, heard, faults });
                }
            }
        }
    }

    fn random(rng: &mut Rng) -> Input {
        let n = population(rng);
        let faults = faults(rng, n);
        let left_out = if rng.once_in(2) { rng.pick(&faults) } else { 0 };
        let heard = set(rng, n) | (low(n) & !left_out);
        let mut input = Input { n, heard, faults };
        if rng.once_in(2) {
            input.heard = set(rng, n);
        }
        while rng.once_in(4) {
            match rng.below(3) {
                0 => input.n = rng.around(16),
                1 => input.heard = above(rng, input.n),
                _ => damage_faults(rng, input.n, &mut input.faults),
            }
        }
        input
    }

    fn refusal(i: &Input) -> Checked {
        document::survived(i)
    }

    fn rust(i: &Input) -> Asked {
        let n = byte(i.n)?;
        if !all_below(&[i.heard], i.n) || !all_below(&i.faults, i.n) {
            return None;
        }
        Some(api::survived_by(n, &i.faults, i.heard).map(|yes| {
            let class = if yes { "survived" } else { "not survived" };
            Told::new(Answer::fields(vec![yes.into()]), class)
        }))
    }

    #[cfg(feature = "port")]
    fn port(i: &Input) -> Answer {
        let called = callboard::survived_by(i.n, i.heard, &i.faults);
        Answer::of(called, vec![], |yes| [yes.into()])
    }

    fn words(i: &Input, line: &mut Line) {
        line.words(&[i.n, i.heard]).slice(&i.faults);
    }

    fn request(i: &Input) -> Option<String> {
        Some(format!("survived {} {} {:x}", i.n, hex(&i.faults), i.heard))
    }
}
