//! `full_copies`: the fallback where there is no plan.

#[cfg(feature = "port")]
use callboard::raw;
use oracle::api;

use crate::document::{self, Checked};
use crate::entry::{Answer, Asked, Entry, Told};
use crate::line::Line;
use crate::parts::{
    EDGES, Total, WIDEST, byte, junk, population, row_words, shards, total, wrong_room,
};
use crate::rng::Rng;

pub struct FullCopies;

#[derive(Debug, Clone)]
pub struct Input {
    pub n: u64,
    pub d: u64,
    pub total: Total,
    /// The words that are lent for the rows.
    pub room: usize,
}

impl Entry for FullCopies {
    type Input = Input;
    const NAME: &'static str = "full";
    const ANSWERS: &'static [&'static str] = &["under a ceiling", "at an exact width"];
    const REFUSALS: &'static [u64] = &[1, 4, 17];
    const FIELDS: usize = 1;

    fn fixed() -> Vec<Input> {
        let lent = |room| Input {
            n: 4,
            d: 2,
            total: Total {
                ceiling: true,
                width: 3,
            },
            room,
        };
        (0..=24).map(lent).collect()
    }

    /// Everything that is accepted of up to 2 replicas; of more of them every number of data shards,
    /// with d, one more or an edge as width.
    fn small(each: &mut dyn FnMut(Input)) {
        for (n, d) in (1..=16).flat_map(|n| (1..=WIDEST).map(move |d| (n, d))) {
            let widths = (d..=WIDEST).filter(|w| n <= 2 || *w <= d + 1 || EDGES.contains(w));
            for (width, ceiling) in widths.flat_map(|w| [(w, false), (w, true)]) {
                each(Input {
                    n,
                    d,
                    total: Total { ceiling, width },
                    room: row_words(n),
                });
            }
        }
    }

    fn random(rng: &mut Rng) -> Input {
        let n = population(rng);
        let (d, w) = shards(rng);
        let mut input = Input {
            n,
            d,
            total: total(rng, w),
            room: row_words(n),
        };
        while rng.once_in(3) {
            match rng.below(4) {
                0 => input.n = rng.around(16),
                1 => input.d = rng.around(input.total.width),
                2 => input.total.width = rng.around(WIDEST),
                _ => input.room = wrong_room(rng, input.n),
            }
        }
        input
    }

    fn width(i: &Input) -> Option<u64> {
        Some(i.total.width)
    }

    fn refusal(i: &Input) -> Checked {
        document::full_copies(i)
    }

    fn rust(i: &Input) -> Asked {
        let asked = api::full_copies(byte(i.n)?, byte(i.d)?, i.total.rust()?);
        Some(asked.map(|(w, rows)| {
            let class = if i.total.ceiling {
                "under a ceiling"
            } else {
                "at an exact width"
            };
            Told::new(Answer::lent(vec![w.into()], rows.concat()), class)
        }))
    }

    #[cfg(feature = "port")]
    fn port(i: &Input) -> Answer {
        let mut rows = junk(i.room);
        let (ceiling, width) = (i.total.ceiling.into(), i.total.width);
        // SAFETY: the rows are lent alone for the call, with their length.
        let answer = unsafe {
            raw::callboard_full_copies(i.n, i.d, ceiling, width, rows.as_mut_ptr(), rows.len())
        };
        Answer::given(answer.refusal, [answer.value], rows)
    }

    fn lent(i: &Input) -> Option<Vec<u64>> {
        Some(junk(i.room))
    }

    fn words(i: &Input, line: &mut Line) {
        line.words(&[i.n, i.d]).total(i.total).room(i.room);
    }
}
