//! `rows_united`: how many rows the walk of coverage unites under the first listed set. The Rust
//! has no such count: the answer here is a second reading, which is held to its `covers`.

use std::cmp::Reverse;

#[cfg(feature = "port")]
use callboard::raw;
use oracle::api;

use crate::document::{self, Checked};
use crate::entries::covers::{Covers, Input};
use crate::entry::{Answer, Asked, Entry, Told};
use crate::line::Line;
use crate::parts::{
    EDGES, Row, STARTS, byte, each_list, each_of, has, row_below, row_of, rows_of, set,
    shard_count, table_at, union,
};
use crate::rng::Rng;

pub struct RowsUnited;

/// What the walk gives.
struct Walk {
    /// The replicas left, in its order.
    left: usize,
    united: usize,
    enough: bool,
}

/// "Take the heard rows left in falling number of shards, ties by rising replica": "the shortest
/// beginning of that order that names d distinct shards, or the whole order if none does".
fn walk(d: u64, heard: u64, rows: &[Row], set: u64) -> Walk {
    let mut order: Vec<usize> = (0..rows.len())
        .filter(|&s| has(heard & !set, s as u64))
        .collect();
    order.sort_by_key(|&s| (Reverse(shard_count(&rows[s])), s));
    let shards = |beginning: &[usize]| {
        let all = beginning.iter().map(|&s| rows[s]).fold([0; 4], union);
        shard_count(&all)
    };
    let shortest = (0..=order.len()).find(|&k| d <= shards(&order[..k]));
    Walk {
        left: order.len(),
        united: shortest.unwrap_or(order.len()),
        enough: shortest.is_some(),
    }
}

impl Walk {
    fn class(&self, heard: u64) -> &'static str {
        match (heard, self.left, self.united) {
            (0, ..) => "nobody heard",
            (_, 0, _) => "nobody left",
            _ if !self.enough => "too few shards",
            (.., 1) => "one row",
            (_, left, united) if united < left => "some rows",
            _ => "every row",
        }
    }
}

/// Rows of one or two lengths that begin anywhere, so that many have as many shards as others.
fn runs(rng: &mut Rng, n: u64, w: u64) -> Vec<u64> {
    let lengths = [rng.below(w + 1), rng.below(w + 1)];
    let mut run = || {
        let (from, length) = (rng.below(w), rng.pick(&lengths));
        row_of((0..length).map(|i| (from + i) % w))
    };
    (0..n).flat_map(|_| run()).collect()
}

/// More replicas heard, and as many data shards as those left have together, or fewer, or one more.
fn reach(rng: &mut Rng, i: &mut Input) {
    i.heard |= set(rng, i.n);
    let left = (0..).zip(rows_of(&i.rows));
    let left = left.filter(|(s, _)| has(i.heard & !i.faults[0], *s));
    let together = shard_count(&left.fold([0; 4], |all, (_, &row)| union(all, row)));
    let fewer = rng.within(1..=together.max(1));
    let d = rng.pick(&[fewer, fewer, together, together + 1]);
    i.d = d.clamp(1, i.w);
}

/// Three replicas, all of them heard, and the first fails alone in the first set.
fn three(d: u64, w: u64, rows: Vec<u64>) -> Input {
    Input {
        n: 3,
        d,
        w,
        heard: 7,
        rows,
        faults: vec![1, 2, 4],
    }
}

/// At each width beside which a word ends: rows of its last shards, a row of all shards, an empty
/// one, as many as are needed, one more than there are, nobody left and nobody heard.
fn at_edge(w: u64) -> Vec<Input> {
    let (all, last, before) = (row_below(w), row_of([w - 1]), row_of([w - 2]));
    let table = |rows: [Row; 3]| rows.as_flattened().to_vec();
    let few = || table([all, last, before]);
    vec![
        three(w, w, table([last, before, all])),
        three(2, w, few()),
        three(3, w, few()),
        three(1, w, table([all, [0; 4], last])),
        three(2, w, table([all, [0; 4], last])),
        Input {
            faults: vec![6, 1],
            ..three(w, w, few())
        },
        Input {
            heard: 1,
            ..three(1, w, few())
        },
        Input {
            heard: 0,
            ..three(1, w, few())
        },
    ]
}

/// Every table of n rows of these shards, under every set.
fn small_of(n: u64, shards: u64, from: u64, each: &mut dyn FnMut(Input)) {
    each_list(n as usize, 1 << shards, &mut |rows| {
        each_of(&[shards, 1 << n, (1 << n) - 1], &mut |k| {
            each(Input {
                n,
                d: k[0] + 1,
                w: from + shards,
                heard: k[1],
                rows: table_at(from, rows),
                faults: vec![k[2]],
            });
        });
    });
}

impl Entry for RowsUnited {
    type Input = Input;
    const NAME: &'static str = "united";
    const ANSWERS: &'static [&'static str] = &[
        "nobody heard",
        "nobody left",
        "too few shards",
        "one row",
        "some rows",
        "every row",
    ];
    const REFUSALS: &'static [u64] = Covers::REFUSALS;
    const FIELDS: usize = 1;

    fn fixed() -> Vec<Input> {
        let mut fixed = Covers::fixed();
        fixed.extend([
            three(2, 3, table_at(0, &[1, 2, 4])),
            three(2, 3, table_at(0, &[1, 2, 6])),
            three(2, 3, table_at(0, &[7, 2, 2])),
        ]);
        fixed.extend(EDGES.into_iter().flat_map(at_edge));
        fixed
    }

    /// Up to 4 replicas, and up to 6 replicas and shards together.
    fn small(each: &mut dyn FnMut(Input)) {
        for n in 1..=4 {
            for shards in 1..=6 - n {
                for from in STARTS {
                    small_of(n, shards, from, each);
                }
            }
        }
    }

    fn random(rng: &mut Rng) -> Input {
        let mut input = Input::random(rng);
        if rng.once_in(2) {
            input.rows = runs(rng, input.n, input.w);
        }
        if !rng.once_in(4) {
            reach(rng, &mut input);
        }
        while rng.once_in(3) {
            input.damage(rng);
        }
        input
    }

    fn width(i: &Input) -> Option<u64> {
        Some(i.w)
    }

    fn refusal(i: &Input) -> Checked {
        document::covers(i)
    }

    /// The second reading. Of the Rust is asked whether the first set alone leaves enough.
    fn rust(i: &Input) -> Asked {
        document::covers(i).ok()?;
        let (n, d, w) = (byte(i.n)?, byte(i.d)?, byte(i.w)?);
        Some(api::covers(n, &i.faults[..1], w, &i.acks()?, d).map(|yes| {
            let walk = walk(i.d, i.heard, rows_of(&i.rows), i.faults[0]);
            assert_eq!(
                walk.enough, yes,
                "the second reading, and the Rust's covers"
            );
            let fields = vec![walk.united as u64];
            Told::new(Answer::fields(fields), walk.class(i.heard))
        }))
    }

    #[cfg(feature = "port")]
    fn port(i: &Input) -> Answer {
        i.given(raw::callboard_rows_united)
    }

    fn words(i: &Input, line: &mut Line) {
        Covers::words(i, line);
    }
}
