//! `layout_rows` and `layout_commits`: the rows of given loads, and whether they commit.

#[cfg(feature = "port")]
use callboard::raw;
use oracle::api;

use crate::document::{self, Checked};
use crate::entry::{Answer, Asked, Entry, Told};
use crate::line::Line;
use crate::parts::{
    EDGES, Total, WIDEST, above, all_below, byte, damage_faults, damage_table, each_list, each_of,
    fault_lists, faults, has, hex, junk, list, population, row_words, set, shards, total,
    wrong_room,
};
use crate::rng::Rng;

pub struct LayoutRows;
pub struct LayoutCommits;

#[derive(Debug, Clone)]
pub struct RowsInput {
    pub n: u64,
    pub d: u64,
    pub total: Total,
    pub loads: Vec<u64>,
    /// The words that are lent for the rows.
    pub room: usize,
}

#[derive(Debug, Clone)]
pub struct CommitsInput {
    pub n: u64,
    pub quorum: u64,
    pub d: u64,
    pub total: Total,
    pub answered: u64,
    pub loads: Vec<u64>,
    pub faults: Vec<u64>,
    pub room: usize,
}

/// A load as the Rust holds it. One above a byte is at least d, and so is 255.
fn load(k: u64) -> u8 {
    byte(k).unwrap_or(255)
}

fn random_loads(rng: &mut Rng, n: u64, d: u64) -> Vec<u64> {
    (0..n)
        .map(|_| match rng.below(10) {
            0 => rng.around(d),
            1 => d,
            2 => 0,
            _ => rng.within(0..=d),
        })
        .collect()
}

impl RowsInput {
    fn damage(&mut self, rng: &mut Rng) {
        match rng.below(5) {
            0 => self.n = rng.around(16),
            1 => self.d = rng.around(self.total.width),
            2 => self.total.width = rng.around(WIDEST),
            3 => damage_table(rng, &mut self.loads, 1),
            _ => self.room = wrong_room(rng, self.n),
        }
    }
}

impl Entry for LayoutRows {
    type Input = RowsInput;
    const NAME: &'static str = "layout";
    const ANSWERS: &'static [&'static str] = &["under a ceiling", "at an exact width"];
    const REFUSALS: &'static [u64] = &[1, 4, 17];
    const FIELDS: usize = 1;

    fn fixed() -> Vec<RowsInput> {
        let sheet = |width| RowsInput {
            n: 4,
            d: 4,
            total: Total {
                ceiling: true,
                width,
            },
            loads: vec![4, 2, 2, 1],
            room: 16,
        };
        let mut fixed = vec![sheet(10), sheet(4), sheet(WIDEST), sheet(WIDEST + 1)];
        fixed.extend((0..=24).map(|room| RowsInput { room, ..sheet(10) }));
        fixed
    }

    /// Up to 4 replicas, 4 data shards, a width of 6, and loads to d + 1; up to 4 replicas and data
    /// shards at an edge.
    fn small(each: &mut dyn FnMut(RowsInput)) {
        for (n, d, width) in sizes(4, 4, 6) {
            let loads: Vec<u64> = (0..=d + 1).collect();
            small_of(n, d, width, &loads, each);
        }
        for (n, d, width) in edges(4) {
            small_of(n, d, width, &edge_loads(d), each);
        }
    }

    fn random(rng: &mut Rng) -> RowsInput {
        let n = population(rng);
        let (d, w) = shards(rng);
        let mut input = RowsInput {
            n,
            d,
            total: total(rng, w),
            loads: random_loads(rng, n, d),
            room: row_words(n),
        };
        while rng.once_in(4) {
            input.damage(rng);
        }
        input
    }

    fn width(i: &RowsInput) -> Option<u64> {
        Some(i.total.width)
    }

    fn refusal(i: &RowsInput) -> Checked {
        document::layout_rows(i)
    }

    fn rust(i: &RowsInput) -> Asked {
        let (d, total) = (byte(i.d)?, i.total.rust()?);
        if i.loads.len() as u64 != i.n {
            return None;
        }
        let loads: Vec<u8> = i.loads.iter().map(|&k| load(k)).collect();
        Some(api::layout_rows(d, &loads, total).map(|(w, rows)| {
            let class = if i.total.ceiling {
                "under a ceiling"
            } else {
                "at an exact width"
            };
            Told::new(Answer::lent(vec![w.into()], rows.concat()), class)
        }))
    }

    #[cfg(feature = "port")]
    fn port(i: &RowsInput) -> Answer {
        let mut rows = junk(i.room);
        // SAFETY: the tables are lent for the call, with their lengths, `rows` alone.
        let answer = unsafe {
            raw::callboard_layout_rows(
                i.n,
                i.d,
                i.total.ceiling.into(),
                i.total.width,
                i.loads.as_ptr(),
                i.loads.len(),
                rows.as_mut_ptr(),
                rows.len(),
            )
        };
        Answer::given(answer.refusal, [answer.value], rows)
    }

    fn lent(i: &RowsInput) -> Option<Vec<u64>> {
        Some(junk(i.room))
    }

    fn words(i: &RowsInput, line: &mut Line) {
        line.words(&[i.n, i.d]).total(i.total);
        line.slice(&i.loads).room(i.room);
    }

    fn request(i: &RowsInput) -> Option<String> {
        let loads = list(&i.loads, |&k| load(k).to_string());
        Some(format!("layout {} {loads} {}", i.d, i.total.request()))
    }
}

/// Every list of n of these loads, under a ceiling and at the exact width.
fn small_of(n: u64, d: u64, width: u64, from: &[u64], each: &mut dyn FnMut(RowsInput)) {
    each_list(n as usize, from.len() as u64, &mut |chosen| {
        for ceiling in [false, true] {
            each(RowsInput {
                n,
                d,
                total: Total { ceiling, width },
                loads: chosen.iter().map(|&k| from[k as usize]).collect(),
                room: row_words(n),
            });
        }
    });
}

/// Every population up to this, with data shards at an edge, and d, one more or the most as width.
fn edges(n: u64) -> impl Iterator<Item = (u64, u64, u64)> {
    let sizes = EDGES
        .into_iter()
        .flat_map(|d| [(d, d), (d, d + 1), (d, WIDEST)]);
    let sizes = sizes.filter(|&(_, w)| w <= WIDEST);
    sizes.flat_map(move |(d, w)| (1..=n).map(move |n| (n, d, w)))
}

fn edge_loads(d: u64) -> Vec<u64> {
    vec![0, 1, d / 2, d - 1, d]
}

/// Every population, number of data shards and width up to these.
fn sizes(n: u64, d: u64, w: u64) -> impl Iterator<Item = (u64, u64, u64)> {
    (1..=n).flat_map(move |n| (1..=d).flat_map(move |d| (d..=w).map(move |w| (n, d, w))))
}

/// As `small_of`, with every quorum and every set that answers, under each list of at most so many
/// sets.
fn small_commits(
    n: u64,
    d: u64,
    width: u64,
    loads: &[u64],
    sets: u32,
    each: &mut dyn FnMut(CommitsInput),
) {
    for faults in fault_lists(n, sets) {
        small_of(n, d, width, loads, &mut |rows| {
            each_of(&[n, 1 << n], &mut |k| {
                each(CommitsInput {
                    n,
                    quorum: k[0] + 1,
                    d,
                    total: rows.total,
                    answered: k[1],
                    loads: rows.loads.clone(),
                    faults: faults.clone(),
                    room: rows.room,
                });
            });
        });
    }
}

impl CommitsInput {
    fn damage(&mut self, rng: &mut Rng) {
        match rng.below(8) {
            0 => self.n = rng.around(16),
            1 => self.d = rng.around(self.total.width),
            2 => self.total.width = rng.around(WIDEST),
            3 => self.quorum = rng.around(self.n),
            4 => self.answered = above(rng, self.n),
            5 => damage_table(rng, &mut self.loads, 1),
            6 => self.room = wrong_room(rng, self.n),
            _ => damage_faults(rng, self.n, &mut self.faults),
        }
    }

    /// The loads of those that answer, as the Rust holds them.
    fn answers(&self) -> Option<Vec<Option<u8>>> {
        let right = self.loads.len() as u64 == self.n
            && all_below(&[self.answered], self.n)
            && all_below(&self.faults, self.n);
        let answer = |(p, &k)| has(self.answered, p).then(|| load(k));
        right.then(|| (0..).zip(&self.loads).map(answer).collect())
    }
}

impl Entry for LayoutCommits {
    type Input = CommitsInput;
    const NAME: &'static str = "commits";
    const ANSWERS: &'static [&'static str] = &["commits", "does not commit"];
    const REFUSALS: &'static [u64] = &[1, 4, 5, 16, 17];
    const FIELDS: usize = 2;

    fn fixed() -> Vec<CommitsInput> {
        let lent = |room| CommitsInput {
            n: 4,
            quorum: 3,
            d: 4,
            total: Total {
                ceiling: true,
                width: 10,
            },
            answered: 15,
            loads: vec![4, 2, 2, 1],
            faults: vec![1],
            room,
        };
        (0..=24).map(lent).collect()
    }

    /// Up to 3 replicas, 2 data shards and a width of 3, under every list of at most 2 sets; up to 3
    /// replicas and data shards at an edge, under every list of one set.
    fn small(each: &mut dyn FnMut(CommitsInput)) {
        for (n, d, width) in sizes(3, 2, 3) {
            let loads: Vec<u64> = (0..=d).collect();
            small_commits(n, d, width, &loads, 2, each);
        }
        for (n, d, width) in edges(3) {
            small_commits(n, d, width, &edge_loads(d), 1, each);
        }
    }

    fn random(rng: &mut Rng) -> CommitsInput {
        let n = population(rng);
        let (d, w) = shards(rng);
        let mut input = CommitsInput {
            n,
            quorum: rng.within(1..=n),
            d,
            total: total(rng, w),
            answered: set(rng, n) | set(rng, n),
            loads: random_loads(rng, n, d),
            faults: faults(rng, n),
            room: row_words(n),
        };
        while rng.once_in(3) {
            input.damage(rng);
        }
        input
    }

    fn width(i: &CommitsInput) -> Option<u64> {
        Some(i.total.width)
    }

    fn refusal(i: &CommitsInput) -> Checked {
        document::layout_commits(i)
    }

    fn rust(i: &CommitsInput) -> Asked {
        let (n, quorum, d) = (byte(i.n)?, byte(i.quorum)?, byte(i.d)?);
        let (total, loads) = (i.total.rust()?, i.answers()?);
        let asked = api::layout_commits(n, &i.faults, quorum, d, &loads, total);
        Some(asked.map(|(w, rows, yes)| {
            let class = if yes { "commits" } else { "does not commit" };
            let fields = vec![w.into(), yes.into()];
            Told::new(Answer::lent(fields, rows.concat()), class)
        }))
    }

    #[cfg(feature = "port")]
    fn port(i: &CommitsInput) -> Answer {
        let mut rows = junk(i.room);
        // SAFETY: the tables are lent for the call, with their lengths, `rows` alone.
        let layout = unsafe {
            raw::callboard_layout_commits(
                i.n,
                i.quorum,
                i.d,
                i.total.ceiling.into(),
                i.total.width,
                i.answered,
                i.loads.as_ptr(),
                i.loads.len(),
                i.faults.as_ptr(),
                i.faults.len(),
                rows.as_mut_ptr(),
                rows.len(),
            )
        };
        Answer::given(layout.refusal, [layout.width, layout.commits], rows)
    }

    fn lent(i: &CommitsInput) -> Option<Vec<u64>> {
        Some(junk(i.room))
    }

    fn words(i: &CommitsInput, line: &mut Line) {
        line.words(&[i.n, i.quorum, i.d]).total(i.total);
        line.word(i.answered).slice(&i.loads).slice(&i.faults);
        line.room(i.room);
    }

    fn request(i: &CommitsInput) -> Option<String> {
        let loads = list(&i.answers()?, |k| k.map_or("_".into(), |k| k.to_string()));
        let (faults, total) = (hex(&i.faults), i.total.request());
        Some(format!(
            "commits {} {faults} {} {} {loads} {total}",
            i.n, i.quorum, i.d
        ))
    }
}
