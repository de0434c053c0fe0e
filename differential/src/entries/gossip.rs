//! `gossip_targets_excl`: which peers are asked for missing shards, and what each is to leave out.

#[cfg(feature = "port")]
use callboard::raw;
use oracle::api;

use crate::document::{self, Checked};
use crate::entry::{Answer, Asked, Entry, Told};
use crate::line::Line;
use crate::parts::{
    Row, STARTS, WIDEST, above, all_below, byte, common, damage_rows, each_list, each_of, hex_row,
    junk, list, population, row, row_above, row_at, row_words, rows_below, rows_of, set, shards,
    table_at, tables, wrong_room,
};
use crate::rng::Rng;

pub struct Gossip;

#[derive(Debug, Clone)]
pub struct Input {
    pub n: u64,
    pub own: u64,
    pub source: u64,
    pub d: u64,
    pub w: u64,
    pub available: Row,
    /// Four words a row.
    pub rows: Vec<u64>,
    pub alive: u64,
    /// The words that are lent for the exclusions.
    pub room: usize,
}

impl Input {
    fn damage(&mut self, rng: &mut Rng) {
        match rng.below(10) {
            0 => self.n = rng.around(16),
            1 => self.own = rng.around(self.n),
            2 => self.source = rng.around(self.n),
            3 => self.d = rng.around(self.w),
            4 => self.w = rng.around(WIDEST),
            5 => self.available = row_above(rng, self.w),
            6 => self.alive = above(rng, self.n),
            7 | 8 => damage_rows(rng, &mut self.rows, self.w),
            _ => self.room = wrong_room(rng, self.n),
        }
    }
}

/// The mask of those asked, and what each is to leave out, nothing for one not asked.
fn flat(asked: &[Option<Row>]) -> (u64, Vec<u64>) {
    let mask = (0..).zip(asked).filter(|(_, e)| e.is_some());
    let exclusions = asked.iter().flat_map(|e| e.unwrap_or_default());
    (mask.map(|(p, _)| 1u64 << p).sum(), exclusions.collect())
}

/// Every table of n rows of these shards, with every number of ours below `owns`.
fn small_of(n: u64, shards: u64, owns: u64, from: u64, each: &mut dyn FnMut(Input)) {
    each_list(n as usize, 1 << shards, &mut |rows| {
        each_of(&[owns, n, shards, 1 << shards, 1 << n], &mut |k| {
            each(Input {
                n,
                own: k[0],
                source: k[1],
                d: k[2] + 1,
                w: from + shards,
                available: row_at(from, k[3]),
                rows: table_at(from, rows),
                alive: k[4],
                room: row_words(n),
            });
        });
    });
}

impl Entry for Gossip {
    type Input = Input;
    const NAME: &'static str = "gossip";
    const ANSWERS: &'static [&'static str] = &["nobody is asked", "one is asked", "more are asked"];
    const REFUSALS: &'static [u64] = &[1, 3, 4, 16, 17];
    const FIELDS: usize = 1;

    fn fixed() -> Vec<Input> {
        let sheet = Input {
            n: 4,
            own: 1,
            source: 0,
            d: 2,
            w: 4,
            available: row_at(0, 3),
            rows: table_at(0, &[1, 2, 4, 8]),
            alive: 15,
            room: 16,
        };
        let mut fixed = vec![sheet.clone()];
        for w in [4, 64, 65, 130, WIDEST] {
            fixed.extend(tables(w, 20).into_iter().map(|rows| Input {
                w,
                rows,
                ..sheet.clone()
            }));
        }
        fixed.extend((0..=24).map(|room| Input {
            room,
            ..sheet.clone()
        }));
        fixed
    }

    /// Up to 3 replicas and 2 shards, one of 3 replicas with 3 shards, one of 4 with 2.
    fn small(each: &mut dyn FnMut(Input)) {
        let sizes = [
            (1, 1, 1),
            (1, 2, 1),
            (2, 2, 2),
            (2, 3, 2),
            (3, 2, 3),
            (3, 3, 1),
            (4, 2, 1),
        ];
        for (n, shards, owns) in sizes {
            let starts = if n * shards > 6 {
                &STARTS[..1]
            } else {
                &STARTS
            };
            for &from in starts {
                small_of(n, shards, owns, from, each);
            }
        }
    }

    fn random(rng: &mut Rng) -> Input {
        let n = population(rng);
        let (d, w) = shards(rng);
        let mut input = Input {
            n,
            own: rng.below(n),
            source: rng.below(n),
            d,
            w,
            available: row(rng, w),
            rows: (0..n)
                .flat_map(|_| common(row(rng, w), row(rng, w)))
                .collect(),
            alive: set(rng, n) | set(rng, n),
            room: row_words(n),
        };
        while rng.once_in(3) {
            input.damage(rng);
        }
        input
    }

    fn width(i: &Input) -> Option<u64> {
        Some(i.w)
    }

    fn refusal(i: &Input) -> Checked {
        document::gossip(i)
    }

    fn rust(i: &Input) -> Asked {
        let (own, n, d) = (byte(i.own)?, byte(i.n)?, byte(i.d)?);
        let (source, w) = (byte(i.source)?, byte(i.w)?);
        let right = i.rows.len() == row_words(i.n)
            && rows_below(&i.rows, i.w)
            && rows_below(&i.available, i.w)
            && all_below(&[i.alive], i.n);
        if !right {
            return None;
        }
        let (source, rows) = (Some(source), rows_of(&i.rows));
        let asked = api::gossip(own, n, d, source, w, i.available, rows, i.alive);
        Some(asked.map(|asked| {
            let (mask, exclusions) = flat(&asked);
            let class = Self::ANSWERS[mask.count_ones().min(2) as usize];
            Told::new(Answer::lent(vec![mask], exclusions), class)
        }))
    }

    #[cfg(feature = "port")]
    fn port(i: &Input) -> Answer {
        let mut exclusions = junk(i.room);
        let available = raw::Row { words: i.available };
        // SAFETY: the tables are lent for the call, with their lengths, `exclusions` alone.
        let answer = unsafe {
            raw::callboard_gossip_targets_excl(
                i.n,
                i.own,
                i.source,
                i.d,
                i.w,
                available,
                i.rows.as_ptr(),
                i.rows.len(),
                i.alive,
                exclusions.as_mut_ptr(),
                exclusions.len(),
            )
        };
        Answer::given(answer.refusal, [answer.value], exclusions)
    }

    fn lent(i: &Input) -> Option<Vec<u64>> {
        Some(junk(i.room))
    }

    fn words(i: &Input, line: &mut Line) {
        line.words(&[i.n, i.own, i.source, i.d, i.w]);
        line.words(&i.available);
        line.slice(&i.rows).word(i.alive).room(i.room);
    }

    fn request(i: &Input) -> Option<String> {
        let (available, rows) = (hex_row(&i.available), list(rows_of(&i.rows), hex_row));
        Some(format!(
            "gossip {} {} {} {} {} {available} {rows} {:x}",
            i.own, i.n, i.d, i.source, i.w, i.alive
        ))
    }
}
