//! `pick_assignment_policy`: the balanced policy, as a choice and as the rows that it stands for.

use std::cmp::Ordering;

#[cfg(feature = "port")]
use callboard::raw;
use oracle::api::{self, Fail};

use super::floor::{self, IN_A_BYTE, multiple};
use super::plan::{Floats, bytes};
use crate::document::{self, Checked};
use crate::entry::{Answer, Asked, Entry, Listed, Told};
use crate::line::Line;
use crate::parts::{
    Row, WIDEST, above, all_below, damage_rows, damage_table, each_of, junk, low, population,
    row_below, row_of, row_words, rows, rows_below, rows_of, set, shard_count, shards_of, table_at,
    tables, width, wrong_room,
};
use crate::rng::Rng;

/// The choice alone.
pub struct Choice;
/// The choice, and its rows in lent words.
pub struct PolicyRows;

#[derive(Debug, Clone)]
pub struct Input {
    pub n: u64,
    pub f: u64,
    pub own: u64,
    pub d: u64,
    pub w: u64,
    pub majority: u64,
    pub size: u64,
    pub adaptive: bool,
    pub balanced: bool,
    /// Slope, delay and jitter of each replica.
    pub models: Vec<[f64; 3]>,
    pub inflight: Vec<u64>,
    pub alive: u64,
    /// Four words a row, here and in the table.
    pub init: Vec<u64>,
    pub table: Vec<u64>,
    /// The words that are lent for the rows.
    pub room: usize,
}

/// The names of listed differences.
pub const NANS: &str = "every NaN above infinity";
pub const TWO_NANS: &str = "a sum of two NaNs";

/// "Every NaN, all alike, stands above infinity here".
fn nans_above(a: &f64, b: &f64) -> Ordering {
    match (a.is_nan(), b.is_nan()) {
        (false, false) => a.total_cmp(b),
        (a, b) => a.cmp(&b),
    }
}

impl Input {
    fn damage(&mut self, rng: &mut Rng) {
        match rng.below(16) {
            0 => self.n = rng.around(16),
            1 => self.f = rng.around(self.n),
            2 => self.own = rng.around(self.n),
            3 => self.d = rng.around(self.w),
            4 => self.w = rng.around(WIDEST),
            5 => self.majority = rng.around(self.n),
            6 => self.majority = rng.within(1..=self.n.clamp(1, 16)),
            7 => self.size = rng.around(1 << 30),
            8 if !self.inflight.is_empty() => {
                let at = rng.index(self.inflight.len());
                self.inflight[at] = rng.around(1 << 40);
            }
            9 => self.alive = above(rng, self.n),
            10 => damage_table(rng, &mut self.models, [1.0; 3]),
            11 => damage_table(rng, &mut self.inflight, u64::MAX),
            12 | 13 => damage_rows(rng, &mut self.init, self.w),
            14 => damage_rows(rng, &mut self.table, self.w),
            _ => self.room = wrong_room(rng, self.n),
        }
    }

    /// The number and the floats of each peer, as the Rust holds them.
    fn peers(&self) -> Vec<(u8, [f64; 3], usize)> {
        let peers = (0..).zip(self.models.iter().zip(&self.inflight));
        let others = peers.filter(|&(p, _)| u64::from(p) != self.own);
        others.map(|(p, (&m, &b))| (p, m, b as usize)).collect()
    }

    /// The rows of a count that the table has.
    fn rows(&self, count: u64) -> &[u64] {
        let from = (count - self.d / self.majority) * self.n;
        &self.table[row_words(from)..][..row_words(self.n)]
    }

    /// "load (size / d, rounded down, + 1) × those shards"
    fn load(&self, step: u64) -> usize {
        let count = (step + 1) * (self.d / self.majority);
        ((self.size / self.d + 1) * count) as usize
    }

    /// The time of a step by its order of floats: "the (q - 1)-th least in total order counts,
    /// infinity if missing, 0 if q is below 2".
    fn step_time(&self, step: u64, order: fn(&f64, &f64) -> Ordering) -> f64 {
        let load = self.load(step);
        let time = |&(_, m, b): &(u8, [f64; 3], usize)| api::predict(m[0], m[1], m[2], b + load);
        let mut times: Vec<f64> = self.peers().iter().map(time).collect();
        times.sort_by(order);
        match (self.majority + self.f - step).checked_sub(2) {
            Some(i) => times.get(i as usize).copied().unwrap_or(f64::INFINITY),
            None => 0.0,
        }
    }

    /// The count that is chosen by this order of floats and this floor; `None` is the initial
    /// layout.
    fn chosen(&self, order: fn(&f64, &f64) -> Ordering, floor: u64) -> Option<u64> {
        let step = |step| (step, self.step_time(step, order));
        let best = if self.adaptive {
            let steps = (0..self.majority).map(step);
            let first_least = steps.min_by(|a, b| order(&a.1, &b.1));
            (first_least.expect("a majority is at least 1").0 + 1) * (self.d / self.majority)
        } else {
            shard_count(&rows_of(&self.init)[0])
        };
        let count = best.max(floor);
        let has = !self.table.is_empty() && (self.d / self.majority..=self.d).contains(&count);
        (self.balanced && has).then_some(count)
    }

    /// Whether some time is a sum of two NaNs. Which of them it is, and so its place in the Rust's
    /// order, differs from call to call: it hangs on the order in which a hash map hands out peers.
    fn is_open(&self) -> bool {
        let open = |&(_, [slope, delay, jitter], b): &(u8, [f64; 3], usize), load| {
            let is_nan = |slope, delay| api::predict(slope, delay, 0.0, b + load).is_nan();
            (is_nan(slope, 0.0) && delay.is_nan()) || (is_nan(slope, delay) && jitter.is_nan())
        };
        let peers = self.peers();
        let at = |step| peers.iter().any(|p| open(p, self.load(step)));
        self.balanced && self.adaptive && (0..self.majority).any(at)
    }

    /// The Rust's choice and the port's, by the document.
    fn choices(&self) -> [Option<u64>; 2] {
        let (f, d, majority, alive) = (self.f, self.d, self.majority, self.alive);
        [
            self.chosen(f64::total_cmp, floor::in_a_byte(f, d, majority, alive)),
            self.chosen(nans_above, floor::whole(f, d, majority, alive)),
        ]
    }

    /// A difference from the Rust that comes of NaNs: its name, the Rust's choice and the port's.
    /// `told` is what the Rust chose.
    fn listed(&self, told: Option<u64>) -> Option<(&'static str, Option<u64>, Option<u64>)> {
        let [rust, port] = self.choices();
        if self.is_open() {
            return Some((TWO_NANS, told, port));
        }
        (rust != port && !self.overflows()).then_some((NANS, rust, port))
    }

    /// The floor's product is above a byte; without balance there is no floor.
    fn overflows(&self) -> bool {
        self.balanced && floor::overflows(self.f, self.d, self.majority, self.alive)
    }

    /// Whether the Rust can hold the tables.
    fn is_right(&self) -> bool {
        let bytes = [self.n, self.f, self.d, self.w, self.majority];
        bytes.iter().all(|&number| number < 256)
            && self.models.len() as u64 == self.n
            && self.inflight.len() as u64 == self.n
            && self.init.len() == row_words(self.n)
            && self.majority > 0
            && self.n > 0
            && (self.table.is_empty() || self.table.len() == row_words(self.n * self.counts()))
            && rows_below(&self.init, self.w)
            && rows_below(&self.table, self.w)
            && all_below(&[self.alive], self.n)
    }

    /// How many counts a table has.
    fn counts(&self) -> u64 {
        self.d - self.d / self.majority + 1
    }

    /// Asks the Rust with this table in place of the lent one. A part: the tables are right.
    fn ask(&self, table: &[(u8, Vec<Row>)]) -> Result<Vec<Row>, Fail> {
        api::policy(
            self.adaptive,
            self.balanced,
            self.w as u8,
            rows_of(&self.init),
            table,
            self.d as u8,
            self.majority as u8,
            self.f as u8,
            self.size as usize,
            &self.peers(),
            0.0,
            None,
            self.n as u8,
            self.alive,
        )
    }

    /// The counts of the table, each with what `rows` gives for it.
    fn tabled(&self, rows: impl Fn(u64) -> Vec<Row>) -> Vec<(u8, Vec<Row>)> {
        if self.table.is_empty() {
            return vec![];
        }
        let counts = self.d / self.majority..=self.d;
        counts.map(|c| (c as u8, rows(c))).collect()
    }

    /// The Rust's choice. It gives rows alone, so that it is asked with a table whose rows number
    /// one more than n, the last naming the count by its one shard. (The count 0 is refused.)
    fn rust_choice(&self) -> Result<Option<u64>, Fail> {
        let n = self.n as usize;
        let marked = self.tabled(|count| {
            let mut rows = vec![[0; 4]; n + 1];
            rows[n] = row_of([count.saturating_sub(1)]);
            rows
        });
        let count = |row: &Row| shards_of(row).map(|shard| shard + 1).sum();
        self.ask(&marked).map(|rows| rows.get(n).map(count))
    }

    /// The Rust's rows.
    fn rust_rows(&self) -> Result<Vec<u64>, Fail> {
        let real = |count| rows_of(self.rows(count)).to_vec();
        self.ask(&self.tabled(real)).map(|rows| rows.concat())
    }
}

/// A choice as the C struct has it.
fn fields(choice: Option<u64>) -> Vec<u64> {
    vec![choice.is_some().into(), choice.unwrap_or(0)]
}

/// A choice with its rows.
fn with_rows(i: &Input, choice: Option<u64>) -> Answer {
    let rows = choice.map_or(&i.init[..], |count| i.rows(count));
    Answer::lent(fields(choice), rows.to_vec())
}

/// What the Rust says, having chosen so; `answer` is what a choice comes to.
fn told(
    i: &Input,
    choice: Option<u64>,
    said: Answer,
    answer: impl Fn(Option<u64>) -> Answer,
) -> Told {
    let class = choice.map_or("initial", |_| "balanced");
    let mut told = Told::new(said, class);
    if document::policy(i).is_ok() {
        told.listed = i.listed(choice).map(|(name, rust, port)| Listed {
            name,
            rust: if name == TWO_NANS {
                told.answer.clone()
            } else {
                answer(rust)
            },
            port: answer(port),
        });
    }
    told
}

/// The overflow of an accepted input; `answer` is what a choice comes to.
fn overflow(i: &Input, answer: impl Fn(Option<u64>) -> Answer) -> Option<Listed> {
    i.overflows().then(|| {
        let [rust, port] = i.choices().map(answer);
        Listed {
            name: IN_A_BYTE,
            rust,
            port,
        }
    })
}

/// One input of each listed difference, and tables of every length.
fn fixed() -> Vec<Input> {
    let two_nans = Input {
        models: vec![[0.0; 3], [f64::NAN, -f64::NAN, 0.0]],
        ..nan_below()
    };
    let mut fixed = vec![nan_below(), two_nans, floor_in_a_byte()];
    fixed.extend([66, 80].map(wide));
    for w in [2, 64, 65, 130, WIDEST] {
        for words in tables(w, 20) {
            let plain = Input {
                w,
                models: vec![[0.0; 3]; 2],
                ..nan_below()
            };
            fixed.push(Input {
                init: words.clone(),
                ..plain.clone()
            });
            fixed.push(Input {
                table: words,
                ..plain
            });
        }
    }
    fixed.extend((0..=16).map(|room| Input {
        room,
        ..nan_below()
    }));
    fixed
}

/// A peer's slope is a NaN with its sign set.
#[must_use]
pub fn nan_below() -> Input {
    Input {
        n: 2,
        f: 0,
        own: 0,
        d: 2,
        w: 2,
        majority: 2,
        size: 0,
        adaptive: true,
        balanced: true,
        models: vec![[0.0; 3], [-f64::NAN, 0.0, 0.0]],
        inflight: vec![0; 2],
        alive: 3,
        init: table_at(0, &[1, 2]),
        table: table_at(0, &[1, 2, 3, 3]),
        room: 8,
    }
}

/// Two of two replicas are to reply, and d shards are more than a word.
fn wide(d: u64) -> Input {
    let counts = (d / 2..=d).flat_map(|count| [row_below(count), row_below(count)]);
    Input {
        d,
        w: WIDEST,
        models: vec![[0.0; 3], [1.0, 1.0, 0.0]],
        init: [row_below(d / 2), row_below(d)].concat(),
        table: counts.flatten().collect(),
        ..nan_below()
    }
}

/// Nobody is alive, and the floor's product is 256.
#[must_use]
pub fn floor_in_a_byte() -> Input {
    Input {
        n: 1,
        f: 0,
        own: 0,
        d: 128,
        w: 128,
        majority: 1,
        size: 0,
        adaptive: false,
        balanced: true,
        models: vec![[0.0; 3]],
        inflight: vec![0],
        alive: 0,
        init: vec![0; 4],
        table: row_below(128).to_vec(),
        room: 4,
    }
}

/// Up to 3 replicas: every majority, tolerance, mask and pair of these models.
fn small(each: &mut dyn FnMut(Input)) {
    for n in 1..=3 {
        each_of(&[n, n, n, 2, 3, 1 << n, 2, 5, 5], &mut |k| {
            each(small_of(n, k))
        });
    }
}

/// A case of the small space, by the places of its numbers.
fn small_of(n: u64, k: &[u64]) -> Input {
    let models = [
        [0.0, 0.0, 0.0],
        [1.0, 1.0, 0.0],
        [-1.0, 0.0, 0.0],
        [f64::NAN, 0.0, 0.0],
        [f64::INFINITY, f64::NEG_INFINITY, 0.0],
    ];
    let (majority, share) = (k[1] + 1, k[3] + 1);
    let d = majority * share;
    let counts = if k[6] == 0 { 0 } else { d - share + 1 };
    let table = (0..n * counts).map(|r| low(share + r / n));
    // Our own model is one that would be the fastest.
    let mut given = vec![models[k[7] as usize], models[k[8] as usize]];
    given.insert(k[2].min(2) as usize, [-9.0; 3]);
    Input {
        n,
        f: k[0],
        own: k[2],
        d,
        w: d + 1,
        majority,
        size: 2 << 20,
        adaptive: k[4] == 0,
        balanced: k[4] < 2,
        models: given[..n as usize].to_vec(),
        inflight: vec![0; n as usize],
        alive: k[5],
        init: table_at(0, &vec![low(share); n as usize]),
        table: table_at(0, &table.collect::<Vec<_>>()),
        room: row_words(n),
    }
}

/// A multiple of the majority, mostly a small one where the table would be long.
fn data_shards(rng: &mut Rng, n: u64, majority: u64) -> u64 {
    match rng.below(4 * n * majority) {
        0 => WIDEST / majority * majority,
        1 => 65u64.next_multiple_of(majority),
        2 => multiple(rng, majority),
        _ => majority * rng.within(1..=3),
    }
}

fn random(rng: &mut Rng) -> Input {
    let n = population(rng);
    let majority = rng.within(1..=n);
    let d = data_shards(rng, n, majority);
    let w = width(rng, d);
    let counts = if rng.once_in(8) {
        0
    } else {
        d - d / majority + 1
    };
    let floats = Floats::random(rng);
    let mut input = Input {
        n,
        f: rng.below(n),
        own: rng.below(n),
        d,
        w,
        majority,
        size: bytes(rng, 1 << 30),
        adaptive: !rng.once_in(4),
        balanced: !rng.once_in(6),
        models: (0..n).map(|_| floats.draw(rng)).collect(),
        inflight: (0..n).map(|_| bytes(rng, 1 << 40)).collect(),
        alive: set(rng, n) | rng.pick(&[0, low(n)]) & set(rng, n),
        init: rows(rng, n, d),
        table: rows(rng, n * counts, w),
        room: row_words(n),
    };
    while rng.once_in(3) {
        input.damage(rng);
    }
    input
}

fn words(i: &Input, line: &mut Line) {
    line.words(&[i.n, i.f, i.own, i.d, i.w, i.majority, i.size]);
    line.word(i.adaptive.into()).word(i.balanced.into());
    line.models(&i.models).slice(&i.inflight).word(i.alive);
    line.slice(&i.init).slice(&i.table);
}

/// Calls a C function with the policy's parameters and these behind them.
#[cfg(feature = "port")]
macro_rules! call {
    ($function:path, $i:expr $(, $more:expr)*) => {{
        let (i, floats) = ($i, $i.models.as_flattened());
        // SAFETY: the tables are lent for the call, with their lengths, one that is written alone.
        unsafe {
            $function(
                i.n,
                i.f,
                i.own,
                i.d,
                i.w,
                i.majority,
                i.size,
                i.adaptive.into(),
                i.balanced.into(),
                floats.as_ptr(),
                floats.len(),
                i.inflight.as_ptr(),
                i.inflight.len(),
                i.alive,
                i.init.as_ptr(),
                i.init.len(),
                i.table.as_ptr(),
                i.table.len()
                $(, $more)*
            )
        }
    }};
}

impl Entry for Choice {
    type Input = Input;
    const NAME: &'static str = "choice";
    const ANSWERS: &'static [&'static str] = &["balanced", "initial"];
    const LISTED: &'static [&'static str] = &[IN_A_BYTE, NANS, TWO_NANS];
    const REFUSALS: &'static [u64] = &[1, 2, 3, 4, 5, 14, 15, 16, 17];
    const FIELDS: usize = 2;

    fn fixed() -> Vec<Input> {
        fixed()
    }

    fn small(each: &mut dyn FnMut(Input)) {
        small(each);
    }

    fn random(rng: &mut Rng) -> Input {
        random(rng)
    }

    fn width(i: &Input) -> Option<u64> {
        Some(i.w)
    }

    fn refusal(i: &Input) -> Checked {
        document::policy(i)
    }

    fn overflow(i: &Input) -> Option<Listed> {
        overflow(i, |choice| Answer::fields(fields(choice)))
    }

    fn rust(i: &Input) -> Asked {
        if !i.is_right() {
            return None;
        }
        let choice = i.rust_choice();
        let answer = |choice| Answer::fields(fields(choice));
        Some(choice.map(|choice| told(i, choice, answer(choice), answer)))
    }

    #[cfg(feature = "port")]
    fn port(i: &Input) -> Answer {
        let choice = call!(raw::callboard_pick_assignment_policy, i);
        choice_of(&choice, vec![])
    }

    fn words(i: &Input, line: &mut Line) {
        words(i, line);
    }
}

impl Entry for PolicyRows {
    type Input = Input;
    const NAME: &'static str = "policy";
    const ANSWERS: &'static [&'static str] = Choice::ANSWERS;
    const LISTED: &'static [&'static str] = Choice::LISTED;
    const REFUSALS: &'static [u64] = Choice::REFUSALS;
    const FIELDS: usize = 2;

    fn fixed() -> Vec<Input> {
        fixed()
    }

    fn small(each: &mut dyn FnMut(Input)) {
        small(each);
    }

    fn random(rng: &mut Rng) -> Input {
        random(rng)
    }

    fn width(i: &Input) -> Option<u64> {
        Some(i.w)
    }

    fn refusal(i: &Input) -> Checked {
        document::policy_rows(i)
    }

    fn overflow(i: &Input) -> Option<Listed> {
        overflow(i, |choice| with_rows(i, choice))
    }

    fn rust(i: &Input) -> Asked {
        if !i.is_right() {
            return None;
        }
        Some(i.rust_choice().and_then(|choice| {
            let said = Answer::lent(fields(choice), i.rust_rows()?);
            Ok(told(i, choice, said, |choice| with_rows(i, choice)))
        }))
    }

    #[cfg(feature = "port")]
    fn port(i: &Input) -> Answer {
        let mut rows = junk(i.room);
        let (lent, len) = (rows.as_mut_ptr(), rows.len());
        let choice = call!(raw::callboard_policy_rows, i, lent, len);
        choice_of(&choice, rows)
    }

    fn lent(i: &Input) -> Option<Vec<u64>> {
        Some(junk(i.room))
    }

    fn words(i: &Input, line: &mut Line) {
        words(i, line);
        line.room(i.room);
    }
}

#[cfg(feature = "port")]
fn choice_of(choice: &raw::Choice, lent: Vec<u64>) -> Answer {
    Answer::given(choice.refusal, [choice.from_table, choice.count], lent)
}
