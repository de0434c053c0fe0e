//! Parts that several inputs share: how they are made, damaged, and handed to each side.

use std::fmt::{Debug, Formatter};

use oracle::api;
pub use oracle::api::Row;

use crate::rng::Rng;

/// The most shards of a layout.
pub const WIDEST: u64 = 255;

/// Widths beside which a row's words end, and the widest.
pub const EDGES: [u64; 9] = [64, 65, 127, 128, 129, 191, 192, 254, WIDEST];

/// Where the shards of a small space begin: at the first one, or at the last of a row's word.
pub const STARTS: [u64; 4] = [0, 63, 127, 191];

/// A width: exact, or the most.
#[derive(Debug, Clone, Copy)]
pub struct Total {
    pub ceiling: bool,
    pub width: u64,
}

/// A text as bytes, UTF-8 or not.
#[derive(Clone, PartialEq, Eq)]
pub struct Text(pub Vec<u8>);

/// A profile that is handed in.
#[derive(Debug, Clone)]
pub struct Profile {
    pub domain_count: u64,
    pub prob_count: u64,
    pub runtime: u64,
    pub threshold: f64,
    pub probs: [f64; 16],
    pub domains: [u64; 64],
}

impl Total {
    #[must_use]
    pub fn rust(self) -> Option<api::Total> {
        let width = byte(self.width)?;
        Some(if self.ceiling {
            api::Total::AtMost(width)
        } else {
            api::Total::Exactly(width)
        })
    }

    /// As the oracle's line protocol has it.
    #[must_use]
    pub fn request(self) -> String {
        let sign = if self.ceiling { '<' } else { '=' };
        format!("{sign}{}", self.width)
    }
}

impl Debug for Text {
    fn fmt(&self, f: &mut Formatter) -> std::fmt::Result {
        write!(f, "b\"{}\"", self.0.escape_ascii())
    }
}

impl From<&str> for Text {
    fn from(text: &str) -> Text {
        Text(text.as_bytes().to_vec())
    }
}

impl Text {
    /// The Rust reads UTF-8 alone.
    #[must_use]
    pub fn rust(&self) -> Option<&str> {
        str::from_utf8(&self.0).ok()
    }

    #[must_use]
    pub fn request(&self) -> String {
        if self.0.is_empty() {
            return "-".into();
        }
        self.0.iter().map(|b| format!("{b:02x}")).collect()
    }

    /// Damages it: a byte changed, put in, taken out, a part doubled, or an end cut off.
    pub fn damage(&mut self, rng: &mut Rng, letters: &[u8]) {
        let byte = if rng.once_in(8) {
            rng.word() as u8
        } else {
            rng.pick(letters)
        };
        let at = rng.index(self.0.len() + 1);
        let to = (at + rng.index(8)).min(self.0.len());
        match rng.below(5) {
            0 if at < self.0.len() => self.0[at] = byte,
            1 => drop(self.0.drain(at..to)),
            2 => drop(self.0.splice(at..at, self.0[at..to].to_vec())),
            3 => self.0.truncate(at),
            _ => self.0.insert(at, byte),
        }
    }
}

impl Profile {
    /// One that says nothing.
    pub const NOTHING: Profile = Profile {
        domain_count: 0,
        prob_count: 0,
        runtime: 0,
        threshold: 0.0,
        probs: [0.0; 16],
        domains: [0; 64],
    };

    #[must_use]
    pub fn with_domains(mut self, domains: &[u64]) -> Profile {
        self.domain_count = domains.len() as u64;
        self.domains[..domains.len()].copy_from_slice(domains);
        self
    }

    #[must_use]
    pub fn with_probs(mut self, probs: &[f64], threshold: f64) -> Profile {
        self.prob_count = probs.len() as u64;
        self.probs[..probs.len()].copy_from_slice(probs);
        self.threshold = threshold;
        self
    }

    /// A profile of n replicas that is well made; words that are not counted hold anything.
    pub fn random(rng: &mut Rng, n: u64) -> Profile {
        let mut p = Profile {
            domain_count: rng.pick(&[0, 0, 1, 2, 3, 64]),
            prob_count: if rng.once_in(2) { n } else { 0 },
            runtime: rng.pick(&[0, 0, 1, 1, 2, u64::MAX]),
            threshold: rng.pick(&[1.0, 0.5, 0.25, 0.1, 1e-3, 5e-324]),
            probs: std::array::from_fn(|_| rng.float()),
            domains: std::array::from_fn(|_| rng.word()),
        };
        let full = rng.once_in(16);
        for domain in &mut p.domains[..p.domain_count as usize] {
            *domain = if full { low(n) } else { proper(rng, n) };
        }
        if p.prob_count != 0 {
            let probable = rng.probability();
            p.probs[..n as usize].fill_with(|| rng.probability().min(probable));
            p.at_an_edge(rng, n);
        }
        p
    }

    /// Sets the threshold to the product of some probabilities, or to a float beside it.
    fn at_an_edge(&mut self, rng: &mut Rng, n: u64) {
        let members = set(rng, n);
        let chosen = (0..n).filter(|&s| has(members, s));
        let product = chosen.fold(1.0, |product, s| product * self.probs[s as usize]);
        let edge = match rng.below(4) {
            0 => product.next_up(),
            1 => product.next_down(),
            _ => product,
        };
        if edge > 0.0 && edge <= 1.0 && rng.once_in(2) {
            self.threshold = edge;
        }
    }

    /// Damages one word of it.
    pub fn damage(&mut self, rng: &mut Rng, n: u64) {
        let place = rng.index(self.domain_count.clamp(1, 64) as usize);
        match rng.below(7) {
            0 => self.domain_count = rng.around(64),
            1 => self.prob_count = rng.around(n),
            2 => self.threshold = rng.float(),
            3 => self.probs[rng.index(n.clamp(1, 16) as usize)] = rng.float(),
            4 => self.domains[place] |= 1u64 << rng.within(n.min(63)..=63),
            5 => (self.domain_count, self.domains[63]) = (65, 1u64 << n.min(63)),
            _ => (self.domain_count, self.domains) = (rng.pick(&[64, 65, u64::MAX]), [0; 64]),
        }
    }

    /// What the Rust holds in its place, if that has one.
    #[must_use]
    pub fn rust(&self, n: u64) -> Option<api::Profile> {
        let domains = self
            .domains
            .get(..usize::try_from(self.domain_count).ok()?)?;
        let probs = self.probs.get(..usize::try_from(self.prob_count).ok()?)?;
        all_below(domains, n).then(|| api::Profile {
            domains: domains.to_vec(),
            probs: (!probs.is_empty()).then(|| (probs.to_vec(), self.threshold)),
            runtime: self.runtime != 0,
        })
    }

    #[cfg(feature = "port")]
    #[must_use]
    pub fn port(&self) -> callboard::Profile {
        callboard::Profile {
            domain_count: self.domain_count,
            prob_count: self.prob_count,
            runtime: self.runtime,
            threshold: self.threshold,
            probs: self.probs,
            domains: self.domains,
        }
    }
}

/// Numbers of the Rust are bytes.
#[must_use]
pub fn byte(number: u64) -> Option<u8> {
    u8::try_from(number).ok()
}

/// The bits of a float, every NaN the same.
#[must_use]
pub fn bits(x: f64) -> u64 {
    if x.is_nan() {
        0x7ff8_0000_0000_0000
    } else {
        x.to_bits()
    }
}

/// The mask of all below `k`.
#[must_use]
pub fn low(k: u64) -> u64 {
    if k < 64 { (1 << k) - 1 } else { u64::MAX }
}

/// Whether no mask has a bit at or above `k`.
#[must_use]
pub fn all_below(masks: &[u64], k: u64) -> bool {
    masks.iter().all(|m| m & !low(k) == 0)
}

#[must_use]
pub fn has(mask: u64, bit: u64) -> bool {
    mask >> bit & 1 == 1
}

/// The row of all shards below `k`.
#[must_use]
pub fn row_below(k: u64) -> Row {
    [0, 64, 128, 192].map(|from| low(k.saturating_sub(from)))
}

/// The row of these shards.
pub fn row_of(shards: impl IntoIterator<Item = u64>) -> Row {
    let mut row = [0; 4];
    for shard in shards {
        row[shard as usize / 64] |= 1 << (shard % 64);
    }
    row
}

/// The row of the shards `from` + i, for the bits i.
#[must_use]
pub fn row_at(from: u64, bits: u64) -> Row {
    row_of((0..64).filter(|&i| has(bits, i)).map(|i| from + i))
}

/// What two rows have in common.
#[must_use]
pub fn common(a: Row, b: Row) -> Row {
    std::array::from_fn(|i| a[i] & b[i])
}

#[must_use]
pub fn union(a: Row, b: Row) -> Row {
    std::array::from_fn(|i| a[i] | b[i])
}

#[must_use]
pub fn shard_count(row: &Row) -> u64 {
    row.iter().map(|word| u64::from(word.count_ones())).sum()
}

/// The shards of a row, rising.
pub fn shards_of(row: &Row) -> impl Iterator<Item = u64> {
    let row = *row;
    (0..256).filter(move |&shard| has(row[shard as usize / 64], shard % 64))
}

/// A table of each length up to `most` words with every shard below `w`, and beside it the table
/// whose last word also has the first shard from `w` on that it can name.
#[must_use]
pub fn tables(w: u64, most: usize) -> Vec<Vec<u64>> {
    let below = row_below(w);
    let full: Vec<u64> = below.into_iter().cycle().take(most).collect();
    let spoiled = |len: usize| {
        let (last, rest) = full[..len].split_last()?;
        let first_above = last.checked_add(1)?;
        Some([rest, &[last | first_above]].concat())
    };
    let both = |len| [Some(full[..len].to_vec()), spoiled(len)];
    (0..=most).flat_map(both).flatten().collect()
}

/// Whether no word of a table has a shard at or above `w`, the last row being whole or not.
#[must_use]
pub fn rows_below(words: &[u64], w: u64) -> bool {
    let below = row_below(w);
    let mut each = words.iter().zip(below.iter().cycle());
    each.all(|(word, below)| word & !below == 0)
}

/// The rows of a table, without words that make no whole row.
#[must_use]
pub fn rows_of(words: &[u64]) -> &[Row] {
    words.as_chunks().0
}

/// Lent words before a call, by the rule of the stored answers.
#[must_use]
pub fn junk(room: usize) -> Vec<u64> {
    (0..room as u64).map(|i| 0xab_ad1d_ea00 + i).collect()
}

/// The words of a table whose rows have these shards from `from` on.
#[must_use]
pub fn table_at(from: u64, rows: &[u64]) -> Vec<u64> {
    rows.iter().flat_map(|&bits| row_at(from, bits)).collect()
}

/// How many words n rows have.
#[must_use]
pub fn row_words(n: u64) -> usize {
    n.saturating_mul(4) as usize
}

/// A list of the oracle's line protocol.
#[must_use]
pub fn list<T>(items: &[T], show: impl Fn(&T) -> String) -> String {
    if items.is_empty() {
        return "-".into();
    }
    let shown: Vec<String> = items.iter().map(show).collect();
    shown.join(",")
}

#[must_use]
pub fn hex(words: &[u64]) -> String {
    list(words, |w| format!("{w:x}"))
}

/// A row of the oracle's line protocol.
#[must_use]
pub fn hex_row(row: &Row) -> String {
    let [a, b, c, d] = row;
    let digits = format!("{d:016x}{c:016x}{b:016x}{a:016x}");
    match digits.trim_start_matches('0') {
        "" => "0".into(),
        digits => digits.into(),
    }
}

/// A population, mostly small.
pub fn population(rng: &mut Rng) -> u64 {
    match rng.below(10) {
        0..=5 => rng.within(1..=5),
        6..=8 => rng.within(1..=9),
        _ => rng.within(1..=16),
    }
}

/// Data shards and a width: small ones, ones at an edge, any.
pub fn shards(rng: &mut Rng) -> (u64, u64) {
    let d = match rng.below(10) {
        0..=3 => rng.within(1..=6),
        4 | 5 => rng.within(1..=16),
        6 => rng.within(1..=64),
        7 => rng.pick(&EDGES),
        _ => rng.within(1..=WIDEST),
    };
    (d, width(rng, d))
}

/// A width for d data shards: mostly little more than d, or one at an edge.
pub fn width(rng: &mut Rng, d: u64) -> u64 {
    match rng.below(8) {
        0 => d,
        1 => WIDEST,
        2 | 3 => rng.pick(&EDGES).max(d),
        _ => (d + rng.below(d + 2)).min(WIDEST),
    }
}

pub fn total(rng: &mut Rng, width: u64) -> Total {
    Total {
        ceiling: rng.once_in(2),
        width,
    }
}

/// A set below `k`: any, sparse, empty or full.
pub fn set(rng: &mut Rng, k: u64) -> u64 {
    let any = rng.word() & low(k);
    match rng.below(8) {
        0 => 0,
        1 => low(k),
        2..=4 => any & rng.word(),
        _ => any,
    }
}

/// A row below `w`: any, sparse, a run, empty or full.
pub fn row(rng: &mut Rng, w: u64) -> Row {
    let any = [(); 4].map(|()| rng.word());
    let within = match rng.below(8) {
        0 => [0; 4],
        1 => row_below(w),
        2 => run(rng, w),
        3 | 4 => any.map(|word| word & rng.word()),
        _ => any,
    };
    common(within, row_below(w))
}

/// The shards from one to another.
fn run(rng: &mut Rng, w: u64) -> Row {
    let (from, to) = (row_below(rng.below(w + 1)), row_below(rng.below(w + 1)));
    common(to, from.map(|word| !word))
}

/// The words of a table of n rows.
pub fn rows(rng: &mut Rng, n: u64, w: u64) -> Vec<u64> {
    (0..n).flat_map(|_| row(rng, w)).collect()
}

/// A set of replicas that leaves one out.
pub fn proper(rng: &mut Rng, n: u64) -> u64 {
    set(rng, n) & !(1u64 << rng.below(n))
}

/// All sets of exactly f of n replicas.
#[must_use]
pub fn exactly(n: u64, f: u64) -> Vec<u64> {
    (0..1u64 << n)
        .filter(|m| u64::from(m.count_ones()) == f)
        .collect()
}

/// A fault list: all sets of one size, or some sets.
pub fn faults(rng: &mut Rng, n: u64) -> Vec<u64> {
    match rng.below(4) {
        0 => vec![0],
        1 | 2 => exactly(
            n,
            rng.below(n)
                .min(rng.pick(&[1, 1, 2, if n < 8 { 3 } else { 2 }])),
        ),
        _ => (0..rng.within(1..=6)).map(|_| proper(rng, n)).collect(),
    }
}

/// A fault list that is empty, or has a set of all replicas or of one that is not there.
pub fn damage_faults(rng: &mut Rng, n: u64, faults: &mut Vec<u64>) {
    let wrong = match rng.below(4) {
        0 => return faults.clear(),
        1 => low(n),
        2 => 1u64 << n.min(63),
        _ => rng.word(),
    };
    faults.insert(rng.index(faults.len() + 1), wrong);
}

/// A table that is longer or shorter, a word of it perhaps out of bounds.
pub fn damage_table<T: Clone>(rng: &mut Rng, table: &mut Vec<T>, wrong: T) {
    match rng.below(4) {
        0 => table.clear(),
        1 => drop(table.pop()),
        2 => table.push(wrong),
        _ => table.extend(vec![wrong; 16]),
    }
}

/// A table of rows with words more or less, with a shard at or above the width, or with both.
pub fn damage_rows(rng: &mut Rng, words: &mut Vec<u64>, w: u64) {
    let kind = rng.below(3);
    if kind != 0 {
        resize(rng, words, w);
    }
    if kind != 1 {
        spoil(rng, words, w);
    }
}

/// Words more or less; those more have no shard at or above the width.
fn resize(rng: &mut Rng, words: &mut Vec<u64>, w: u64) {
    let some = rng.within(1..=5) as usize;
    let len = match rng.below(5) {
        0 => 0,
        1 | 2 => words.len().saturating_sub(some),
        3 => words.len() + some,
        _ => words.len() + 16,
    };
    let (below, filled) = (row_below(w), rng.pick(&[0, u64::MAX]));
    words.truncate(len);
    for at in words.len()..len {
        words.push(below[at % 4] & filled);
    }
}

/// A shard at or above the width in some row, or in a row more that may not be whole.
fn spoil(rng: &mut Rng, words: &mut Vec<u64>, w: u64) {
    let shard = rng.within(w.min(255)..=255);
    let at = 4 * rng.index(words.len() / 4 + 1) + shard as usize / 64;
    if words.len() <= at {
        words.resize(at + 1, 0);
    }
    words[at] |= 1 << (shard % 64);
}

/// A row with a shard at or above the width.
pub fn row_above(rng: &mut Rng, w: u64) -> Row {
    let shard = rng.within(w.min(255)..=255);
    union(row(rng, w.min(255)), row_of([shard]))
}

/// A room for other than n rows, or of words that make no whole rows.
pub fn wrong_room(rng: &mut Rng, n: u64) -> usize {
    let right = 4 * n.min(32);
    let less = right.saturating_sub(rng.within(1..=4));
    let more = right + rng.within(1..=4);
    rng.pick(&[0, n.min(32), less, more, 64, 100]) as usize
}

/// A word with a bit at or above `k`.
pub fn above(rng: &mut Rng, k: u64) -> u64 {
    rng.word() & low(k) | 1u64 << rng.within(k.min(63)..=63)
}

/// Every nonempty list of at most `most` different sets of n replicas, none of all of them.
#[must_use]
pub fn fault_lists(n: u64, most: u32) -> Vec<Vec<u64>> {
    let sets = (1u64 << n) - 1;
    (1..1u64 << sets)
        .filter(|chosen| chosen.count_ones() <= most)
        .map(|chosen| (0..sets).filter(|&m| has(chosen, m)).collect())
        .collect()
}

/// Every list of numbers, each below its limit.
pub fn each_of(limits: &[u64], each: &mut dyn FnMut(&[u64])) {
    let mut list = vec![0; limits.len()];
    loop {
        each(&list);
        let Some(i) = (0..list.len()).rfind(|&i| list[i] + 1 < limits[i]) else {
            return;
        };
        list[i] += 1;
        list[i + 1..].fill(0);
    }
}

/// Every list of `len` numbers below `limit`.
pub fn each_list(len: usize, limit: u64, each: &mut dyn FnMut(&[u64])) {
    each_of(&vec![limit; len], each);
}
