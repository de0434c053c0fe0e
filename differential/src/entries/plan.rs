//! `pick_assignment`: the plan that is predicted to commit the soonest.

#[cfg(feature = "port")]
use callboard::raw;
use oracle::api;

use crate::document::{self, Checked};
use crate::entry::{Answer, Asked, Entry, Told};
use crate::line::Line;
use crate::parts::{
    EDGES, Total, WIDEST, above, all_below, bits, byte, damage_faults, damage_table, each_list,
    each_of, fault_lists, faults, has, hex, junk, list, population, row_words, set, total, width,
    wrong_room,
};
use crate::rng::Rng;

pub struct Plan;

#[derive(Debug, Clone)]
pub struct Input {
    pub n: u64,
    pub own: u64,
    pub quorum: u64,
    pub d: u64,
    pub total: Total,
    pub size: u64,
    pub penalty: f64,
    pub heard: u64,
    /// Slope, delay, jitter and unreliability of each replica.
    pub models: Vec<[f64; 4]>,
    pub inflight: Vec<u64>,
    pub faults: Vec<u64>,
    /// The words that are lent for the rows.
    pub room: usize,
}

/// A size or a number of bytes in flight, mostly of some MiB.
pub fn bytes(rng: &mut Rng, limit: u64) -> u64 {
    match rng.below(8) {
        0 => 0,
        1 => rng.below(64),
        2 => limit - rng.below(2),
        _ => rng.below(1 << 24),
    }
}

/// Data shards, mostly few: the Rust tries a layout at each of up to n times d times, and takes a
/// shard off a load at a time.
fn data_shards(rng: &mut Rng, n: u64) -> u64 {
    let (few, share) = if n > 9 { (8, 100) } else { (16, 4 * n) };
    match rng.below(share) {
        0 => rng.pick(&EDGES),
        1 => rng.within(1..=WIDEST),
        2 => rng.within(1..=64),
        _ => rng.within(1..=few),
    }
}

/// How the floats of an input's models are drawn.
#[derive(Clone, Copy)]
pub enum Floats {
    Ordinary,
    /// Now and then any float.
    Any,
    /// Zeros of both signs, 1 and -1.
    Zeros,
}

impl Floats {
    pub fn random(rng: &mut Rng) -> Floats {
        use Floats::{Any, Ordinary, Zeros};
        rng.pick(&[Ordinary, Ordinary, Any, Any, Zeros])
    }

    pub fn draw<const N: usize>(self, rng: &mut Rng) -> [f64; N] {
        std::array::from_fn(|_| match self {
            Floats::Any if rng.once_in(3) => rng.float(),
            Floats::Zeros => rng.pick(&[0.0, -0.0, 1.0, -1.0]),
            _ => rng.below(80) as f64 / 8.0,
        })
    }
}

impl Input {
    fn damage(&mut self, rng: &mut Rng) {
        match rng.below(13) {
            0 => self.n = rng.around(16),
            1 => self.own = rng.around(self.n),
            2 => self.quorum = rng.around(self.n),
            3 => self.d = rng.around(self.total.width),
            4 => self.total.width = rng.around(WIDEST),
            5 => self.size = rng.around(1 << 30),
            6 if !self.inflight.is_empty() => {
                let at = rng.index(self.inflight.len());
                self.inflight[at] = rng.around(1 << 40);
            }
            7 => self.heard = above(rng, self.n),
            8 => damage_table(rng, &mut self.models, [1.0; 4]),
            9 => damage_table(rng, &mut self.inflight, 7),
            10 => damage_table(rng, &mut self.inflight, u64::MAX),
            11 => self.room = wrong_room(rng, self.n),
            _ => damage_faults(rng, self.n, &mut self.faults),
        }
    }

    fn peers(&self) -> Option<Vec<api::Peer>> {
        let right = self.models.len() as u64 == self.n
            && self.inflight.len() as u64 == self.n
            && all_below(&[self.heard], self.n)
            && all_below(&self.faults, self.n);
        let peer = |(p, (m, &b)): (u64, (&[f64; 4], &u64))| api::Peer {
            heard: has(self.heard, p),
            slope: m[0],
            delay: m[1],
            jitter: m[2],
            unreliability: m[3],
            inflight: b as usize,
        };
        let records = self.models.iter().zip(&self.inflight);
        right.then(|| (0..).zip(records).map(peer).collect())
    }
}

/// A request of the oracle's line protocol has floats as their bits.
fn float(x: f64) -> String {
    format!("f{:016x}", x.to_bits())
}

impl Entry for Plan {
    type Input = Input;
    const NAME: &'static str = "plan";
    const ANSWERS: &'static [&'static str] = &["a plan", "a plan at -0", "none"];
    const REFUSALS: &'static [u64] = &[1, 3, 4, 5, 15, 16, 17];
    const FIELDS: usize = 3;

    fn fixed() -> Vec<Input> {
        let sheet = |heard, faults: &[u64]| Input {
            n: 3,
            own: 0,
            quorum: 2,
            d: 2,
            total: Total {
                ceiling: true,
                width: 3,
            },
            size: 2 << 20,
            penalty: 0.0,
            heard,
            models: vec![[1.0, 1.0, 0.0, 0.0]; 3],
            inflight: vec![0; 3],
            faults: faults.to_vec(),
            room: 12,
        };
        // Peers that reply at -0, before our own +0.
        let minus_0 = Input {
            models: vec![[-0.0; 4]; 3],
            penalty: 1.0,
            ..sheet(7, &[1, 2, 4])
        };
        let mut fixed = vec![
            sheet(7, &[1, 2, 4]),
            sheet(7, &[0]),
            sheet(1, &[1, 2, 4]),
            minus_0,
        ];
        fixed.extend((0..=20).map(|room| Input {
            room,
            ..sheet(7, &[0])
        }));
        fixed
    }

    /// Up to 3 replicas and 2 data shards; peers silent, or with slope and delay 0 or 1.
    fn small(each: &mut dyn FnMut(Input)) {
        for n in 1..=3 {
            for faults in fault_lists(n, 2) {
                each_list(n as usize, 5, &mut |kinds| {
                    each_of(&[n, n, 2, 2, 2], &mut |k| {
                        each(small_of(n, &faults, kinds, k))
                    });
                });
            }
        }
    }

    fn random(rng: &mut Rng) -> Input {
        let n = population(rng);
        let d = data_shards(rng, n);
        let w = width(rng, d);
        let floats = Floats::random(rng);
        let mut input = Input {
            n,
            own: rng.below(n),
            quorum: rng.within(1..=n),
            d,
            total: total(rng, w),
            size: bytes(rng, 1 << 30),
            penalty: floats.draw::<1>(rng)[0],
            heard: set(rng, n) | set(rng, n),
            models: (0..n).map(|_| floats.draw(rng)).collect(),
            inflight: (0..n).map(|_| bytes(rng, 1 << 40)).collect(),
            faults: faults(rng, n),
            room: row_words(n),
        };
        while rng.once_in(4) {
            input.damage(rng);
        }
        input
    }

    fn width(i: &Input) -> Option<u64> {
        Some(i.total.width)
    }

    fn refusal(i: &Input) -> Checked {
        document::plan(i)
    }

    fn rust(i: &Input) -> Asked {
        let (own, n, quorum) = (byte(i.own)?, byte(i.n)?, byte(i.quorum)?);
        let (d, total, peers) = (byte(i.d)?, i.total.rust()?, i.peers()?);
        if n > 16 {
            return None; // too slow
        }
        let (penalty, size) = (i.penalty, i.size as usize);
        let asked = api::plan(own, n, &i.faults, quorum, &peers, penalty, size, d, total);
        Some(asked.map(|plan| match plan {
            Some(p) => {
                let fields = vec![1, p.w.into(), bits(p.time)];
                let minus_0 = p.time.to_bits() == (-0.0f64).to_bits();
                let class = if minus_0 { "a plan at -0" } else { "a plan" };
                Told::new(Answer::lent(fields, p.rows.concat()), class)
            }
            None => Told::new(Answer::lent(vec![0; 3], junk(i.room)), "none"),
        }))
    }

    #[cfg(feature = "port")]
    fn port(i: &Input) -> Answer {
        let mut rows = junk(i.room);
        let floats = i.models.as_flattened();
        // SAFETY: the tables are lent for the call, with their lengths, `rows` alone.
        let plan = unsafe {
            raw::callboard_pick_assignment(
                i.n,
                i.own,
                i.quorum,
                i.d,
                i.total.ceiling.into(),
                i.total.width,
                i.size,
                i.penalty,
                i.heard,
                floats.as_ptr(),
                floats.len(),
                i.inflight.as_ptr(),
                i.inflight.len(),
                i.faults.as_ptr(),
                i.faults.len(),
                rows.as_mut_ptr(),
                rows.len(),
            )
        };
        let fields = [plan.found, plan.width, bits(plan.time)];
        Answer::given(plan.refusal, fields, rows)
    }

    fn lent(i: &Input) -> Option<Vec<u64>> {
        Some(junk(i.room))
    }

    fn words(i: &Input, line: &mut Line) {
        line.words(&[i.n, i.own, i.quorum, i.d]).total(i.total);
        line.word(i.size).float(i.penalty).word(i.heard);
        line.models(&i.models).slice(&i.inflight).slice(&i.faults);
        line.room(i.room);
    }

    fn request(i: &Input) -> Option<String> {
        let peers = list(&i.peers()?, |p| {
            let silent = if p.heard { "" } else { "!" };
            let model = [p.slope, p.delay, p.jitter, p.unreliability].map(float);
            format!("{silent}{}:{}", model.join(":"), p.inflight)
        });
        let (faults, total) = (hex(&i.faults), i.total.request());
        let (penalty, size) = (float(i.penalty), i.size);
        Some(format!(
            "plan {} {} {faults} {} {peers} {penalty} {size} {} {total}",
            i.own, i.n, i.quorum, i.d
        ))
    }
}

/// A case of the small space: the kind of each replica, and the places of the other numbers.
fn small_of(n: u64, faults: &[u64], kinds: &[u64], k: &[u64]) -> Input {
    let d = k[2] + 1;
    let model = |&kind: &u64| [(kind % 2) as f64, (kind / 2) as f64, 0.0, 0.0];
    let heard = (0..n).filter(|&p| kinds[p as usize] < 4);
    Input {
        n,
        own: k[0],
        quorum: k[1] + 1,
        d,
        total: Total {
            ceiling: k[4] == 1,
            width: d + k[3],
        },
        size: 2 << 20,
        penalty: 1.0,
        heard: heard.map(|p| 1u64 << p).sum(),
        models: kinds.iter().map(model).collect(),
        inflight: vec![0; n as usize],
        faults: faults.to_vec(),
        room: row_words(n),
    }
}
