//! `plan`, whose closure is written in `api`, answers as `plan_whole` does, which is the
//! original's own wrapper, wherever both can be asked.

use std::time::Duration;

use oracle::api::{self, Peer, Plan, Profile, Row, Total};

/// splitmix64: a seed gives the whole run again.
struct Random(u64);

impl Random {
    fn next(&mut self) -> u64 {
        self.0 = self.0.wrapping_add(0x9e37_79b9_7f4a_7c15);
        let mut z = self.0;
        z = (z ^ (z >> 30)).wrapping_mul(0xbf58_476d_1ce4_e5b9);
        z = (z ^ (z >> 27)).wrapping_mul(0x94d0_49bb_1331_11eb);
        z ^ (z >> 31)
    }

    fn below(&mut self, bound: u64) -> u64 {
        self.next() % bound
    }

    fn byte_below(&mut self, bound: u8) -> u8 {
        self.below(u64::from(bound)) as u8
    }

    /// Any float; often a small one, a zero, infinity or a NaN.
    fn float(&mut self) -> f64 {
        match self.below(8) {
            0 => f64::from_bits(self.next()),
            1 => 0.0,
            2 => f64::INFINITY,
            3 => f64::NAN,
            _ => self.below(64) as f64 / 8.0,
        }
    }

    fn peer(&mut self) -> Peer {
        Peer {
            heard: self.below(5) != 0,
            slope: self.float(),
            delay: self.float(),
            jitter: self.float(),
            unreliability: self.float(),
            inflight: self.below(1 << 22) as usize,
        }
    }

    fn profile(&mut self, n: u8) -> String {
        match self.below(3) {
            0 => "none".to_string(),
            1 => "runtime".to_string(),
            _ => {
                let probs: Vec<String> = (0..n).map(|_| format!("0.{}", self.below(10))).collect();
                format!("runtime;probs:{}@0.5", probs.join(","))
            }
        }
    }
}

struct Case {
    me: u8,
    n: u8,
    masks: Vec<u64>,
    quorum: u8,
    /// With the measured downtime as unreliability.
    peers: Vec<Peer>,
    profile: Profile,
    millis: u64,
    size: usize,
    d: u8,
    total: Total,
}

impl Case {
    /// None where the profile leaves no replica.
    fn random(random: &mut Random) -> Option<Case> {
        let n = 1 + random.byte_below(6);
        let f = random.byte_below(n);
        let profile = api::parse_profile(n, &random.profile(n)).unwrap();
        let masks = api::tolerance(n, f, &profile).ok()?;
        let d = 1 + random.byte_below(8);
        let more = if random.below(4) == 0 { 255 - d } else { 9 };
        let w = d + random.byte_below(more);
        Some(Case {
            me: random.byte_below(n),
            n,
            masks,
            quorum: 1 + random.byte_below(n),
            peers: (0..n).map(|_| random.peer()).collect(),
            profile,
            millis: random.below(3000),
            size: random.below(1 << 23) as usize,
            d,
            total: match random.below(2) {
                0 => Total::Exactly(w),
                _ => Total::AtMost(w),
            },
        })
    }

    fn whole(&self) -> (u8, u8, Vec<Row>) {
        api::plan_whole(
            self.me,
            self.n,
            &self.masks,
            self.quorum,
            &self.peers,
            &self.profile,
            self.millis,
            self.size,
            self.d,
            self.total,
        )
        .unwrap()
    }

    fn plan(&self) -> Option<Plan> {
        let unreliability = |number, peer: &Peer| {
            api::unreliability(self.n, &self.profile, number, peer.unreliability).unwrap()
        };
        let peers: Vec<Peer> = (0..)
            .zip(&self.peers)
            .map(|(number, peer)| Peer {
                unreliability: unreliability(number, peer),
                ..*peer
            })
            .collect();
        let penalty = Duration::from_millis(self.millis).as_secs_f64() * 1e3;
        api::plan(
            self.me,
            self.n,
            &self.masks,
            self.quorum,
            &peers,
            penalty,
            self.size,
            self.d,
            self.total,
        )
        .unwrap()
    }
}

#[test]
fn plan_is_the_wrapper() {
    api::quiet();
    let mut random = Random(3);
    let (mut plans, mut none) = (0, 0);
    for number in 0..20_000 {
        let Some(case) = Case::random(&mut random) else {
            continue;
        };
        let (w, rows) = match case.plan() {
            Some(plan) => {
                plans += 1;
                (plan.w, plan.rows)
            }
            None => {
                none += 1;
                api::full_copies(case.n, case.d, case.total).unwrap()
            }
        };
        assert_eq!(case.whole(), (case.d, w, rows), "case {number}");
    }
    assert!(plans > 1000 && none > 1000, "{plans} plans, {none} none");
}
