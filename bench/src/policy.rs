//! The balanced policy and its floor.

use std::hint::black_box;

use callboard::{Choice, PolicyInput, Refusal, Row};
use oracle::api::{self, Model, PolicyCase};

use crate::inputs::{EMPTY, WIDE, everyone, round_robin, width_note};
use crate::timing::{Case, Sides};

/// The bytes of the value.
const SIZE: usize = 1 << 20;

pub fn cases() -> Vec<Case> {
    let mut cases = vec![];
    for (n, f, d, w, majority) in [
        (5, 2, 12, 20, 3),
        (5, 2, 255, WIDE, 3),
        (16, 7, 64, 64, 8),
        (16, 7, 248, WIDE, 8),
        (16, 0, 64, 64, 16),
        (16, 0, 240, WIDE, 16),
    ] {
        let what = format!("n {n} d {d}{} majority {majority}", width_note(w));
        cases.push(Case::new(
            format!("min_shards_per_replica {what}"),
            move || floor(n, f, d, majority),
        ));
        let site = Site::new(n, f, d, w, majority);
        let other = site.clone();
        let choice = Case::new(format!("policy {what}"), || {
            policy(site, |input, _| callboard::pick_assignment_policy(input))
        });
        let rows = Case::new(format!("policy_rows {what}"), || {
            policy(other, callboard::policy_rows)
        });
        cases.extend([choice, rows]);
    }
    cases
}

/// One replica is down.
fn floor(n: u8, f: u8, d: u8, majority: u8) -> Sides {
    let alive = n - 1;
    let judged = api::min_shards_per_replica(d, majority, f, alive).unwrap();
    let ask = move || {
        let (f, majority) = (black_box(f.into()), black_box(majority.into()));
        let (d, alive) = (black_box(d.into()), black_box(everyone(alive)));
        callboard::min_shards_per_replica(n.into(), f, d, majority, alive).unwrap()
    };
    assert_eq!(ask(), judged.into());
    Sides::new(
        move || {
            let (f, majority) = (black_box(f), black_box(majority));
            api::run_floor(black_box(d), majority, f, black_box(alive))
        },
        ask,
    )
}

/// An adaptive and balanced site whose replicas all live.
#[derive(Clone)]
struct Site {
    n: u8,
    f: u8,
    d: u8,
    w: u8,
    majority: u8,
    models: Vec<[f64; 3]>,
    inflight: Vec<u64>,
    init: Vec<Row>,
    table: Vec<Row>,
}

impl Site {
    fn new(n: u8, f: u8, d: u8, w: u8, majority: u8) -> Self {
        let share = d / majority;
        let rows = |count| round_robin(n, count, share, w);
        let model = |p| [1.0 + 0.37 * f64::from(p * 7 % 16), 2.0, 0.5];
        Site {
            n,
            f,
            d,
            w,
            majority,
            models: (0..n).map(model).collect(),
            inflight: (0..n).map(|p| u64::from(p) << 16).collect(),
            init: rows(share),
            table: (share..=d).flat_map(rows).collect(),
        }
    }

    fn input(&self) -> PolicyInput<'_> {
        PolicyInput {
            n: self.n.into(),
            f: self.f.into(),
            own: 0,
            d: self.d.into(),
            w: self.w.into(),
            majority: self.majority.into(),
            size: SIZE as u64,
            adaptive: true,
            balanced: true,
            models: &self.models,
            inflight: &self.inflight,
            alive: everyone(self.n),
            init: &self.init,
            table: &self.table,
        }
    }

    /// The models of the peers, with the bytes in flight to them.
    fn rust_models(&self) -> Vec<Model> {
        let peers = (0..).zip(&self.models).zip(&self.inflight);
        peers
            .map(|((p, &model), &bytes)| (p, model, bytes as usize))
            .skip(1)
            .collect()
    }

    fn rust_table(&self) -> Vec<(u8, Vec<Row>)> {
        let counts = self.d / self.majority..;
        counts
            .zip(self.table.chunks(self.n.into()).map(<[Row]>::to_vec))
            .collect()
    }

    fn case(&self) -> PolicyCase {
        let (init, table) = (&self.init, self.rust_table());
        let (n, f, d, w, majority) = (self.n, self.f, self.d, self.w, self.majority);
        let (models, alive) = (self.rust_models(), everyone(n));
        PolicyCase::new(
            true, true, w, init, &table, d, majority, f, &models, 0.0, None, n, alive,
        )
    }
}

fn policy(
    site: Site,
    entry: impl Fn(PolicyInput, &mut [Row]) -> Result<Choice, Refusal> + Clone + 'static,
) -> Sides {
    let case = site.case();
    let mut rows = vec![EMPTY; site.n.into()];
    let choice = callboard::policy_rows(site.input(), &mut rows);
    assert_eq!(rows, case.rows(SIZE));
    assert!(matches!(choice, Ok(Choice::Balanced(_))));
    assert_eq!(entry(site.input(), &mut rows), choice);
    Sides::new(
        move || black_box(&case).run(black_box(SIZE)),
        move || entry(black_box(&site).input(), black_box(&mut rows)).unwrap(),
    )
}
