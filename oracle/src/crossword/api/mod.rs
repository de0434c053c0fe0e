//! What a test calls: std types in, std types out. Each function runs the original's function of
//! the same name, or the one that it names.
//!
//! A panic of the original (an assertion, an `unwrap`, and in a debug build an overflow or a
//! `debug_assert!`) comes back as [`Fail::Panic`]; call [`quiet`] first to keep it off the screen.

mod cases;
mod convert;
mod tally;
#[cfg(test)]
mod tests;

use std::panic::{self, AssertUnwindSafe};

use super::reliability::ReliabilityProfile;
use super::stand_ins::CrosswordReplica;
use super::{PerfModel, SummersetError, assignment};
use convert::{masks_of, rows_of};

pub use cases::{
    CopiesCase, CoverCase, FaultCase, GossipCase, LayoutCase, PlanCase, PolicyCase, ReplyCase,
    SurvivalCase, UnreliabilityCase, run_floor, run_init, run_profile,
};
pub use tally::{Reply, Tally};

/// A set of shards: shard i is bit i % 64 of word i / 64.
pub type Row = [u64; 4];

/// A peer's number, its model (slope, delay, jitter) and the bytes in flight to it.
pub type Model = (u8, [f64; 3], usize);

/// The width of a layout.
#[derive(Debug, Clone, Copy, PartialEq)]
pub enum Total {
    Exactly(u8),
    AtMost(u8),
}

/// How the original fails: it returns `Err`, or it panics.
#[derive(Debug, Clone, PartialEq)]
pub enum Fail {
    Err(String),
    Panic(String),
}

/// A reliability profile; a domain is a mask with bit s for replica s.
#[derive(Debug, Clone, PartialEq)]
pub struct Profile {
    pub domains: Vec<u64>,
    /// The probabilities and the threshold.
    pub probs: Option<(Vec<f64>, f64)>,
    pub runtime: bool,
}

/// A peer as a plan sees it. One that is not heard gives no time.
#[derive(Debug, Clone, Copy, PartialEq)]
pub struct Peer {
    pub heard: bool,
    pub slope: f64,
    pub delay: f64,
    pub jitter: f64,
    pub unreliability: f64,
    pub inflight: usize,
}

/// A plan; its rows are in order of the replicas.
#[derive(Debug, Clone, PartialEq)]
pub struct Plan {
    pub w: u8,
    pub rows: Vec<Row>,
    pub time: f64,
}

/// What the traffic shaper says of the line.
#[derive(Debug, Clone, Copy, PartialEq)]
pub struct Qdisc {
    pub delay: f64,
    pub jitter: f64,
    pub rate: f64,
}

/// Whether overflow and debug assertions panic.
pub fn debug_build() -> bool {
    cfg!(debug_assertions)
}

/// The edits of build.rs, one a line.
pub fn edits() -> &'static str {
    include_str!(concat!(env!("OUT_DIR"), "/edits.txt"))
}

/// Silences the messages of panics, in the whole process.
pub fn quiet() {
    panic::set_hook(Box::new(|_| {}));
}

/// Runs `body` and catches its panic.
fn guard<T>(body: impl FnOnce() -> Result<T, SummersetError>) -> Result<T, Fail> {
    match panic::catch_unwind(AssertUnwindSafe(body)) {
        Ok(result) => result.map_err(|e| Fail::Err(e.to_string())),
        Err(payload) => {
            let text = payload.downcast_ref::<String>().map(String::as_str);
            let text = text.or_else(|| payload.downcast_ref::<&str>().copied());
            Err(Fail::Panic(text.unwrap_or_default().to_string()))
        }
    }
}

pub fn parse_profile(n: u8, text: &str) -> Result<Profile, Fail> {
    guard(|| {
        let parsed = ReliabilityProfile::parse(n, text)?;
        Ok(Profile {
            domains: masks_of(&parsed.domains),
            probs: parsed.probs,
            runtime: parsed.runtime,
        })
    })
}

/// The sets that a profile adds, in the original's order.
pub fn crash_sets(n: u8, profile: &Profile) -> Result<Vec<u64>, Fail> {
    guard(|| Ok(masks_of(&convert::profile(n, profile).crash_sets())))
}

pub fn unreliability(n: u8, profile: &Profile, peer: u8, down: f64) -> Result<f64, Fail> {
    guard(|| Ok(convert::profile(n, profile).unreliability(peer, down)))
}

/// The maximal sets of `Tolerance::new`, in the original's order.
pub fn tolerance(n: u8, f: u8, profile: &Profile) -> Result<Vec<u64>, Fail> {
    guard(|| {
        let tolerance = FaultCase::new(n, f, profile).answer()?;
        Ok(masks_of(&tolerance.maximal_faults))
    })
}

/// `acks` has the row of each replica, or None for one that was not heard.
pub fn covers(n: u8, masks: &[u64], w: u8, acks: &[Option<Row>], d: u8) -> Result<bool, Fail> {
    guard(|| Ok(CoverCase::new(n, masks, w, acks).run(d)))
}

pub fn survived_by(n: u8, masks: &[u64], heard: u64) -> Result<bool, Fail> {
    guard(|| {
        let heard = convert::mask_bitmap(n, heard);
        Ok(convert::tolerance(n, masks).survived_by(&heard))
    })
}

/// The width and the rows.
pub fn layout_rows(d: u8, loads: &[u8], total: Total) -> Result<(u8, Vec<Row>), Fail> {
    guard(|| {
        let (w, rows) = assignment::layout_rows(d, loads, convert::total(total));
        Ok((w, rows_of(&rows)))
    })
}

/// The width, the rows and whether they commit. A replica with load None does not answer.
pub fn layout_commits(
    n: u8,
    masks: &[u64],
    quorum: u8,
    d: u8,
    loads: &[Option<u8>],
    total: Total,
) -> Result<(u8, Vec<Row>, bool), Fail> {
    guard(|| {
        let tolerance = convert::tolerance(n, masks);
        let total = convert::total(total);
        let (w, rows, ok) = assignment::layout_commits(&tolerance, quorum, d, loads, total);
        Ok((w, rows_of(&rows), ok))
    })
}

/// `PerfModel::predict`.
pub fn predict(slope: f64, delay: f64, jitter: f64, x: usize) -> f64 {
    PerfModel::new(slope, delay, jitter).predict(x)
}

/// `assignment::pick_assignment` with any floats. The closure that it is handed is written anew
/// in `cases.rs`, after the one in `CrosswordReplica::pick_assignment`; [`plan_whole`] runs that
/// one, and tests/agree.rs compares the two.
#[allow(clippy::too_many_arguments)]
pub fn plan(
    me: u8,
    n: u8,
    masks: &[u64],
    quorum: u8,
    peers: &[Peer],
    penalty: f64,
    size: usize,
    d: u8,
    total: Total,
) -> Result<Option<Plan>, Fail> {
    guard(|| {
        let case = PlanCase::new(me, n, masks, quorum, peers, penalty);
        Ok(case.answer(size, d, total).map(|plan| Plan {
            w: plan.w,
            rows: rows_of(&plan.rows),
            time: plan.time,
        }))
    })
}

/// The whole of `CrosswordReplica::pick_assignment`: d, the width and the rows, full copies where
/// there is no plan; it does not tell the time.
///
/// `Exactly` is a value already encoded. `AtMost` is a new value: there the original takes
/// at most 16 data shards (`DEFAULT_DATA_SHARDS`), whatever d says. `Peer::unreliability` is the
/// measured downtime here, and `millis` is `hb_hear_timeout_min`.
#[allow(clippy::too_many_arguments)]
pub fn plan_whole(
    me: u8,
    n: u8,
    masks: &[u64],
    majority: u8,
    peers: &[Peer],
    profile: &Profile,
    millis: u64,
    size: usize,
    d: u8,
    total: Total,
) -> Result<(u8, u8, Vec<Row>), Fail> {
    guard(|| {
        let mut replica = CrosswordReplica::stand_in(me, majority, convert::tolerance(n, masks));
        replica.reliability_prof = convert::profile(n, profile);
        replica.config.hb_hear_timeout_min = millis;
        replica.heartbeater.alive.clear();
        for (p, peer) in (0..n).zip(peers) {
            let model = PerfModel::new(peer.slope, peer.delay, peer.jitter);
            replica.heartbeater.alive.set(p, peer.heard || p == me)?;
            replica.linreg_model.insert(p, model);
            replica.inflight_bytes.insert(p, peer.inflight);
            replica.downtime_tracked.insert(p, peer.unreliability);
        }
        Ok(pick_assignment(replica, size, d, total))
    })
}

/// Full copies, where there is no plan: the width and the rows.
///
/// It runs `CrosswordReplica::pick_assignment` with a quorum of n + 1, which nobody reaches. That
/// function takes at most 16 data shards under `AtMost`; for more of them the same lines at its
/// end, which build.rs also takes as a function of their own, are run alone.
pub fn full_copies(n: u8, d: u8, total: Total) -> Result<(u8, Vec<Row>), Fail> {
    guard(|| {
        let mut replica = CrosswordReplica::stand_in(0, n + 1, convert::tolerance(n, &[0]));
        replica.heartbeater.alive.clear();
        let beyond = matches!(total, Total::AtMost(_)) && d > assignment::DEFAULT_DATA_SHARDS;
        let (_, w, rows) = if beyond {
            let (d, w, rows) = replica.full_copies(d, convert::total(total));
            (d, w, rows_of(&rows))
        } else {
            pick_assignment(replica, 0, d, total)
        };
        Ok((w, rows))
    })
}

/// Runs the original's wrapper: under `AtMost` its bounds on shards are set to d and the rest.
fn pick_assignment(
    mut replica: CrosswordReplica,
    size: usize,
    d: u8,
    total: Total,
) -> (u8, u8, Vec<Row>) {
    let scheme = match total {
        Total::Exactly(w) => Some((d, w)),
        Total::AtMost(ceiling) => {
            replica.config.max_data_shards = d;
            replica.config.max_parity_shards = ceiling - d;
            None
        }
    };
    let (d, w, rows) = replica.pick_assignment(size, scheme);
    (d, w, rows_of(&rows))
}

pub fn parse_init_assignment(n: u8, total: u8, d: u8, text: &str) -> Result<Vec<Row>, Fail> {
    guard(|| {
        let rows = CrosswordReplica::parse_init_assignment(n, total, d, text)?;
        Ok(rows_of(&rows))
    })
}

/// `alive` is a count.
pub fn min_shards_per_replica(d: u8, majority: u8, f: u8, alive: u8) -> Result<u8, Fail> {
    guard(|| {
        Ok(CrosswordReplica::min_shards_per_replica(
            d, majority, f, alive,
        ))
    })
}

/// `pick_assignment_policy`: `brr` has the rows of each count; a peer without a model is left out
/// of `models`. The rows that it picks.
#[allow(clippy::too_many_arguments)]
pub fn policy(
    adaptive: bool,
    balanced: bool,
    w: u8,
    init: &[Row],
    brr: &[(u8, Vec<Row>)],
    d: u8,
    majority: u8,
    f: u8,
    size: usize,
    models: &[Model],
    threshold: f64,
    qdisc: Option<Qdisc>,
    n: u8,
    alive: u64,
) -> Result<Vec<Row>, Fail> {
    guard(|| {
        let case = PolicyCase::new(
            adaptive, balanced, w, init, brr, d, majority, f, models, threshold, qdisc, n, alive,
        );
        Ok(case.rows(size))
    })
}

/// `gossip_targets_excl`: for each replica the shards to leave out, or None if it is not asked.
#[allow(clippy::too_many_arguments)]
pub fn gossip(
    me: u8,
    n: u8,
    d: u8,
    source: Option<u8>,
    w: u8,
    avail: Row,
    assignment: &[Row],
    alive: u64,
) -> Result<Vec<Option<Row>>, Fail> {
    guard(|| {
        let targets = GossipCase::new(me, n, d, source, w, avail, assignment, alive).answer();
        Ok((0..n).map(|p| targets.get(&p).map(convert::row)).collect())
    })
}
