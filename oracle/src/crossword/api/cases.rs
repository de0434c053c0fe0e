//! Prepared inputs, so that a benchmark times the original's function alone: nothing is converted
//! and no panic is caught in `run`.

use std::collections::HashMap;
use std::hint::black_box;

use super::super::ReplicaBookkeeping;
use super::super::assignment::{self, Assignment, TotalShards};
use super::super::reliability::{ReliabilityProfile, Tolerance};
use super::{CrosswordReplica, Model, Peer, Profile, Qdisc, Row, Tally, Total, convert};
use crate::server::ReplicaId;
use crate::utils::{Bitmap, PerfModel, QdiscInfo, SummersetError};

/// The fault list of a profile: `crash_sets`, then `Tolerance::new`.
pub struct FaultCase {
    n: u8,
    f: u8,
    profile: ReliabilityProfile,
}

impl FaultCase {
    pub fn new(n: u8, f: u8, profile: &Profile) -> Self {
        let profile = convert::profile(n, profile);
        FaultCase { n, f, profile }
    }

    pub(super) fn answer(&self) -> Result<Tolerance, SummersetError> {
        Tolerance::new(self.n, self.f, self.profile.crash_sets())
    }

    /// The number of maximal sets, None where the original returns `Err`.
    pub fn run(&self) -> Option<usize> {
        let tolerance = black_box(self.answer()).ok()?;
        Some(tolerance.maximal_faults.len())
    }
}

/// `Tolerance::covers`.
pub struct CoverCase {
    tolerance: Tolerance,
    acks: HashMap<ReplicaId, Bitmap>,
}

impl CoverCase {
    pub fn new(n: u8, masks: &[u64], w: u8, acks: &[Option<Row>]) -> Self {
        CoverCase {
            tolerance: convert::tolerance(n, masks),
            acks: convert::acks(w, acks),
        }
    }

    pub fn run(&self, d: u8) -> bool {
        self.tolerance.covers(&self.acks, d)
    }
}

/// `Tolerance::survived_by`.
pub struct SurvivalCase {
    tolerance: Tolerance,
    heard: Bitmap,
}

impl SurvivalCase {
    pub fn new(n: u8, masks: &[u64], heard: u64) -> Self {
        SurvivalCase {
            tolerance: convert::tolerance(n, masks),
            heard: convert::mask_bitmap(n, heard),
        }
    }

    pub fn run(&self) -> bool {
        self.tolerance.survived_by(&self.heard)
    }
}

/// `assignment::layout_rows` and `assignment::layout_commits`.
pub struct LayoutCase {
    tolerance: Tolerance,
    quorum: u8,
    d: u8,
    loads: Vec<u8>,
    answered: Vec<Option<u8>>,
    total: TotalShards,
}

impl LayoutCase {
    /// Every replica answers.
    pub fn new(n: u8, masks: &[u64], quorum: u8, d: u8, loads: &[u8], total: Total) -> Self {
        LayoutCase {
            tolerance: convert::tolerance(n, masks),
            quorum,
            d,
            loads: loads.to_vec(),
            answered: loads.iter().copied().map(Some).collect(),
            total: convert::total(total),
        }
    }

    /// The width of `layout_rows`.
    pub fn rows(&self) -> u8 {
        black_box(assignment::layout_rows(self.d, &self.loads, self.total)).0
    }

    /// Whether `layout_commits` says that it commits.
    pub fn commits(&self) -> bool {
        let (tolerance, quorum) = (&self.tolerance, self.quorum);
        black_box(assignment::layout_commits(
            tolerance,
            quorum,
            self.d,
            &self.answered,
            self.total,
        ))
        .2
    }
}

/// `assignment::pick_assignment`.
pub struct PlanCase {
    me: ReplicaId,
    tolerance: Tolerance,
    quorum: u8,
    peers: Vec<Timed>,
    penalty: f64,
}

struct Timed {
    heard: bool,
    model: PerfModel,
    unreliability: f64,
    inflight: usize,
}

impl PlanCase {
    pub fn new(me: u8, n: u8, masks: &[u64], quorum: u8, peers: &[Peer], penalty: f64) -> Self {
        let timed = |peer: &Peer| Timed {
            heard: peer.heard,
            model: PerfModel::new(peer.slope, peer.delay, peer.jitter),
            unreliability: peer.unreliability,
            inflight: peer.inflight,
        };
        PlanCase {
            me,
            tolerance: convert::tolerance(n, masks),
            quorum,
            peers: peers.iter().map(timed).collect(),
            penalty,
        }
    }

    pub(super) fn answer(&self, size: usize, d: u8, total: Total) -> Option<Assignment> {
        let reply_time = |peer: ReplicaId, bytes: usize| {
            let peer = &self.peers[usize::from(peer)];
            peer.heard.then(|| {
                peer.model.predict(peer.inflight + bytes) + peer.unreliability * self.penalty
            })
        };
        assignment::pick_assignment(
            self.me,
            &self.tolerance,
            self.quorum,
            reply_time,
            size,
            d,
            convert::total(total),
        )
    }

    /// The width, if there is a plan.
    pub fn run(&self, size: usize, d: u8, total: Total) -> Option<u8> {
        black_box(self.answer(size, d, total)).map(|plan| plan.w)
    }
}

/// The last lines of `CrosswordReplica::pick_assignment`: full copies.
pub struct CopiesCase {
    replica: CrosswordReplica,
    d: u8,
    total: TotalShards,
}

impl CopiesCase {
    pub fn new(n: u8, d: u8, total: Total) -> Self {
        CopiesCase {
            replica: CrosswordReplica::stand_in(0, n + 1, convert::tolerance(n, &[0])),
            d,
            total: convert::total(total),
        }
    }

    /// The width.
    pub fn run(&self) -> u8 {
        black_box(self.replica.full_copies(self.d, self.total)).1
    }
}

/// `ReliabilityProfile::unreliability`.
pub struct UnreliabilityCase {
    profile: ReliabilityProfile,
}

impl UnreliabilityCase {
    pub fn new(n: u8, profile: &Profile) -> Self {
        UnreliabilityCase {
            profile: convert::profile(n, profile),
        }
    }

    /// Not inlined, so that it is timed across a call, as a function of a library is.
    #[inline(never)]
    pub fn run(&self, peer: u8, down: f64) -> f64 {
        self.profile.unreliability(peer, down)
    }
}

/// `min_shards_per_replica`, across a call as in [`UnreliabilityCase::run`].
#[inline(never)]
pub fn run_floor(d: u8, majority: u8, f: u8, alive: u8) -> u8 {
    CrosswordReplica::min_shards_per_replica(d, majority, f, alive)
}

/// `ReliabilityProfile::parse`: whether it reads the text. What it read is dropped.
pub fn run_profile(n: u8, text: &str) -> bool {
    black_box(ReliabilityProfile::parse(n, text)).is_ok()
}

/// `parse_init_assignment`, as [`run_profile`].
pub fn run_init(n: u8, total: u8, d: u8, text: &str) -> bool {
    black_box(CrosswordReplica::parse_init_assignment(n, total, d, text)).is_ok()
}

/// `pick_assignment_policy`.
pub struct PolicyCase {
    adaptive: bool,
    balanced: bool,
    init: Vec<Bitmap>,
    brr: HashMap<u8, Vec<Bitmap>>,
    d: u8,
    majority: u8,
    f: u8,
    models: HashMap<ReplicaId, PerfModel>,
    inflight: HashMap<ReplicaId, usize>,
    threshold: f64,
    qdisc: Option<QdiscInfo>,
    alive: Bitmap,
}

impl PolicyCase {
    #[allow(clippy::too_many_arguments)]
    pub fn new(
        adaptive: bool,
        balanced: bool,
        w: u8,
        init: &[Row],
        brr: &[(u8, Vec<Row>)],
        d: u8,
        majority: u8,
        f: u8,
        models: &[Model],
        threshold: f64,
        qdisc: Option<Qdisc>,
        n: u8,
        alive: u64,
    ) -> Self {
        let table = |(count, rows): &(u8, Vec<Row>)| (*count, convert::bitmaps(w, rows));
        let model = |&(peer, [slope, delay, jitter], _): &Model| {
            (peer, PerfModel::new(slope, delay, jitter))
        };
        let line = |qdisc: Qdisc| QdiscInfo {
            delay: qdisc.delay,
            jitter: qdisc.jitter,
            rate: qdisc.rate,
        };
        PolicyCase {
            adaptive,
            balanced,
            init: convert::bitmaps(w, init),
            brr: brr.iter().map(table).collect(),
            d,
            majority,
            f,
            models: models.iter().map(model).collect(),
            inflight: models.iter().map(|&(p, _, bytes)| (p, bytes)).collect(),
            threshold,
            qdisc: qdisc.map(line),
            alive: convert::mask_bitmap(n, alive),
        }
    }

    fn answer(&self, size: usize) -> &Vec<Bitmap> {
        CrosswordReplica::pick_assignment_policy(
            self.adaptive,
            self.balanced,
            &self.init,
            &self.brr,
            self.d,
            self.majority,
            self.f,
            size,
            &self.models,
            &self.inflight,
            self.threshold,
            &self.qdisc,
            &self.alive,
        )
    }

    /// The number of rows that are handed back.
    pub fn run(&self, size: usize) -> usize {
        black_box(self.answer(size)).len()
    }

    /// The rows, converted.
    pub fn rows(&self, size: usize) -> Vec<Row> {
        convert::rows_of(self.answer(size))
    }
}

/// `gossip_targets_excl`.
pub struct GossipCase {
    me: ReplicaId,
    n: u8,
    d: u8,
    bookkeeping: Option<ReplicaBookkeeping>,
    available: Bitmap,
    assignment: Vec<Bitmap>,
    alive: Bitmap,
}

impl GossipCase {
    #[allow(clippy::too_many_arguments)]
    pub fn new(
        me: u8,
        n: u8,
        d: u8,
        source: Option<u8>,
        w: u8,
        avail: Row,
        assignment: &[Row],
        alive: u64,
    ) -> Self {
        GossipCase {
            me,
            n,
            d,
            bookkeeping: source.map(|source| ReplicaBookkeeping {
                source,
                trigger_slot: 0,
                endprep_slot: 0,
            }),
            available: convert::bitmap(w, &avail),
            assignment: convert::bitmaps(w, assignment),
            alive: convert::mask_bitmap(n, alive),
        }
    }

    pub(super) fn answer(&self) -> HashMap<ReplicaId, Bitmap> {
        CrosswordReplica::gossip_targets_excl(
            self.me,
            self.n,
            self.d,
            &self.bookkeeping,
            self.available.clone(),
            &self.assignment,
            &self.alive,
        )
    }

    /// The number of peers asked. The original takes the available shards by value, so each run
    /// copies them first.
    pub fn run(&self) -> usize {
        black_box(self.answer()).len()
    }
}

/// `handle_msg_accept_reply`, a whole list of replies at a time.
pub struct ReplyCase {
    tally: Tally,
    ballot: u64,
    value_id: u128,
    replies: Vec<(ReplicaId, Bitmap)>,
}

impl ReplyCase {
    /// A reply is a replica and its row of width `w`; ballot and value are the tally's.
    #[allow(clippy::too_many_arguments)]
    pub fn new(
        n: u8,
        me: u8,
        majority: u8,
        masks: &[u64],
        d: u8,
        ballot: u64,
        value_id: u128,
        w: u8,
        replies: &[(u8, Row)],
    ) -> Self {
        let reply = |(peer, row): &(u8, Row)| (*peer, convert::bitmap(w, row));
        ReplyCase {
            tally: Tally::new(n, me, majority, masks, d, ballot, value_id),
            ballot,
            value_id,
            replies: replies.iter().map(reply).collect(),
        }
    }

    /// Empties the tally, hands it every reply in turn and says whether it has committed.
    ///
    /// Handling changes the tally, so the smallest piece of work that can be repeated is the
    /// whole list; emptying it is part of the time. So is what the original's handler does
    /// besides the tally: for each reply of another replica it reads the clock and looks into
    /// that replica's queue of accepts, which is empty here.
    pub fn run(&mut self) -> bool {
        self.tally.reopen();
        for (peer, shards) in &self.replies {
            let handled = self.tally.handle(*peer, self.ballot, self.value_id, shards);
            handled.unwrap();
        }
        self.tally.committed()
    }
}
