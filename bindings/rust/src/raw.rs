//! The declarations of include/callboard.h, in its order. The safe functions over them are in the
//! crate's root; the header says what each does.

/// The shards of one row: shard i is bit i % 64 of word i / 64.
#[repr(C)]
#[derive(Debug, Clone, Copy, PartialEq, Eq)]
pub struct Row {
    pub words: [u64; 4],
}

#[repr(C)]
#[derive(Debug, Clone, Copy, PartialEq, Eq)]
pub struct Answer {
    pub refusal: u64,
    pub value: u64,
}

#[repr(C)]
#[derive(Debug, Clone, Copy, PartialEq)]
pub struct Float {
    pub refusal: u64,
    pub value: f64,
}

#[repr(C)]
#[derive(Debug, Clone, Copy, PartialEq, Eq)]
pub struct Layout {
    pub refusal: u64,
    pub width: u64,
    pub commits: u64,
}

#[repr(C)]
#[derive(Debug, Clone, Copy, PartialEq)]
pub struct Plan {
    pub refusal: u64,
    pub found: u64,
    pub width: u64,
    pub time: f64,
}

#[repr(C)]
#[derive(Debug, Clone, Copy, PartialEq, Eq)]
pub struct Choice {
    pub refusal: u64,
    pub from_table: u64,
    pub count: u64,
}

/// A reliability profile. With `prob_count` 0 there are no probabilities, and `probs` and
/// `threshold` are unread. Domains are masks with bit s for replica s.
#[repr(C)]
#[derive(Debug, Clone, Copy, PartialEq)]
pub struct Profile {
    pub domain_count: u64,
    pub prob_count: u64,
    pub runtime: u64,
    pub threshold: f64,
    pub probs: [f64; 16],
    pub domains: [u64; 64],
}

impl Default for Profile {
    /// The profile of the empty text: no domain, no probabilities.
    fn default() -> Self {
        Profile {
            domain_count: 0,
            prob_count: 0,
            runtime: 0,
            threshold: 0.0,
            probs: [0.0; 16],
            domains: [0; 64],
        }
    }
}

#[repr(C)]
#[derive(Debug, Clone, Copy, PartialEq)]
pub struct ProfileReading {
    pub refusal: u64,
    pub profile: Profile,
}

/// The tally of accept replies for one value.
#[repr(C)]
#[derive(Debug, Clone, Copy, PartialEq, Eq)]
pub struct Tally {
    pub population: u64,
    pub quorum: u64,
    pub data_shards: u64,
    pub width: u64,
    pub ballot: u64,
    pub value_high: u64,
    pub value_low: u64,
    pub heard: u64,
    pub committed: u64,
    pub rows: [[u64; 4]; 16],
}

#[repr(C)]
#[derive(Debug, Clone, Copy, PartialEq, Eq)]
pub struct TallyOpening {
    pub refusal: u64,
    pub tally: Tally,
}

#[repr(C)]
#[derive(Debug, Clone, Copy, PartialEq, Eq)]
pub struct Reply {
    pub refusal: u64,
    pub status: u64,
}

unsafe extern "C" {
    pub fn callboard_parse_profile(n: u64, text: *const u8, text_len: usize) -> ProfileReading;

    pub safe fn callboard_unreliability(n: u64, peer: u64, p: Profile, down: f64) -> Float;

    pub fn callboard_fault_list(n: u64, f: u64, p: Profile, list: *mut u64, room: usize) -> Answer;

    pub fn callboard_covers(
        n: u64,
        d: u64,
        w: u64,
        heard: u64,
        rows: *const u64,
        rows_len: usize,
        faults: *const u64,
        faults_len: usize,
    ) -> Answer;

    pub fn callboard_rows_united(
        n: u64,
        d: u64,
        w: u64,
        heard: u64,
        rows: *const u64,
        rows_len: usize,
        faults: *const u64,
        faults_len: usize,
    ) -> Answer;

    pub fn callboard_survived_by(
        n: u64,
        heard: u64,
        faults: *const u64,
        faults_len: usize,
    ) -> Answer;

    pub fn callboard_layout_rows(
        n: u64,
        d: u64,
        ceiling: u64,
        width: u64,
        loads: *const u64,
        loads_len: usize,
        rows: *mut u64,
        rows_len: usize,
    ) -> Answer;

    pub fn callboard_layout_commits(
        n: u64,
        quorum: u64,
        d: u64,
        ceiling: u64,
        width: u64,
        answered: u64,
        loads: *const u64,
        loads_len: usize,
        faults: *const u64,
        faults_len: usize,
        rows: *mut u64,
        rows_len: usize,
    ) -> Layout;

    pub fn callboard_pick_assignment(
        n: u64,
        own: u64,
        quorum: u64,
        d: u64,
        ceiling: u64,
        width: u64,
        size: u64,
        penalty: f64,
        heard: u64,
        models: *const f64,
        models_len: usize,
        inflight: *const u64,
        inflight_len: usize,
        faults: *const u64,
        faults_len: usize,
        rows: *mut u64,
        rows_len: usize,
    ) -> Plan;

    pub fn callboard_full_copies(
        n: u64,
        d: u64,
        ceiling: u64,
        width: u64,
        rows: *mut u64,
        rows_len: usize,
    ) -> Answer;

    pub safe fn callboard_min_shards_per_replica(
        n: u64,
        f: u64,
        d: u64,
        majority: u64,
        alive: u64,
    ) -> Answer;

    pub fn callboard_pick_assignment_policy(
        n: u64,
        f: u64,
        own: u64,
        d: u64,
        w: u64,
        majority: u64,
        size: u64,
        adaptive: u64,
        balanced: u64,
        models: *const f64,
        models_len: usize,
        inflight: *const u64,
        inflight_len: usize,
        alive: u64,
        init: *const u64,
        init_len: usize,
        table: *const u64,
        table_len: usize,
    ) -> Choice;

    pub fn callboard_policy_rows(
        n: u64,
        f: u64,
        own: u64,
        d: u64,
        w: u64,
        majority: u64,
        size: u64,
        adaptive: u64,
        balanced: u64,
        models: *const f64,
        models_len: usize,
        inflight: *const u64,
        inflight_len: usize,
        alive: u64,
        init: *const u64,
        init_len: usize,
        table: *const u64,
        table_len: usize,
        rows: *mut u64,
        rows_len: usize,
    ) -> Choice;

    pub fn callboard_parse_init_assignment(
        n: u64,
        d: u64,
        total: u64,
        text: *const u8,
        text_len: usize,
        rows: *mut u64,
        rows_len: usize,
    ) -> Answer;

    pub fn callboard_gossip_targets_excl(
        n: u64,
        own: u64,
        source: u64,
        d: u64,
        w: u64,
        available: Row,
        rows: *const u64,
        rows_len: usize,
        alive: u64,
        exclusions: *mut u64,
        exclusions_len: usize,
    ) -> Answer;

    pub safe fn callboard_tally_open(
        n: u64,
        quorum: u64,
        d: u64,
        w: u64,
        ballot: u64,
        high: u64,
        low: u64,
    ) -> TallyOpening;

    pub fn callboard_accept_reply(
        t: *mut Tally,
        source: u64,
        ballot: u64,
        high: u64,
        low: u64,
        row: Row,
        faults: *const u64,
        faults_len: usize,
    ) -> Reply;
}
