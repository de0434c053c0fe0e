//! Callboard's shard planner, from Rust. Each function answers a result or a [`Refusal`]; after a
//! refusal, lent memory and tally are as they were. include/callboard.h says what each function
//! does and which refusals it has, in which order.
//!
//! n is the number of replicas, d the number of data shards, w the width (the number of shards).
//! A mask of replicas has bit s for replica s; a row is a set of shards, with bit i % 64 of word
//! i / 64 for shard i.

pub mod raw;

use std::error::Error;
use std::fmt;

pub use raw::{Profile, Tally};

/// A set of shards: shard i is bit i % 64 of word i / 64.
pub type Row = [u64; 4];

/// The number of the first case that refuses the input.
#[derive(Debug, Clone, Copy, PartialEq, Eq)]
pub struct Refusal(pub u64);

impl Refusal {
    /// The case in words.
    pub fn words(self) -> &'static str {
        match self.0 {
            1 => "the population is not 1 to 16",
            2 => "the fault tolerance is not below the population",
            3 => "a replica's number is not below the population",
            4 => "the data shards are not 1 to 255, or the width is not d to 255",
            5 => "the quorum or majority is not 1 to the population",
            6 => "the text is longer than 4,096 bytes (a layout's: 16,384) or has a byte above 127",
            7 => "a numeral is malformed, or a whole number is above 255",
            8 => "a decimal has too many digits or too large or small a power of ten",
            9 => "a replica or shard number in the text or profile is out of range",
            10 => "the mechanism is unknown",
            11 => "the probabilities or their threshold are not allowed",
            12 => "there are more than 64 failure domains",
            13 => "the layout text is neither a fitting number nor segments with colons",
            14 => "the total is no multiple of the population, or d none of the majority",
            15 => "the size or the bytes in flight are too large",
            16 => "a row has a shard beyond the width, or a mask a replica beyond the population",
            17 => "a lent table has the wrong length, or the fault list is not allowed",
            21 => "some tolerated failure leaves no replica",
            22 => "the lent list is too short for the maximal sets",
            23 => "the reply's ballot or value id differs from the tally's",
            24 => "the trimmed plan no longer commits",
            _ => "a number that this version does not know",
        }
    }
}

impl fmt::Display for Refusal {
    fn fmt(&self, f: &mut fmt::Formatter) -> fmt::Result {
        write!(f, "refusal {}: {}", self.0, self.words())
    }
}

impl Error for Refusal {}

fn check(refusal: u64) -> Result<(), Refusal> {
    match refusal {
        0 => Ok(()),
        number => Err(Refusal(number)),
    }
}

fn value(answer: raw::Answer) -> Result<u64, Refusal> {
    check(answer.refusal)?;
    Ok(answer.value)
}

/// The width of a layout, or the most that it may be.
#[derive(Debug, Clone, Copy, PartialEq, Eq)]
pub enum TotalShards {
    Exactly(u64),
    AtMost(u64),
}

impl TotalShards {
    fn ceiling(self) -> u64 {
        match self {
            TotalShards::Exactly(_) => 0,
            TotalShards::AtMost(_) => 1,
        }
    }

    fn width(self) -> u64 {
        match self {
            TotalShards::Exactly(width) | TotalShards::AtMost(width) => width,
        }
    }
}

/// Reads a reliability profile.
pub fn parse_profile(n: u64, text: &[u8]) -> Result<Profile, Refusal> {
    // SAFETY: the text is lent for the call, with its length.
    let reading = unsafe { raw::callboard_parse_profile(n, text.as_ptr(), text.len()) };
    check(reading.refusal)?;
    Ok(reading.profile)
}

/// How likely `peer` seems to fail, given the share of recent time that it was `down`.
pub fn unreliability(n: u64, peer: u64, profile: &Profile, down: f64) -> Result<f64, Refusal> {
    let answer = raw::callboard_unreliability(n, peer, *profile, down);
    check(answer.refusal)?;
    Ok(answer.value)
}

/// Writes the maximal sets of tolerated failures into `list`, in rising order; their count.
pub fn fault_list(n: u64, f: u64, profile: &Profile, list: &mut [u64]) -> Result<usize, Refusal> {
    // SAFETY: the list is lent alone for the call, with its length.
    let answer =
        unsafe { raw::callboard_fault_list(n, f, *profile, list.as_mut_ptr(), list.len()) };
    // the count is at most the list's length
    Ok(value(answer)? as usize)
}

/// Whether the rows heard have d distinct shards after the failure of any listed set.
pub fn covers(
    n: u64,
    d: u64,
    w: u64,
    heard: u64,
    rows: &[Row],
    faults: &[u64],
) -> Result<bool, Refusal> {
    let words = rows.as_flattened();
    // SAFETY: the tables are lent for the call, with their lengths.
    let answer = unsafe {
        raw::callboard_covers(
            n,
            d,
            w,
            heard,
            words.as_ptr(),
            words.len(),
            faults.as_ptr(),
            faults.len(),
        )
    };
    Ok(value(answer)? != 0)
}

/// How many rows the walk of coverage unites under the first listed set: it takes the rows heard
/// outside the set, those of most shards first and equal ones by rising replica, until d distinct
/// shards are together or none is left.
pub fn rows_united(
    n: u64,
    d: u64,
    w: u64,
    heard: u64,
    rows: &[Row],
    faults: &[u64],
) -> Result<u64, Refusal> {
    let words = rows.as_flattened();
    // SAFETY: the tables are lent for the call, with their lengths.
    value(unsafe {
        raw::callboard_rows_united(
            n,
            d,
            w,
            heard,
            words.as_ptr(),
            words.len(),
            faults.as_ptr(),
            faults.len(),
        )
    })
}

/// Whether some listed set contains every replica that was not heard.
pub fn survived_by(n: u64, heard: u64, faults: &[u64]) -> Result<bool, Refusal> {
    // SAFETY: the list is lent for the call, with its length.
    let answer = unsafe { raw::callboard_survived_by(n, heard, faults.as_ptr(), faults.len()) };
    Ok(value(answer)? != 0)
}

/// Writes the rows of the given loads; the width.
pub fn layout_rows(
    n: u64,
    d: u64,
    total: TotalShards,
    loads: &[u64],
    rows: &mut [Row],
) -> Result<u64, Refusal> {
    let words = rows.as_flattened_mut();
    // SAFETY: the tables are lent for the call, with their lengths, `rows` alone.
    value(unsafe {
        raw::callboard_layout_rows(
            n,
            d,
            total.ceiling(),
            total.width(),
            loads.as_ptr(),
            loads.len(),
            words.as_mut_ptr(),
            words.len(),
        )
    })
}

/// The width of a layout and whether it commits.
#[derive(Debug, Clone, Copy, PartialEq, Eq)]
pub struct Layout {
    pub width: u64,
    pub commits: bool,
}

/// Writes the rows of the given loads of those that answer, whether they commit or not.
#[allow(clippy::too_many_arguments)]
pub fn layout_commits(
    n: u64,
    quorum: u64,
    d: u64,
    total: TotalShards,
    answered: u64,
    loads: &[u64],
    faults: &[u64],
    rows: &mut [Row],
) -> Result<Layout, Refusal> {
    let words = rows.as_flattened_mut();
    // SAFETY: the tables are lent for the call, with their lengths, `rows` alone.
    let layout = unsafe {
        raw::callboard_layout_commits(
            n,
            quorum,
            d,
            total.ceiling(),
            total.width(),
            answered,
            loads.as_ptr(),
            loads.len(),
            faults.as_ptr(),
            faults.len(),
            words.as_mut_ptr(),
            words.len(),
        )
    };
    check(layout.refusal)?;
    Ok(Layout {
        width: layout.width,
        commits: layout.commits != 0,
    })
}

/// When a plan commits, and its width.
#[derive(Debug, Clone, Copy, PartialEq)]
pub struct Plan {
    pub time: f64,
    pub width: u64,
}

/// The plan that commits the soonest, its rows written; without one, nothing is written. A model
/// is slope, delay, jitter and unreliability; `heard` has a bit for each replica not silent.
#[allow(clippy::too_many_arguments)]
pub fn pick_assignment(
    n: u64,
    own: u64,
    quorum: u64,
    d: u64,
    total: TotalShards,
    size: u64,
    penalty: f64,
    heard: u64,
    models: &[[f64; 4]],
    inflight: &[u64],
    faults: &[u64],
    rows: &mut [Row],
) -> Result<Option<Plan>, Refusal> {
    let floats = models.as_flattened();
    let words = rows.as_flattened_mut();
    // SAFETY: the tables are lent for the call, with their lengths, `rows` alone.
    let plan = unsafe {
        raw::callboard_pick_assignment(
            n,
            own,
            quorum,
            d,
            total.ceiling(),
            total.width(),
            size,
            penalty,
            heard,
            floats.as_ptr(),
            floats.len(),
            inflight.as_ptr(),
            inflight.len(),
            faults.as_ptr(),
            faults.len(),
            words.as_mut_ptr(),
            words.len(),
        )
    };
    check(plan.refusal)?;
    Ok((plan.found != 0).then_some(Plan {
        time: plan.time,
        width: plan.width,
    }))
}

/// Writes full copies for every replica; the width.
pub fn full_copies(n: u64, d: u64, total: TotalShards, rows: &mut [Row]) -> Result<u64, Refusal> {
    let words = rows.as_flattened_mut();
    // SAFETY: the rows are lent alone for the call, with their length.
    value(unsafe {
        raw::callboard_full_copies(
            n,
            d,
            total.ceiling(),
            total.width(),
            words.as_mut_ptr(),
            words.len(),
        )
    })
}

/// The fewest shards a replica with which the replicas of the mask `alive` suffice.
pub fn min_shards_per_replica(
    n: u64,
    f: u64,
    d: u64,
    majority: u64,
    alive: u64,
) -> Result<u64, Refusal> {
    value(raw::callboard_min_shards_per_replica(
        n, f, d, majority, alive,
    ))
}

/// What the balanced policy chooses.
#[derive(Debug, Clone, Copy, PartialEq, Eq)]
pub enum Choice {
    /// The initial layout.
    Initial,
    /// The table's rows of this many shards a replica.
    Balanced(u64),
}

/// What the balanced policy is asked. A model is slope, delay and jitter. `table` is empty, or has
/// n rows for each whole count from d / majority to d.
#[derive(Debug, Clone, Copy)]
pub struct PolicyInput<'a> {
    pub n: u64,
    pub f: u64,
    pub own: u64,
    pub d: u64,
    pub w: u64,
    pub majority: u64,
    pub size: u64,
    pub adaptive: bool,
    pub balanced: bool,
    pub models: &'a [[f64; 3]],
    pub inflight: &'a [u64],
    pub alive: u64,
    pub init: &'a [Row],
    pub table: &'a [Row],
}

fn choice(choice: raw::Choice) -> Result<Choice, Refusal> {
    check(choice.refusal)?;
    Ok(match choice.from_table {
        0 => Choice::Initial,
        _ => Choice::Balanced(choice.count),
    })
}

/// The balanced policy's choice.
pub fn pick_assignment_policy(input: PolicyInput) -> Result<Choice, Refusal> {
    let floats = input.models.as_flattened();
    let (init, table) = (input.init.as_flattened(), input.table.as_flattened());
    // SAFETY: the tables are lent for the call, with their lengths.
    choice(unsafe {
        raw::callboard_pick_assignment_policy(
            input.n,
            input.f,
            input.own,
            input.d,
            input.w,
            input.majority,
            input.size,
            u64::from(input.adaptive),
            u64::from(input.balanced),
            floats.as_ptr(),
            floats.len(),
            input.inflight.as_ptr(),
            input.inflight.len(),
            input.alive,
            init.as_ptr(),
            init.len(),
            table.as_ptr(),
            table.len(),
        )
    })
}

/// The balanced policy's choice, its rows written.
pub fn policy_rows(input: PolicyInput, rows: &mut [Row]) -> Result<Choice, Refusal> {
    let floats = input.models.as_flattened();
    let (init, table) = (input.init.as_flattened(), input.table.as_flattened());
    let words = rows.as_flattened_mut();
    // SAFETY: the tables are lent for the call, with their lengths, `rows` alone.
    choice(unsafe {
        raw::callboard_policy_rows(
            input.n,
            input.f,
            input.own,
            input.d,
            input.w,
            input.majority,
            input.size,
            u64::from(input.adaptive),
            u64::from(input.balanced),
            floats.as_ptr(),
            floats.len(),
            input.inflight.as_ptr(),
            input.inflight.len(),
            input.alive,
            init.as_ptr(),
            init.len(),
            table.as_ptr(),
            table.len(),
            words.as_mut_ptr(),
            words.len(),
        )
    })
}

/// Reads a layout text of `total` shards and writes its rows.
pub fn parse_init_assignment(
    n: u64,
    d: u64,
    total: u64,
    text: &[u8],
    rows: &mut [Row],
) -> Result<(), Refusal> {
    let words = rows.as_flattened_mut();
    // SAFETY: text and rows are lent for the call, with their lengths, `rows` alone.
    let answer = unsafe {
        raw::callboard_parse_init_assignment(
            n,
            d,
            total,
            text.as_ptr(),
            text.len(),
            words.as_mut_ptr(),
            words.len(),
        )
    };
    check(answer.refusal)
}

/// The mask of the peers to ask for missing shards; for each replica, `exclusions` gets the shards
/// that it is to leave out.
#[allow(clippy::too_many_arguments)]
pub fn gossip_targets_excl(
    n: u64,
    own: u64,
    source: u64,
    d: u64,
    w: u64,
    available: Row,
    rows: &[Row],
    alive: u64,
    exclusions: &mut [Row],
) -> Result<u64, Refusal> {
    let words = rows.as_flattened();
    let left_out = exclusions.as_flattened_mut();
    // SAFETY: the tables are lent for the call, with their lengths, `exclusions` alone.
    value(unsafe {
        raw::callboard_gossip_targets_excl(
            n,
            own,
            source,
            d,
            w,
            raw::Row { words: available },
            words.as_ptr(),
            words.len(),
            alive,
            left_out.as_mut_ptr(),
            left_out.len(),
        )
    })
}

/// How a tally stands after a reply.
#[derive(Debug, Clone, Copy, PartialEq, Eq)]
pub enum Status {
    Waiting,
    /// This reply committed it.
    Committed,
    AlreadyCommitted,
}

impl Tally {
    /// Opens a tally; the value id is given by its high and its low half.
    pub fn open(
        n: u64,
        quorum: u64,
        d: u64,
        w: u64,
        ballot: u64,
        high: u64,
        low: u64,
    ) -> Result<Tally, Refusal> {
        let opening = raw::callboard_tally_open(n, quorum, d, w, ballot, high, low);
        check(opening.refusal)?;
        Ok(opening.tally)
    }

    /// Counts a reply.
    pub fn accept_reply(
        &mut self,
        source: u64,
        ballot: u64,
        high: u64,
        low: u64,
        row: Row,
        faults: &[u64],
    ) -> Result<Status, Refusal> {
        // SAFETY: tally and list are lent for the call, the list with its length.
        let reply = unsafe {
            raw::callboard_accept_reply(
                self,
                source,
                ballot,
                high,
                low,
                raw::Row { words: row },
                faults.as_ptr(),
                faults.len(),
            )
        };
        check(reply.refusal)?;
        Ok(match reply.status {
            0 => Status::Waiting,
            1 => Status::Committed,
            _ => Status::AlreadyCommitted,
        })
    }
}
