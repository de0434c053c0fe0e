//! What the inputs of several cases are made from.

use callboard::{Row, TotalShards};
use oracle::api::{Profile, Total};

pub const NO_PROFILE: Profile = Profile {
    domains: vec![],
    probs: None,
    runtime: false,
};

/// The most shards of a layout: what a row's first word has room for, and as many as there can be.
pub const NARROW: u8 = 64;
pub const WIDE: u8 = 255;

/// A row without a shard.
pub const EMPTY: Row = [0; 4];

/// At most so many shards, for the original.
pub fn total(most: u8) -> Total {
    Total::AtMost(most)
}

/// The same for the port.
pub fn port_total(most: u8) -> TotalShards {
    TotalShards::AtMost(most.into())
}

/// What the name of a case says of its width: nothing if it is narrow.
pub fn width_note(w: u8) -> String {
    if w <= NARROW {
        return String::new();
    }
    format!(" w {w}")
}

/// The mask of the replicas below n.
pub fn everyone(n: u8) -> u64 {
    (1 << n) - 1
}

/// Every set of f of n replicas, in rising order.
pub fn fault_masks(n: u8, f: u8) -> Vec<u64> {
    (0..1 << n)
        .filter(|set: &u64| set.count_ones() == f.into())
        .collect()
}

/// A row for each of n replicas: `count` shards from its number times `step` on, modulo w.
pub fn round_robin(n: u8, count: u8, step: u8, w: u8) -> Vec<Row> {
    let shard =
        |r: u8, i: u8| (usize::from(r) * usize::from(step) + usize::from(i)) % usize::from(w);
    let row = |r: u8| {
        let mut row = EMPTY;
        (0..count).for_each(|i| add_shard(&mut row, shard(r, i)));
        row
    };
    (0..n).map(row).collect()
}

pub fn add_shard(row: &mut Row, shard: usize) {
    row[shard / 64] |= 1 << (shard % 64);
}

/// The profile in the port's form.
pub fn port_profile(profile: &Profile) -> callboard::Profile {
    let mut port = callboard::Profile {
        domain_count: profile.domains.len() as u64,
        runtime: profile.runtime.into(),
        ..callboard::Profile::default()
    };
    port.domains[..profile.domains.len()].copy_from_slice(&profile.domains);
    if let Some((probs, threshold)) = &profile.probs {
        port.prob_count = probs.len() as u64;
        port.probs[..probs.len()].copy_from_slice(probs);
        port.threshold = *threshold;
    }
    port
}
