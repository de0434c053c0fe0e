//! From the plain types of `api` to the original's, and back.

use std::collections::HashMap;

use super::super::assignment::TotalShards;
use super::super::reliability::{ReliabilityProfile, Tolerance};
use super::{Profile, Row, Total};
use crate::server::ReplicaId;
use crate::utils::Bitmap;

/// Panics if the row has a shard at or above `size`.
pub fn bitmap(size: u8, row: &Row) -> Bitmap {
    let mut bitmap = Bitmap::new(size, false);
    for i in 0..=u8::MAX {
        if row[usize::from(i) / 64] >> (i % 64) & 1 == 1 {
            bitmap.set(i, true).unwrap();
        }
    }
    bitmap
}

pub fn bitmaps(size: u8, rows: &[Row]) -> Vec<Bitmap> {
    rows.iter().map(|row| bitmap(size, row)).collect()
}

pub fn mask_bitmap(n: u8, mask: u64) -> Bitmap {
    bitmap(n, &[mask, 0, 0, 0])
}

pub fn row(bitmap: &Bitmap) -> Row {
    let mut row = [0; 4];
    for (i, flag) in bitmap.iter() {
        row[usize::from(i) / 64] |= u64::from(flag) << (i % 64);
    }
    row
}

pub fn rows_of(bitmaps: &[Bitmap]) -> Vec<Row> {
    bitmaps.iter().map(row).collect()
}

pub fn masks_of(bitmaps: &[Bitmap]) -> Vec<u64> {
    bitmaps.iter().map(|bitmap| row(bitmap)[0]).collect()
}

pub fn total(total: Total) -> TotalShards {
    match total {
        Total::Exactly(w) => TotalShards::Exactly(w),
        Total::AtMost(w) => TotalShards::AtMost(w),
    }
}

/// The tolerance that has just these sets.
pub fn tolerance(n: u8, masks: &[u64]) -> Tolerance {
    Tolerance {
        population: n,
        maximal_faults: masks.iter().map(|&mask| mask_bitmap(n, mask)).collect(),
    }
}

pub fn profile(n: u8, profile: &Profile) -> ReliabilityProfile {
    ReliabilityProfile {
        domains: profile
            .domains
            .iter()
            .map(|&mask| mask_bitmap(n, mask))
            .collect(),
        probs: profile.probs.clone(),
        runtime: profile.runtime,
    }
}

/// The rows of the replicas that were heard.
pub fn acks(w: u8, rows: &[Option<Row>]) -> HashMap<ReplicaId, Bitmap> {
    (0..)
        .zip(rows)
        .filter_map(|(s, row)| Some((s, bitmap(w, row.as_ref()?))))
        .collect()
}
