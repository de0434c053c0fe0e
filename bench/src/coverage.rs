//! The commit rule and the discard rule.

use std::hint::black_box;

use callboard::Row;
use oracle::api::{self, CoverCase, SurvivalCase};

use crate::inputs::{NARROW, WIDE, add_shard, everyone, fault_masks, round_robin, width_note};
use crate::timing::{Case, Sides};

/// What the listed sets leave.
#[derive(Clone, Copy)]
enum Left {
    Enough,
    /// The first set leaves too little.
    NotByFirst,
    /// The last set alone leaves too little.
    NotByLast,
}

pub fn cases() -> Vec<Case> {
    let mut cases = vec![];
    for (n, f, count) in [(3, 1, 4), (4, 1, 4)] {
        let name = format!("covers n {n}, {n} sets, covered");
        let make = move || covers(n, f, count, NARROW, Left::Enough);
        cases.push(Case::new(name, make));
    }
    for (n, f, count, most) in [
        (5, 2, 4, NARROW),
        (5, 2, 50, WIDE),
        (16, 3, 3, NARROW),
        (16, 3, 15, WIDE),
    ] {
        for (left, note) in [
            (Left::Enough, "covered"),
            (Left::NotByFirst, "not by the first"),
            (Left::NotByLast, "not by the last"),
        ] {
            let (wide, sets) = (width_note(most), fault_masks(n, f).len());
            let name = format!("covers n {n}{wide}, {sets} sets, {note}");
            let case = Case::new(name, move || covers(n, f, count, most, left));
            cases.push(match left {
                Left::NotByFirst => case.beside("every listed set is checked before one is tried"),
                _ => case,
            });
        }
    }
    for w in [NARROW, WIDE] {
        let name = |note| format!("covers n 16{}, 560 sets, {note}", width_note(w));
        let full = round_robin(16, w, 0, w);
        cases.push(Case::new(name("one row is enough"), move || {
            covered(16, 3, w, w, full, true)
        }));
        cases.push(Case::new(name("every row overlaps"), move || {
            overlapping(16, 3, w)
        }));
    }
    let make = || covers(16, 5, 4, NARROW, Left::Enough);
    cases.push(Case::new("covers n 16, 4368 sets, covered", make));
    for (heard, note) in [(13, "by the last"), (12, "by none")] {
        let name = format!("survived_by n 16, 560 sets, {note}");
        cases.push(Case::new(name, move || survived_by(16, 3, everyone(heard))));
    }
    cases
}

/// Rows of `count` shards each that no other row has, so that any n - f of them have d together. A
/// narrow case has no wider rows than these need.
fn covers(n: u8, f: u8, count: u8, most: u8, left: Left) -> Sides {
    let (mut d, mut used) = ((n - f) * count, n * count);
    let mut rows = round_robin(n, count, count, used);
    if !matches!(left, Left::Enough) {
        d += 1;
    }
    if matches!(left, Left::NotByLast) {
        // a shard more, which every set but the last leaves
        for row in &mut rows[usize::from(n - f)..] {
            add_shard(row, used.into());
        }
        used += 1;
    }
    let w = if most == NARROW { used } else { most };
    covered(n, f, d, w, rows, matches!(left, Left::Enough))
}

/// Rows that have all shards but the last n in common, and of these each has one: any n - f of them
/// are needed, and each adds one shard.
fn overlapping(n: u8, f: u8, w: u8) -> Sides {
    let common = w - n;
    let mut rows = round_robin(n, common, 0, w);
    for (row, shard) in rows.iter_mut().zip(common.into()..) {
        add_shard(row, shard);
    }
    covered(n, f, common + n - f, w, rows, true)
}

fn covered(n: u8, f: u8, d: u8, w: u8, rows: Vec<Row>, expected: bool) -> Sides {
    let masks = fault_masks(n, f);
    let acks: Vec<_> = rows.iter().copied().map(Some).collect();
    let case = CoverCase::new(n, &masks, w, &acks);
    let judged = api::covers(n, &masks, w, &acks, d).unwrap();
    let ask = move || {
        let (rows, masks) = (black_box(&rows), black_box(&masks));
        callboard::covers(n.into(), d.into(), w.into(), everyone(n), rows, masks).unwrap()
    };
    assert_eq!(judged, expected);
    assert_eq!(ask(), judged);
    Sides::new(move || black_box(&case).run(black_box(d)), ask)
}

fn survived_by(n: u8, f: u8, heard: u64) -> Sides {
    let masks = fault_masks(n, f);
    let case = SurvivalCase::new(n, &masks, heard);
    let judged = api::survived_by(n, &masks, heard).unwrap();
    let ask =
        move || callboard::survived_by(n.into(), black_box(heard), black_box(&masks)).unwrap();
    assert_eq!(ask(), judged);
    Sides::new(move || black_box(&case).run(), ask)
}
