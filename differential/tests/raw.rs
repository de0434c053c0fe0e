//! What the inputs of the entries cannot express: a number of floats that makes no whole models, and
//! flags other than 0 and 1.
#![cfg(feature = "port")]

use callboard::raw;

/// Three replicas, d 2, quorum 2, any one may fail; our number is 0.
const FAULTS: [u64; 3] = [1, 2, 4];
const FLOATS: [f64; 100] = [1.0; 100];

/// Three rows of four words.
type Rows = [[u64; 4]; 3];

const UNWRITTEN: Rows = [[9; 4]; 3];

fn plan(floats: usize, ceiling: u64) -> (raw::Plan, Rows) {
    let mut rows = UNWRITTEN;
    // SAFETY: each slice is as long as it is said to be.
    let plan = unsafe {
        raw::callboard_pick_assignment(
            3,
            0,
            2,
            2,
            ceiling,
            3,
            2 << 20,
            0.0,
            7,
            FLOATS.as_ptr(),
            floats,
            [0; 3].as_ptr(),
            3,
            FAULTS.as_ptr(),
            3,
            rows.as_flattened_mut().as_mut_ptr(),
            12,
        )
    };
    (plan, rows)
}

fn policy(floats: usize, adaptive: u64, balanced: u64) -> (raw::Choice, Rows) {
    let shards = |bits| [[bits, 0, 0, 0]; 3];
    let (init, table, mut rows) = (shards(1), [shards(2), shards(3)], UNWRITTEN);
    // SAFETY: each slice is as long as it is said to be.
    let choice = unsafe {
        raw::callboard_policy_rows(
            3,
            1,
            0,
            2,
            3,
            2,
            2 << 20,
            adaptive,
            balanced,
            FLOATS.as_ptr(),
            floats,
            [0; 3].as_ptr(),
            3,
            7,
            init.as_flattened().as_ptr(),
            12,
            table.as_flattened().as_flattened().as_ptr(),
            24,
            rows.as_flattened_mut().as_mut_ptr(),
            12,
        )
    };
    (choice, rows)
}

#[test]
fn models_are_whole() {
    for floats in (0..=FLOATS.len()).filter(|&k| k != 12) {
        let (plan, rows) = plan(floats, 1);
        let fields = (plan.refusal, plan.found, plan.width, plan.time.to_bits());
        assert_eq!(
            (fields, rows),
            ((17, 0, 0, 0), UNWRITTEN),
            "{floats} floats"
        );
    }
    assert_eq!(plan(12, 1).0.refusal, 0);
    for floats in (0..=FLOATS.len()).filter(|&k| k != 9) {
        let (choice, rows) = policy(floats, 1, 1);
        let fields = (choice.refusal, choice.from_table, choice.count);
        assert_eq!((fields, rows), ((17, 0, 0), UNWRITTEN), "{floats} floats");
    }
    assert_eq!(policy(9, 1, 1).0.refusal, 0);
}

#[test]
fn flags_are_0_or_not() {
    for flag in [2, 256, 1 << 32, 1 << 63, u64::MAX] {
        assert_eq!(plan(12, flag), plan(12, 1));
        assert_eq!(policy(9, flag, flag), policy(9, 1, 1));
        assert_eq!(policy(9, 0, flag), policy(9, 0, 1));
    }
    assert_ne!(plan(12, 0), plan(12, 1));
    assert_ne!(policy(9, 1, 0), policy(9, 1, 1));
}
