//! What the original answers at the inputs of docs/DIFFERENCES.md, in the order of that table.

use oracle::api::{self, Fail, Profile, Reply, Row};

fn profile(n: u8, text: &str) -> Profile {
    api::parse_profile(n, text).unwrap()
}

fn row(word: u64) -> Row {
    [word, 0, 0, 0]
}

/// An answer that a debug build does not reach, since it panics before.
fn release<T>(value: T) -> Option<T> {
    (!api::debug_build()).then_some(value)
}

/// None for a panic.
fn answer<T>(result: Result<T, Fail>) -> Option<T> {
    match result {
        Ok(value) => Some(value),
        Err(Fail::Panic(_)) => None,
        Err(Fail::Err(message)) => panic!("{message}"),
    }
}

#[test]
fn tolerance_above_the_population() {
    assert_eq!(api::tolerance(1, 2, &profile(1, "")), Ok(vec![]));
}

#[test]
fn order_of_a_fault_list() {
    let domains = profile(2, "domains:1/0");
    assert_eq!(api::tolerance(2, 0, &domains), Ok(vec![2, 1]));
}

#[test]
fn first_reply_of_another_width() {
    let mut tally = api::Tally::open(1, 0, 1, &[0], 1, 0, 0).unwrap();
    assert_eq!(tally.reply(0, 0, 0, 2, row(2)), Ok(Reply::Committed));
}

#[test]
fn floor_in_a_byte() {
    api::quiet();
    let floor = api::min_shards_per_replica(128, 1, 0, 0);
    assert_eq!(answer(floor), release(0));
}

/// The floor of 128 shards would pick the table's row.
#[test]
fn policy_by_a_floor_in_a_byte() {
    api::quiet();
    let (init, full) = ([row(0)], [u64::MAX, u64::MAX, 0, 0]);
    let (table, models) = ([(128, vec![full])], []);
    let rows = api::policy(
        false, true, 128, &init, &table, 128, 1, 0, 0, &models, 0.0, None, 1, 0,
    );
    assert_eq!(answer(rows), release(init.to_vec()));
}

/// The second run begins at 127 and ends before 256.
#[test]
fn run_in_a_byte() {
    api::quiet();
    let rows = api::parse_init_assignment(2, 254, 129, "129");
    let first = [u64::MAX, u64::MAX, 1, 0];
    assert_eq!(answer(rows), release(vec![first, row(0)]));
}

/// On the processors that keep the sign of a NaN, as x86-64 does.
#[test]
fn negative_nan_in_the_policy() {
    let init = [row(1), row(2)];
    let table = [(1, init.to_vec()), (2, vec![row(3), row(3)])];
    let models = [(1, [-f64::NAN, 0.0, 0.0], 0)];
    let rows = api::policy(
        true, true, 2, &init, &table, 2, 2, 0, 1, &models, 0.0, None, 2, 0b11,
    );
    assert_eq!(rows, Ok(init.to_vec()));
}

#[test]
fn word_for_infinity() {
    let message = "invalid failure probabilities 'inf'".to_string();
    assert_eq!(api::parse_profile(1, "probs:inf"), Err(Fail::Err(message)));
}

/// The original leaves open which zero it is.
#[test]
fn larger_of_two_zeros() {
    let larger = api::unreliability(1, &profile(1, "runtime"), 0, -0.0);
    assert_eq!(larger, Ok(0.0));
}

#[test]
fn decimal_beyond_the_digit_rule() {
    let probs = profile(1, "probs:0e23").probs;
    assert_eq!(probs, Some((vec![0.0], 1e-3)));
}

#[test]
fn text_beyond_ascii() {
    assert_eq!(profile(1, "\u{a0}"), profile(1, ""));
}

#[test]
fn long_layout_text() {
    let text = format!("{:0>16385}", 1);
    let rows = api::parse_init_assignment(1, 1, 1, &text);
    assert_eq!(rows, Ok(vec![row(1)]));
}

#[test]
fn sixty_fifth_domain() {
    let text = format!("domains:{}", ["0"; 65].join("/"));
    assert_eq!(profile(1, &text).domains, vec![1; 65]);
}

#[test]
fn total_no_multiple_of_the_population() {
    api::quiet();
    let rows = api::parse_init_assignment(2, 1, 1, "");
    assert_eq!(answer(rows), release(vec![row(0), row(0)]));
}
