//! The prepared inputs of a benchmark answer as the functions do.

use oracle::api::{
    self, CopiesCase, CoverCase, FaultCase, GossipCase, LayoutCase, Peer, PlanCase, PolicyCase,
    Profile, ReplyCase, Row, SurvivalCase, Total, UnreliabilityCase,
};

const NO_PROFILE: Profile = Profile {
    domains: vec![],
    probs: None,
    runtime: false,
};

fn rows<const N: usize>(words: [u64; N]) -> [Row; N] {
    words.map(|word| [word, 0, 0, 0])
}

#[test]
fn faults() {
    assert_eq!(FaultCase::new(5, 2, &NO_PROFILE).run(), Some(10));
    let everyone = Profile {
        domains: vec![7],
        ..NO_PROFILE
    };
    assert_eq!(FaultCase::new(3, 1, &everyone).run(), None);
}

#[test]
fn cover() {
    let acks = rows([1, 2, 4]).map(Some);
    assert!(CoverCase::new(3, &[1, 2, 4], 3, &acks).run(2));
    assert!(!CoverCase::new(3, &[1, 2, 4], 3, &acks).run(3));
}

#[test]
fn survival() {
    assert!(SurvivalCase::new(3, &[1, 2, 4], 0b110).run());
    assert!(!SurvivalCase::new(3, &[1, 2, 4], 0b100).run());
}

#[test]
fn layout() {
    let case = LayoutCase::new(4, &[1], 3, 4, &[4, 2, 2, 1], Total::AtMost(10));
    assert_eq!(case.rows(), 5);
    assert!(case.commits());
    assert!(!LayoutCase::new(4, &[1], 3, 4, &[4, 2, 1, 0], Total::AtMost(10)).commits());
    assert_eq!(CopiesCase::new(4, 20, Total::AtMost(30)).run(), 20);
}

#[test]
fn profile() {
    let profile = Profile {
        probs: Some((vec![0.5, 0.25], 0.1)),
        ..NO_PROFILE
    };
    assert_eq!(UnreliabilityCase::new(2, &profile).run(1, 0.5), 0.25);
    assert!(api::run_profile(2, "probs:0.5,0.25@0.1"));
    assert!(!api::run_profile(2, "probs:0.5@0.1"));
}

#[test]
fn small() {
    assert_eq!(api::run_floor(12, 3, 2, 4), 8);
    assert!(api::run_init(3, 6, 4, "3"));
    assert!(!api::run_init(3, 6, 4, "1"));
}

#[test]
fn plan() {
    let peer = Peer {
        heard: true,
        slope: 1.0,
        delay: 1.0,
        jitter: 0.0,
        unreliability: 0.0,
        inflight: 0,
    };
    let case = PlanCase::new(0, 3, &[1, 2, 4], 2, &[peer; 3], 0.0);
    assert_eq!(case.run(1 << 21, 2, Total::AtMost(3)), Some(2));
    let silent = Peer {
        heard: false,
        ..peer
    };
    let case = PlanCase::new(0, 3, &[1, 2, 4], 2, &[silent; 3], 0.0);
    assert_eq!(case.run(1 << 21, 2, Total::AtMost(3)), None);
}

#[test]
fn policy() {
    let (init, full) = (rows([1, 2, 4]), rows([3, 3, 3]));
    let table = [(1, init.to_vec()), (2, full.to_vec())];
    let models = [(1, [1.0, 1.0, 0.0], 0), (2, [1.0, 1.0, 0.0], 0)];
    let chosen = |alive| {
        api::policy(
            true, true, 3, &init, &table, 2, 2, 1, 100, &models, 0.0, None, 3, alive,
        )
    };
    let case = |alive| {
        PolicyCase::new(
            true, true, 3, &init, &table, 2, 2, 1, &models, 0.0, None, 3, alive,
        )
    };
    // with all alive one shard is enough; with one replica, full copies are
    assert_eq!(chosen(0b111), Ok(init.to_vec()));
    assert_eq!(chosen(0b001), Ok(full.to_vec()));
    assert_eq!(case(0b001).run(100), 3);
}

#[test]
fn gossip() {
    let [available, row_0, row_1, row_2, row_3] = rows([3, 1, 2, 4, 8]);
    let rows = [row_0, row_1, row_2, row_3];
    let case = GossipCase::new(1, 4, 2, Some(0), 4, available, &rows, 0xf);
    assert_eq!(case.run(), 1);
    assert_eq!(case.run(), 1);
}

#[test]
fn replies() {
    let [own, first, second] = rows([3, 1, 2]);
    let list = [(0, own), (1, first), (2, second)];
    let mut whole = ReplyCase::new(3, 0, 2, &[1, 2, 4], 2, 7, 99, 3, &list);
    let mut short = ReplyCase::new(3, 0, 2, &[1, 2, 4], 2, 7, 99, 3, &list[..2]);
    for _ in 0..2 {
        assert!(whole.run());
        assert!(!short.run());
    }
}
