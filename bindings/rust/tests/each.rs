//! Each function once with an answer, of document 01's site sheet where it has one, and once with
//! a refusal that leaves lent memory as it was.

use callboard::*;

/// A word that no answer has.
const UNTOUCHED: u64 = 0xfeed_f00d_feed_f00d;

/// A row that no answer has.
const UNWRITTEN: Row = [UNTOUCHED; 4];

/// The rows of these sets of shards below 64.
const fn low<const N: usize>(sets: [u64; N]) -> [Row; N] {
    let mut rows = [[0; 4]; N];
    let mut s = 0;
    while s < N {
        rows[s][0] = sets[s];
        s += 1;
    }
    rows
}

/// The row of one shard.
fn one(shard: usize) -> Row {
    let mut row = [0; 4];
    row[shard / 64] = 1 << (shard % 64);
    row
}

/// More bytes in flight than are allowed.
const FAR: u64 = (1 << 40) + 1;

/// Fault tolerance 1 in a population of 3.
const ANY_ONE: [u64; 3] = [0b001, 0b010, 0b100];

/// The number that refuses, and a change to the input that brings it about.
type Change<T> = (u64, fn(&mut T));

fn profile(n: u64, text: &str) -> Profile {
    parse_profile(n, text.as_bytes()).unwrap()
}

#[test]
fn profiles() {
    let read = profile(3, "probs:0.5,0.5,0.25@0.25; domains: 0,1 / 2 ;runtime");
    assert_eq!((read.prob_count, read.threshold), (3, 0.25));
    assert_eq!(read.probs[..3], [0.5, 0.5, 0.25]);
    assert_eq!(read.domain_count, 2);
    assert_eq!(read.domains[..2], [0b011, 0b100]);
    assert_eq!(read.runtime, 1);
    assert_eq!(profile(3, " none ;;"), Profile::default());
}

#[test]
fn profiles_refused() {
    let refused = |n, text: &str| parse_profile(n, text.as_bytes()).unwrap_err();
    assert!(parse_profile(1, b"probs:0.12345678901234").is_ok());
    assert_eq!(refused(1, "probs:0.123456789012345"), Refusal(8));
    assert_eq!(refused(1, "probs:1e22"), Refusal(11));
    assert_eq!(refused(1, "probs:1e23"), Refusal(8));
    assert_eq!(refused(1, "probs:inf"), Refusal(7));
    assert_eq!(refused(1, "domains:1"), Refusal(9));
    assert_eq!(refused(1, "NONE"), Refusal(10));
    assert_eq!(refused(1, "caf\u{e9}"), Refusal(6));
    assert!(parse_profile(16, b"").is_ok());
    assert_eq!(refused(17, ""), Refusal(1));
    let domains = |count| format!("domains:{}", vec!["0"; count].join("/"));
    assert_eq!(profile(1, &domains(64)).domains, [1; 64]);
    assert_eq!(refused(1, &domains(65)), Refusal(12));
}

#[test]
fn unreliabilities() {
    let given = profile(3, "probs:0.5,0.5,0.25");
    assert_eq!(unreliability(3, 2, &given, 1.0), Ok(0.25));
    let observed = profile(3, "runtime;probs:0.5,0.5,0.25");
    assert_eq!(unreliability(3, 2, &observed, 0.75), Ok(0.75));
    assert_eq!(unreliability(3, 2, &observed, f64::NAN), Ok(0.25));
    assert_eq!(unreliability(3, 3, &observed, 0.75), Err(Refusal(3)));
}

#[test]
fn fault_lists() {
    let mut list = [UNTOUCHED; 4];
    let none = Profile::default();
    assert_eq!(fault_list(3, 1, &none, &mut list), Ok(3));
    assert_eq!(list, [1, 2, 4, UNTOUCHED]);
    assert_eq!(fault_list(3, 0, &none, &mut list), Ok(1));
    assert_eq!(list, [0, 2, 4, UNTOUCHED]);
    for text in ["domains:0,1", "probs:0.5,0.5,0.25@0.25"] {
        let mut list = [UNTOUCHED; 4];
        assert_eq!(fault_list(3, 1, &profile(3, text), &mut list), Ok(2));
        assert_eq!(list, [3, 4, UNTOUCHED, UNTOUCHED]);
    }
}

#[test]
fn fault_lists_refused() {
    let mut list = [UNTOUCHED; 2];
    let none = Profile::default();
    let everyone = profile(3, "domains:0,1,2");
    let unknown = Profile {
        domain_count: 1,
        domains: [0b1000; 64],
        ..none
    };
    assert_eq!(fault_list(3, 3, &none, &mut list), Err(Refusal(2)));
    assert_eq!(fault_list(3, 1, &unknown, &mut list), Err(Refusal(9)));
    assert_eq!(fault_list(3, 1, &everyone, &mut list), Err(Refusal(21)));
    assert_eq!(fault_list(3, 1, &none, &mut list), Err(Refusal(22)));
    assert_eq!(list, [UNTOUCHED; 2]);
}

#[test]
fn coverage() {
    let covers = |w, heard, rows: &[Row]| covers(3, 2, w, heard, rows, &ANY_ONE);
    assert_eq!(covers(3, 0b111, &low([1, 2, 4])), Ok(true));
    assert_eq!(covers(3, 0b111, &low([1, 2, 1])), Ok(false));
    assert_eq!(covers(3, 0b011, &low([3, 3, 0])), Ok(true));
    assert_eq!(covers(3, 0, &low([3, 3, 0])), Ok(false));
    assert_eq!(covers(255, 0b111, &[one(63), one(64), one(254)]), Ok(true));
    assert_eq!(
        covers(255, 0b111, &[one(254), one(64), one(254)]),
        Ok(false)
    );
    assert_eq!(covers(256, 0b111, &low([1, 2, 4])), Err(Refusal(4)));
    assert_eq!(
        covers(254, 0b111, &[one(63), one(64), one(254)]),
        Err(Refusal(16))
    );
    assert_eq!(
        covers(255, 0b111, &[one(63), one(64), one(255)]),
        Err(Refusal(16))
    );
    assert_eq!(covers(3, 0b111, &low([1, 2, 8])), Err(Refusal(16)));
    assert_eq!(covers(3, 0b111, &low([1, 2])), Err(Refusal(17)));
}

#[test]
fn united_rows() {
    let united = |heard, rows: &[Row], first| rows_united(3, 2, 3, heard, rows, &[first, 0]);
    assert_eq!(united(0b111, &low([1, 2, 4]), 0b001), Ok(2));
    // a row of two shards is first, and settles it
    assert_eq!(united(0b111, &low([1, 2, 6]), 0b001), Ok(1));
    assert_eq!(united(0b111, &low([1, 2, 6]), 0b100), Ok(2));
    // the whole order where it has too few, an empty row in it
    assert_eq!(united(0b111, &low([2, 2, 2]), 0), Ok(3));
    assert_eq!(united(0b111, &low([0, 2, 2]), 0), Ok(3));
    assert_eq!(united(0, &low([1, 2, 4]), 0), Ok(0));
    assert_eq!(united(0b011, &low([1, 2, 4]), 0b011), Ok(0));
    let wide = |w, rows: &[Row]| rows_united(3, 2, w, 0b111, rows, &ANY_ONE);
    assert_eq!(wide(255, &[one(63), one(64), one(254)]), Ok(2));
    assert_eq!(wide(256, &low([1, 2, 4])), Err(Refusal(4)));
    assert_eq!(wide(254, &[one(63), one(64), one(254)]), Err(Refusal(16)));
    assert_eq!(united(0b1000, &low([1, 2, 4]), 0), Err(Refusal(16)));
    assert_eq!(united(0b111, &low([1, 2]), 0), Err(Refusal(17)));
    assert_eq!(united(0b111, &low([1, 2, 4]), 0b111), Err(Refusal(17)));
}

#[test]
fn survival() {
    assert_eq!(survived_by(3, 0b110, &ANY_ONE), Ok(true));
    assert_eq!(survived_by(3, 0b100, &ANY_ONE), Ok(false));
    assert_eq!(survived_by(3, 0b1000, &ANY_ONE), Err(Refusal(16)));
    assert_eq!(survived_by(3, 0b100, &[]), Err(Refusal(17)));
}

#[test]
fn layouts() {
    let loads = [4, 2, 2, 1];
    let mut rows = [UNWRITTEN; 4];
    let width = layout_rows(4, 4, TotalShards::AtMost(10), &loads, &mut rows);
    assert_eq!((width, rows), (Ok(5), low([0b1111, 0b11, 0b1100, 0b10000])));
    let width = layout_rows(4, 4, TotalShards::AtMost(4), &loads, &mut rows);
    assert_eq!((width, rows), (Ok(4), low([0b1111, 0b11, 0b1100, 0b1])));
    let width = layout_rows(4, 4, TotalShards::Exactly(6), &loads, &mut rows);
    assert_eq!((width, rows), (Ok(6), low([0b1111, 0b11, 0b1100, 0b10000])));
    // shards 0 to 99, 100 to 149, 150 to 199, and 200
    let width = layout_rows(
        4,
        200,
        TotalShards::AtMost(255),
        &[100, 50, 50, 1],
        &mut rows,
    );
    let run = |a, b| {
        (a..b).fold([0; 4], |row: Row, i| {
            [0, 1, 2, 3].map(|k| row[k] | one(i)[k])
        })
    };
    let runs = [run(0, 100), run(100, 150), run(150, 200), run(200, 201)];
    assert_eq!((width, rows), (Ok(201), runs));
}

#[test]
fn layouts_refused() {
    let mut rows = [UNWRITTEN; 4];
    let mut refused = |total, loads: &[u64]| layout_rows(4, 4, total, loads, &mut rows);
    assert_eq!(
        refused(TotalShards::AtMost(256), &[4, 2, 2, 1]),
        Err(Refusal(4))
    );
    assert_eq!(
        refused(TotalShards::Exactly(3), &[4, 2, 2, 1]),
        Err(Refusal(4))
    );
    assert_eq!(
        refused(TotalShards::AtMost(10), &[4, 2, 2]),
        Err(Refusal(17))
    );
    assert_eq!(rows, [UNWRITTEN; 4]);
}

#[test]
fn layouts_that_commit() {
    let mut rows = [UNWRITTEN; 3];
    let mut commits = |quorum, answered| {
        let total = TotalShards::AtMost(3);
        let loads = [2, 1, 1];
        let layout = layout_commits(3, quorum, 2, total, answered, &loads, &ANY_ONE, &mut rows);
        (layout, rows)
    };
    let layout = |width, commits| Ok(Layout { width, commits });
    assert_eq!(commits(4, 0b111), (Err(Refusal(5)), [UNWRITTEN; 3]));
    assert_eq!(commits(2, 0b1111), (Err(Refusal(16)), [UNWRITTEN; 3]));
    assert_eq!(commits(2, 0b111), (layout(2, true), low([0b11, 0b1, 0b10])));
    // a replica that does not answer has load 0
    assert_eq!(commits(2, 0b011), (layout(2, false), low([0b11, 0b1, 0])));
}

/// The site sheet's plan, with what varies in the tests.
struct PlanInput {
    own: u64,
    quorum: u64,
    penalty: f64,
    heard: u64,
    model: [f64; 4],
    inflight: [u64; 3],
    faults: &'static [u64],
}

const PLAN: PlanInput = PlanInput {
    own: 0,
    quorum: 2,
    penalty: 0.0,
    heard: 0b111,
    model: [1.0, 1.0, 0.0, 0.0],
    inflight: [0; 3],
    faults: &ANY_ONE,
};

const NO_FAULT: PlanInput = PlanInput {
    faults: &[0],
    ..PLAN
};

const SILENT: PlanInput = PlanInput {
    heard: 0b001,
    ..PLAN
};

/// One shard behind 1 MiB in flight takes 2 x 2 + 8 + 32 + 0.5 x 256; our own record is unread.
const UNLIKE: PlanInput = PlanInput {
    penalty: 256.0,
    model: [2.0, 8.0, 32.0, 0.5],
    inflight: [FAR, 1 << 20, 1 << 20],
    ..PLAN
};

impl PlanInput {
    fn pick(&self, rows: &mut [Row]) -> Result<Option<Plan>, Refusal> {
        pick_assignment(
            3,
            self.own,
            self.quorum,
            2,
            TotalShards::AtMost(3),
            2 << 20,
            self.penalty,
            self.heard,
            &[self.model; 3],
            &self.inflight,
            self.faults,
            rows,
        )
    }
}

#[test]
fn plans() {
    let plan = |time| Ok(Some(Plan { time, width: 2 }));
    for (input, answer, expected) in [
        (PLAN, plan(2.0), low([0b11, 0b1, 0b10])),
        (NO_FAULT, plan(1.0), low([0b11, 0, 0])),
        (SILENT, Ok(None), [UNWRITTEN; 3]),
        (UNLIKE, plan(172.0), low([0b11, 0b1, 0b10])),
    ] {
        let mut rows = [UNWRITTEN; 3];
        assert_eq!(input.pick(&mut rows), answer);
        assert_eq!(rows, expected);
    }
}

#[test]
fn plans_refused() {
    let changes: [Change<PlanInput>; 5] = [
        (3, |input| input.own = 3),
        (5, |input| input.quorum = 4),
        (15, |input| input.inflight = [0, 0, FAR]),
        (16, |input| input.heard = 0b1111),
        (17, |input| input.faults = &[0b111]),
    ];
    let mut rows = [UNWRITTEN; 3];
    for (number, change) in changes {
        let mut input = PLAN;
        change(&mut input);
        assert_eq!(input.pick(&mut rows), Err(Refusal(number)));
    }
    assert_eq!(PLAN.pick(&mut rows[..2]), Err(Refusal(17)));
    assert_eq!(rows, [UNWRITTEN; 3]);
}

#[test]
fn copies() {
    let mut rows = [UNWRITTEN; 3];
    let refused = full_copies(3, 2, TotalShards::AtMost(1), &mut rows);
    assert_eq!((refused, rows), (Err(Refusal(4)), [UNWRITTEN; 3]));
    let width = full_copies(3, 2, TotalShards::AtMost(3), &mut rows);
    assert_eq!((width, rows), (Ok(2), low([0b11; 3])));
    let width = full_copies(3, 2, TotalShards::Exactly(3), &mut rows);
    assert_eq!((width, rows), (Ok(3), low([0b11; 3])));
}

#[test]
fn floors() {
    assert_eq!(min_shards_per_replica(3, 1, 4, 2, 0b111), Ok(2));
    assert_eq!(min_shards_per_replica(3, 1, 4, 2, 0b101), Ok(4));
    assert_eq!(min_shards_per_replica(3, 1, 4, 2, 0), Ok(4));
    // where the Rust's byte product overflows
    assert_eq!(min_shards_per_replica(3, 2, 64, 1, 0), Ok(64));
    assert_eq!(min_shards_per_replica(3, 2, 255, 1, 0), Ok(255));
    assert_eq!(min_shards_per_replica(3, 3, 4, 2, 0), Err(Refusal(2)));
    assert_eq!(min_shards_per_replica(3, 1, 4, 3, 0), Err(Refusal(14)));
    assert_eq!(min_shards_per_replica(3, 1, 4, 2, 0b1000), Err(Refusal(16)));
}

/// Times in bytes: one shard a replica takes max(51, 51 + 40), two take min(102, 102 + 40).
const POLICY: PolicyInput = PolicyInput {
    n: 3,
    f: 1,
    own: 0,
    d: 2,
    w: 3,
    majority: 2,
    size: 100,
    adaptive: true,
    balanced: true,
    models: &[
        [f64::NAN; 3],
        [1_048_576.0, 0.0, 0.0],
        [1_048_576.0, 39.0, 1.0],
    ],
    inflight: &[0; 3],
    alive: 0b111,
    init: &low([4, 2, 1]),
    table: &low([1, 2, 4, 3, 3, 3]),
};

/// One shard takes 60 more.
const BUSY: PolicyInput = PolicyInput {
    inflight: &[0, 0, 60],
    ..POLICY
};

/// The initial layout's row 0 has one shard.
const FIXED: PolicyInput = PolicyInput {
    adaptive: false,
    ..BUSY
};

/// One replica alive: the floor is 2.
const ALONE: PolicyInput = PolicyInput {
    alive: 0b001,
    ..POLICY
};

const UNBALANCED: PolicyInput = PolicyInput {
    balanced: false,
    ..POLICY
};

/// A count that the table lacks gives the initial layout.
const NO_TABLE: PolicyInput = PolicyInput {
    table: &[],
    ..POLICY
};

#[test]
fn policies() {
    for (input, choice, expected) in [
        (POLICY, Choice::Balanced(1), low([1, 2, 4])),
        (BUSY, Choice::Balanced(2), low([3, 3, 3])),
        (FIXED, Choice::Balanced(1), low([1, 2, 4])),
        (ALONE, Choice::Balanced(2), low([3, 3, 3])),
        (UNBALANCED, Choice::Initial, low([4, 2, 1])),
        (NO_TABLE, Choice::Initial, low([4, 2, 1])),
    ] {
        let mut rows = [UNWRITTEN; 3];
        assert_eq!(pick_assignment_policy(input), Ok(choice));
        assert_eq!(policy_rows(input, &mut rows), Ok(choice));
        assert_eq!(rows, expected);
    }
}

#[test]
fn policies_refused() {
    let changes: [Change<PolicyInput>; 11] = [
        (2, |input| input.f = 3),
        (3, |input| input.own = 3),
        (4, |input| input.w = 256),
        (5, |input| input.majority = 4),
        (14, |input| input.d = 3),
        (15, |input| input.size = (1 << 30) + 1),
        (15, |input| input.inflight = &[0, FAR, 0]),
        (16, |input| input.alive = 0b1000),
        (16, |input| input.init = const { &low([4, 2, 8]) }),
        (17, |input| input.table = const { &low([1, 2, 4]) }),
        (17, |input| input.models = &[[0.0; 3]; 2]),
    ];
    let mut rows = [UNWRITTEN; 3];
    for (number, change) in changes {
        let mut input = POLICY;
        change(&mut input);
        assert_eq!(pick_assignment_policy(input), Err(Refusal(number)));
        assert_eq!(policy_rows(input, &mut rows), Err(Refusal(number)));
    }
    assert_eq!(policy_rows(POLICY, &mut rows[..2]), Err(Refusal(17)));
    assert_eq!(rows, [UNWRITTEN; 3]);
}

#[test]
fn layout_texts() {
    let mut rows = [UNWRITTEN; 3];
    let mut read = |text: &str| {
        parse_init_assignment(3, 4, 6, text.as_bytes(), &mut rows).unwrap();
        rows
    };
    assert_eq!(read("3"), low([0b111, 0b11100, 0b110001]));
    assert_eq!(read(""), low([0b11, 0b1100, 0b110000]));
    assert_eq!(read("2:5,0/0:1"), low([0b10, 0, 0b100001]));
    parse_init_assignment(3, 4, 255, b"2:254,64/0:63", &mut rows).unwrap();
    assert_eq!(rows, [one(63), [0; 4], [0, 1, 0, 1 << 62]]);
}

#[test]
fn layout_texts_refused() {
    let mut rows = [UNWRITTEN; 3];
    let mut refused = |d, total, text: &str| {
        parse_init_assignment(3, d, total, text.as_bytes(), &mut rows).unwrap_err()
    };
    for text in ["1", "5", "256", " 3"] {
        assert_eq!(refused(4, 6, text), Refusal(13), "{text}");
    }
    assert_eq!(refused(4, 6, "3:0"), Refusal(9));
    assert_eq!(refused(4, 6, "0:"), Refusal(7));
    assert_eq!(refused(4, 7, ""), Refusal(14));
    assert_eq!(refused(4, 256, ""), Refusal(4));
    let short = parse_init_assignment(3, 4, 6, b"", &mut rows[..2]);
    assert_eq!(short, Err(Refusal(17)));
    assert_eq!(rows, [UNWRITTEN; 3]);
}

#[test]
fn gossip() {
    let mut exclusions = [UNWRITTEN; 4];
    let mut asked = |own, source, have| {
        let (rows, alive, have) = (low([1, 2, 4, 8]), 0b1111, [have, 0, 0, 0]);
        let asked = gossip_targets_excl(4, own, source, 2, 4, have, &rows, alive, &mut exclusions);
        (asked, exclusions)
    };
    assert_eq!(asked(4, 0, 0b11), (Err(Refusal(3)), [UNWRITTEN; 4]));
    assert_eq!(asked(1, 0, 0b10000), (Err(Refusal(16)), [UNWRITTEN; 4]));
    assert_eq!(asked(1, 0, 0b11), (Ok(0b0100), low([0, 0, 0b11, 0])));
    // round the ring from 3, the source 1 last
    assert_eq!(asked(3, 1, 0b1000), (Ok(0b0001), low([0b1000, 0, 0, 0])));
    let rows = [one(0), one(64), one(128), one(254)];
    let asked = gossip_targets_excl(4, 1, 0, 2, 255, one(64), &rows, 0b1111, &mut exclusions);
    let left_out = [[0; 4], [0; 4], one(64), [0; 4]];
    assert_eq!((asked, exclusions), (Ok(0b0100), left_out));
    let asked = gossip_targets_excl(4, 1, 0, 2, 254, one(254), &rows, 0b1111, &mut exclusions);
    assert_eq!((asked, exclusions), (Err(Refusal(16)), left_out));
}

#[test]
fn opened_tally() {
    let opened = Tally {
        population: 5,
        quorum: 3,
        data_shards: 2,
        width: 4,
        ballot: 7,
        value_high: 6,
        value_low: 99,
        heard: 0,
        committed: 0,
        rows: [[0; 4]; 16],
    };
    assert_eq!(Tally::open(5, 3, 2, 4, 7, 6, 99), Ok(opened));
}

#[test]
fn tallies() {
    let mut tally = Tally::open(3, 2, 2, 3, 7, 5, 99).unwrap();
    let mut reply = |source, row| tally.accept_reply(source, 7, 5, 99, [row, 0, 0, 0], &ANY_ONE);
    assert_eq!(reply(0, 0b11), Ok(Status::Waiting));
    assert_eq!(reply(1, 0), Ok(Status::Waiting));
    assert_eq!(reply(1, 0b1), Ok(Status::Waiting));
    assert_eq!(reply(2, 0b10), Ok(Status::Committed));
    assert_eq!((tally.heard, tally.committed), (0b111, 1));
    assert_eq!(tally.rows[..3], low([0b11, 0b1, 0b10]));
    let committed = tally;
    let again = tally.accept_reply(2, 7, 5, 99, [0b100, 0, 0, 0], &ANY_ONE);
    assert_eq!(again, Ok(Status::AlreadyCommitted));
    assert_eq!(tally, committed);
}

#[test]
fn tallies_of_far_shards() {
    let mut tally = Tally::open(3, 2, 2, 255, 7, 5, 99).unwrap();
    let mut reply = |source, row| tally.accept_reply(source, 7, 5, 99, row, &ANY_ONE);
    assert_eq!(reply(0, [1, 2, 4, 8]), Ok(Status::Waiting));
    assert_eq!(reply(1, one(254)), Ok(Status::Waiting));
    assert_eq!(reply(2, one(255)), Err(Refusal(16)));
    assert_eq!(reply(1, one(64)), Ok(Status::Committed));
    let rows = [[1, 2, 4, 8], [0, 1, 0, 1 << 62], [0; 4]];
    assert_eq!((tally.heard, &tally.rows[..3]), (0b011, &rows[..]));
}

#[test]
fn tallies_refused() {
    assert_eq!(Tally::open(17, 2, 2, 3, 7, 5, 99), Err(Refusal(1)));
    assert_eq!(Tally::open(3, 2, 2, 256, 7, 5, 99), Err(Refusal(4)));
    assert_eq!(Tally::open(3, 4, 2, 3, 7, 5, 99), Err(Refusal(5)));
    let mut tally = Tally::open(3, 2, 2, 3, 7, 5, 99).unwrap();
    tally
        .accept_reply(0, 7, 5, 99, [0b11, 0, 0, 0], &ANY_ONE)
        .unwrap();
    let before = tally;
    let mut refused = |source, ballot, high, low, row, faults: &[u64]| {
        let row = [row, 0, 0, 0];
        let reply = tally.accept_reply(source, ballot, high, low, row, faults);
        (reply.unwrap_err(), tally)
    };
    assert_eq!(refused(3, 7, 5, 99, 1, &ANY_ONE), (Refusal(3), before));
    assert_eq!(refused(1, 7, 5, 99, 8, &ANY_ONE), (Refusal(16), before));
    assert_eq!(refused(1, 7, 5, 99, 1, &[]), (Refusal(17), before));
    assert_eq!(refused(1, 8, 5, 99, 1, &ANY_ONE), (Refusal(23), before));
    assert_eq!(refused(1, 7, 6, 99, 1, &ANY_ONE), (Refusal(23), before));
    assert_eq!(refused(1, 7, 5, 98, 1, &ANY_ONE), (Refusal(23), before));
}

/// The rule of the C interface: after a refusal every other field is 0.
#[test]
fn refused_answers_are_zero_otherwise() {
    let answer = raw::callboard_min_shards_per_replica(17, 0, 1, 1, 0);
    assert_eq!((answer.refusal, answer.value), (1, 0));
    let float = raw::callboard_unreliability(17, 0, Profile::default(), 1.0);
    assert_eq!((float.refusal, float.value), (1, 0.0));
    let opening = raw::callboard_tally_open(17, 1, 1, 1, 7, 5, 99);
    assert_eq!(opening.refusal, 1);
    assert_eq!(
        opening.tally,
        Tally {
            population: 0,
            quorum: 0,
            data_shards: 0,
            width: 0,
            ballot: 0,
            value_high: 0,
            value_low: 0,
            heard: 0,
            committed: 0,
            rows: [[0; 4]; 16],
        }
    );
    let text = b"probs:1e22";
    // SAFETY: the text is lent for the call, with its length.
    let reading = unsafe { raw::callboard_parse_profile(1, text.as_ptr(), text.len()) };
    assert_eq!(reading.refusal, 11);
    assert_eq!(reading.profile, Profile::default());
}

#[test]
fn refusals_in_words() {
    assert_eq!(
        Refusal(1).to_string(),
        "refusal 1: the population is not 1 to 16"
    );
    let known = (1..=17).chain(21..=24);
    let mut words: Vec<&str> = known.map(|number| Refusal(number).words()).collect();
    words.sort_unstable();
    words.dedup();
    assert_eq!(words.len(), 21);
    assert!(!words.contains(&Refusal(18).words()));
}
