//! Gossip, and the tally of accept replies.

use std::hint::black_box;

use callboard::{Row, Status, Tally};
use oracle::api::{self, GossipCase, Reply, ReplyCase};

use crate::inputs::{EMPTY, NARROW, WIDE, everyone, fault_masks, round_robin, width_note};
use crate::timing::{Case, Sides};

const BALLOT: u64 = 7;
const VALUE: u64 = 99;

pub fn cases() -> Vec<Case> {
    let mut cases = vec![];
    for (n, d, most) in [
        (5, 12, NARROW),
        (5, 153, WIDE),
        (16, 48, NARROW),
        (16, 180, WIDE),
    ] {
        let name = format!("gossip n {n} d {d}{}", width_note(most));
        cases.push(Case::new(name, move || gossip(n, d, most)));
    }
    for (n, f) in [(5, 2), (16, 3), (16, 5)] {
        for most in [NARROW, WIDE] {
            let (wide, sets) = (width_note(most), fault_masks(n, f).len());
            let name = format!("tally n {n}{wide}, {sets} sets, {n} replies");
            cases.push(Case::new(name, move || tally(n, f, most)));
        }
    }
    cases
}

/// The shards of a row, and the width: no wider than the rows need, or the widest.
fn sizes(n: u8, most: u8) -> (u8, u8) {
    if most == NARROW {
        return (4, n * 4);
    }
    (most / n, most)
}

/// Replica 1 asks for what it lacks of a value that replica 0 sent.
fn gossip(n: u8, d: u8, most: u8) -> Sides {
    let (count, w) = sizes(n, most);
    let rows = round_robin(n, count, count, w);
    let (alive, had) = (everyone(n), rows[1]);
    let case = GossipCase::new(1, n, d, Some(0), w, had, &rows, alive);
    let judged = api::gossip(1, n, d, Some(0), w, had, &rows, alive).unwrap();
    let ask = move |exclusions: &mut [Row]| {
        let (n, d, w) = (n.into(), d.into(), w.into());
        let (had, rows) = (black_box(had), black_box(&rows));
        callboard::gossip_targets_excl(n, 1, 0, d, w, had, rows, alive, exclusions).unwrap()
    };
    let mut exclusions = vec![EMPTY; n.into()];
    let asked = ask(&mut exclusions);
    let of = |p: usize| (asked >> p & 1 == 1).then_some(exclusions[p]);
    assert_eq!((0..n.into()).map(of).collect::<Vec<_>>(), judged);
    Sides::new(
        move || black_box(&case).run(),
        move || ask(black_box(&mut exclusions)),
    )
}

/// Every replica replies, and all the replies are needed.
fn tally(n: u8, f: u8, most: u8) -> Sides {
    let replies = Replies::new(n, f, most);
    replies.compare();
    let mut case = replies.case();
    assert!(case.run());
    Sides::new(
        move || black_box(&mut case).run(),
        move || {
            let replies = black_box(&replies);
            let mut tally = replies.open();
            for source in 0..n {
                black_box(replies.count(&mut tally, source));
            }
            tally.committed
        },
    )
}

#[derive(Clone)]
struct Replies {
    n: u8,
    quorum: u8,
    d: u8,
    w: u8,
    masks: Vec<u64>,
    /// The row of each replica's reply.
    rows: Vec<Row>,
}

impl Replies {
    fn new(n: u8, f: u8, most: u8) -> Self {
        let (count, w) = sizes(n, most);
        Replies {
            n,
            quorum: n / 2 + 1,
            d: (n - f) * count,
            w,
            masks: fault_masks(n, f),
            rows: round_robin(n, count, count, w),
        }
    }

    fn case(&self) -> ReplyCase {
        let (n, quorum, d, w) = (self.n, self.quorum, self.d, self.w);
        let replies: Vec<_> = (0..).zip(self.rows.iter().copied()).collect();
        let value = VALUE.into();
        ReplyCase::new(n, 0, quorum, &self.masks, d, BALLOT, value, w, &replies)
    }

    fn open(&self) -> Tally {
        let (n, quorum) = (self.n.into(), self.quorum.into());
        let (d, w) = (self.d.into(), self.w.into());
        Tally::open(n, quorum, d, w, BALLOT, 0, VALUE).unwrap()
    }

    fn count(&self, tally: &mut Tally, source: u8) -> Status {
        let row = self.rows[usize::from(source)];
        let counted = tally.accept_reply(source.into(), BALLOT, 0, VALUE, row, &self.masks);
        counted.unwrap()
    }

    /// Compares the answers to each reply.
    fn compare(&self) {
        let (n, quorum, d, value) = (self.n, self.quorum, self.d, VALUE.into());
        let mut judge = api::Tally::open(n, 0, quorum, &self.masks, d, BALLOT, value).unwrap();
        let mut tally = self.open();
        for (source, &row) in (0..).zip(&self.rows) {
            let answer = match self.count(&mut tally, source) {
                Status::Waiting => Reply::Pending,
                Status::Committed => Reply::Committed,
                Status::AlreadyCommitted => Reply::Ignored,
            };
            let judged = judge.reply(source, BALLOT, value, self.w, row);
            assert_eq!(judged, Ok(answer));
        }
    }
}
