//! Plans.

use std::hint::black_box;

use callboard::Row;
use oracle::api::{self, Peer, PlanCase};

use crate::inputs::{EMPTY, NARROW, WIDE, fault_masks, port_total, total, width_note};
use crate::timing::{Case, Sides};

/// The bytes of the value.
const SIZE: usize = 1 << 20;
/// What a failure costs, in milliseconds.
const PENALTY: f64 = 600.0;

pub fn cases() -> Vec<Case> {
    let mut cases = vec![];
    for (n, f, d, most) in [
        (5, 2, 16, NARROW),
        (5, 2, 255, WIDE),
        (9, 4, 16, NARROW),
        (9, 4, 255, WIDE),
        (16, 5, 64, NARROW),
        (16, 5, 64, WIDE),
        (16, 5, 255, WIDE),
    ] {
        cases.push(plan(n, f, d, most, "equal models", equal(n)));
        cases.push(plan(n, f, d, most, "different models", different(n)));
    }
    // too few are heard for a quorum
    let mut few = equal(9);
    few[4..].iter_mut().for_each(|peer| peer.heard = false);
    cases.push(plan(9, 4, 16, NARROW, "no plan", few.clone()));
    cases.push(plan(9, 4, 255, WIDE, "no plan", few));
    cases
}

fn plan(n: u8, f: u8, d: u8, most: u8, note: &str, peers: Vec<Peer>) -> Case {
    let (sets, wide) = (fault_masks(n, f).len(), width_note(most));
    let name = format!("pick_assignment n {n} d {d}{wide}, {sets} sets, {note}");
    let planned = note != "no plan";
    Case::new(name, move || pick(n, f, d, most, &peers, planned)).target(5.0)
}

fn equal(n: u8) -> Vec<Peer> {
    let peer = Peer {
        heard: true,
        slope: 1.0,
        delay: 2.0,
        jitter: 0.5,
        unreliability: 0.001,
        inflight: 0,
    };
    vec![peer; n.into()]
}

/// No two peers alike, and not in the order of their numbers.
fn different(n: u8) -> Vec<Peer> {
    let mut peers = equal(n);
    for (p, peer) in (0u8..).zip(&mut peers) {
        peer.slope += 0.37 * f64::from(p * 7 % 16);
        peer.delay += 0.1 * f64::from(p * 5 % 16);
        peer.unreliability *= f64::from(p * 3 % 16) / 16.0;
        peer.inflight = usize::from(p * 11 % 16) << 14;
    }
    peers
}

fn pick(n: u8, f: u8, d: u8, most: u8, peers: &[Peer], planned: bool) -> Sides {
    let (masks, quorum, total) = (fault_masks(n, f), n / 2 + 1, total(most));
    let judged = api::plan(0, n, &masks, quorum, peers, PENALTY, SIZE, d, total).unwrap();
    let case = PlanCase::new(0, n, &masks, quorum, peers, PENALTY);
    let heard = (0..n).zip(peers).filter(|(_, peer)| peer.heard);
    let heard: u64 = heard.map(|(p, _)| 1 << p).sum();
    let models: Vec<_> = peers
        .iter()
        .map(|peer| [peer.slope, peer.delay, peer.jitter, peer.unreliability])
        .collect();
    let inflight: Vec<_> = peers.iter().map(|peer| peer.inflight as u64).collect();
    let ask = move |rows: &mut [Row]| {
        callboard::pick_assignment(
            n.into(),
            0,
            quorum.into(),
            black_box(d.into()),
            port_total(most),
            black_box(SIZE as u64),
            PENALTY,
            heard,
            black_box(&models),
            black_box(&inflight),
            black_box(&masks),
            rows,
        )
        .unwrap()
    };
    let mut rows = vec![EMPTY; n.into()];
    let found = ask(&mut rows).map(|plan| (plan.time.to_bits(), plan.width, rows.clone()));
    assert_eq!(found.is_some(), planned);
    let judged = judged.map(|plan| (plan.time.to_bits(), plan.w.into(), plan.rows));
    assert_eq!(found, judged);
    Sides::new(
        move || black_box(&case).run(black_box(SIZE), black_box(d), total),
        move || ask(black_box(&mut rows)),
    )
}
