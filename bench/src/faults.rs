//! Fault lists, and the unreliability of a peer.

use std::hint::black_box;

use oracle::api::{self, FaultCase, Profile, UnreliabilityCase};

use crate::inputs::{NO_PROFILE, port_profile};
use crate::timing::{Case, Sides};

/// As many sets as a list can have: 8 of 16 replicas.
const ROOM: usize = 12870;

pub fn cases() -> Vec<Case> {
    let mut cases = vec![
        list(5, 2, false),
        list(5, 2, true),
        list(16, 5, false).target(20.0),
        list(16, 5, true).target(20.0),
        list(16, 8, false).target(20.0),
        list(16, 8, true).target(20.0),
    ];
    for (note, profile) in [
        ("no probabilities", NO_PROFILE),
        (
            "probabilities, runtime",
            Profile {
                runtime: true,
                ..coins(16, 3)
            },
        ),
    ] {
        let name = format!("unreliability n 16, {note}");
        let case = Case::new(name, move || unreliability(profile));
        cases.push(case.beside("the profile of 672 bytes comes by value and is checked"));
    }
    cases
}

/// With probabilities, the probable sets are those of up to one replica more than may fail, so
/// they decide the list.
fn list(n: u8, f: u8, probable: bool) -> Case {
    if probable {
        let name = format!("fault_list n {n} f {f}, probabilities");
        return Case::new(name, move || fault_list(n, f, coins(n, f + 1)));
    }
    let name = format!("fault_list n {n} f {f}");
    Case::new(name, move || fault_list(n, f, NO_PROFILE))
}

/// Each replica fails with probability one half; sets of up to `most` are probable.
fn coins(n: u8, most: u8) -> Profile {
    Profile {
        probs: Some((vec![0.5; n.into()], 0.5f64.powi(most.into()))),
        ..NO_PROFILE
    }
}

fn fault_list(n: u8, f: u8, profile: Profile) -> Sides {
    let (case, port) = (FaultCase::new(n, f, &profile), port_profile(&profile));
    let ask = move |list: &mut [u64]| {
        callboard::fault_list(n.into(), black_box(f.into()), black_box(&port), list).unwrap()
    };
    let mut list = vec![0; ROOM];
    let count = ask(&mut list);
    let mut judged = api::tolerance(n, f, &profile).unwrap();
    judged.sort_unstable();
    assert_eq!(list[..count], judged);
    Sides::new(
        move || black_box(&case).run(),
        move || ask(black_box(&mut list)),
    )
}

fn unreliability(profile: Profile) -> Sides {
    let (n, peer, down) = (16, 9, 0.25);
    let (case, port) = (UnreliabilityCase::new(n, &profile), port_profile(&profile));
    let ask = move || {
        let (peer, down) = (black_box(peer.into()), black_box(down));
        callboard::unreliability(n.into(), peer, black_box(&port), down).unwrap()
    };
    let judged = api::unreliability(n, &profile, peer, down).unwrap();
    assert_eq!(ask().to_bits(), judged.to_bits());
    Sides::new(
        move || black_box(&case).run(black_box(peer), black_box(down)),
        ask,
    )
}
