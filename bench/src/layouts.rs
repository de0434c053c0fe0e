//! Layouts of given loads, and full copies.

use std::hint::black_box;

use callboard::Row;
use oracle::api::{self, CopiesCase, LayoutCase};

use crate::inputs::{EMPTY, NARROW, WIDE, everyone, fault_masks, port_total, total, width_note};
use crate::timing::{Case, Sides};

pub fn cases() -> Vec<Case> {
    // the last shard of a load decides whether it commits
    let five = [(vec![16, 6, 5, 5, 5], "no"), (vec![16, 6, 6, 5, 5], "yes")];
    let wide_five = [
        (vec![191, 64, 64, 63, 63], "no"),
        (vec![191, 64, 64, 64, 63], "yes"),
    ];
    let sixteen = [(vec![15; 16], "no"), (vec![16; 16], "yes")];
    let wide_sixteen = [(vec![63; 16], "no"), (vec![64; 16], "yes")];
    let mut cases = vec![];
    for (n, f, d, most, all) in [
        (5, 2, 16, NARROW, five),
        (5, 2, 191, WIDE, wide_five),
        (16, 3, 64, NARROW, sixteen),
        (16, 3, 255, WIDE, wide_sixteen),
    ] {
        let (loads, wide) = (all[1].0.clone(), width_note(most));
        let name = format!("layout_rows n {n} d {d}{wide}");
        cases.push(Case::new(name, move || layout_rows(n, d, most, &loads)));
        for (loads, note) in all {
            let sets = fault_masks(n, f).len();
            let name = format!("layout_commits n {n} d {d}{wide}, {sets} sets, {note}");
            cases.push(Case::new(name, move || {
                layout_commits(n, f, d, most, &loads, note == "yes")
            }));
        }
    }
    for (n, d, most) in [
        (5, 16, NARROW),
        (5, 255, WIDE),
        (16, 64, NARROW),
        (16, 255, WIDE),
    ] {
        let name = format!("full_copies n {n} d {d}{}", width_note(most));
        cases.push(Case::new(name, move || full_copies(n, d, most)));
    }
    cases
}

fn words(loads: &[u8]) -> Vec<u64> {
    loads.iter().copied().map(u64::from).collect()
}

fn layout_rows(n: u8, d: u8, most: u8, loads: &[u8]) -> Sides {
    let case = LayoutCase::new(n, &[0], 1, d, loads, total(most));
    let (w, judged) = api::layout_rows(d, loads, total(most)).unwrap();
    let loads = words(loads);
    let ask = move |rows: &mut [Row]| {
        let (d, loads) = (black_box(d.into()), black_box(&loads));
        callboard::layout_rows(n.into(), d, port_total(most), loads, rows).unwrap()
    };
    let mut rows = vec![EMPTY; n.into()];
    assert_eq!(ask(&mut rows), w.into());
    assert_eq!(rows, judged);
    Sides::new(
        move || black_box(&case).rows(),
        move || ask(black_box(&mut rows)),
    )
}

fn layout_commits(n: u8, f: u8, d: u8, most: u8, loads: &[u8], expected: bool) -> Sides {
    let (masks, quorum, total) = (fault_masks(n, f), n / 2 + 1, total(most));
    let case = LayoutCase::new(n, &masks, quorum, d, loads, total);
    let answered: Vec<_> = loads.iter().copied().map(Some).collect();
    let (w, judged, commits) = api::layout_commits(n, &masks, quorum, d, &answered, total).unwrap();
    let (loads, total) = (words(loads), port_total(most));
    let ask = move |rows: &mut [Row]| {
        let (loads, masks) = (black_box(&loads), black_box(&masks));
        let (all, quorum) = (black_box(everyone(n)), quorum.into());
        let (n, d) = (n.into(), d.into());
        callboard::layout_commits(n, quorum, d, total, all, loads, masks, rows).unwrap()
    };
    let mut rows = vec![EMPTY; n.into()];
    let layout = ask(&mut rows);
    assert_eq!((layout.width, layout.commits), (w.into(), commits));
    assert_eq!(rows, judged);
    assert_eq!(commits, expected);
    Sides::new(
        move || black_box(&case).commits(),
        move || ask(black_box(&mut rows)),
    )
}

fn full_copies(n: u8, d: u8, most: u8) -> Sides {
    let case = CopiesCase::new(n, d, total(most));
    let (w, judged) = api::full_copies(n, d, total(most)).unwrap();
    let ask = move |rows: &mut [Row]| {
        callboard::full_copies(n.into(), black_box(d.into()), port_total(most), rows).unwrap()
    };
    let mut rows = vec![EMPTY; n.into()];
    assert_eq!(ask(&mut rows), w.into());
    assert_eq!(rows, judged);
    Sides::new(
        move || black_box(&case).run(),
        move || ask(black_box(&mut rows)),
    )
}
