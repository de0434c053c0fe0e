use super::*;

/// The lines at the end of `pick_assignment`, run alone, answer as the whole function does
/// wherever both can be asked.
#[test]
fn last_lines_are_the_wrapper() {
    for n in 1..=16 {
        for d in 1..=16 {
            let replica = CrosswordReplica::stand_in(0, n + 1, convert::tolerance(n, &[0]));
            for w in (d..=64).chain(u8::MAX - 2..=u8::MAX) {
                for total in [Total::Exactly(w), Total::AtMost(w)] {
                    let (_, width, rows) = replica.full_copies(d, convert::total(total));
                    let alone = (width, rows_of(&rows));
                    assert_eq!(full_copies(n, d, total), Ok(alone), "{n} {d} {total:?}");
                }
            }
        }
    }
}
