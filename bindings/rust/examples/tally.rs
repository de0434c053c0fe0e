//! Copies of a shard do not commit a value: three controllers, of which one may fail, and any 2
//! distinct shards rebuild the value.
use callboard::{Refusal, Tally, fault_list, parse_profile};

fn main() -> Result<(), Refusal> {
    let mut faults = [0; 3];
    let sets = fault_list(3, 1, &parse_profile(3, b"")?, &mut faults)?;
    let mut tally = Tally::open(3, 2, 2, 3, 1, 0, 42)?;

    // The second row is a copy of the first.
    for (source, shard) in [(0, 0), (1, 0), (2, 1), (1, 2)] {
        let row = [1 << shard, 0, 0, 0];
        println!(
            "{:?}",
            tally.accept_reply(source, 1, 0, 42, row, &faults[..sets])?
        );
    }
    Ok(())
}
