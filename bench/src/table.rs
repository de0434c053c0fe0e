//! The table of what was measured.

use crate::timing::Measured;

pub fn print(all: &[Measured]) {
    let has_before = all.iter().any(|measured| measured.before.is_some());
    let before = if has_before { "before" } else { "" };
    print_row(["case", "Rust", "port", "ratio", "target", before]);
    for measured in all {
        print_row([
            &measured.name,
            &duration(measured.rust),
            &duration(measured.port),
            &format!("{:.2}", measured.ratio),
            &measured.target.map_or(String::new(), |t| t.to_string()),
            &measured.before.map_or(String::new(), |b| format!("{b:.2}")),
        ]);
    }
}

fn print_row([case, rust, port, ratio, target, before]: [&str; 6]) {
    let row = format!("{case:61} {rust:>10} {port:>10} {ratio:>8} {target:>6} {before:>9}");
    println!("{}", row.trim_end());
}

fn duration(nanos: f64) -> String {
    match nanos {
        ..1e3 => format!("{nanos:.1} ns"),
        1e3..1e6 => format!("{:.2} µs", nanos / 1e3),
        _ => format!("{:.2} ms", nanos / 1e6),
    }
}
