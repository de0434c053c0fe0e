//! Writes the words of an answer.

use oracle::api::{Fail, Profile, Row};

/// The line that answers: `show` gives the words after `ok`, if any.
pub fn line<T>(result: Result<T, Fail>, show: impl FnOnce(T) -> String) -> String {
    match result {
        Ok(value) => format!("ok {}", show(value)).trim_end().to_string(),
        Err(Fail::Err(message)) => format!("err {}", message.escape_default()),
        Err(Fail::Panic(message)) => format!("panic {}", message.escape_default()),
    }
}

pub fn list<T>(values: &[T], show: impl Fn(&T) -> String) -> String {
    if values.is_empty() {
        return "-".to_string();
    }
    values.iter().map(show).collect::<Vec<_>>().join(",")
}

pub fn float(value: f64) -> String {
    format!("f{:016x}", value.to_bits())
}

pub fn masks(values: &[u64]) -> String {
    list(values, |mask| format!("{mask:x}"))
}

pub fn row(row: &Row) -> String {
    let digits: String = row
        .iter()
        .rev()
        .map(|word| format!("{word:016x}"))
        .collect();
    match digits.trim_start_matches('0') {
        "" => "0".to_string(),
        digits => digits.to_string(),
    }
}

pub fn rows(values: &[Row]) -> String {
    list(values, row)
}

/// `_` for a replica without a row.
pub fn rows_heard(values: &[Option<Row>]) -> String {
    list(values, |value| value.as_ref().map_or("_".to_string(), row))
}

/// DOMAINS PROBABILITIES THRESHOLD RUNTIME
pub fn profile(profile: &Profile) -> String {
    let (probs, threshold) = match &profile.probs {
        Some((probs, threshold)) => (list(probs, |&p| float(p)), float(*threshold)),
        None => ("_".to_string(), "_".to_string()),
    };
    let runtime = u8::from(profile.runtime);
    format!("{} {probs} {threshold} {runtime}", masks(&profile.domains))
}
