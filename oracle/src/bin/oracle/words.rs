//! Reads the words of a request.

use std::str::{FromStr, Split};

use oracle::api::{Peer, Row, Total};

/// A value, or what is malformed.
pub type Read<T> = Result<T, String>;

/// The words of a request that are still to be read.
pub struct Words<'a>(Split<'a, char>);

impl<'a> Words<'a> {
    pub fn new(line: &'a str) -> Self {
        Words(line.split(' '))
    }

    pub fn word(&mut self) -> Read<&'a str> {
        self.0.next().ok_or_else(|| "missing word".to_string())
    }

    pub fn number<T: FromStr>(&mut self) -> Read<T> {
        number(self.word()?)
    }

    /// 0 for false, another number for true.
    pub fn flag(&mut self) -> Read<bool> {
        Ok(self.number::<u8>()? != 0)
    }

    pub fn float(&mut self) -> Read<f64> {
        float(self.word()?)
    }

    pub fn mask(&mut self) -> Read<u64> {
        mask(self.word()?)
    }

    pub fn row(&mut self) -> Read<Row> {
        row(self.word()?)
    }

    pub fn text(&mut self) -> Read<String> {
        text(self.word()?)
    }

    /// `=W` or `<W`.
    pub fn total(&mut self) -> Read<Total> {
        let word = self.word()?;
        if let Some(width) = word.strip_prefix('=') {
            Ok(Total::Exactly(number(width)?))
        } else if let Some(width) = word.strip_prefix('<') {
            Ok(Total::AtMost(number(width)?))
        } else {
            Err(format!("total {word}"))
        }
    }

    /// Parts joined by `,`, or `-` for none.
    pub fn list<T>(&mut self, part: impl Fn(&str) -> Read<T>) -> Read<Vec<T>> {
        list(self.word()?, ',', part)
    }

    pub fn masks(&mut self) -> Read<Vec<u64>> {
        self.list(mask)
    }

    /// Rows for counts: `count/rows;count/rows`, or `-` for none.
    pub fn table(&mut self) -> Read<Vec<(u8, Vec<Row>)>> {
        list(self.word()?, ';', |entry| {
            let (count, rows) = entry.split_once('/').ok_or("table")?;
            Ok((number(count)?, list(rows, ',', row)?))
        })
    }
}

fn list<T>(word: &str, separator: char, part: impl Fn(&str) -> Read<T>) -> Read<Vec<T>> {
    if word == "-" {
        return Ok(vec![]);
    }
    word.split(separator).map(part).collect()
}

/// `_` for None.
pub fn optional<T>(word: &str, read: impl Fn(&str) -> Read<T>) -> Read<Option<T>> {
    if word == "_" {
        return Ok(None);
    }
    read(word).map(Some)
}

pub fn number<T: FromStr>(word: &str) -> Read<T> {
    word.parse().map_err(|_| format!("number {word}"))
}

fn mask(word: &str) -> Read<u64> {
    u64::from_str_radix(word, 16).map_err(|_| format!("mask {word}"))
}

/// `f` and the 16 hexadecimal digits of the bits, or a literal.
fn float(word: &str) -> Read<f64> {
    let bits = word.strip_prefix('f').filter(|digits| digits.len() == 16);
    let value = match bits {
        Some(digits) => u64::from_str_radix(digits, 16).ok().map(f64::from_bits),
        None => word.parse().ok(),
    };
    value.ok_or_else(|| format!("float {word}"))
}

/// Up to 64 hexadecimal digits, shard 0 in the lowest bit.
pub fn row(word: &str) -> Read<Row> {
    let digits = word.bytes().all(|b| b.is_ascii_hexdigit());
    if word.is_empty() || word.len() > 64 || !digits {
        return Err(format!("row {word}"));
    }
    let padded = format!("{word:0>64}");
    let digits_of = |i: usize| &padded[16 * (3 - i)..16 * (4 - i)];
    Ok([0, 1, 2, 3].map(|i| u64::from_str_radix(digits_of(i), 16).unwrap()))
}

/// Two hexadecimal digits a byte, or `-` for the empty text.
fn text(word: &str) -> Read<String> {
    if word == "-" {
        return Ok(String::new());
    }
    let byte = |at| {
        let digits = word.get(at..at + 2)?;
        u8::from_str_radix(digits, 16).ok()
    };
    let bytes: Option<Vec<u8>> = (0..word.len()).step_by(2).map(byte).collect();
    bytes
        .and_then(|bytes| String::from_utf8(bytes).ok())
        .ok_or_else(|| format!("text {word}"))
}

/// `slope:delay:jitter:unreliability:inflight`, with `!` before it for a silent peer; `_` for a
/// silent peer with zeros.
pub fn peer(word: &str) -> Read<Peer> {
    if word == "_" {
        return peer("!0:0:0:0:0");
    }
    let shown = word.strip_prefix('!');
    let parts: Vec<&str> = shown.unwrap_or(word).split(':').collect();
    let [slope, delay, jitter, unreliability, inflight] = parts[..] else {
        return Err(format!("peer {word}"));
    };
    Ok(Peer {
        heard: shown.is_none(),
        slope: float(slope)?,
        delay: float(delay)?,
        jitter: float(jitter)?,
        unreliability: float(unreliability)?,
        inflight: number(inflight)?,
    })
}
