//! `parse_init_assignment`: the layout text of the initial assignment.

#[cfg(feature = "port")]
use callboard::raw;
use oracle::api;

use crate::document::{self, Checked};
use crate::entry::{Answer, Asked, Entry, Listed, Told};
use crate::line::Line;
use crate::parts::{
    Row, Text, WIDEST, byte, each_list, junk, population, row, row_of, row_words, shards,
    shards_of, wrong_room,
};
use crate::rng::Rng;

pub struct LayoutText;

#[derive(Debug, Clone)]
pub struct Input {
    pub n: u64,
    pub d: u64,
    pub total: u64,
    pub text: Text,
    /// The words that are lent for the rows.
    pub room: usize,
}

/// The name of a listed difference.
pub const RUN_IN_A_BYTE: &str = "a run's end in a byte";

/// Bytes of which every text of at most 5 is tried.
const BYTES: &[u8] = b"01239+-:,/ ";
/// Bytes that are put into a text to damage it.
const LETTERS: &[u8] = b"0123456789+-:,/ ;x\x00\x7f\x80\xff";

fn case(n: u64, d: u64, total: u64, text: &[u8]) -> Input {
    Input {
        n,
        d,
        total,
        text: Text(text.to_vec()),
        room: row_words(n),
    }
}

fn number(rng: &mut Rng, limit: u64) -> String {
    let number = match rng.below(60) {
        0 => limit,
        1 => rng.within(250..=260),
        2 => rng.around(limit),
        _ => rng.below(limit),
    };
    format!("{}{number}", rng.pick(&["", "", "", "", "+", "0", "+00"]))
}

fn segment(rng: &mut Rng, n: u64, total: u64) -> String {
    let shards: Vec<_> = (0..rng.within(1..=4)).map(|_| number(rng, total)).collect();
    format!("{}:{}", number(rng, n), shards.join(","))
}

/// The segments of a layout that is written shard by shard.
fn written(rows: impl Iterator<Item = Row>) -> String {
    let segments = (0..).zip(rows).filter_map(|(r, row): (u64, _)| {
        let shards: Vec<_> = shards_of(&row).map(|shard| shard.to_string()).collect();
        (!shards.is_empty()).then(|| format!("{r}:{}", shards.join(",")))
    });
    segments.collect::<Vec<_>>().join("/")
}

fn text(rng: &mut Rng, n: u64, d: u64, total: u64) -> Text {
    let text = match rng.below(10) {
        0 if rng.once_in(4) => written((0..n).map(|_| row(rng, total))),
        0 => String::new(),
        1..=3 => {
            let share = total / n;
            let edge = rng.around(d);
            let count = rng.pick(&[share, d, d + 1, share.saturating_sub(1), share + 1, edge]);
            format!("{}{count}", rng.pick(&["", "", "+", "0"]))
        }
        _ => {
            let segments: Vec<_> = (0..rng.within(1..=5))
                .map(|_| segment(rng, n, total))
                .collect();
            segments.join("/")
        }
    };
    text.as_str().into()
}

impl Input {
    fn damage(&mut self, rng: &mut Rng) {
        match rng.below(12) {
            0 => self.n = rng.around(16),
            1 => self.d = rng.around(self.total),
            2 => self.total = rng.around(WIDEST),
            3 => self.total = self.total.saturating_add(1).min(WIDEST),
            4 => self.room = wrong_room(rng, self.n),
            5 => {
                // A number with zeros before it, up to an edge of what a text may have.
                let to: usize = rng.pick(&[4096, 4097, 16_383, 16_384, 16_385]);
                let more = to.saturating_sub(self.text.0.len());
                self.text.0.splice(0..0, vec![b'0'; more]);
            }
            _ => self.text.damage(rng, LETTERS),
        }
    }

    /// The number that the text is.
    fn number(&self) -> Option<u64> {
        let number: u8 = self.text.rust()?.parse().ok()?;
        Some(number.into())
    }

    /// "runs of that length from row × (total / n), modulo total", each up to what `end` makes of
    /// its end.
    fn runs(&self, count: u64, end: fn(u64) -> u64) -> Answer {
        let run = |r| {
            let from = r * (self.total / self.n);
            row_of((from..end(from + count)).map(|shard| shard % self.total))
        };
        Answer::lent(vec![0], (0..self.n).flat_map(run).collect())
    }
}

impl Entry for LayoutText {
    type Input = Input;
    const NAME: &'static str = "init";
    const ANSWERS: &'static [&'static str] = &["equal runs", "runs of a number", "segments"];
    const LISTED: &'static [&'static str] = &[RUN_IN_A_BYTE];
    const REFUSALS: &'static [u64] = &[1, 4, 6, 7, 9, 13, 14, 17];
    const ERRORS: &'static [u64] = &[7, 9, 13];
    const FIELDS: usize = 1;

    fn fixed() -> Vec<Input> {
        let sheet = [
            "3", "1", "5", "256", " 3", "3:0", "0:", "", "+3", "03", "0:1/", "/", "0:1:2", ":",
            "-1", "0:1/0:2",
        ];
        let mut fixed: Vec<_> = sheet
            .iter()
            .map(|text| case(3, 4, 6, text.as_bytes()))
            .collect();
        for (n, d, total) in [
            (16, 64, 64),
            (17, 64, 64),
            (1, 1, WIDEST),
            (1, 1, WIDEST + 1),
            (15, 17, WIDEST),
            (16, 16, 240),
        ] {
            let full = vec![row_of(0..total.min(WIDEST)); n as usize];
            fixed.push(case(n, d, total, b""));
            fixed.push(case(n, d, total, written(full.into_iter()).as_bytes()));
        }
        for len in [16_384, 16_385] {
            fixed.push(case(1, 1, 1, format!("{:0>len$}", 1).as_bytes()));
        }
        fixed.extend((0..=20).map(|room| Input {
            room,
            ..case(3, 4, 6, b"3")
        }));
        fixed
    }

    /// Every text of at most 5 bytes for three replicas, and of at most 3 for other sizes; every
    /// number of every total.
    fn small(each: &mut dyn FnMut(Input)) {
        let sizes = [
            (3, 4, 6, 5),
            (1, 1, 1, 3),
            (2, 1, 1, 3),
            (2, 2, 3, 3),
            (2, 2, 4, 4),
            (4, 12, 12, 4),
            (1, 255, 255, 3),
            (2, 200, 254, 3),
        ];
        for (n, d, total, most) in sizes {
            for len in 0..=most {
                each_list(len, BYTES.len() as u64, &mut |chosen| {
                    let text: Vec<u8> = chosen.iter().map(|&c| BYTES[c as usize]).collect();
                    each(case(n, d, total, &text));
                });
            }
        }
        for n in 1..=16 {
            for total in (n..=WIDEST).step_by(n as usize) {
                for count in total / n..=total {
                    each(case(n, total, total, count.to_string().as_bytes()));
                }
            }
        }
    }

    fn random(rng: &mut Rng) -> Input {
        let n = population(rng);
        let (d, w) = shards(rng);
        let total = w.next_multiple_of(n).min(WIDEST / n * n).max(d);
        let text = text(rng, n, d, total);
        let mut input = case(n, d, total, &text.0);
        while rng.once_in(3) {
            input.damage(rng);
        }
        input
    }

    fn width(i: &Input) -> Option<u64> {
        Some(i.total)
    }

    fn refusal(i: &Input) -> Checked {
        document::init(i)
    }

    /// "Runs in a layout text [..] are worked out in whole numbers where Rust's bytes may overflow":
    /// where the end of the last run is above a byte.
    fn overflow(i: &Input) -> Option<Listed> {
        let count = i.number()?;
        let end = (i.n - 1) * (i.total / i.n) + count;
        (end > 255).then(|| Listed {
            name: RUN_IN_A_BYTE,
            rust: i.runs(count, |end| end % 256),
            port: i.runs(count, |end| end),
        })
    }

    fn rust(i: &Input) -> Asked {
        let (n, total, d) = (byte(i.n)?, byte(i.total)?, byte(i.d)?);
        let asked = api::parse_init_assignment(n, total, d, i.text.rust()?);
        Some(asked.map(|rows| {
            let class = match &i.text.0 {
                text if text.is_empty() => "equal runs",
                text if text.contains(&b':') => "segments",
                _ => "runs of a number",
            };
            Told::new(Answer::lent(vec![0], rows.concat()), class)
        }))
    }

    #[cfg(feature = "port")]
    fn port(i: &Input) -> Answer {
        let mut rows = junk(i.room);
        let text = &i.text.0;
        // SAFETY: text and rows are lent for the call, with their lengths, `rows` alone.
        let answer = unsafe {
            raw::callboard_parse_init_assignment(
                i.n,
                i.d,
                i.total,
                text.as_ptr(),
                text.len(),
                rows.as_mut_ptr(),
                rows.len(),
            )
        };
        Answer::given(answer.refusal, [answer.value], rows)
    }

    fn lent(i: &Input) -> Option<Vec<u64>> {
        Some(junk(i.room))
    }

    fn words(i: &Input, line: &mut Line) {
        line.words(&[i.n, i.d, i.total]).text(&i.text).room(i.room);
    }

    fn request(i: &Input) -> Option<String> {
        Some(format!(
            "init {} {} {} {}",
            i.n,
            i.total,
            i.d,
            i.text.request()
        ))
    }
}
