//! `parse_profile`: the text of a reliability profile.

use oracle::api;

use crate::document::{self, Checked};
use crate::entry::{Answer, Asked, Entry, Told};
use crate::line::Line;
use crate::parts::{Text, bits, byte, each_list, population};
use crate::rng::Rng;

pub struct ProfileText;

#[derive(Debug, Clone)]
pub struct Input {
    pub n: u64,
    pub text: Text,
}

fn case(n: u64, text: &str) -> Input {
    let text = text.into();
    Input { n, text }
}

/// Tokens whose sequences are tried one and all.
const TOKENS: [&str; 17] = [
    "domains:", "probs:", "runtime", "none", "0", "1", "2", ",", "/", ";", "@", " ", "+", "-", ".",
    "e", ":",
];

/// Bytes that are put into a text to damage it.
const LETTERS: &[u8] =
    b"domainsprobsruntimenone:;/,@ \t\x0b+-.eE0123456789infatyNAN\x1f\x85\xa0\x7f\x80\xff";

/// Every text of a head and at most `most` of these tokens.
fn texts(head: &str, tokens: &[&str], most: usize, each: &mut dyn FnMut(&str)) {
    for len in 0..=most {
        each_list(len, tokens.len() as u64, &mut |chosen| {
            let mut text = head.to_string();
            chosen.iter().for_each(|&c| text += tokens[c as usize]);
            each(&text);
        });
    }
}

fn blanks(rng: &mut Rng) -> &'static str {
    rng.pick(&["", "", "", "", " ", "\t", "\n\r", "\x0b\x0c "])
}

/// A member of a domain, mostly below n.
fn member(rng: &mut Rng, n: u64) -> String {
    let number = if rng.once_in(40) {
        rng.around(n)
    } else {
        rng.below(n)
    };
    let plus = rng.pick(&["", "", "", "+", "0", "+00"]);
    format!("{}{plus}{number}{}", blanks(rng), blanks(rng))
}

fn domains(rng: &mut Rng, n: u64) -> String {
    let sets = rng.pick(&[1, 1, 2, 2, 3, 20, 62, 65]);
    let most = if sets > 3 { 1 } else { 3 };
    let set = |rng: &mut Rng| {
        let members: Vec<_> = (0..rng.within(1..=most)).map(|_| member(rng, n)).collect();
        members.join(",")
    };
    let sets: Vec<_> = (0..sets).map(|_| set(rng)).collect();
    sets.join("/")
}

/// Ordinary decimals, those at the edges of the digit rule, and numerals that are malformed.
const PLAIN: [&str; 8] = ["0", "1", "0.5", "0.25", "0.1", "0.01", "1e-3", "5e-2"];
const EDGES: [&str; 16] = [
    "+1", "-0", "-0.0", "1.", ".5", "+.5e0", "1e0", "1e1", "-1", "2", "0e22", "0e23", "1e-22",
    "1e-23", "0e0022", "0e00022",
];
const MALFORMED: [&str; 12] = [
    "inf", "NaN", "infinity", "-inf", "+nan", "", ".", "e", "1e", "1e+", "+-1", "0x1",
];

/// A decimal, mostly a probability.
fn decimal(rng: &mut Rng) -> String {
    match rng.below(200) {
        0 => rng.pick(&MALFORMED).into(),
        1..20 => rng.pick(&EDGES).into(),
        20..120 => digits(rng),
        _ => rng.pick(&PLAIN).into(),
    }
}

/// Digits with a point somewhere and an exponent, mostly at most 1 and within the digit rule.
fn digits(rng: &mut Rng) -> String {
    let most = if rng.once_in(20) { 17 } else { 15 };
    let len = rng.within(1..=most) as usize;
    let mut text = format!("{:0>len$}", rng.below(10u64.pow(len as u32)));
    let point = rng.index(len + 1);
    text.insert(point, '.');
    let power = match rng.below(20) {
        0 => rng.within(0..=48) as i64 - 24,
        _ => -(rng.within(len as u64..=len.max(22) as u64) as i64),
    };
    let exponent = power + (len - point) as i64;
    let zeros = if exponent < 0 {
        "-"
    } else {
        rng.pick(&["", "+", "0", "+00"])
    };
    let e = rng.pick(&['e', 'E']);
    format!("{text}{e}{zeros}{}", exponent.abs())
}

fn probs(rng: &mut Rng, n: u64) -> String {
    let count = if rng.once_in(30) {
        rng.within(1..=18)
    } else {
        n
    };
    let one = |rng: &mut Rng| format!("{}{}{}", blanks(rng), decimal(rng), blanks(rng));
    let probs: Vec<_> = (0..count).map(|_| one(rng)).collect();
    let threshold = match rng.below(5) {
        0 | 1 => String::new(),
        2 => format!("@{}", blanks(rng)),
        _ => format!("@{}", one(rng)),
    };
    format!("{}{threshold}", probs.join(","))
}

fn mechanism(rng: &mut Rng, n: u64) -> String {
    let (b, c) = (blanks(rng), blanks(rng));
    match rng.below(12) {
        0 => b.into(),
        1 => format!("{b}none{c}"),
        2 => rng
            .pick(&["runtime", " runtime : 1;", "runtime:x", "runtime:"])
            .into(),
        3 if rng.once_in(8) => rng
            .pick(&["none:", "NONE", ":", "x", "domain:0", "domains", "probs"])
            .into(),
        4..=7 => format!("{b}domains{c}:{}", domains(rng, n)),
        _ => format!("{b}probs{c}:{}", probs(rng, n)),
    }
}

/// Blanks before it, up to an edge of what a text may have.
fn lengthen(rng: &mut Rng, text: &mut Text) {
    let to: usize = rng.pick(&[4095, 4096, 4097, 5000]);
    let more = to.saturating_sub(text.0.len());
    text.0.splice(0..0, vec![b' '; more]);
}

impl Entry for ProfileText {
    type Input = Input;
    const NAME: &'static str = "profile";
    const ANSWERS: &'static [&'static str] = &["nothing", "domains", "probabilities", "runtime"];
    const REFUSALS: &'static [u64] = &[1, 6, 7, 8, 9, 10, 11, 12];
    const ERRORS: &'static [u64] = &[7, 9, 10, 11];
    const FIELDS: usize = 0;

    fn fixed() -> Vec<Input> {
        let sheet = [
            "probs:0.12345678901234",
            "probs:0.123456789012345",
            "probs:1e22",
            "probs:1e23",
            "probs:0e23",
            "probs:inf",
            "probs:nan",
            "none:",
            "NONE",
            ":",
            "domains",
            "probs",
            "probs:0@1@1",
            "probs:7;probs:0",
            "domains:-0",
            "domains:+0",
            "domains:00000",
        ];
        let mut fixed: Vec<_> = sheet.iter().map(|text| case(1, text)).collect();
        fixed.push(case(1, &format!("domains:{}", ["0"; 64].join("/"))));
        fixed.push(case(1, &format!("domains:{}", ["0"; 65].join("/"))));
        fixed.push(case(3, "probs:0.5,0.5,0.25@0.25"));
        fixed.push(case(1, "\u{a0}"));
        fixed
    }

    /// Every sequence of 5 tokens for one replica and of 4 for two; every decimal and every list of
    /// domains of 5 bytes.
    fn small(each: &mut dyn FnMut(Input)) {
        texts("", &TOKENS, 5, &mut |text| each(case(1, text)));
        texts("", &TOKENS, 4, &mut |text| each(case(2, text)));
        let decimal = ["0", "1", "9", ".", "e", "E", "+", "-", "@", ",", " "];
        texts("probs:", &decimal, 5, &mut |text| each(case(1, text)));
        let sets = ["0", "1", "2", ",", "/", "+", "-", " ", ";"];
        texts("domains:", &sets, 5, &mut |text| each(case(2, text)));
    }

    fn random(rng: &mut Rng) -> Input {
        let n = population(rng);
        let mechanisms: Vec<_> = (0..rng.within(1..=3)).map(|_| mechanism(rng, n)).collect();
        let mut input = case(n, &mechanisms.join(";"));
        while rng.once_in(2) {
            input.text.damage(rng, LETTERS);
        }
        if rng.once_in(60) {
            lengthen(rng, &mut input.text);
        }
        if rng.once_in(20) {
            input.n = rng.around(16);
        }
        input
    }

    fn refusal(i: &Input) -> Checked {
        document::profile(i)
    }

    fn rust(i: &Input) -> Asked {
        Some(api::parse_profile(byte(i.n)?, i.text.rust()?).map(|p| {
            let (probs, threshold) = p.probs.unwrap_or_default();
            let counts = [p.domains.len(), probs.len(), p.runtime.into()];
            let mut fields: Vec<u64> = counts.iter().map(|&c| c as u64).collect();
            fields.push(bits(threshold));
            fields.extend(probs.iter().map(|&p| bits(p)));
            fields.extend(&p.domains);
            let class = match counts {
                [0, 0, 0] => "nothing",
                [0, 0, _] => "runtime",
                [_, 0, _] => "domains",
                _ => "probabilities",
            };
            Told::new(Answer::fields(fields), class)
        }))
    }

    /// Words that are not counted follow if one is not 0, and then the answers differ.
    #[cfg(feature = "port")]
    fn port(i: &Input) -> Answer {
        let p = match callboard::parse_profile(i.n, &i.text.0) {
            Ok(p) => p,
            Err(callboard::Refusal(refusal)) => {
                return Answer {
                    refusal,
                    fields: vec![],
                    lent: vec![],
                };
            }
        };
        let mut fields = vec![p.domain_count, p.prob_count, p.runtime, bits(p.threshold)];
        let (probs, more_probs) = p.probs.split_at(p.prob_count.min(16) as usize);
        let (domains, more_domains) = p.domains.split_at(p.domain_count.min(64) as usize);
        fields.extend(probs.iter().map(|&p| bits(p)));
        fields.extend(domains);
        let uncounted = more_probs
            .iter()
            .map(|&p| bits(p))
            .chain(more_domains.iter().copied());
        fields.extend(uncounted.filter(|&word| word != 0));
        Answer::fields(fields)
    }

    fn words(i: &Input, line: &mut Line) {
        line.word(i.n).text(&i.text);
    }

    fn request(i: &Input) -> Option<String> {
        Some(format!("profile {} {}", i.n, i.text.request()))
    }
}
