//! differences: the rows of docs/DIFFERENCES.md's table, as run. Each listed difference is looked
//! for from the smallest input up, both sides answer the first that shows it, and the run fails
//! where that is not what is listed.

use std::error::Error;

use callboard::Refusal;
use differential::entries::faults::{self, FaultList};
use differential::entries::floor::{self, Floor};
use differential::entries::init::{self, LayoutText};
use differential::entries::policy::{self, Choice};
use differential::entries::profile::{self, ProfileText};
use differential::entries::unreliability::{self, Unreliability};
use differential::entry::{Answer, Entry};
use differential::parts::{Profile, Text, WIDEST, each_of, row_of, row_words, rows_of, shards_of};
use oracle::api::{self, Fail};

/// A listed difference: what it is, the smallest input, and what each side answers to it.
struct Row {
    what: &'static str,
    input: &'static str,
    rust: &'static str,
    port: &'static str,
    run: fn() -> Option<Run>,
}

/// The first input that shows a difference, and both answers.
struct Run {
    input: String,
    rust: String,
    port: String,
}

const ROWS: [Row; 15] = [
    Row {
        what: "A fault tolerance above the population is refused.",
        input: "n 1, f 2, no profile",
        rust: "no set",
        port: "refused 2",
        run: above_population,
    },
    Row {
        what: "Fault lists are in rising order of their masks. The set of sets is the same.",
        input: "n 2, f 0, domains with the masks 2, 1",
        rust: "masks 2, 1",
        port: "masks 1, 2",
        run: rising_order,
    },
    Row {
        what: "A first reply of another width is refused.",
        input: "a tally of n 1, quorum 1, d 1, w 1; the reply of replica 0 names shard 1",
        rust: "Committed",
        port: "refused 16",
        run: first_reply,
    },
    Row {
        what: "The floor is worked out in whole numbers.",
        input: "n 1, f 0, d 128, majority 1, nobody alive",
        rust: "0",
        port: "128",
        run: floor_in_a_byte,
    },
    Row {
        what: "So is the count that the policy takes by that floor.",
        input: "n 1, own 0, f 0, d 128, w 128, majority 1, nobody alive, balanced and not adaptive, no shard in the initial layout",
        rust: "the initial layout",
        port: "128 a replica",
        run: policy_in_a_byte,
    },
    Row {
        what: "Runs in a layout text are worked out in whole numbers.",
        input: "n 2, d 129, total 254, `129`",
        rust: "rows 0-128; none",
        port: "rows 0-128; 0,1,127-253",
        run: run_in_a_byte,
    },
    Row {
        what: "In the policy every NaN stands above infinity.",
        input: "n 2, own 0, f 0, d 2, majority 2, both alive, adaptive and balanced, the peer's slope a NaN with its sign set",
        rust: "1 a replica",
        port: "2 a replica",
        run: nan_below,
    },
    Row {
        what: "Words for infinity and NaN are malformed numerals.",
        input: "n 1, `probs:inf`",
        rust: "an error: invalid failure probabilities 'inf'",
        port: "refused 7",
        run: infinity,
    },
    Row {
        what: "Zeros of opposite sign give +0 as the larger.",
        input: "n 1, peer 0, profile `probs:-0;runtime`, downtime 0",
        rust: "-0",
        port: "0",
        run: zeros,
    },
    Row {
        what: "A decimal beyond the digit rule is refused.",
        input: "n 1, `probs:0e23`",
        rust: "reads it",
        port: "refused 8",
        run: digit_rule,
    },
    Row {
        what: "A text with a byte above 127 is refused.",
        input: "n 1, the profile's text of the bytes 194, 133 (a blank to the Rust)",
        rust: "reads it",
        port: "refused 6",
        run: high_byte,
    },
    Row {
        what: "A profile's text longer than 4,096 bytes is refused.",
        input: "n 1, the profile's text of 4,097 blanks",
        rust: "reads it",
        port: "refused 6",
        run: long_text,
    },
    Row {
        what: "A layout text longer than 16,384 bytes is refused.",
        input: "n 1, d 1, total 1, `1` with zeros before it, 16,385 bytes",
        rust: "rows 0",
        port: "refused 6",
        run: long_layout_text,
    },
    Row {
        what: "A 65th domain is refused.",
        input: "n 1, `domains:0/0/..` with 65 sets",
        rust: "reads it",
        port: "refused 12",
        run: domain_65,
    },
    Row {
        what: "A total that is no multiple of the population is refused in a layout text.",
        input: "n 2, d 1, total 1, the empty text",
        rust: "rows none; none",
        port: "refused 14",
        run: no_multiple,
    },
];

/// The first of these inputs to which the Rust answers and the port answers otherwise.
fn first<E: Entry>(inputs: Vec<E::Input>) -> Option<(E::Input, Answer, Answer)> {
    inputs.into_iter().find_map(|input| {
        let rust = E::rust(&input)?.ok()?.answer;
        let port = E::port(&input);
        (rust != port).then_some((input, rust, port))
    })
}

/// The first of these texts of one replica's profile to which the Rust answers and the port
/// answers otherwise.
fn first_text(texts: Vec<Text>, show: impl Fn(&Text) -> String) -> Option<Run> {
    let case = |text| profile::Input { n: 1, text };
    let (found, _, port) = first::<ProfileText>(texts.into_iter().map(case).collect())?;
    Some(Run {
        input: format!("n 1, {}", show(&found.text)),
        rust: "reads it".into(),
        port: said(&port),
    })
}

/// A refusal, or the first field.
fn said(answer: &Answer) -> String {
    match (answer.refusal, &answer.fields[..]) {
        (0, [field, ..]) => field.to_string(),
        (number, _) => format!("refused {number}"),
    }
}

fn quoted(text: &Text) -> String {
    format!("`{}`", text.0.escape_ascii())
}

/// A number with a comma before its last three digits.
fn thousands(number: usize) -> String {
    format!("{},{:03}", number / 1000, number % 1000)
}

/// The shards of each row as the site sheet has them: those that follow one another as a run, if
/// they are at least three.
fn rows(words: &[u64]) -> String {
    let rows: Vec<String> = rows_of(words)
        .iter()
        .map(|row| {
            let shards: Vec<u64> = shards_of(row).collect();
            let runs = shards.chunk_by(|a, b| a + 1 == *b).flat_map(run);
            let runs: Vec<String> = runs.collect();
            runs.join(",")
        })
        .map(|row| if row.is_empty() { "none".into() } else { row })
        .collect();
    format!("rows {}", rows.join("; "))
}

fn run(shards: &[u64]) -> Vec<String> {
    match shards {
        [first, _, .., last] => vec![format!("{first}-{last}")],
        few => few.iter().map(u64::to_string).collect(),
    }
}

fn numbers(words: &[u64]) -> String {
    let shown: Vec<String> = words.iter().map(u64::to_string).collect();
    shown.join(", ")
}

/// Every list of numbers below these limits.
fn all(limits: &[u64]) -> Vec<Vec<u64>> {
    let mut all = vec![];
    each_of(limits, &mut |list| all.push(list.to_vec()));
    all
}

/// Every text of at most `most` of these bytes behind a head, the shorter ones first.
fn texts(head: &str, bytes: &[u8], most: usize) -> Vec<Text> {
    let limits = |len| vec![bytes.len() as u64; len];
    let lists = (1..=most).flat_map(|len| all(&limits(len)));
    let tail = |list: Vec<u64>| list.into_iter().map(|c| bytes[c as usize]).collect();
    let text = |tail: Vec<u8>| Text([head.as_bytes(), &tail].concat());
    lists.map(tail).map(text).collect()
}

fn above_population() -> Option<Run> {
    let case = |list: Vec<u64>| faults::Input {
        n: list[0] + 1,
        f: list[1],
        profile: Profile::NOTHING,
        room: 8,
    };
    let inputs = all(&[3, 5]).into_iter().map(case).collect();
    let (i, rust, port) = first::<FaultList>(inputs)?;
    Some(Run {
        input: format!("n {}, f {}, no profile", i.n, i.f),
        rust: if rust.fields == [0] {
            "no set".into()
        } else {
            said(&rust)
        },
        port: said(&port),
    })
}

fn rising_order() -> Option<Run> {
    let lists = |n: u64| (0..=2).flat_map(move |len| all(&vec![1 << n; len]));
    let cases = (1..=2).flat_map(|n| (0..n).map(move |f| (n, f)));
    let all = cases.flat_map(|(n, f)| lists(n).map(move |domains| (n, f, domains)));
    all.into_iter().find_map(|(n, f, domains)| {
        let given = Profile::NOTHING.with_domains(&domains);
        let rust = api::tolerance(n as u8, f as u8, &given.rust(n)?).ok()?;
        let mut list = [0; 8];
        let count = callboard::fault_list(n, f, &given.port(), &mut list).ok()?;
        (rust != list[..count]).then(|| Run {
            input: format!("n {n}, f {f}, domains with the masks {}", numbers(&domains)),
            rust: format!("masks {}", numbers(&rust)),
            port: format!("masks {}", numbers(&list[..count])),
        })
    })
}

fn first_reply() -> Option<Run> {
    (0..8).find_map(|shard| {
        let (row, width) = (row_of([shard]), shard as u8 + 1);
        let mut rust = api::Tally::open(1, 0, 1, &[0], 1, 0, 0).ok()?;
        let rust = rust.reply(0, 0, 0, width, row).ok()?;
        let mut port = callboard::Tally::open(1, 1, 1, 1, 0, 0, 0).ok()?;
        let Err(Refusal(number)) = port.accept_reply(0, 0, 0, 0, row, &[0]) else {
            return None;
        };
        Some(Run {
            input: format!(
                "a tally of n 1, quorum 1, d 1, w 1; the reply of replica 0 names shard {shard}"
            ),
            rust: format!("{rust:?}"),
            port: format!("refused {number}"),
        })
    })
}

fn floor_in_a_byte() -> Option<Run> {
    let case = |k: Vec<u64>| floor::Input {
        n: k[0] + 1,
        f: k[1],
        d: k[2] + 1,
        majority: k[3] + 1,
        alive: k[4],
    };
    let fits = |i: &floor::Input| Floor::refusal(i).is_ok();
    let inputs = all(&[3, 3, WIDEST, 3, 8]).into_iter().map(case);
    let (i, rust, port) = first::<Floor>(inputs.filter(fits).collect())?;
    Some(Run {
        input: format!(
            "n {}, f {}, d {}, majority {}, {} alive",
            i.n,
            i.f,
            i.d,
            i.majority,
            alive(i.n, i.alive)
        ),
        rust: said(&rust),
        port: said(&port),
    })
}

/// Those of a mask, in words where there is one.
fn alive(n: u64, mask: u64) -> String {
    match (n, mask) {
        (_, 0) => "nobody".into(),
        (2, 3) => "both".into(),
        _ => format!("{mask:b}"),
    }
}

/// A choice of the policy.
fn chosen(answer: &Answer) -> String {
    match answer.fields[..] {
        [0, _] => "the initial layout".into(),
        [_, count] => format!("{count} a replica"),
        _ => said(answer),
    }
}

/// A balanced policy of n replicas with this model, whose initial layout has no shard.
fn balanced(n: u64, d: u64, majority: u64, model: [f64; 3]) -> policy::Input {
    let rows = n * (d - d / majority + 1);
    policy::Input {
        n,
        d,
        w: d,
        majority,
        models: vec![model; n as usize],
        inflight: vec![0; n as usize],
        init: vec![0; row_words(n)],
        table: vec![0; row_words(rows)],
        room: row_words(n),
        ..policy::nan_below()
    }
}

fn policy_in_a_byte() -> Option<Run> {
    let case = |k: Vec<u64>| policy::Input {
        f: k[1],
        alive: k[4],
        adaptive: k[5] == 1,
        ..balanced(k[0] + 1, k[2] + 1, k[3] + 1, [0.0; 3])
    };
    let fits = |i: &policy::Input| Choice::refusal(i).is_ok();
    let inputs = all(&[2, 2, WIDEST, 2, 4, 2]).into_iter().map(case);
    let (i, rust, port) = first::<Choice>(inputs.filter(fits).collect())?;
    Some(Run {
        input: format!(
            "n {}, own {}, f {}, d {}, w {}, majority {}, {} alive, balanced and {}adaptive, no \
             shard in the initial layout",
            i.n,
            i.own,
            i.f,
            i.d,
            i.w,
            i.majority,
            alive(i.n, i.alive),
            if i.adaptive { "" } else { "not " }
        ),
        rust: chosen(&rust),
        port: chosen(&port),
    })
}

/// The first number to show it is d: a smaller one shows it with as many data shards.
fn run_in_a_byte() -> Option<Run> {
    let case = |k: Vec<u64>| init::Input {
        n: k[0] + 1,
        d: k[1] + 1,
        total: k[2] + 1,
        text: (k[1] + 1).to_string().as_str().into(),
        room: row_words(k[0] + 1),
    };
    let fits = |i: &init::Input| LayoutText::refusal(i).is_ok();
    let inputs = all(&[2, WIDEST, WIDEST]).into_iter().map(case);
    let (i, rust, port) = first::<LayoutText>(inputs.filter(fits).collect())?;
    Some(Run {
        input: format!(
            "n {}, d {}, total {}, {}",
            i.n,
            i.d,
            i.total,
            quoted(&i.text)
        ),
        rust: rows(&rust.lent),
        port: rows(&port.lent),
    })
}

fn nan_below() -> Option<Run> {
    let case = |k: Vec<u64>| policy::Input {
        f: k[1],
        own: k[2],
        alive: k[5],
        ..balanced(k[0] + 1, k[3] + 1, k[4] + 1, [-f64::NAN, 0.0, 0.0])
    };
    let fits = |i: &policy::Input| Choice::refusal(i).is_ok();
    let inputs = all(&[2, 2, 2, 2, 2, 4]).into_iter().map(case).filter(fits);
    let (i, rust, port) = first::<Choice>(inputs.collect())?;
    Some(Run {
        input: format!(
            "n {}, own {}, f {}, d {}, majority {}, {} alive, adaptive and balanced, the peer's \
             slope a NaN with its sign set",
            i.n,
            i.own,
            i.f,
            i.d,
            i.majority,
            alive(i.n, i.alive)
        ),
        rust: chosen(&rust),
        port: chosen(&port),
    })
}

fn infinity() -> Option<Run> {
    let letters: Vec<u8> = (b'a'..=b'z').collect();
    texts("probs:", &letters, 3).into_iter().find_map(|text| {
        let input = profile::Input { n: 1, text };
        let Some(Err(Fail::Err(why))) = ProfileText::rust(&input) else {
            return None;
        };
        why.contains("invalid failure probabilities").then(|| Run {
            input: format!("n 1, {}", quoted(&input.text)),
            rust: format!("an error: {why}"),
            port: said(&ProfileText::port(&input)),
        })
    })
}

fn zeros() -> Option<Run> {
    let runtime = Profile {
        runtime: 1,
        ..Profile::NOTHING
    };
    let profiles = [
        ("runtime", runtime.clone()),
        ("probs:0;runtime", runtime.clone().with_probs(&[0.0], 1e-3)),
        ("probs:-0;runtime", runtime.with_probs(&[-0.0], 1e-3)),
    ];
    profiles.into_iter().find_map(|(text, profile)| {
        let case = |down| unreliability::Input {
            n: 1,
            peer: 0,
            profile: profile.clone(),
            down,
        };
        let (i, rust, port) = first::<Unreliability>(vec![case(0.0), case(-0.0)])?;
        let zero = |answer: &Answer| f64::from_bits(answer.fields[0]).to_string();
        Some(Run {
            input: format!("n 1, peer 0, profile `{text}`, downtime {}", i.down),
            rust: zero(&rust),
            port: zero(&port),
        })
    })
}

fn digit_rule() -> Option<Run> {
    first_text(texts("probs:", b"0123456789e.+-", 4), quoted)
}

fn high_byte() -> Option<Run> {
    let bytes: Vec<u8> = (0..=255).collect();
    first_text(texts("", &bytes, 2), |text| {
        let bytes: Vec<u64> = text.0.iter().map(|&b| b.into()).collect();
        let bytes = numbers(&bytes);
        format!("the profile's text of the bytes {bytes} (a blank to the Rust)")
    })
}

fn long_text() -> Option<Run> {
    let blanks = (4090..=4100).map(|len| Text(vec![b' '; len]));
    first_text(blanks.collect(), |text| {
        format!("the profile's text of {} blanks", thousands(text.0.len()))
    })
}

fn long_layout_text() -> Option<Run> {
    let case = |len: usize| init::Input {
        n: 1,
        d: 1,
        total: 1,
        text: format!("{:0>len$}", 1).as_str().into(),
        room: 4,
    };
    let inputs = (16_380..=16_390).map(case).collect();
    let (i, rust, port) = first::<LayoutText>(inputs)?;
    Some(Run {
        input: format!(
            "n {}, d {}, total {}, `1` with zeros before it, {} bytes",
            i.n,
            i.d,
            i.total,
            thousands(i.text.0.len())
        ),
        rust: rows(&rust.lent),
        port: said(&port),
    })
}

fn domain_65() -> Option<Run> {
    let sets = (1..=70).map(|sets| format!("domains:{}", vec!["0"; sets].join("/")));
    let texts = sets.map(|text| text.as_str().into());
    first_text(texts.collect(), |text| {
        let sets = text.0.split(|&b| b == b'/').count();
        format!("`domains:0/0/..` with {sets} sets")
    })
}

fn no_multiple() -> Option<Run> {
    let case = |k: Vec<u64>| init::Input {
        n: k[0] + 1,
        d: k[1] + 1,
        total: k[2] + 1,
        text: "".into(),
        room: row_words(k[0] + 1),
    };
    let fits = |i: &init::Input| i.d <= i.total;
    let inputs = all(&[3, 3, 3]).into_iter().map(case).filter(fits);
    let (i, rust, port) = first::<LayoutText>(inputs.collect())?;
    Some(Run {
        input: format!("n {}, d {}, total {}, the empty text", i.n, i.d, i.total),
        rust: rows(&rust.lent),
        port: said(&port),
    })
}

fn main() -> Result<(), Box<dyn Error>> {
    api::quiet();
    println!("| difference | smallest input | the Rust | the port |");
    println!("|---|---|---|---|");
    for row in ROWS {
        let run = (row.run)().ok_or(format!("no input shows it: {}", row.what))?;
        println!(
            "| {} | {} | {} | {} |",
            row.what, run.input, run.rust, run.port
        );
        let listed = [row.input, row.rust, row.port];
        if [run.input, run.rust, run.port] != listed {
            return Err(format!("listed is {listed:?}").into());
        }
    }
    Ok(())
}
