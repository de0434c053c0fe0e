//! The refusals of document 01 as request M-110 has changed them, written from the papers and not
//! from the port.
//!
//! The first part has the single checks, each under the sentence that it comes from; the second has
//! the entries, each the list of its checks in the order in which they run. The first check that
//! fails gives the number. Where the papers leave something open, docs/DECISIONS.md is cited.

use crate::entries::{
    covers, faults, floor, full, gossip, init, layout, plan, policy, profile, survived, tally,
    unreliability,
};
use crate::parts::Profile;

/// Nothing, or the number that refuses.
pub type Checked = Result<(), u64>;

fn refuse(number: u64, when: bool) -> Checked {
    if when { Err(number) } else { Ok(()) }
}

// Numbers.

/// "Population n: 1 to 16."
fn population(n: u64) -> Checked {
    refuse(1, !(1..=16).contains(&n))
}

/// "Fault tolerance: 0 to n-1."
fn tolerance(n: u64, f: u64) -> Checked {
    refuse(2, f >= n)
}

/// "3 own, peer or source number not below n"
fn replica(n: u64, number: u64) -> Checked {
    refuse(3, number >= n)
}

/// "Data shards d: 1 to [..]. Width w, or its ceiling: d to [..]." "Raise d and w to 255."
fn shards(d: u64, w: u64) -> Checked {
    refuse(4, !(1..=255).contains(&d) || !(d..=255).contains(&w))
}

/// "Quorum and majority: 1 to n."
fn quorum(n: u64, q: u64) -> Checked {
    refuse(5, !(1..=n).contains(&q))
}

/// "14 [..] d no multiple of the majority (balanced policy)"
fn shares(d: u64, majority: u64) -> Checked {
    refuse(14, !d.is_multiple_of(majority))
}

/// "Value size: at most 2^30 bytes; bytes in flight to a peer: at most 2^40." Our own record and
/// those at or above n are unread (DECISIONS, point 2).
fn bytes(n: u64, own: u64, size: u64, inflight: &[u64]) -> Checked {
    let overfull = |(p, &b): (u64, &u64)| p < n && p != own && b > 1 << 40;
    refuse(15, size > 1 << 30 || (0..).zip(inflight).any(overfull))
}

// Masks, rows and tables.

/// "16 [..] an alive or heard mask with a bit at or above n"
fn mask(n: u64, mask: u64) -> Checked {
    refuse(16, mask >> n != 0)
}

/// "16 a row or reply with a shard at or above the width". "Rows become four 64-bit words [..],
/// lowest shards first". Every row of a lent table counts, whatever the table's length, and a last
/// one that is not whole has the words that are there (DECISIONS, point 1).
fn rows(w: u64, words: &[u64]) -> Checked {
    let highest = |(at, word): (u64, &u64)| Some(at % 4 * 64 + u64::from(word.checked_ilog2()?));
    let mut highest = (0..).zip(words).filter_map(highest);
    refuse(16, highest.any(|shard| shard >= w))
}

/// "17 a lent table of the wrong length"
fn length(len: usize, right: u64) -> Checked {
    refuse(17, len as u64 != right)
}

/// "lent row tables have four words a row"
fn row_words(len: usize, rows: u64) -> Checked {
    length(len, 4 * rows)
}

/// "The table has n rows for each whole count, rising, from d / majority to d, or is empty".
fn table(n: u64, d: u64, majority: u64, len: usize) -> Checked {
    match len {
        0 => Ok(()),
        len => row_words(len, n * (d - d / majority + 1)),
    }
}

/// "17 [..] a fault list that is empty, or has a mask naming all n replicas or one at or above n"
fn fault_list(n: u64, faults: &[u64]) -> Checked {
    let all = (1 << n) - 1;
    let wrong = |m: &u64| m & all == all || m >> n != 0;
    refuse(17, faults.is_empty() || faults.iter().any(wrong))
}

// Texts.

/// "Texts: at most 4,096 bytes, all below 128." "Layout texts may now have 16,384 bytes".
fn text(text: &[u8], most: usize) -> Checked {
    refuse(6, text.len() > most || !text.is_ascii())
}

/// "trimmed (bytes 9 to 13 and 32)"
fn trim(mut text: &[u8]) -> &[u8] {
    let blank = |b: &u8| matches!(b, 9..=13 | 32);
    while text.first().is_some_and(blank) {
        text = &text[1..];
    }
    while text.last().is_some_and(blank) {
        text = &text[..text.len() - 1];
    }
    text
}

/// What stands before the first `at` and what follows it, nothing if there is none.
fn cut(text: &[u8], at: u8) -> (&[u8], &[u8]) {
    match text.iter().position(|&b| b == at) {
        Some(i) => (&text[..i], &text[i + 1..]),
        None => (text, &[]),
    }
}

/// "A whole number is an optional `+` and one or more digits." "7 malformed numeral, or a whole
/// number above 255"
fn whole(text: &[u8]) -> Result<u64, u64> {
    let digits = text.strip_prefix(b"+").unwrap_or(text);
    if digits.is_empty() || !digits.iter().all(u8::is_ascii_digit) {
        return Err(7);
    }
    let value = digits.iter().fold(0u64, |value, digit| {
        value
            .saturating_mul(10)
            .saturating_add((digit - b'0').into())
    });
    if value > 255 { Err(7) } else { Ok(value) }
}

/// "9 replica or shard number in a text or profile outside its range"
fn member(text: &[u8], limit: u64) -> Checked {
    refuse(9, whole(text)? >= limit)
}

/// "A decimal is an optional sign, digits with at most one point (at least one digit), optionally
/// `e` or `E`, optional sign, one or more digits." "8 well-formed decimal beyond the digit rule";
/// 7 comes first (DECISIONS, point 13). "Its value is the nearest double, ties to even".
fn decimal(text: &[u8]) -> Result<f64, u64> {
    let (number, exponent) = match text.iter().position(|b| matches!(b, b'e' | b'E')) {
        Some(at) => (&text[..at], Some(&text[at + 1..])),
        None => (text, None),
    };
    let (before, after) = cut(unsigned(number), b'.');
    let digits = before.len() + after.len();
    let exponent_digits = exponent.map(unsigned);
    if digits == 0
        || !before.iter().chain(after).all(u8::is_ascii_digit)
        || exponent_digits.is_some_and(|e| e.is_empty() || !e.iter().all(u8::is_ascii_digit))
    {
        return Err(7);
    }
    digit_rule(digits, after.len(), exponent.unwrap_or(b"0"))?;
    let text = str::from_utf8(text).expect("digits are text");
    Ok(text.parse().expect("a decimal is a float of the Rust too"))
}

fn unsigned(text: &[u8]) -> &[u8] {
    text.strip_prefix(b"+")
        .or(text.strip_prefix(b"-"))
        .unwrap_or(text)
}

/// "Its digits before the exponent, counted as written, number at most 15; exponent digits at most
/// 4; the power of ten left after moving the point lies in -22 to 22."
fn digit_rule(digits: usize, after_point: usize, exponent: &[u8]) -> Checked {
    refuse(8, digits > 15 || unsigned(exponent).len() > 4)?;
    let exponent: i64 = str::from_utf8(exponent).unwrap().parse().unwrap();
    refuse(8, !(-22..=22).contains(&(exponent - after_point as i64)))
}

/// "Mechanisms split at `;` and are trimmed (bytes 9 to 13 and 32); empty ones and `none` are
/// skipped. The name ends at the first `:` and is trimmed." "repeated mechanisms add up"
fn profile_text(n: u64, text: &[u8]) -> Checked {
    let mut domains = 0;
    for mechanism in text.split(|&b| b == b';').map(trim) {
        if mechanism.is_empty() || mechanism == b"none" {
            continue;
        }
        let (name, rest) = cut(mechanism, b':');
        match trim(name) {
            b"domains" => domain_sets(n, rest, &mut domains)?,
            b"probs" => probs(n, rest)?,
            // "`runtime` ignores what follows its colon."
            b"runtime" => {}
            // "10 unknown mechanism"
            _ => return Err(10),
        }
    }
    Ok(())
}

/// "`domains` lists sets split by `/`, members by `,`". "12 a 65th domain, before its members"
fn domain_sets(n: u64, text: &[u8], count: &mut u64) -> Checked {
    for set in text.split(|&b| b == b'/') {
        refuse(12, *count == 64)?;
        *count += 1;
        for part in set.split(|&b| b == b',') {
            member(trim(part), n)?;
        }
    }
    Ok(())
}

/// "`probs` lists n decimals and, after the first `@`, a threshold; blank means 1e-3". "In `probs`,
/// 7 and 8 go left to right, threshold included, before 11."
fn probs(n: u64, text: &[u8]) -> Checked {
    let (list, threshold) = cut(text, b'@');
    let mut given = vec![];
    for part in list.split(|&b| b == b',') {
        given.push(decimal(trim(part))?);
    }
    let threshold = match trim(threshold) {
        b"" => 1e-3,
        text => decimal(text)?,
    };
    chances(n, &given, threshold)
}

/// "11 probabilities: count other than n, one outside 0 to 1, or threshold not above 0 and at most
/// 1."
fn chances(n: u64, given: &[f64], threshold: f64) -> Checked {
    refuse(
        11,
        given.len() as u64 != n
            || !given.iter().all(|p| (0.0..=1.0).contains(p))
            || !(threshold > 0.0 && threshold <= 1.0),
    )
}

/// "Empty: equal runs. A number from total / n, rounded down, to d [..] Else segments
/// `replica:shard,shard` joined by `/`". "13 layout text that is neither a fitting number nor
/// segments with colons"
fn layout_text(n: u64, d: u64, total: u64, text: &[u8]) -> Checked {
    let fits = |count| (total / n..=d).contains(&count);
    if text.is_empty() || whole(text).is_ok_and(fits) {
        return Ok(());
    }
    for segment in text.split(|&b| b == b'/') {
        refuse(13, !segment.contains(&b':'))?;
        let (replica, list) = cut(segment, b':');
        member(replica, n)?;
        for shard in list.split(|&b| b == b',') {
            member(shard, total)?;
        }
    }
    Ok(())
}

// Profiles handed in, and the failures that they give.

/// "a profile or tally handed in is checked too", in rising order (DECISIONS, point 3).
fn given_profile(n: u64, p: &Profile) -> Checked {
    let counted = p.domain_count.min(64) as usize;
    refuse(9, p.domains[..counted].iter().any(|m| m >> n != 0))?;
    if p.prob_count != 0 {
        refuse(11, p.prob_count != n)?;
        chances(n, &p.probs[..n as usize], p.threshold)?;
    }
    refuse(12, p.domain_count > 64)
}

/// "The family is all sets of exactly f replicas, the domains, and the probable sets.", as a mark
/// for each mask. The profile has been checked.
#[must_use]
pub fn family(n: u64, f: u64, p: &Profile) -> Vec<bool> {
    let product = products(n, p);
    (0..1usize << n)
        .map(|m| {
            u64::from(m.count_ones()) == f
                || p.domains[..p.domain_count as usize].contains(&(m as u64))
                || (m != 0 && p.prob_count != 0 && product[m] >= p.threshold)
        })
        .collect()
}

/// "1.0 times its members' probabilities in rising order, rounded at each step", for each mask.
fn products(n: u64, p: &Profile) -> Vec<f64> {
    let mut product = vec![1.0; 1 << n];
    for m in 1..product.len() {
        let last = m.ilog2();
        product[m] = product[m ^ (1 << last)] * p.probs[last as usize];
    }
    product
}

/// "The list holds each set with no proper superset in the family, once, as masks in rising order".
#[must_use]
pub fn maximal(n: u64, f: u64, p: &Profile) -> Vec<u64> {
    let family = family(n, f, p);
    // Whether a proper superset is in the family, from the largest masks down.
    let mut under = vec![false; 1 << n];
    for m in (0..1usize << n).rev() {
        let mut larger = (0..n).map(|b| m | 1 << b).filter(|&k| k != m);
        under[m] = larger.any(|k| family[k] || under[k]);
    }
    (0..1usize << n)
        .filter(|&m| family[m] && !under[m])
        .map(|m| m as u64)
        .collect()
}

// The entries.

pub fn profile(i: &profile::Input) -> Checked {
    population(i.n)?;
    text(&i.text.0, 4096)?;
    profile_text(i.n, &i.text.0)
}

pub fn unreliability(i: &unreliability::Input) -> Checked {
    population(i.n)?;
    replica(i.n, i.peer)?;
    given_profile(i.n, &i.profile)
}

pub fn faults(i: &faults::Input) -> Checked {
    population(i.n)?;
    tolerance(i.n, i.f)?;
    given_profile(i.n, &i.profile)?;
    let list = maximal(i.n, i.f, &i.profile);
    // "21 the profile and the tolerance give a set that contains every replica"
    refuse(21, list == [(1 << i.n) - 1])?;
    // "22 more maximal sets than words in the lent list"
    refuse(22, list.len() > i.room)
}

pub fn covers(i: &covers::Input) -> Checked {
    population(i.n)?;
    shards(i.d, i.w)?;
    mask(i.n, i.heard)?;
    rows(i.w, &i.rows)?;
    row_words(i.rows.len(), i.n)?;
    fault_list(i.n, &i.faults)
}

pub fn survived(i: &survived::Input) -> Checked {
    population(i.n)?;
    mask(i.n, i.heard)?;
    fault_list(i.n, &i.faults)
}

pub fn layout_rows(i: &layout::RowsInput) -> Checked {
    population(i.n)?;
    shards(i.d, i.total.width)?;
    length(i.loads.len(), i.n)?;
    row_words(i.room, i.n)
}

pub fn layout_commits(i: &layout::CommitsInput) -> Checked {
    population(i.n)?;
    shards(i.d, i.total.width)?;
    quorum(i.n, i.quorum)?;
    mask(i.n, i.answered)?;
    length(i.loads.len(), i.n)?;
    row_words(i.room, i.n)?;
    fault_list(i.n, &i.faults)
}

/// 24 is missing: "a trimmed plan that no longer commits" cannot be, since trimming keeps only what
/// has just committed. A 24 from the port is a disagreement.
pub fn plan(i: &plan::Input) -> Checked {
    population(i.n)?;
    replica(i.n, i.own)?;
    shards(i.d, i.total.width)?;
    quorum(i.n, i.quorum)?;
    bytes(i.n, i.own, i.size, &i.inflight)?;
    // After 15 and before 17 (DECISIONS, point 12).
    mask(i.n, i.heard)?;
    length(i.models.len(), i.n)?;
    length(i.inflight.len(), i.n)?;
    row_words(i.room, i.n)?;
    fault_list(i.n, &i.faults)
}

pub fn full_copies(i: &full::Input) -> Checked {
    population(i.n)?;
    shards(i.d, i.total.width)?;
    row_words(i.room, i.n)
}

/// The floor has no width: "Data shards d: 1 to [..]" alone is its 4.
pub fn floor(i: &floor::Input) -> Checked {
    population(i.n)?;
    tolerance(i.n, i.f)?;
    shards(i.d, i.d)?;
    quorum(i.n, i.majority)?;
    shares(i.d, i.majority)?;
    mask(i.n, i.alive)
}

pub fn policy(i: &policy::Input) -> Checked {
    population(i.n)?;
    tolerance(i.n, i.f)?;
    replica(i.n, i.own)?;
    shards(i.d, i.w)?;
    quorum(i.n, i.majority)?;
    shares(i.d, i.majority)?;
    bytes(i.n, i.own, i.size, &i.inflight)?;
    mask(i.n, i.alive)?;
    rows(i.w, &i.init)?;
    rows(i.w, &i.table)?;
    row_words(i.init.len(), i.n)?;
    table(i.n, i.d, i.majority, i.table.len())?;
    length(i.models.len(), i.n)?;
    length(i.inflight.len(), i.n)
}

pub fn policy_rows(i: &policy::Input) -> Checked {
    policy(i)?;
    row_words(i.room, i.n)
}

/// "Faults of a text come after 1 to 5 and before 14 and 17" (DECISIONS, point 5).
pub fn init(i: &init::Input) -> Checked {
    population(i.n)?;
    shards(i.d, i.total)?;
    text(&i.text.0, 16_384)?;
    layout_text(i.n, i.d, i.total, &i.text.0)?;
    // "14 total shards no multiple of n (layout text)"
    refuse(14, !i.total.is_multiple_of(i.n))?;
    row_words(i.room, i.n)
}

pub fn gossip(i: &gossip::Input) -> Checked {
    population(i.n)?;
    replica(i.n, i.own)?;
    replica(i.n, i.source)?;
    shards(i.d, i.w)?;
    rows(i.w, &i.available)?;
    rows(i.w, &i.rows)?;
    mask(i.n, i.alive)?;
    row_words(i.rows.len(), i.n)?;
    row_words(i.room, i.n)
}

pub fn open(i: &tally::Opening) -> Checked {
    population(i.n)?;
    shards(i.d, i.w)?;
    quorum(i.n, i.quorum)
}

/// "a profile or tally handed in is checked too", like the opening's values; 16 covers its heard
/// mask, its rows below n and the reply's row together (DECISIONS, point 4).
pub fn reply(t: &tally::State, r: &tally::Reply) -> Checked {
    let o = &t.opening;
    population(o.n)?;
    replica(o.n, r.source)?;
    shards(o.d, o.w)?;
    quorum(o.n, o.quorum)?;
    mask(o.n, t.heard)?;
    rows(o.w, t.rows[..o.n as usize].as_flattened())?;
    rows(o.w, &r.row)?;
    fault_list(o.n, &r.faults)?;
    // "23 a reply whose ballot or value id differs from the tally's"
    let told = (r.ballot, r.high, r.low);
    refuse(23, told != (o.ballot, o.high, o.low))
}
