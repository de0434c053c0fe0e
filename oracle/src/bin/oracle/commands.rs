//! One function a command. The comment of each has the words that follow its name.

use oracle::api::{self, Tally};

use crate::answers::{float, line, masks, profile, rows, rows_heard};
use crate::words::{self, Read, Words, number, optional, peer};

/// Answers a request. `tally` is the one opened last.
pub fn answer(request: &str, tally: &mut Option<Tally>) -> Read<String> {
    let words = &mut Words::new(request);
    match words.word()? {
        "mode" => Ok(mode()),
        "edits" => Ok(edits()),
        "profile" => parse_profile(words),
        "unreliability" => unreliability(words),
        "tolerance" => tolerance(words),
        "covers" => covers(words),
        "survived" => survived(words),
        "layout" => layout(words),
        "commits" => commits(words),
        "plan" => plan(words),
        "planwhole" => plan_whole(words),
        "predict" => predict(words),
        "full" => full(words),
        "floor" => floor(words),
        "policy" => policy(words),
        "init" => init(words),
        "gossip" => gossip(words),
        "open" => open(words, tally),
        "reply" => reply(words, tally),
        other => Err(format!("command {other}")),
    }
}

fn mode() -> String {
    let mode = if api::debug_build() {
        "debug"
    } else {
        "release"
    };
    format!("ok {mode}")
}

/// The edits on one line, `\n` between them.
fn edits() -> String {
    format!("ok {}", api::edits().trim_end().escape_default())
}

/// N TEXT
fn parse_profile(w: &mut Words) -> Read<String> {
    let (n, text) = (w.number()?, w.text()?);
    Ok(line(api::parse_profile(n, &text), |p| profile(&p)))
}

/// N TEXT PEER DOWN
fn unreliability(w: &mut Words) -> Read<String> {
    let (n, text, peer, down) = (w.number()?, w.text()?, w.number()?, w.float()?);
    let profile = api::parse_profile(n, &text);
    let answer = profile.and_then(|profile| api::unreliability(n, &profile, peer, down));
    Ok(line(answer, float))
}

/// N F TEXT; the sets in rising order
fn tolerance(w: &mut Words) -> Read<String> {
    let (n, f, text) = (w.number()?, w.number()?, w.text()?);
    let profile = api::parse_profile(n, &text);
    let answer = profile.and_then(|profile| api::tolerance(n, f, &profile));
    Ok(line(answer, |mut sets| {
        sets.sort_unstable();
        masks(&sets)
    }))
}

/// N MASKS W ROWS D; the row `_` for a replica that is not heard
fn covers(w: &mut Words) -> Read<String> {
    let (n, masks, width) = (w.number()?, w.masks()?, w.number()?);
    let (acks, d) = (w.list(|row| optional(row, words::row))?, w.number()?);
    let answer = api::covers(n, &masks, width, &acks, d);
    Ok(line(answer, |yes| yes.to_string()))
}

/// N MASKS HEARD
fn survived(w: &mut Words) -> Read<String> {
    let (n, masks, heard) = (w.number()?, w.masks()?, w.mask()?);
    let answer = api::survived_by(n, &masks, heard);
    Ok(line(answer, |yes| yes.to_string()))
}

/// D LOADS TOTAL
fn layout(w: &mut Words) -> Read<String> {
    let (d, loads, total) = (w.number()?, w.list(number)?, w.total()?);
    let answer = api::layout_rows(d, &loads, total);
    Ok(line(answer, |(w, r)| format!("{w} {}", rows(&r))))
}

/// N MASKS QUORUM D LOADS TOTAL; the load `_` for a replica that does not answer
fn commits(w: &mut Words) -> Read<String> {
    let (n, masks, quorum, d) = (w.number()?, w.masks()?, w.number()?, w.number()?);
    let (loads, total) = (w.list(|load| optional(load, number))?, w.total()?);
    let answer = api::layout_commits(n, &masks, quorum, d, &loads, total);
    Ok(line(answer, |(w, r, ok)| format!("{w} {} {ok}", rows(&r))))
}

/// ME N MASKS QUORUM PEERS PENALTY SIZE D TOTAL; `_` if there is no plan
fn plan(w: &mut Words) -> Read<String> {
    let (me, n, masks, quorum) = (w.number()?, w.number()?, w.masks()?, w.number()?);
    let (peers, penalty, size) = (w.list(peer)?, w.float()?, w.number()?);
    let (d, total) = (w.number()?, w.total()?);
    let answer = api::plan(me, n, &masks, quorum, &peers, penalty, size, d, total);
    Ok(line(answer, |plan| match plan {
        Some(plan) => format!("{} {} {}", float(plan.time), plan.w, rows(&plan.rows)),
        None => "_".to_string(),
    }))
}

/// ME N MASKS QUORUM PEERS TEXT MILLIS SIZE D TOTAL
fn plan_whole(w: &mut Words) -> Read<String> {
    let (me, n, masks, quorum) = (w.number()?, w.number()?, w.masks()?, w.number()?);
    let (peers, text, millis, size) = (w.list(peer)?, w.text()?, w.number()?, w.number()?);
    let (d, total) = (w.number()?, w.total()?);
    let answer = api::parse_profile(n, &text).and_then(|profile| {
        api::plan_whole(
            me, n, &masks, quorum, &peers, &profile, millis, size, d, total,
        )
    });
    Ok(line(answer, |(d, w, r)| format!("{d} {w} {}", rows(&r))))
}

/// SLOPE DELAY JITTER X
fn predict(w: &mut Words) -> Read<String> {
    let (slope, delay, jitter, x) = (w.float()?, w.float()?, w.float()?, w.number()?);
    Ok(line(Ok(api::predict(slope, delay, jitter, x)), float))
}

/// N D TOTAL
fn full(w: &mut Words) -> Read<String> {
    let (n, d, total) = (w.number()?, w.number()?, w.total()?);
    let answer = api::full_copies(n, d, total);
    Ok(line(answer, |(w, r)| format!("{w} {}", rows(&r))))
}

/// D MAJORITY F ALIVE; ALIVE is a count
fn floor(w: &mut Words) -> Read<String> {
    let (d, majority, f, alive) = (w.number()?, w.number()?, w.number()?, w.number()?);
    let answer = api::min_shards_per_replica(d, majority, f, alive);
    Ok(line(answer, |floor| floor.to_string()))
}

/// ADAPTIVE BALANCED W INIT TABLE D MAJORITY F SIZE PEERS THRESHOLD N ALIVE; the peer `_` has no
/// model, and what a peer says of unreliability is unread
fn policy(w: &mut Words) -> Read<String> {
    let (adaptive, balanced, width) = (w.flag()?, w.flag()?, w.number()?);
    let (init, table) = (w.list(words::row)?, w.table()?);
    let (d, majority, f, size) = (w.number()?, w.number()?, w.number()?, w.number()?);
    let peers = w.list(|word| optional(word, peer))?;
    let (threshold, n, alive) = (w.float()?, w.number()?, w.mask()?);
    let models: Vec<api::Model> = (0..)
        .zip(peers)
        .filter_map(|(number, peer)| {
            let peer = peer?;
            let model = [peer.slope, peer.delay, peer.jitter];
            Some((number, model, peer.inflight))
        })
        .collect();
    let answer = api::policy(
        adaptive, balanced, width, &init, &table, d, majority, f, size, &models, threshold, None,
        n, alive,
    );
    Ok(line(answer, |r| rows(&r)))
}

/// N TOTAL D TEXT
fn init(w: &mut Words) -> Read<String> {
    let (n, total, d, text) = (w.number()?, w.number()?, w.number()?, w.text()?);
    let answer = api::parse_init_assignment(n, total, d, &text);
    Ok(line(answer, |r| rows(&r)))
}

/// ME N D SOURCE W AVAILABLE ROWS ALIVE; SOURCE may be `_`. For each replica the shards to leave
/// out, `_` for one that is not asked
fn gossip(w: &mut Words) -> Read<String> {
    let (me, n, d) = (w.number()?, w.number()?, w.number()?);
    let (source, width) = (optional(w.word()?, number)?, w.number()?);
    let (available, rows, alive) = (w.row()?, w.list(words::row)?, w.mask()?);
    let answer = api::gossip(me, n, d, source, width, available, &rows, alive);
    Ok(line(answer, |r| rows_heard(&r)))
}

/// N ME MAJORITY MASKS D BALLOT VALUE
fn open(w: &mut Words, tally: &mut Option<Tally>) -> Read<String> {
    let (n, me, majority, masks) = (w.number()?, w.number()?, w.number()?, w.masks()?);
    let (d, ballot, value) = (w.number()?, w.number()?, w.number()?);
    let opened = Tally::open(n, me, majority, &masks, d, ballot, value);
    Ok(line(opened, |opened| {
        *tally = Some(opened);
        String::new()
    }))
}

/// PEER BALLOT VALUE W ROW; what became of the reply, whether the tally has committed, and the
/// rows heard
fn reply(w: &mut Words, tally: &mut Option<Tally>) -> Read<String> {
    let (peer, ballot, value) = (w.number()?, w.number()?, w.number()?);
    let (width, shards) = (w.number()?, w.row()?);
    let tally = tally.as_mut().ok_or("no tally")?;
    let reply = tally.reply(peer, ballot, value, width, shards);
    Ok(line(reply, |reply| {
        let acks = rows_heard(&tally.acks());
        format!("{reply:?} {} {acks}", tally.committed())
    }))
}
