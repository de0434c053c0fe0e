//! The tally of accept replies: whole sequences of replies, and a tally that is handed in.

use oracle::api::{self, Fail};

use crate::document::{self, Checked};
use crate::entry::{Answer, Asked, Entry, Outcome, Side, Told};
use crate::line::Line;
use crate::parts::{
    Row, STARTS, WIDEST, above, damage_faults, each_of, fault_lists, faults, has, population,
    proper, row, row_above, row_at, row_words, set, shards, union,
};
use crate::rng::Rng;

/// An opening, and then replies, each compared.
pub struct Replies;
/// Any tally with one reply.
pub struct HandedIn;

#[derive(Debug, Clone)]
pub struct Opening {
    pub n: u64,
    pub quorum: u64,
    pub d: u64,
    pub w: u64,
    pub ballot: u64,
    pub high: u64,
    pub low: u64,
}

#[derive(Debug, Clone)]
pub struct Reply {
    pub source: u64,
    pub ballot: u64,
    pub high: u64,
    pub low: u64,
    pub row: Row,
    pub faults: Vec<u64>,
}

#[derive(Debug, Clone)]
pub struct Input {
    pub opening: Opening,
    pub replies: Vec<Reply>,
}

/// A tally.
#[derive(Debug, Clone)]
pub struct State {
    pub opening: Opening,
    pub heard: u64,
    pub committed: u64,
    pub rows: [Row; 16],
}

#[derive(Debug, Clone)]
pub struct StateInput {
    pub state: State,
    pub reply: Reply,
}

/// The answers by their number in C.
const STATUS: [&str; 3] = ["waiting", "committed", "already committed"];

fn value_id(high: u64, low: u64) -> u128 {
    u128::from(high) << 64 | u128::from(low)
}

impl Opening {
    fn words(&self) -> [u64; 7] {
        [
            self.n,
            self.quorum,
            self.d,
            self.w,
            self.ballot,
            self.high,
            self.low,
        ]
    }
}

impl State {
    fn open(opening: &Opening) -> State {
        State {
            opening: opening.clone(),
            heard: 0,
            committed: 0,
            rows: [[0; 4]; 16],
        }
    }

    /// The rows of those heard, as the Rust holds them.
    fn acks(&self) -> Vec<Option<Row>> {
        let ack = |p| has(self.heard, p).then_some(self.rows[p as usize]);
        (0..self.opening.n).map(ack).collect()
    }

    /// An unrefused reply by the rule that it commits at: "A first reply replaces the row of one
    /// not heard, later ones unite." Coverage is the Rust's.
    fn hear(&mut self, r: &Reply) -> Result<u64, Fail> {
        if self.committed != 0 {
            return Ok(2);
        }
        let held = &mut self.rows[r.source as usize];
        *held = if has(self.heard, r.source) {
            union(r.row, *held)
        } else {
            r.row
        };
        self.heard |= 1 << r.source;
        let o = &self.opening;
        let covered = api::covers(o.n as u8, &r.faults, o.w as u8, &self.acks(), o.d as u8)?;
        let quorum = u64::from(self.heard.count_ones()) >= o.quorum;
        self.committed = (quorum && covered).into();
        Ok(self.committed)
    }

    /// A reply by the Rust's own handler, which keeps one fault list from the opening on.
    fn handle(&mut self, tally: &mut api::Tally, r: &Reply) -> Result<u64, Fail> {
        let (source, w) = (r.source as u8, self.opening.w as u8);
        let id = value_id(r.high, r.low);
        let status = match tally.reply(source, r.ballot, id, w, r.row)? {
            api::Reply::Pending => 0,
            api::Reply::Committed => 1,
            api::Reply::Ignored => 2,
        };
        self.heard = 0;
        for (p, ack) in (0..).zip(tally.acks()) {
            self.heard |= u64::from(ack.is_some()) << p;
            self.rows[p as usize] = ack.unwrap_or_default();
        }
        self.committed = tally.committed().into();
        Ok(status)
    }

    /// The words of the C struct.
    fn words(&self) -> Vec<u64> {
        let mut words = self.opening.words().to_vec();
        words.extend([self.heard, self.committed]);
        words.extend(self.rows.as_flattened());
        words
    }

    #[cfg(feature = "port")]
    fn port(&self) -> callboard::Tally {
        callboard::Tally {
            population: self.opening.n,
            quorum: self.opening.quorum,
            data_shards: self.opening.d,
            width: self.opening.w,
            ballot: self.opening.ballot,
            value_high: self.opening.high,
            value_low: self.opening.low,
            heard: self.heard,
            committed: self.committed,
            rows: self.rows,
        }
    }
}

impl Input {
    /// The fault list of all unrefused replies, if that is one.
    fn one_list(&self) -> Option<&[u64]> {
        let fresh = State::open(&self.opening);
        let is_counted = |r: &&Reply| matches!(document::reply(&fresh, r), Ok(()));
        let mut lists = self
            .replies
            .iter()
            .filter(is_counted)
            .map(|r| &r.faults[..]);
        let first = lists.next()?;
        lists.all(|l| l == first).then_some(first)
    }

    fn rust_tally(&self) -> Option<Result<api::Tally, Fail>> {
        let o = &self.opening;
        let id = value_id(o.high, o.low);
        let masks = self.one_list()?;
        Some(api::Tally::open(
            o.n as u8,
            0,
            o.quorum as u8,
            masks,
            o.d as u8,
            o.ballot,
            id,
        ))
    }

    /// All replies: refusals are the document's, the rest is the Rust's. A reply of another ballot
    /// or value is handed to the Rust too, which passes it by.
    fn follow(&self) -> Result<Told, Fail> {
        let mut tally = self.rust_tally().transpose()?;
        let mut state = State::open(&self.opening);
        let (mut fields, mut outcomes) = (vec![], vec![Outcome::Answered("opened")]);
        for r in &self.replies {
            let refusal = document::reply(&state, r).err();
            let status = match (&mut tally, refusal) {
                (Some(tally), None | Some(23)) => state.handle(tally, r)?,
                (None, None) => state.hear(r)?,
                _ => 0,
            };
            outcomes.push(match refusal {
                None => Outcome::Answered(STATUS[status as usize]),
                Some(23) if tally.is_some() => Outcome::Refused(23, Side::Fails),
                Some(number) => Outcome::Refused(number, Side::NotAsked),
            });
            fields.extend([
                refusal.unwrap_or(0),
                if refusal.is_some() { 0 } else { status },
            ]);
            fields.extend([state.heard, state.committed]);
            fields.extend(state.rows[..self.opening.n as usize].as_flattened());
        }
        Ok(Told {
            outcomes,
            ..Told::new(Answer::fields(fields), "")
        })
    }
}

fn opening(rng: &mut Rng) -> Opening {
    let n = population(rng);
    let (d, w) = shards(rng);
    Opening {
        n,
        quorum: rng.within(1..=n),
        d: if rng.once_in(2) { d.min(4) } else { d },
        w,
        ballot: rng.around(7),
        high: rng.around(1),
        low: rng.word(),
    }
}

fn damage_opening(rng: &mut Rng, o: &mut Opening) {
    match rng.below(4) {
        0 => o.n = rng.around(16),
        1 => o.quorum = rng.around(o.n),
        2 => o.d = rng.around(o.w),
        _ => o.w = rng.around(WIDEST),
    }
}

fn reply(rng: &mut Rng, o: &Opening, faults: &[u64]) -> Reply {
    let mut reply = Reply {
        source: rng.below(o.n.clamp(1, 16)),
        ballot: o.ballot,
        high: o.high,
        low: o.low,
        row: row(rng, o.w),
        faults: faults.to_vec(),
    };
    while rng.once_in(6) {
        damage_reply(rng, o, &mut reply);
    }
    reply
}

fn damage_reply(rng: &mut Rng, o: &Opening, r: &mut Reply) {
    match rng.below(6) {
        0 => r.source = rng.around(o.n),
        1 => r.ballot = rng.around(r.ballot),
        2 => r.high ^= 1u64 << rng.below(64),
        3 => r.low ^= 1u64 << rng.below(64),
        4 => r.row = row_above(rng, o.w),
        _ => damage_faults(rng, o.n, &mut r.faults),
    }
}

/// Every three replies with these two shards, under one fault list.
fn small_of(n: u64, faults: &[u64], from: u64, each: &mut dyn FnMut(Input)) {
    let (shards, kinds) = (2, n << 2);
    each_of(&[n, shards, kinds, kinds, kinds], &mut |k| {
        let opening = Opening {
            n,
            quorum: k[0] + 1,
            d: k[1] + 1,
            w: from + shards,
            ballot: 5,
            high: 6,
            low: 7,
        };
        let reply = |&kind: &u64| Reply {
            source: kind % n,
            ballot: 5,
            high: 6,
            low: 7,
            row: row_at(from, kind / n),
            faults: faults.to_vec(),
        };
        let replies = k[2..].iter().map(reply).collect();
        each(Input { opening, replies });
    });
}

fn reply_words(r: &Reply, line: &mut Line) {
    line.words(&[r.source, r.ballot, r.high, r.low]);
    line.words(&r.row).slice(&r.faults);
}

impl Entry for Replies {
    type Input = Input;
    const NAME: &'static str = "tally";
    const ANSWERS: &'static [&'static str] =
        &["opened", "waiting", "committed", "already committed"];
    const REFUSALS: &'static [u64] = &[1, 3, 4, 5, 16, 17, 23];
    const FIELDS: usize = 0;

    fn fixed() -> Vec<Input> {
        vec![]
    }

    /// Every three replies of 3 replicas with 2 shards, each under every single fault set.
    fn small(each: &mut dyn FnMut(Input)) {
        for (n, most) in [(1, 1), (2, 3), (3, 1)] {
            for faults in fault_lists(n, most) {
                for from in STARTS {
                    small_of(n, &faults, from, each);
                }
            }
        }
    }

    fn random(rng: &mut Rng) -> Input {
        let mut opening = opening(rng);
        let faults = faults(rng, opening.n);
        let changing = rng.once_in(3);
        let mut replies = vec![];
        for _ in 0..rng.within(1..=12) {
            let mut r = reply(rng, &opening, &faults);
            if changing && rng.once_in(3) {
                r.faults.push(proper(rng, opening.n));
            }
            replies.push(r);
        }
        let mut damaged = rng.once_in(8);
        while damaged {
            damage_opening(rng, &mut opening);
            damaged = rng.once_in(2);
        }
        Input { opening, replies }
    }

    fn width(i: &Input) -> Option<u64> {
        Some(i.opening.w)
    }

    fn refusal(i: &Input) -> Checked {
        document::open(&i.opening)
    }

    fn rust(i: &Input) -> Asked {
        document::open(&i.opening).ok()?;
        Some(i.follow())
    }

    #[cfg(feature = "port")]
    fn port(i: &Input) -> Answer {
        let o = &i.opening;
        let opened = callboard::Tally::open(o.n, o.quorum, o.d, o.w, o.ballot, o.high, o.low);
        let mut tally = match opened {
            Ok(tally) => tally,
            Err(callboard::Refusal(refusal)) => {
                return Answer {
                    refusal,
                    ..Answer::fields(vec![])
                };
            }
        };
        let n = o.n as usize;
        let mut fields = vec![];
        for r in &i.replies {
            let (refusal, status) = accept(&mut tally, r);
            fields.extend([refusal, status, tally.heard, tally.committed]);
            fields.extend(tally.rows[..n].as_flattened());
        }
        // What the opening set, and the rows at or above n, stay; if not, the answers differ.
        (tally.heard, tally.committed) = (0, 0);
        tally.rows[..n].fill([0; 4]);
        if tally != State::open(o).port() {
            fields.extend(tally_words(&tally));
        }
        Answer::fields(fields)
    }

    fn words(i: &Input, line: &mut Line) {
        line.words(&i.opening.words());
        line.word(i.replies.len() as u64);
        i.replies.iter().for_each(|r| reply_words(r, line));
    }

    /// Each reply stands before what it comes to.
    fn line(i: &Input, answer: &Answer) -> Line {
        let mut line = Line::default();
        line.words(&i.opening.words()).word(answer.refusal);
        if answer.refusal == 0 {
            line.word(i.replies.len() as u64);
            let after = answer.fields.chunks(4 + row_words(i.opening.n));
            for (reply, after) in i.replies.iter().zip(after) {
                reply_words(reply, &mut line);
                line.words(after);
            }
        }
        line
    }
}

impl Entry for HandedIn {
    type Input = StateInput;
    const NAME: &'static str = "tally handed in";
    const ANSWERS: &'static [&'static str] = &STATUS;
    const REFUSALS: &'static [u64] = &[1, 3, 4, 5, 16, 17, 23];
    const FIELDS: usize = 1;

    fn fixed() -> Vec<StateInput> {
        vec![]
    }

    fn small(_: &mut dyn FnMut(StateInput)) {}

    fn random(rng: &mut Rng) -> StateInput {
        let opening = opening(rng);
        let faults = faults(rng, opening.n);
        let (n, w) = (opening.n as usize, opening.w);
        let reply = reply(rng, &opening, &faults);
        let mut state = State {
            opening,
            heard: 0,
            committed: rng.pick(&[0, 0, 0, 0, 0, 1, 7, u64::MAX]),
            rows: [(); 16].map(|()| [(); 4].map(|()| rng.word())),
        };
        state.heard = set(rng, n as u64);
        state.rows[..n].fill_with(|| row(rng, w));
        while rng.once_in(4) {
            damage_state(rng, &mut state);
        }
        StateInput { state, reply }
    }

    fn width(i: &StateInput) -> Option<u64> {
        Some(i.state.opening.w)
    }

    fn refusal(i: &StateInput) -> Checked {
        document::reply(&i.state, &i.reply)
    }

    fn rust(i: &StateInput) -> Asked {
        document::reply(&i.state, &i.reply).ok()?;
        let mut state = i.state.clone();
        let status = state.hear(&i.reply);
        Some(status.map(|status| {
            let answer = Answer::lent(vec![status], state.words());
            Told::new(answer, STATUS[status as usize])
        }))
    }

    #[cfg(feature = "port")]
    fn port(i: &StateInput) -> Answer {
        let mut tally = i.state.port();
        let (refusal, status) = accept(&mut tally, &i.reply);
        Answer {
            refusal,
            fields: vec![status],
            lent: tally_words(&tally),
        }
    }

    fn lent(i: &StateInput) -> Option<Vec<u64>> {
        Some(i.state.words())
    }

    fn words(i: &StateInput, line: &mut Line) {
        line.words(&i.state.words());
        reply_words(&i.reply, line);
    }
}

fn damage_state(rng: &mut Rng, s: &mut State) {
    match rng.below(3) {
        0 => s.heard = above(rng, s.opening.n),
        1 => s.rows[rng.index(16)] = row_above(rng, s.opening.w),
        _ => damage_opening(rng, &mut s.opening),
    }
}

#[cfg(feature = "port")]
fn accept(tally: &mut callboard::Tally, r: &Reply) -> (u64, u64) {
    match tally.accept_reply(r.source, r.ballot, r.high, r.low, r.row, &r.faults) {
        Err(callboard::Refusal(number)) => (number, 0),
        Ok(callboard::Status::Waiting) => (0, 0),
        Ok(callboard::Status::Committed) => (0, 1),
        Ok(callboard::Status::AlreadyCommitted) => (0, 2),
    }
}

#[cfg(feature = "port")]
fn tally_words(t: &callboard::Tally) -> Vec<u64> {
    let mut words = vec![t.population, t.quorum, t.data_shards, t.width, t.ballot];
    words.extend([t.value_high, t.value_low, t.heard, t.committed]);
    words.extend(t.rows.as_flattened());
    words
}
