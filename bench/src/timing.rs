//! Times the two sides of a case in turn.

use std::hint::black_box;
use std::time::Duration;

use crate::{before, clock};

/// All cases are timed once in each round, so that a while of load falls on a part of the samples
/// of each and not on all of one. An odd number.
pub const ROUNDS: usize = 5;
/// A sample has as many calls as take this long, or one call.
const SAMPLE: Duration = Duration::from_micros(100);
/// A round of a case takes this long, but has at least one pair of samples and not more than MOST.
const ROUND: Duration = Duration::from_millis(300);
const MOST: u128 = 401;
/// Samples that come before and are not counted, where a sample has several calls.
const WARM_UPS: usize = 5;

/// One input, for the original and for the port.
pub struct Case {
    pub name: String,
    /// How many times as fast as the original the port is to be; at least once, if it is not said.
    pub target: Option<f64>,
    /// What the port must do there and the original does not, where that alone takes longer than
    /// the original: the case then has no target.
    pub beside: Option<&'static str>,
    make: Box<dyn FnOnce() -> Sides>,
}

impl Case {
    /// `make` prepares the input and compares the two answers to it, if the case is timed.
    pub fn new(name: impl Into<String>, make: impl FnOnce() -> Sides + 'static) -> Self {
        Case {
            name: name.into(),
            target: None,
            beside: None,
            make: Box::new(make),
        }
    }

    pub fn target(self, target: f64) -> Self {
        Case {
            target: Some(target),
            ..self
        }
    }

    pub fn beside(self, work: &'static str) -> Self {
        Case {
            beside: Some(work),
            ..self
        }
    }

    pub fn prepare(self) -> Prepared {
        let mut sides = (self.make)();
        sides.warm_up();
        Prepared {
            name: self.name,
            target: self.target,
            beside: self.beside,
            pairs: sides.pairs(),
            sides,
        }
    }
}

/// A case that is being timed.
pub struct Prepared {
    name: String,
    target: Option<f64>,
    beside: Option<&'static str>,
    sides: Sides,
    /// The pairs of samples of a round.
    pairs: u128,
}

impl Prepared {
    pub fn take_round(&mut self) {
        for _ in 0..self.pairs {
            self.sides.take_pair();
        }
    }

    pub fn measured(self) -> Measured {
        let (rust, port) = (self.sides.rust.taken, self.sides.port.taken);
        let ratio = |side: &[f64]| median(side.iter().zip(&port).map(|(side, port)| side / port));
        Measured {
            name: self.name,
            target: self.target,
            beside: self.beside,
            ratio: ratio(&rust),
            before: self.sides.before.map(|side| ratio(&side.taken)),
            rust: median(rust),
            port: median(port),
        }
    }
}

/// The two that are compared, and the port before if there is one with all that the case calls.
pub struct Sides {
    rust: Side,
    port: Side,
    before: Option<Side>,
}

impl Sides {
    pub fn new<R, P>(
        rust: impl FnMut() -> R + 'static,
        port: impl FnMut() -> P + Clone + 'static,
    ) -> Self {
        Sides {
            rust: Side::new(rust),
            before: before::IS_THERE.then(|| Side::new(port.clone())),
            port: Side::new(port),
        }
    }

    fn warm_up(&mut self) {
        self.rust.warm_up();
        self.port.warm_up();
        self.before
            .take_if(|side| !before::answers(|| side.warm_up()));
    }

    /// How many pairs of samples a round has: an odd number, so that there is a median.
    fn pairs(&mut self) -> u128 {
        let before = self.before.as_mut();
        let before = before.map_or(Duration::ZERO, |side| before::ask(|| side.sample()));
        let pair = self.rust.sample() + self.port.sample() + before;
        (ROUND.as_nanos() / pair.as_nanos()).min(MOST) | 1
    }

    /// Takes a sample of each, every other time the Rust's last.
    fn take_pair(&mut self) {
        if self.rust.taken.len().is_multiple_of(2) {
            self.rust.take();
            self.port.take();
            self.take_before();
        } else {
            self.take_before();
            self.port.take();
            self.rust.take();
        }
    }

    fn take_before(&mut self) {
        if let Some(side) = &mut self.before {
            before::ask(|| side.take());
        }
    }
}

struct Side {
    call: Box<dyn FnMut()>,
    /// The calls of a sample.
    calls: u32,
    /// The samples, in nanoseconds a call.
    taken: Vec<f64>,
}

impl Side {
    fn new<T>(mut call: impl FnMut() -> T + 'static) -> Self {
        Side {
            call: Box::new(move || {
                black_box(call());
            }),
            calls: 1,
            taken: vec![],
        }
    }

    /// Finds out how many calls make a sample.
    fn warm_up(&mut self) {
        while self.sample() < SAMPLE {
            self.calls *= 2;
        }
        if self.calls > 1 {
            for _ in 0..WARM_UPS {
                self.sample();
            }
        }
    }

    fn sample(&mut self) -> Duration {
        let start = clock::now();
        for _ in 0..self.calls {
            (self.call)();
        }
        clock::now() - start
    }

    fn take(&mut self) {
        let nanos = self.sample().as_nanos() as f64;
        self.taken.push(nanos / f64::from(self.calls));
    }
}

/// Of an odd number of floats.
fn median(floats: impl IntoIterator<Item = f64>) -> f64 {
    let mut floats: Vec<_> = floats.into_iter().collect();
    floats.sort_by(f64::total_cmp);
    floats[floats.len() / 2]
}

/// The medians of a case: nanoseconds a call, and how many times as long as the port the original
/// took in a pair of samples. The two of a pair meet the same load of the machine, so that their
/// ratio varies less than either.
pub struct Measured {
    pub name: String,
    pub target: Option<f64>,
    pub beside: Option<&'static str>,
    pub rust: f64,
    pub port: f64,
    pub ratio: f64,
    /// How many times as long as the port the port before took.
    pub before: Option<f64>,
}

impl Measured {
    pub fn is_below(&self) -> bool {
        self.ratio < self.target.unwrap_or(1.0)
    }
}
