//! The original's `utils`: three files of its text, and stand-ins for the rest.

use std::marker::PhantomData;
use std::time::SystemTime;

pub use bitmap::Bitmap;
pub use error::SummersetError;
pub(crate) use linear::{LinearRegressor, PerfModel};

#[allow(clippy::all, dead_code, unused_imports)]
mod bitmap {
    include!(concat!(env!("OUT_DIR"), "/bitmap.rs"));
}

#[allow(clippy::all)]
mod error {
    include!(concat!(env!("OUT_DIR"), "/error.rs"));
}

#[allow(clippy::all, dead_code)]
mod linear {
    include!(concat!(env!("OUT_DIR"), "/linreg.rs"));
}

/// Stand-in: a codeword knows how many data shards it has.
#[derive(Debug, Clone, PartialEq, Eq)]
pub struct RSCodeword<T> {
    data_shards: u8,
    of: PhantomData<T>,
}

impl<T> RSCodeword<T> {
    pub fn stand_in(data_shards: u8) -> Self {
        RSCodeword {
            data_shards,
            of: PhantomData,
        }
    }

    pub fn num_data_shards(&self) -> u8 {
        self.data_shards
    }
}

/// Stand-in: `utils/qdisc.rs` is not among the sources. These are the fields that the policy reads.
pub struct QdiscInfo {
    pub delay: f64,
    pub jitter: f64,
    pub rate: f64,
}

/// Stand-in: there is never one.
pub enum Stopwatch {}

impl Stopwatch {
    pub fn record_now(
        &mut self,
        _: usize,
        _: usize,
        _: Option<SystemTime>,
    ) -> Result<(), SummersetError> {
        match *self {}
    }
}
