//! The original's `protocols/crossword`: two files of its text, the items that `build.rs` takes
//! out of the others, and stand-ins for what these name.
//!
//! The original's items are private to this module, so `api` stands inside it.

#![allow(clippy::all, dead_code)]

use std::cmp;
use std::collections::hash_map::Entry;
use std::collections::{HashMap, HashSet};
use std::time::{Duration, SystemTime};

use get_size::GetSize;
use serde::{Deserialize, Serialize};
use wincode::{SchemaRead, SchemaWrite};

use crate::server::{LogAction, ReplicaId};
use crate::utils::{Bitmap, PerfModel, QdiscInfo, RSCodeword, SummersetError};
use assignment::TotalShards;
use stand_ins::{ApiRequest, ClientId, CrosswordReplica};

mod assignment {
    include!(concat!(env!("OUT_DIR"), "/assignment.rs"));
}

mod reliability {
    include!(concat!(env!("OUT_DIR"), "/reliability.rs"));
}

include!(concat!(env!("OUT_DIR"), "/replica.rs"));

#[warn(clippy::all, dead_code)]
pub mod api;

#[warn(clippy::all, dead_code)]
mod stand_ins;
