//! Stand-ins for the types of the original that its text here names: they have only the fields
//! and the functions that this text uses.

use std::collections::{HashMap, VecDeque};
use std::time::Instant;

use super::reliability::{ReliabilityProfile, Tolerance};
use super::{Ballot, Instance, LogCtx, WalEntry};
use crate::server::{LogAction, ReplicaId};
use crate::utils::{Bitmap, LinearRegressor, PerfModel, QdiscInfo, Stopwatch, SummersetError};

pub type ClientId = u64;

#[derive(Debug, Clone, PartialEq, Eq)]
pub struct ApiRequest;

pub struct Heartbeater {
    pub alive: Bitmap,
}

impl Heartbeater {
    pub fn peer_alive(&self) -> &Bitmap {
        &self.alive
    }
}

/// Takes every request and does nothing.
pub struct StorageHub;

impl StorageHub {
    pub(super) fn submit_action(
        &mut self,
        _: LogCtx,
        _: LogAction<WalEntry>,
    ) -> Result<(), SummersetError> {
        Ok(())
    }
}

pub struct ReplicaConfigCrossword {
    pub force_balanced: bool,
    pub fault_tolerance: u8,
    pub b_to_d_threshold: f64,
    pub max_data_shards: u8,
    pub max_parity_shards: u8,
    pub hb_hear_timeout_min: u64,
    pub logger_sync: bool,
}

pub struct CrosswordReplica {
    pub(super) id: ReplicaId,
    pub(super) population: u8,
    pub(super) majority: u8,
    pub(super) leader: Option<ReplicaId>,
    pub(super) rs_data_shards: u8,
    pub(super) rs_total_shards: u8,
    pub(super) config: ReplicaConfigCrossword,
    pub(super) tolerance: Tolerance,
    pub(super) reliability_prof: ReliabilityProfile,
    pub(super) assignment_adaptive: bool,
    pub(super) assignment_balanced: bool,
    pub(super) init_assignment: Vec<Bitmap>,
    pub(super) brr_assignments: HashMap<u8, Vec<Bitmap>>,
    pub(super) linreg_model: HashMap<ReplicaId, PerfModel>,
    pub(super) inflight_bytes: HashMap<ReplicaId, usize>,
    pub(super) pending_accepts: HashMap<ReplicaId, VecDeque<(u128, usize, usize, usize)>>,
    pub(super) regressor: HashMap<ReplicaId, LinearRegressor>,
    pub(super) downtime_tracked: HashMap<ReplicaId, f64>,
    pub(super) qdisc_info: Option<QdiscInfo>,
    pub(super) heartbeater: Heartbeater,
    pub(super) start_slot: usize,
    pub(super) bal_prepared: Ballot,
    pub(super) bal_max_seen: Ballot,
    pub(super) insts: Vec<Instance>,
    pub(super) startup_time: Instant,
    pub(super) bd_stopwatch: Option<Stopwatch>,
    pub(super) storage_hub: StorageHub,
}

impl CrosswordReplica {
    /// A replica that leads, with no instance, no model and every peer alive.
    pub(super) fn stand_in(id: ReplicaId, majority: u8, tolerance: Tolerance) -> Self {
        let population = tolerance.population;
        CrosswordReplica {
            id,
            population,
            majority,
            leader: Some(id),
            rs_data_shards: 1,
            rs_total_shards: population,
            config: ReplicaConfigCrossword {
                force_balanced: false,
                fault_tolerance: 0,
                b_to_d_threshold: 0.0,
                max_data_shards: 64,
                max_parity_shards: 64,
                hb_hear_timeout_min: 0,
                logger_sync: false,
            },
            tolerance,
            reliability_prof: ReliabilityProfile::default(),
            assignment_adaptive: true,
            assignment_balanced: false,
            init_assignment: vec![],
            brr_assignments: HashMap::new(),
            linreg_model: HashMap::new(),
            inflight_bytes: HashMap::new(),
            pending_accepts: HashMap::new(),
            regressor: HashMap::new(),
            downtime_tracked: HashMap::new(),
            qdisc_info: None,
            heartbeater: Heartbeater {
                alive: Bitmap::new(population, true),
            },
            start_slot: 0,
            bal_prepared: 0,
            bal_max_seen: 0,
            insts: vec![],
            startup_time: Instant::now(),
            bd_stopwatch: None,
            storage_hub: StorageHub,
        }
    }

    /// Sends nothing.
    pub(super) fn resend_missed_accepts(
        &mut self,
        _: ReplicaId,
        _: usize,
        _: bool,
    ) -> Result<(), SummersetError> {
        Ok(())
    }
}
