//! The tally of accept replies.

use std::collections::{HashMap, VecDeque};

use super::super::{Instance, LeaderBookkeeping, Status};
use super::{CrosswordReplica, Fail, Row, convert, guard};
use crate::utils::{Bitmap, RSCodeword, SummersetError};

/// A replica that leads and has one instance, at slot 0, which waits for accept replies.
pub struct Tally(CrosswordReplica);

/// What became of a reply.
#[derive(Debug, Clone, Copy, PartialEq)]
pub enum Reply {
    /// The instance waits still.
    Pending,
    /// This reply committed it.
    Committed,
    /// It was committed before, or the ballot or the value differs: the original passes it by.
    Ignored,
}

impl Tally {
    /// `me` leads; the fault list is fixed here, as it is in the original.
    pub fn open(
        n: u8,
        me: u8,
        majority: u8,
        masks: &[u64],
        d: u8,
        ballot: u64,
        value_id: u128,
    ) -> Result<Tally, Fail> {
        guard(|| Ok(Tally::new(n, me, majority, masks, d, ballot, value_id)))
    }

    pub(super) fn new(
        n: u8,
        me: u8,
        majority: u8,
        masks: &[u64],
        d: u8,
        ballot: u64,
        value_id: u128,
    ) -> Tally {
        let mut replica = CrosswordReplica::stand_in(me, majority, convert::tolerance(n, masks));
        replica.bal_prepared = ballot;
        replica.bal_max_seen = ballot;
        for peer in (0..n).filter(|&peer| peer != me) {
            replica.inflight_bytes.insert(peer, 0);
            replica.pending_accepts.insert(peer, VecDeque::new());
        }
        replica.insts.push(waiting_instance(n, d, ballot, value_id));
        Tally(replica)
    }

    /// Forgets every reply.
    pub(super) fn reopen(&mut self) {
        let instance = &mut self.0.insts[0];
        instance.status = Status::Accepting;
        instance.leader_bk.as_mut().unwrap().accept_acks = HashMap::new();
    }

    pub fn committed(&self) -> bool {
        self.0.insts[0].status == Status::Committed
    }

    /// The rows of the replicas heard, None for the others.
    pub fn acks(&self) -> Vec<Option<Row>> {
        let acks = &self.0.insts[0].leader_bk.as_ref().unwrap().accept_acks;
        let row = |peer| acks.get(&peer).map(convert::row);
        (0..self.0.population).map(row).collect()
    }

    /// Hands a reply with a row of width `w` to `handle_msg_accept_reply`.
    pub fn reply(
        &mut self,
        peer: u8,
        ballot: u64,
        value_id: u128,
        w: u8,
        shards: Row,
    ) -> Result<Reply, Fail> {
        let ignored = self.committed()
            || ballot != self.0.bal_prepared
            || self.0.insts[0].value_id != Some(value_id);
        guard(|| self.handle(peer, ballot, value_id, &convert::bitmap(w, &shards)))?;
        Ok(if ignored {
            Reply::Ignored
        } else if self.committed() {
            Reply::Committed
        } else {
            Reply::Pending
        })
    }

    pub(super) fn handle(
        &mut self,
        peer: u8,
        ballot: u64,
        value_id: u128,
        shards: &Bitmap,
    ) -> Result<(), SummersetError> {
        let replica = &mut self.0;
        replica.handle_msg_accept_reply(peer, 0, ballot, value_id, shards, None)
    }
}

/// An instance that waits for accept replies and has none.
fn waiting_instance(n: u8, d: u8, ballot: u64, value_id: u128) -> Instance {
    Instance {
        bal: ballot,
        status: Status::Accepting,
        reqs_cw: RSCodeword::stand_in(d),
        value_id: Some(value_id),
        assignment: vec![],
        voted: None,
        leader_bk: Some(LeaderBookkeeping {
            trigger_slot: 0,
            endprep_slot: 0,
            prepare_acks: Bitmap::new(n, false),
            prepare_values: HashMap::new(),
            accept_acks: HashMap::new(),
        }),
        replica_bk: None,
        external: false,
        wal_offset: None,
        prep_inflight: 0,
    }
}
