//! A group whose history is a log outside.

use crate::calls::{self, unexpected, ReplicaHandle};
use crate::faults::{
    LearnError, LearnFault, LogError, NodeFault, OwnedError, RebalanceError, RowError,
};
use crate::raw;
use crate::shown::{Group, Owned, State};
use std::fmt;

/// What a process knows of a group whose history is a log in a store that many processes share.
///
/// The log begins with a header, as [`Setup::header`](crate::Setup::header) has one. Then come rows, as
/// `docs/FORMATS.md` has them. Here rows have no line end. A process learns all rows of the log in their order, by
/// [`Replica::learn`]. It appends a row that [`Replica::next`] or [`Replica::event`] gave, right after the rows that it
/// has learned. If another row came first, it appends nothing, and learns that row. If all processes do so, the log is
/// lawful, and agreement holds for all that they read.
///
/// [`Replica::learn`] alone takes `&mut self`. The calls that take `&self` change nothing.
///
/// A replica may move from thread to thread. Threads can't share one without a lock: even a call that only shows
/// something may write the handle for its own use.
///
/// ```compile_fail,E0277
/// fn shared<T: Sync>() {}
/// shared::<bully::Replica>();
/// ```
pub struct Replica {
    handle: ReplicaHandle,
}

/// An event that a process appends for reasons of its own, shown as the rows of traces spell it. ([`Replica::next`]
/// drops an orphan by itself.)
#[derive(Clone, Copy, Debug, PartialEq, Eq, Hash)]
pub enum ReplicaEvent {
    /// The node crashes, or must stop. Refused as `Full`, `IsDown`.
    Crash,
    /// The node recovers, and stands for election. Refused as `Full`, `IsUp`.
    Recover,
    /// The idle node begins to check. Refused as `Full`, `IsDown`, `Busy`.
    Check,
    /// The idle node heard nothing for too long. Refused as `Full`, `IsDown`, `Busy`.
    Timeout,
    /// The node's call, an orphan, is given up. Refused as `Full`, `IsDown`, `NoCall`, `NotOrphan`.
    Drop,
}

impl Replica {
    /// The replica of a log that begins with this header, before any other row.
    pub fn open(header: &str) -> Result<Replica, LogError> {
        let handle = ReplicaHandle::open(header).map_err(LogError::told)?;
        Ok(Replica { handle })
    }

    /// Learns the rows that come next in the log, in their order and as [`check`](crate::check) takes them, and returns
    /// how many: all. If one isn't learned, the error says how many were learned before it, and why this one wasn't.
    /// What was learned before it stays.
    ///
    /// Each text is one row, without a line end. If one is blank, or has a line feed or a carriage return, none is
    /// learned.
    pub fn learn<R: AsRef<str>>(
        &mut self,
        rows: impl IntoIterator<Item = R>,
    ) -> Result<usize, LearnError> {
        let text = text_of(rows).map_err(|fault| LearnError { taken: 0, fault })?;
        self.handle.learn(&text).map_err(|(status, taken)| {
            let fault = LearnFault::told(status);
            LearnError { taken, fault }
        })
    }

    /// The row that the node appends next by itself; none if the node rests. If the node isn't Down, it first runs the
    /// call of the lowest caller that waits for it. Else its procedure takes a step, and a table is planned from that
    /// of the last plan. Refused as `Full`, if the log has no room for it.
    ///
    /// The replica doesn't learn the row. Append it to the log, right after the rows that were learned, and then learn
    /// it.
    pub fn next(&self, node: u16) -> Result<Option<String>, RowError> {
        let row = self.handle.next(node).map_err(RowError::told)?;
        Ok((!row.is_empty()).then(|| calls::without_end(row)))
    }

    /// The row of this event of the node, or why it is refused.
    ///
    /// The replica doesn't learn the row. Append it to the log, right after the rows that were learned, and then learn
    /// it.
    pub fn event(&self, node: u16, event: ReplicaEvent) -> Result<String, RowError> {
        let row = self.handle.event(node, event.number());
        row.map(calls::without_end).map_err(RowError::told)
    }

    /// The rows that make the group stable among the live nodes, which may be in any order. With no live node all nodes
    /// crash; else the highest live node is elected, and plans from the last plan's table. If the log has no plan, it
    /// plans from the old table, the last one of an epoch before, if there is one; an empty old table is none. In it 0
    /// is an owner that the group doesn't have. The rows are at most 11 for each node of the group.
    ///
    /// The replica doesn't learn them. Append them to the log right after the rows that were learned, with nothing
    /// between, and in one process alone, and then learn them.
    pub fn rebalance(
        &self,
        live: &[u16],
        old: Option<&[u16]>,
    ) -> Result<Vec<String>, RebalanceError> {
        let text = self.handle.rebalance(live, old.unwrap_or_default());
        Ok(calls::rows_of(&text.map_err(RebalanceError::told)?))
    }

    /// Whether the group is stable among the live nodes: all of these are Normal under the highest of them, all others
    /// are Down, and if any node is live, there is a last plan, its token is above this offset, and all its owners are
    /// live.
    pub fn is_stable(&self, live: &[u16], offset: u32) -> Result<bool, NodeFault> {
        let is_stable = self.handle.is_stable(live, offset);
        is_stable.map_err(NodeFault::told)
    }

    /// By which token the node's process may work, and on which partitions, if on any: the node is Normal, and the last
    /// plan's token is above this offset.
    pub fn owned(&self, node: u16, offset: u32) -> Result<Option<Owned>, OwnedError> {
        let owned = self.handle.owned(node, offset);
        owned.map_err(OwnedError::told)
    }

    /// The state of the node.
    pub fn state(&self, node: u16) -> Result<State, NodeFault> {
        let state = self.handle.show(node).map_err(NodeFault::told)?;
        Ok(State::of(&state))
    }

    /// The nodes of the node's up set, in rising order.
    pub fn up(&self, node: u16) -> Result<Vec<u16>, NodeFault> {
        self.handle.up(node).map_err(NodeFault::told)
    }

    /// The owners of the node's task, if it has one.
    pub fn task(&self, node: u16) -> Result<Option<Vec<u16>>, NodeFault> {
        let owners = self.handle.task(node).map_err(NodeFault::told)?;
        Ok((!owners.is_empty()).then_some(owners))
    }

    /// The state of the group. Each node that is Normal has the last plan's planner as coordinator, and its table as
    /// task.
    pub fn group(&self) -> Group {
        let group = self.handle.group();
        Group::of(&group.unwrap_or_else(|status| unexpected(status)))
    }

    /// The owners of the last plan's table, if there is a plan.
    pub fn planned(&self) -> Option<Vec<u16>> {
        let owners = self.handle.planned();
        let owners = owners.unwrap_or_else(|status| unexpected(status));
        (!owners.is_empty()).then_some(owners)
    }
}

impl fmt::Debug for Replica {
    fn fmt(&self, formatter: &mut fmt::Formatter<'_>) -> fmt::Result {
        let mut shown = formatter.debug_tuple("Replica");
        shown.field(&self.group()).finish()
    }
}

impl ReplicaEvent {
    // The number by which the library knows it.
    fn number(self) -> u32 {
        match self {
            ReplicaEvent::Crash => raw::BULLY_EVENT_CRASH,
            ReplicaEvent::Recover => raw::BULLY_EVENT_RECOVER,
            ReplicaEvent::Check => raw::BULLY_EVENT_CHECK,
            ReplicaEvent::Timeout => raw::BULLY_EVENT_TIMEOUT,
            ReplicaEvent::Drop => raw::BULLY_EVENT_DROP,
        }
    }
}

impl fmt::Display for ReplicaEvent {
    fn fmt(&self, formatter: &mut fmt::Formatter<'_>) -> fmt::Result {
        formatter.pad(match self {
            ReplicaEvent::Crash => "crash",
            ReplicaEvent::Recover => "recover",
            ReplicaEvent::Check => "check",
            ReplicaEvent::Timeout => "timeout",
            ReplicaEvent::Drop => "drop",
        })
    }
}

// All the rows as one text, each with its line end; or the first that isn't one row.
pub(crate) fn text_of<R: AsRef<str>>(
    rows: impl IntoIterator<Item = R>,
) -> Result<String, LearnFault> {
    let mut text = String::new();
    for (place, row) in rows.into_iter().enumerate() {
        let row = row.as_ref();
        if row.is_empty() || row.contains(['\n', '\r']) {
            return Err(LearnFault::NotOneRow { place });
        }
        text.push_str(row);
        text.push('\n');
    }
    Ok(text)
}
