//! What an agent or a replica shows.

use crate::calls::unexpected_number;
use crate::coded::coded;
use crate::raw::{bully_group, bully_state};

coded! {
    /// The status of a node's vector, as `docs/ALGORITHM.md` has them.
    Status {
        /// The node is down.
        Down = BULLY_DOWN, "down";
        /// It has no coordinator yet.
        Election = BULLY_ELECTION, "election";
        /// It has a coordinator, and no task of it yet.
        Reorganization = BULLY_REORGANIZATION, "reorganization";
        /// It has a coordinator and a task.
        Normal = BULLY_NORMAL, "normal";
    }
}

coded! {
    /// What a node wants to do next. An agent does it by the call that is named here, and a replica has its row by
    /// [`Replica::next`](crate::Replica::next).
    Want {
        /// Nothing.
        Nothing = BULLY_WANTS_NOTHING, "nothing";
        /// To start a call: [`Agent::start`](crate::Agent::start).
        Start = BULLY_WANTS_START, "start";
        /// To move on without a call: [`Agent::advance`](crate::Agent::advance).
        Move = BULLY_WANTS_MOVE, "move";
        /// To plan a table: [`Agent::prepare`](crate::Agent::prepare), and then [`Agent::plan`](crate::Agent::plan).
        Plan = BULLY_WANTS_PLAN, "plan";
        /// To await the end of its call.
        Await = BULLY_WANTS_AWAIT, "await";
    }
}

coded! {
    /// The kind of a call, shown as the rows of traces spell it.
    CallKind {
        /// Whether the callee is up.
        AreYouUp = BULLY_ARE_YOU_UP, "are-you-up";
        /// Whether it is Normal.
        AreYouNormal = BULLY_ARE_YOU_NORMAL, "are-you-normal";
        /// It is stopped.
        Halt = BULLY_HALT, "halt";
        /// The caller is its coordinator.
        NewCoordinator = BULLY_NEW_COORDINATOR, "new-coordinator";
        /// It gets its task.
        Ready = BULLY_READY, "ready";
    }
}

coded! {
    /// What a call that returned brought, shown as the rows of traces spell it.
    Answer {
        /// It ran, and was answered Yes.
        Yes = BULLY_YES, "yes";
        /// It ran, and was answered No.
        No = BULLY_NO, "no";
        /// It failed.
        Failed = BULLY_FAILED, "failed";
        /// It was an orphan, and what it brought is thrown away.
        Discarded = BULLY_DISCARDED, "discarded";
    }
}

/// The call in a node's slot.
#[derive(Clone, Copy, Debug, PartialEq, Eq, Hash)]
pub struct Call {
    /// What it asks for.
    pub kind: CallKind,
    /// The node that it goes to.
    pub callee: u16,
    /// Whether its caller was stopped since its start: what it brings is thrown away, or it is dropped.
    pub orphan: bool,
}

/// The state of a node.
#[derive(Clone, Copy, Debug, PartialEq, Eq, Hash)]
pub struct State {
    /// Its own number.
    pub node: u16,
    /// Its status.
    pub status: Status,
    /// Its coordinator, if any.
    pub coordinator: Option<u16>,
    /// Who halted it last, if anybody.
    pub halter: Option<u16>,
    /// What it wants to do next.
    pub wants: Want,
    /// The call in its slot, if any.
    pub call: Option<Call>,
    /// Of an agent: the number of its last call. Of a replica: 0.
    pub number: u32,
    /// Of an agent: how many events it had, with those before it was opened. Of a replica: how many its log has.
    pub events: u32,
    /// How often it was stopped or crashed: of an agent since it was opened, of a replica in its log.
    pub generation: u32,
}

impl State {
    // The state that the library shows.
    pub(crate) fn of(shown: &bully_state) -> State {
        State {
            node: shown.node,
            status: known(shown.status, Status::of(shown.status)),
            coordinator: node_of(shown.coordinator),
            halter: node_of(shown.halter),
            wants: known(shown.wants, Want::of(shown.wants)),
            call: call_of(shown),
            number: shown.number,
            events: shown.events,
            generation: shown.generation,
        }
    }
}

impl Answer {
    // What the library says that a call brought.
    pub(crate) fn told(number: u32) -> Answer {
        known(number, Answer::of(number))
    }
}

/// The state of a group, as a replica of its log shows it.
#[derive(Clone, Copy, Debug, PartialEq, Eq, Hash)]
pub struct Group {
    /// How many rows were learned, claims too. The header isn't counted.
    pub rows: u32,
    /// How many of them were events.
    pub events: u32,
    /// The token of the last plan, if any: the number of events up to and including it.
    pub token: Option<u32>,
    /// The node that made the last plan, if any.
    pub planner: Option<u16>,
    /// How many nodes the group has.
    pub nodes: u16,
    /// How many partitions its task has.
    pub partitions: u16,
    /// Whether a node keeps its task over a crash.
    pub keeps: bool,
}

/// What a node's process may work on.
#[derive(Clone, Debug, PartialEq, Eq, Hash)]
pub struct Owned {
    /// The token of the last plan.
    pub token: u32,
    /// The node's partitions by that plan, in rising order: at least one. The first partition of a group is 0.
    pub partitions: Vec<u16>,
}

impl Group {
    // What the library shows of the group.
    pub(crate) fn of(shown: &bully_group) -> Group {
        Group {
            rows: shown.rows,
            events: shown.events,
            token: (shown.token != 0).then_some(shown.token),
            planner: node_of(shown.planner),
            nodes: shown.nodes,
            partitions: shown.partitions,
            keeps: shown.keeps != 0,
        }
    }
}

// The call in the slot; a callee of 0 means that there is none.
fn call_of(shown: &bully_state) -> Option<Call> {
    node_of(shown.callee).map(|callee| Call {
        kind: known(shown.call, CallKind::of(shown.call)),
        callee,
        orphan: shown.orphan != 0,
    })
}

// The node of this number, of which 0 means none.
fn node_of(number: u16) -> Option<u16> {
    (number != 0).then_some(number)
}

// What the number means. It always means something, as `bully.h` has it.
pub(crate) fn known<T>(number: u32, meaning: Option<T>) -> T {
    meaning.unwrap_or_else(|| unexpected_number(number))
}
