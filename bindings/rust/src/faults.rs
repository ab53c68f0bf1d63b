//! What may be wrong with a call.

use crate::calls;
use crate::coded::{coded, errors, faults};
use crate::raw::bully_status;
use std::error::Error;
use std::fmt;

faults! {
    /// Why an event is refused, as `docs/ALGORITHM.md` lists the causes. Nothing changes then.
    Refused {
        Full = BULLY_FULL, "as many events as the setup bounds were told";
        BadNode = BULLY_BAD_NODE, "the node is none of the setup's";
        IsDown = BULLY_IS_DOWN, "the node is down";
        IsUp = BULLY_IS_UP, "the node recovers and isn't down";
        Busy = BULLY_BUSY, "a check or a timeout of a node that isn't idle";
        NoStep = BULLY_NO_STEP, "the node doesn't want to do that next";
        SlotBusy = BULLY_SLOT_BUSY, "the node has a call under way";
        NoCall = BULLY_NO_CALL, "there is no such call";
        CalleeDown = BULLY_CALLEE_DOWN, "the request comes to a node that is down";
        CalleeUp = BULLY_CALLEE_UP, "a call is lost whose callee is up (of a trace alone)";
        BadTable = BULLY_BAD_TABLE, "the table isn't balanced over the node and its up set";
        NotOrphan = BULLY_NOT_ORPHAN, "the call isn't an orphan";
    }
}

faults! {
    /// What is wrong with a [`Setup`](crate::Setup): the first that holds.
    SetupFault {
        BadNodes = BULLY_BAD_NODES, "the setup has no node, or more than 1,024";
        BadPartitions = BULLY_BAD_PARTITIONS, "the setup has no partition, or more than 4,096";
        BadLimit = BULLY_BAD_LIMIT, "the setup bounds no event, or more than 1,000,000";
        BadWeights = BULLY_BAD_WEIGHTS, "the setup has another number of weights than nodes, or one of 0 or above 1,000";
    }
}

faults! {
    /// What is wrong with the nodes that a call names.
    NodeFault {
        BadNode = BULLY_BAD_NODE, "the node is none of the setup's";
        NoMember = BULLY_NO_MEMBER, "a table over no members";
    }
}

faults! {
    /// What is wrong with a table.
    TableFault {
        Length = BULLY_TABLE_LENGTH, "the table has another number of owners than there are partitions";
        Owner = BULLY_TABLE_OWNER, "an owner is no node of the setup";
    }
}

faults! {
    /// What is wrong with how a member begins.
    TermsFault {
        BadRowsMax = BULLY_BAD_ROWS_MAX, "the log may have fewer than 22 rows for each node, or more than 1,000,000";
        BadTtl = BULLY_BAD_TTL, "the ttl is below a millisecond, or above a day";
    }
}

faults! {
    /// The first fault of a line, from its left, as `docs/FORMATS.md` lists them.
    LineFault {
        Word = BULLY_LINE_WORD, "the line doesn't begin with `ask`, or with `tell`";
        Caller = BULLY_LINE_CALLER, "the line's caller is no node of the setup";
        Number = BULLY_LINE_NUMBER, "the line's number is none below the bound on events";
        Callee = BULLY_LINE_CALLEE, "the line's callee is no node of the setup";
        Kind = BULLY_LINE_KIND, "the line has no word of a call, or a table after another call than a Ready";
        Table = BULLY_LINE_TABLE, "the line is a Ready without a table of the setup";
        Answer = BULLY_LINE_ANSWER, "the line has neither `yes` nor `no`";
    }
}

coded! {
    /// What is wrong with the form of a trace or of a log, as `docs/FORMATS.md` lists the faults.
    FormFault {
        /// Row 1 is no header, or there is none.
        BadHeader = BULLY_BAD_HEADER, "BadHeader";
        /// The row has none of the forms.
        BadRow = BULLY_BAD_ROW, "BadRow";
        /// A row comes after the 1,000,000 rows that may follow the header.
        TooManyRows = BULLY_TOO_MANY_ROWS, "TooManyRows";
    }
}

impl NodeFault {
    // What this status of a call means.
    pub(crate) fn told(status: bully_status) -> NodeFault {
        NodeFault::of(status).unwrap_or_else(|| calls::unexpected(status))
    }
}

/// An allocation of the library failed. Nothing changed.
#[derive(Clone, Copy, Debug, PartialEq, Eq, Hash)]
pub struct OutOfMemory;

impl OutOfMemory {
    // Whether this status says so.
    pub(crate) fn of(status: bully_status) -> Option<OutOfMemory> {
        (status == crate::raw::BULLY_OUT_OF_MEMORY).then_some(OutOfMemory)
    }

    // What this status of a call means.
    pub(crate) fn told(status: bully_status) -> OutOfMemory {
        OutOfMemory::of(status).unwrap_or_else(|| calls::unexpected(status))
    }
}

impl fmt::Display for OutOfMemory {
    fn fmt(&self, formatter: &mut fmt::Formatter<'_>) -> fmt::Result {
        formatter.pad("an allocation failed")
    }
}

impl Error for OutOfMemory {}

impl Refused {
    // Why the event was refused that has this status.
    pub(crate) fn told(status: bully_status) -> Refused {
        Refused::of(status).unwrap_or_else(|| calls::unexpected(status))
    }
}

/// Why there is no verdict on a trace: the fault of its first faulty row, or an allocation that failed.
#[derive(Clone, Copy, Debug, PartialEq, Eq, Hash)]
pub enum TraceFault {
    /// The row, counted from 1, breaks the form.
    Form {
        /// The number of the row.
        row: u32,
        /// What is wrong with it.
        fault: FormFault,
    },
    /// An allocation failed.
    OutOfMemory,
}

impl TraceFault {
    // What this status means, with the row that came beside it.
    pub(crate) fn told(status: bully_status, row: u32) -> TraceFault {
        match FormFault::of(status) {
            Some(fault) => TraceFault::Form { row, fault },
            None => {
                let OutOfMemory = OutOfMemory::told(status);
                TraceFault::OutOfMemory
            }
        }
    }
}

impl fmt::Display for TraceFault {
    fn fmt(&self, formatter: &mut fmt::Formatter<'_>) -> fmt::Result {
        match self {
            TraceFault::Form { row, fault } => write!(formatter, "trace row {row}: {fault}"),
            TraceFault::OutOfMemory => fmt::Display::fmt(&OutOfMemory, formatter),
        }
    }
}

impl Error for TraceFault {}

/// Why the next row of a log wasn't learned.
#[derive(Clone, Copy, Debug, PartialEq, Eq, Hash)]
pub enum LearnFault {
    /// Its event is refused.
    Refused(Refused),
    /// What it says beside its event, or claims, isn't so.
    Differs,
    /// It has none of the forms, or the log has 1,000,000 rows already.
    Form(FormFault),
    /// An allocation failed.
    OutOfMemory,
    /// One of the texts is no row by itself: it is blank, or has a line feed or a carriage return. Then none was
    /// learned.
    NotOneRow {
        /// The place of that text among those that were handed over, from 0.
        place: usize,
    },
}

impl LearnFault {
    // What this status says of the row.
    pub(crate) fn told(status: bully_status) -> LearnFault {
        let form = FormFault::of(status).map(LearnFault::Form);
        let memory = OutOfMemory::of(status).map(|OutOfMemory| LearnFault::OutOfMemory);
        match status {
            crate::raw::BULLY_ROW_DIFFERS => LearnFault::Differs,
            _ => form
                .or(memory)
                .unwrap_or_else(|| LearnFault::Refused(Refused::told(status))),
        }
    }
}

impl fmt::Display for LearnFault {
    fn fmt(&self, formatter: &mut fmt::Formatter<'_>) -> fmt::Result {
        match self {
            LearnFault::Refused(cause) => fmt::Display::fmt(cause, formatter),
            LearnFault::Differs => formatter.pad("what the row says or claims isn't so"),
            LearnFault::Form(fault) => fmt::Display::fmt(fault, formatter),
            LearnFault::OutOfMemory => fmt::Display::fmt(&OutOfMemory, formatter),
            LearnFault::NotOneRow { place } => {
                write!(formatter, "the text at place {place} isn't one row")
            }
        }
    }
}

impl Error for LearnFault {}

/// Rows of a log of which not all were learned. Those before the fault are, and stay so.
#[derive(Clone, Copy, Debug, PartialEq, Eq, Hash)]
pub struct LearnError {
    /// How many were learned.
    pub taken: usize,
    /// Why the next one wasn't.
    pub fault: LearnFault,
}

impl fmt::Display for LearnError {
    fn fmt(&self, formatter: &mut fmt::Formatter<'_>) -> fmt::Result {
        write!(formatter, "rows learned: {}; {}", self.taken, self.fault)
    }
}

impl Error for LearnError {}

errors! {
    /// Why a setup gave no header.
    HeaderError {
        /// The setup is at fault.
        Setup: SetupFault;
        /// An allocation failed.
        Memory: OutOfMemory;
    }
}

errors! {
    /// Why no replica was opened.
    LogError {
        /// The text is no header, or rows come after it: `BadHeader`.
        Header: FormFault;
        /// An allocation failed.
        Memory: OutOfMemory;
    }
}

errors! {
    /// Why a replica gave no row. Nothing changed.
    RowError {
        /// The node is none of the group's.
        Node: NodeFault;
        /// An allocation failed.
        Memory: OutOfMemory;
        /// The event is refused.
        Refused: Refused;
    }
}

errors! {
    /// Why no agent was opened.
    OpenError {
        /// The setup is at fault.
        Setup: SetupFault;
        /// The node is none of the setup's.
        Node: NodeFault;
        /// The task that was kept is no table of the setup.
        Task: TableFault;
        /// An allocation failed.
        Memory: OutOfMemory;
    }
}

errors! {
    /// Why no table was planned.
    MembersError {
        /// The setup is at fault.
        Setup: SetupFault;
        /// A member is none of the setup's nodes, or there is none.
        Members: NodeFault;
        /// The old table is none of the setup.
        Old: TableFault;
        /// An allocation failed.
        Memory: OutOfMemory;
    }
}

errors! {
    /// Why an agent prepared no table.
    PrepareError {
        /// The old table is none of the setup.
        Old: TableFault;
        /// An allocation failed.
        Memory: OutOfMemory;
    }
}

errors! {
    /// Why an agent didn't take a table. Nothing changed.
    PlanError {
        /// It is no table of the setup.
        Table: TableFault;
        /// An allocation failed.
        Memory: OutOfMemory;
        /// The event is refused.
        Refused: Refused;
    }
}

errors! {
    /// Why a request didn't run. Nothing changed.
    ServeError {
        /// The line is no request.
        Line: LineFault;
        /// An allocation failed.
        Memory: OutOfMemory;
        /// The event is refused.
        Refused: Refused;
    }
}

errors! {
    /// Why a call didn't return with a reply. Nothing changed.
    ReplyError {
        /// The line is no reply.
        Line: LineFault;
        /// The event is refused.
        Refused: Refused;
    }
}

errors! {
    /// Why a group isn't rebalanced. Nothing changed.
    RebalanceError {
        /// A live node is none of the group's.
        Live: NodeFault;
        /// The old table is none of the group.
        Old: TableFault;
        /// An allocation failed.
        Memory: OutOfMemory;
        /// The log has no room for the rows: `Full`.
        Refused: Refused;
    }
}

errors! {
    /// Why there is no answer about what a node owns.
    OwnedError {
        /// The node is none of the group's.
        Node: NodeFault;
        /// An allocation failed.
        Memory: OutOfMemory;
    }
}

errors! {
    /// Why a member doesn't begin, or doesn't go on in another epoch. Nothing changed.
    OpeningError {
        /// The text is no header, or rows come after it: `BadHeader`.
        Header: FormFault;
        /// The node is none of the group's.
        Node: NodeFault;
        /// The old table is none of the group.
        Old: TableFault;
        /// The bound of the rows, or the ttl.
        Terms: TermsFault;
        /// An allocation failed.
        Memory: OutOfMemory;
    }
}

faults! {
    /// What is wrong with the partitions that leases keep.
    KeptFault {
        BadKept = BULLY_BAD_KEPT, "a lease keeps more than 65,535 partitions";
    }
}

errors! {
    /// Why a member didn't take in what a snapshot found. Nothing changed, or the member reads another one after a pause.
    SeenError {
        /// A lease is of none of the group's nodes.
        Node: NodeFault;
        /// A lease keeps too many partitions.
        Kept: KeptFault;
        /// An allocation failed.
        Memory: OutOfMemory;
    }
}
