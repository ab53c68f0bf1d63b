//! One node of a group.

use crate::calls::{unexpected, AgentHandle};
use crate::faults::{
    OpenError, OutOfMemory, PlanError, PrepareError, Refused, ReplyError, ServeError,
};
use crate::setup::Setup;
use crate::shown::{Answer, State};
use std::fmt;

/// One node on its own: what a process of that node keeps.
///
/// Each call that takes `&mut self` is an event of the group, or two if a call failed, which [`Agent::rows`] then has
/// for the log; or it is refused and changes nothing. The calls that take `&self` change nothing. `docs/NODE.md` has
/// the loop of a process, and what the program must keep: the premises below are part of that.
///
/// An agent may move from thread to thread. Threads can't share one without a lock: even a call that only shows
/// something may write the handle for its own use.
///
/// ```compile_fail,E0277
/// fn shared<T: Sync>() {}
/// shared::<bully::Agent>();
/// ```
pub struct Agent {
    handle: AgentHandle,
    partitions: u16,
}

impl Agent {
    /// The agent of a node that is Down, and of which nothing was logged yet. [`Agent::builder`] opens one with a log
    /// or a task.
    pub fn open(setup: &Setup, node: u16) -> Result<Agent, OpenError> {
        Agent::builder(setup, node).open()
    }

    /// What opens the agent of this node, once it is given what the node's log has.
    pub fn builder(setup: &Setup, node: u16) -> AgentBuilder<'_> {
        AgentBuilder {
            setup,
            node,
            events: 0,
            task: &[],
        }
    }

    /// The node recovers, and stands for election. Refused as `Full`, `IsUp`.
    pub fn recover(&mut self) -> Result<(), Refused> {
        self.handle.recover().map_err(Refused::told)
    }

    /// The node crashes, or must stop. Refused as `Full`, `IsDown`.
    pub fn crash(&mut self) -> Result<(), Refused> {
        self.handle.crash().map_err(Refused::told)
    }

    /// The idle node begins to check. Refused as `Full`, `IsDown`, `Busy`.
    pub fn check(&mut self) -> Result<(), Refused> {
        self.handle.check().map_err(Refused::told)
    }

    /// The idle node heard nothing for too long. Refused as `Full`, `IsDown`, `Busy`.
    pub fn timeout(&mut self) -> Result<(), Refused> {
        self.handle.timeout().map_err(Refused::told)
    }

    /// The node starts the call that it wants to start; [`Agent::request`] then has what is to be sent. Refused as
    /// `Full`, `IsDown`, `NoStep`, `SlotBusy`.
    pub fn start(&mut self) -> Result<(), Refused> {
        self.handle.start().map_err(Refused::told)
    }

    /// The node moves on without a call. Refused as `Full`, `IsDown`, `NoStep`, `SlotBusy`.
    pub fn advance(&mut self) -> Result<(), Refused> {
        self.handle.advance().map_err(Refused::told)
    }

    /// The node has planned this table, as [`Agent::prepare`] makes one. Refused as `Full`, `IsDown`, `NoStep`,
    /// `SlotBusy`, `BadTable`, after a fault of the table.
    pub fn plan(&mut self, owners: &[u16]) -> Result<(), PlanError> {
        self.handle.plan(owners).map_err(PlanError::told)
    }

    /// The node's call, an orphan, is given up. Refused as `Full`, `IsDown`, `NoCall`, `NotOrphan`.
    pub fn drop_orphan(&mut self) -> Result<(), Refused> {
        self.handle.drop_orphan().map_err(Refused::told)
    }

    /// The table that the node should plan, with the fewest moves from this old one, if any: mostly its own task. An
    /// empty old table is none.
    pub fn prepare(&self, old: Option<&[u16]>) -> Result<Vec<u16>, PrepareError> {
        self.handle
            .prepare(old.unwrap_or_default(), self.partitions)
            .map_err(PrepareError::told)
    }

    /// The line of the request of the node's call, while the call is under way: to be sent to its callee, once. Lines
    /// have no line end.
    pub fn request(&self) -> Result<Option<String>, OutOfMemory> {
        let line = self.handle.request().map_err(OutOfMemory::told)?;
        Ok((!line.is_empty()).then_some(line))
    }

    /// The request of this line runs at the node. Returns the line of the reply to its caller. Refused as `Full`,
    /// `BadNode`, `NoCall`, `CalleeDown`, after a fault of the line.
    ///
    /// Premise: the request is the caller's call, and runs once, while the call is under way.
    pub fn serve(&mut self, line: &str) -> Result<String, ServeError> {
        self.handle.serve(line).map_err(ServeError::told)
    }

    /// The node's call returns with the reply of this line. Returns what the call brought. Refused as `Full`; `NoCall`,
    /// if the line is no reply to the call under way; after a fault of the line.
    ///
    /// Premise: the call ran at its callee, and was answered so.
    pub fn replied(&mut self, line: &str) -> Result<Answer, ReplyError> {
        self.handle
            .replied(line)
            .map(Answer::told)
            .map_err(ReplyError::told)
    }

    /// The node's call of this number failed, and returns: two events. Returns what the call brought. Refused as
    /// `Full`, `NoCall`.
    ///
    /// Premise: the callee is Down.
    pub fn failed(&mut self, number: u32) -> Result<Answer, Refused> {
        self.handle
            .failed(number)
            .map(Answer::told)
            .map_err(Refused::told)
    }

    /// The state of the node.
    pub fn state(&self) -> State {
        State::of(
            &self
                .handle
                .show()
                .unwrap_or_else(|status| unexpected(status)),
        )
    }

    /// The nodes of its up set, in rising order.
    pub fn up(&self) -> Vec<u16> {
        self.handle.up().unwrap_or_else(|status| unexpected(status))
    }

    /// The owners of its task, if it has one.
    pub fn task(&self) -> Option<Vec<u16>> {
        let owners = self.handle.task();
        let owners = owners.unwrap_or_else(|status| unexpected(status));
        (!owners.is_empty()).then_some(owners)
    }

    /// The rows of its last event or events, for the log, each with its line end. They are of version 3 of
    /// `docs/FORMATS.md`: [`Setup::detailed_header`] is the header of the log. Nothing, if there was none since it was
    /// opened.
    pub fn rows(&self) -> Result<String, OutOfMemory> {
        self.handle.rows().map_err(OutOfMemory::told)
    }

    /// The row that says all of its vector, a whole claim.
    pub fn claim(&self) -> Result<String, OutOfMemory> {
        self.handle.claim().map_err(OutOfMemory::told)
    }
}

/// What an agent is opened with: its node, which is Down, and what the log has of it.
///
/// ```
/// use bully::{Agent, Setup};
///
/// let setup = Setup::new(3, 4, 1000).keeping();
/// let agent = Agent::builder(&setup, 2).events(40).task(&[1, 1, 2, 3]).open()?;
/// assert_eq!(agent.state().events, 40);
/// assert_eq!(agent.task(), Some(vec![1, 1, 2, 3]));
/// # Ok::<(), bully::OpenError>(())
/// ```
#[derive(Clone, Copy, Debug)]
#[must_use = "it opens nothing before `open`"]
pub struct AgentBuilder<'a> {
    setup: &'a Setup,
    node: u16,
    events: u32,
    task: &'a [u16],
}

impl<'a> AgentBuilder<'a> {
    /// The node's log has this many events: 0 by default.
    pub fn events(self, events: u32) -> AgentBuilder<'a> {
        AgentBuilder { events, ..self }
    }

    /// The node has kept this task: none by default. An empty one is none.
    pub fn task(self, owners: &'a [u16]) -> AgentBuilder<'a> {
        AgentBuilder {
            task: owners,
            ..self
        }
    }

    /// Opens the agent.
    pub fn open(self) -> Result<Agent, OpenError> {
        let handle = AgentHandle::open(self.setup, self.node, self.events, self.task);
        Ok(Agent {
            handle: handle.map_err(OpenError::told)?,
            partitions: self.setup.partitions,
        })
    }
}

impl fmt::Debug for Agent {
    fn fmt(&self, formatter: &mut fmt::Formatter<'_>) -> fmt::Result {
        formatter.debug_tuple("Agent").field(&self.state()).finish()
    }
}
