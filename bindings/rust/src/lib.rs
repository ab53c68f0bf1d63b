#![doc = include_str!("../README.md")]
#![deny(missing_docs, unsafe_code, unsafe_op_in_unsafe_fn)]

mod agent;
#[allow(unsafe_code)]
mod calls;
mod coded;
mod configuration;
mod faults;
mod member;
mod raw;
mod replica;
mod setup;
mod shown;
mod table;
mod trace;

pub use agent::{Agent, AgentBuilder};
pub use configuration::{Configuration, ConfigurationError};
pub use faults::{
    FormFault, HeaderError, KeptFault, LearnError, LearnFault, LineFault, LogError, MembersError,
    NodeFault, OpenError, OpeningError, OutOfMemory, OwnedError, PlanError, PrepareError,
    RebalanceError, Refused, ReplyError, RowError, SeenError, ServeError, SetupFault, TableFault,
    TermsFault, TraceFault,
};
pub use member::{
    Activity, Ending, Lease, Member, MemberState, Opening, Promise, Reason, Request, Seen, Session,
    SessionState, Step, StoreAnswer, Until, Work, TTL_MAX, TTL_MIN,
};
pub use replica::{Replica, ReplicaEvent};
pub use setup::{Setup, EVENTS_MAX, NODES_MAX, PARTITIONS_MAX, WEIGHT_MAX};
pub use shown::{Answer, Call, CallKind, Group, Owned, State, Status, Want};
pub use table::{plan_table, PlannedTable};
pub use trace::{check, Verdict};

/// The version of the library, as `bully --version` prints it.
pub fn version() -> &'static str {
    calls::version()
}
