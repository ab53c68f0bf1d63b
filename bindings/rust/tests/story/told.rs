//! What this crate returns, as stories have it.

use super::{Answer, Fault, Value};
use bully::{Group, LearnError, LearnFault, MemberState, Owned, Request, Session, SessionState};
use bully::{State, Step, Verdict, Work};
use std::fmt::Debug;

/// A name as the header has it: `ANY_IDLE` for `AnyIdle`.
pub fn word(name: &str) -> Value {
    let mut word = String::new();
    for each in name.chars() {
        if each.is_uppercase() && !word.is_empty() {
            word.push('_');
        }
        word.extend(each.to_uppercase());
    }
    Value::Word(word)
}

macro_rules! numbers {
    ($($kind:ident)*) => {
        $(impl From<$kind> for Value {
            fn from(number: $kind) -> Value {
                Value::Number(number.into())
            }
        })*
    };
}

numbers! { u16 u32 u64 bool }

impl From<&str> for Value {
    fn from(name: &str) -> Value {
        word(name)
    }
}

impl From<String> for Value {
    fn from(text: String) -> Value {
        Value::Text(text.into())
    }
}

impl From<Vec<u16>> for Value {
    fn from(numbers: Vec<u16>) -> Value {
        Value::List(numbers.into_iter().map(Value::from).collect())
    }
}

impl<T: Into<Value>> From<Option<T>> for Value {
    fn from(value: Option<T>) -> Value {
        value.map_or(Value::Number(0), T::into)
    }
}

macro_rules! whole {
    { $($field:ident: $value:expr,)* } => {
        Value::Struct(vec![$((stringify!($field).to_string(), Value::from($value))),*], true)
    };
}

pub fn rows(rows: impl IntoIterator<Item = String>) -> Vec<Value> {
    let rows: String = rows.into_iter().map(|row| row + "\n").collect();
    vec![rows.into()]
}

pub fn owners(owners: Option<Vec<u16>>) -> Vec<Value> {
    vec![owners.unwrap_or_default().into()]
}

pub fn owned(owned: Option<Owned>) -> Vec<Value> {
    let token = owned.as_ref().map(|owned| owned.token);
    let partitions = owned.map(|owned| owned.partitions).unwrap_or_default();
    vec![token.into(), partitions.into()]
}

pub fn state(state: State) -> Vec<Value> {
    let call = state.call;
    vec![whole! {
        status: state.status.name(),
        wants: state.wants.name(),
        events: state.events,
        generation: state.generation,
        call: call.map(|call| call.kind.name()),
        orphan: call.map(|call| call.orphan),
        number: state.number,
        node: state.node,
        coordinator: state.coordinator,
        halter: state.halter,
        callee: call.map(|call| call.callee),
    }]
}

pub fn group(group: Group) -> Vec<Value> {
    vec![whole! {
        rows: group.rows,
        events: group.events,
        token: group.token,
        planner: group.planner,
        nodes: group.nodes,
        partitions: group.partitions,
        keeps: group.keeps,
    }]
}

fn ask(request: Request) -> Value {
    let (name, session, offset) = match request {
        Request::Acquire(session, offset) => ("Acquire", Some(session), offset),
        Request::Renew(session) => ("Renew", Some(session), 0),
        Request::Release(session) => ("Release", Some(session), 0),
        Request::Snapshot => ("Snapshot", None, 0),
        Request::Promise(session, offset) => ("Promise", Some(session), offset),
        Request::Append(offset) => ("Append", None, offset),
        Request::RollOver(offset) => ("RollOver", None, offset),
        Request::Follow => ("Follow", None, 0),
    };
    whole! {
        kind: "Ask",
        request: name,
        process: session.map(|session| session.process),
        number: session.map(|session| session.number),
        offset: offset,
    }
}

pub fn step(step: Step) -> Vec<Value> {
    vec![match step {
        Step::Ask(request) => ask(request),
        Step::Begin(token) => whole! { kind: "Begin", token: token, },
        Step::Stop => whole! { kind: "Stop", },
        Step::Wait(at_most, until, reason) => {
            whole! { kind: "Wait", at_most: at_most, until: until.name(), reason: reason.name(), }
        }
        Step::BackOff(at_most, reason) => {
            whole! { kind: "BackOff", at_most: at_most, reason: reason.name(), }
        }
        Step::End(ending) => whole! { kind: "End", ending: ending.name(), },
    }]
}

pub fn member_state(state: MemberState) -> Vec<Value> {
    let (name, session, since): (_, Option<Session>, _) = match state.session {
        SessionState::Absent => ("Absent", None, 0),
        SessionState::Unknown(session) => ("Unknown", Some(session), 0),
        SessionState::Live(session, since) => ("Live", Some(session), since),
    };
    let (work, token) = match state.work {
        Work::Idle => ("Idle", 0),
        Work::Working(token) => ("Working", token),
        Work::Lost(token) => ("Lost", token),
        Work::Stopping(token) => ("Stopping", token),
    };
    vec![whole! {
        process: session.map(|session| session.process),
        number: session.map(|session| session.number),
        since: since,
        sure_left: state.sure_left,
        session: name,
        promised: state.promised,
        work: work,
        token: token,
        ending: state.ending.map(|ending| ending.name()),
        epoch: state.epoch,
        offset: state.offset,
        node: state.node,
        has_request: state.has_request,
    }]
}

pub fn verdict(verdict: Verdict) -> Vec<Value> {
    let (kind, number, cause) = match verdict {
        Verdict::Lawful { events } => ("Lawful", events, "Ok"),
        Verdict::Refused { row, cause } => ("Refused", row, cause.name()),
        Verdict::Differs { row } => ("Differs", row, "Ok"),
    };
    vec![whole! { kind: kind, number: number, cause: cause, }]
}

/// The fault of a trace: its row is written.
pub fn row(row: u32) -> Vec<Value> {
    vec![whole! { number: row, }]
}

/// What a call answers: what is written, or the status of its error.
pub fn answer<T, E: Debug>(result: Result<T, E>, written: impl FnOnce(T) -> Vec<Value>) -> Answer {
    result.map(written).map_err(|error| fault(&error))
}

// The status of an error: its innermost name, as `TABLE_LENGTH` for `Old(Length)`.
fn fault(error: &impl Debug) -> Fault {
    let shown = format!("{error:?}");
    let is_name = |name: &&str| name.starts_with(|first: char| first.is_uppercase());
    let names = shown.split(|each: char| !each.is_alphanumeric());
    let names: Vec<&str> = names.filter(is_name).collect();
    let name = match names[..] {
        [.., "Line", name] => format!("Line{name}"),
        [.., "Old" | "Table" | "Task", name] if name != "OutOfMemory" => format!("Table{name}"),
        [.., "Differs"] => "RowDiffers".to_string(),
        [.., name] => name.to_string(),
        [] => panic!("{shown} is no error"),
    };
    match word(&name) {
        Value::Word(status) => Fault::new(status, Vec::new()),
        other => panic!("{other:?} is no status"),
    }
}

/// How many rows were learned, with those of calls before that were refused memory.
pub fn learned(
    before: &mut usize,
    learn: impl FnOnce(usize) -> Result<usize, LearnError>,
) -> Answer {
    let learned = learn(*before);
    let taken = *before + learned.map_or_else(|error| error.taken, |taken| taken);
    let is_refused = learned.is_err_and(|error| error.fault == LearnFault::OutOfMemory);
    *before = if is_refused { taken } else { 0 };
    let written = vec![Value::Number(taken as u64)];
    match learned {
        Ok(_) => Ok(written),
        Err(error) => Err(Fault::new(fault(&error.fault).status, written)),
    }
}
