//! The stories of `bindings/stories`, by this crate.

mod calls;
mod reading;
mod told;

use bully::{Agent, Member, Replica};
use calls::Given;
pub use reading::{stories, Line, Story, Value};
use std::collections::HashMap;

/// What a call writes, or its status with what is written beside that.
pub type Answer = Result<Vec<Value>, Fault>;

#[derive(Clone, Debug, PartialEq)]
pub struct Fault {
    pub status: String,
    pub written: Vec<Value>,
}

impl Fault {
    pub fn new(status: String, written: Vec<Value>) -> Fault {
        Fault { status, written }
    }

    // Of a call that the types of this crate rule out: with a text that isn't UTF-8, or a number that is too large.
    fn ruled_out() -> Fault {
        Fault::new("RULED_OUT".to_string(), Vec::new())
    }
}

pub enum Handle {
    Agent(Agent),
    Replica(Replica),
    Member(Member),
}

impl Handle {
    /// All that it shows, to see that nothing changed.
    pub fn shown(&self) -> String {
        match self {
            Handle::Agent(agent) => {
                let texts = (agent.request(), agent.rows(), agent.claim());
                format!("{agent:?} {texts:?} {:?} {:?}", agent.up(), agent.task())
            }
            Handle::Replica(replica) => {
                let of_node = |node| {
                    let numbers = (replica.up(node), replica.task(node));
                    format!(
                        "{:?} {numbers:?} {:?}",
                        replica.state(node),
                        replica.next(node)
                    )
                };
                let nodes: Vec<_> = (1..=replica.group().nodes).map(of_node).collect();
                format!("{replica:?} {nodes:?} {:?}", replica.planned())
            }
            Handle::Member(member) => {
                let group = member.group();
                let nodes: Vec<_> = (1..=group.nodes).map(|node| member.node(node)).collect();
                let works = (member.activities(), member.works());
                format!(
                    "{member:?} {nodes:?} {group:?} {:?} {works:?}",
                    member.planned()
                )
            }
        }
    }
}

/// How a call is made: at once, or refused memory first.
pub type Way<'a> = &'a dyn Fn(&mut Interpreter, &Line) -> Answer;

/// Makes the calls of stories.
#[derive(Default)]
pub struct Interpreter {
    handles: HashMap<String, Handle>,
    learned: usize, // rows of a call that was refused memory before its last one
}

impl Interpreter {
    /// Makes the calls of a story in this way.
    pub fn tell(story: &Story, way: Way) {
        let mut interpreter = Interpreter::default();
        for line in &story.lines {
            interpreter.take(line, way);
        }
    }

    // The call must answer as the line says. One that is refused changes nothing.
    fn take(&mut self, line: &Line, way: Way) {
        if line.status == "CLOSED" {
            return; // (a handle that is closed is none)
        }
        let before = self.shown(line);
        let answer = way(self, line);
        let (status, told) = match &answer {
            Ok(told) => ("OK", told),
            Err(fault) if *fault == Fault::ruled_out() => return,
            Err(fault) => (fault.status.as_str(), &fault.written),
        };
        assert_eq!(status, line.status, "{}: {told:?}", line.place);
        let is_same = line.answers.len() == told.len() || status != "OK" && line.answers.is_empty();
        assert!(is_same, "{}: {told:?}", line.place);
        for (wanted, told) in line.answers.iter().zip(told) {
            assert!(wanted.is_same(told), "{}: {told:?}", line.place);
        }
        let may_change = line.name == "learn"
            && (line.kind() == "member" || line.answers[0] != Value::Number(0));
        if status != "OK" && !may_change {
            assert_eq!(self.shown(line), before, "{}", line.place);
        }
    }

    /// All that the handle of the line shows, if it is open.
    pub fn shown(&self, line: &Line) -> String {
        let handle = self.handles.get(&line.handle);
        handle.map(Handle::shown).unwrap_or_default()
    }

    /// Makes the call of this line.
    pub fn make(&mut self, line: &Line) -> Answer {
        let (name, given) = (line.name.as_str(), &mut Given::of(&line.arguments));
        if name == "open" {
            let opened = calls::open(line.kind(), given)?;
            self.handles.insert(line.handle.clone(), opened);
            return Ok(Vec::new());
        }
        if name == "close" {
            self.handles.remove(&line.handle);
            return Ok(Vec::new());
        }
        let learned = &mut self.learned;
        match self.handles.get_mut(&line.handle) {
            Some(Handle::Agent(agent)) => calls::agent(agent, name, given),
            Some(Handle::Replica(replica)) => calls::replica(replica, name, given, learned),
            Some(Handle::Member(member)) => calls::member(member, name, given, learned),
            None => calls::free(name, given),
        }
    }
}
