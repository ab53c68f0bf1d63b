//! The calls that stories make, with their arguments.

use super::told::{answer, group, learned, member_state, owned, owners, row, rows, state, step};
use super::told::{verdict, word};
use super::{Answer, Fault, Value};
use bully::Verdict;
use bully::{
    check, plan_table, Agent, Configuration, ConfigurationError, LearnFault, Lease, Member,
};
use bully::{
    Opening, Promise, Replica, ReplicaEvent, Seen, Session, Setup, StoreAnswer, TraceFault,
};

/// What a call is given, one after the other. It is ruled out if the types of this crate don't have it.
pub struct Given<'a>(std::slice::Iter<'a, Value>);

impl<'a> Given<'a> {
    pub fn of(values: &'a [Value]) -> Given<'a> {
        Given(values.iter())
    }

    fn value(&mut self) -> &'a Value {
        self.0.next().expect("an argument")
    }

    fn number<N: TryFrom<u64>>(&mut self) -> Result<N, Fault> {
        match self.value() {
            Value::Number(number) => N::try_from(*number).map_err(|_| Fault::ruled_out()),
            other => panic!("{other:?} is no number"),
        }
    }

    fn is(&mut self) -> Result<bool, Fault> {
        Ok(self.number::<u32>()? != 0)
    }

    fn bytes(&mut self) -> &'a [u8] {
        match self.value() {
            Value::Text(text) => text,
            other => panic!("{other:?} is no text"),
        }
    }

    fn text(&mut self) -> Result<&'a str, Fault> {
        std::str::from_utf8(self.bytes()).map_err(|_| Fault::ruled_out())
    }

    // Rows of a log, without their line ends.
    fn rows(&mut self) -> Result<Vec<&'a str>, Fault> {
        Ok(self.text()?.split_terminator('\n').collect())
    }

    fn list(&mut self) -> Given<'a> {
        match self.value() {
            Value::List(values) => Given::of(values),
            other => panic!("{other:?} is no list"),
        }
    }

    fn numbers(&mut self) -> Result<Vec<u16>, Fault> {
        let mut list = self.list();
        (0..list.0.len()).map(|_| list.number()).collect()
    }

    // A setup, and its weights.
    fn setup(&mut self) -> Result<Setup, Fault> {
        let mut fields = self.list();
        let setup = Setup::new(fields.number()?, fields.number()?, fields.number()?);
        let keeps = fields.is()?;
        Ok(Setup { keeps, ..setup }.with_weights(self.numbers()?))
    }

    // A lease, which keeps so many partitions as it says.
    fn lease(&mut self) -> Result<Lease, Fault> {
        let mut fields = self.list();
        let (process, number) = (fields.number()?, fields.number()?);
        let (epoch, offset) = (fields.number()?, fields.number()?);
        Ok(Lease {
            node: fields.number()?,
            session: Session { process, number },
            promise: Promise { epoch, offset },
            kept: vec![0; fields.number()?],
            is_leaving: fields.is()?,
        })
    }

    // Leases, and after them the partitions that they keep.
    fn leases(&mut self) -> Result<Vec<Lease>, Fault> {
        let (mut leases, mut kept) = (self.list(), self.list());
        let given = (0..leases.0.len()).map(|_| {
            let mut lease = leases.lease()?;
            let count = lease.kept.len().min(kept.0.len());
            let partitions: Result<_, Fault> = (0..count).map(|_| kept.number()).collect();
            lease.kept = partitions?;
            Ok(lease)
        });
        given.collect()
    }

    fn opening(&mut self) -> Result<Opening, Fault> {
        Ok(Opening {
            header: self.text()?.to_string(),
            epoch: self.number()?,
            node: self.number()?,
            rows_max: self.number()?,
            old: Some(self.numbers()?),
            is_cooperative: self.is()?,
        })
    }

    fn event(&mut self) -> Result<ReplicaEvent, Fault> {
        use ReplicaEvent::{Check, Crash, Drop, Recover, Timeout};
        self.one_of([Crash, Recover, Check, Timeout, Drop])
    }

    fn answer(&mut self) -> Result<StoreAnswer, Fault> {
        use StoreAnswer::{Done, Refused, Unanswered};
        self.one_of([Done, Refused, Unanswered])
    }

    fn one_of<T: std::fmt::Debug, const N: usize>(&mut self, all: [T; N]) -> Result<T, Fault> {
        let given = self.value();
        let mut all = all.into_iter();
        let found = all.find(|each| *given == word(&format!("{each:?}")));
        found.ok_or_else(Fault::ruled_out)
    }
}

fn none<T>(_: T) -> Vec<Value> {
    Vec::new()
}

fn one(value: impl Into<Value>) -> Vec<Value> {
    vec![value.into()]
}

/// A call of an agent.
pub fn agent(agent: &mut Agent, name: &str, given: &mut Given) -> Answer {
    match name {
        "recover" => answer(agent.recover(), none),
        "crash" => answer(agent.crash(), none),
        "check" => answer(agent.check(), none),
        "timeout" => answer(agent.timeout(), none),
        "start" => answer(agent.start(), none),
        "advance" => answer(agent.advance(), none),
        "drop_orphan" => answer(agent.drop_orphan(), none),
        "plan" => answer(agent.plan(&given.numbers()?), none),
        "prepare" => answer(agent.prepare(Some(&given.numbers()?)), one),
        "request" => answer(agent.request(), |line| one(line.unwrap_or_default())),
        "serve" => answer(agent.serve(given.text()?), one),
        "replied" => answer(agent.replied(given.text()?), |answer| one(answer.name())),
        "failed" => answer(agent.failed(given.number()?), |answer| one(answer.name())),
        "show" => Ok(state(agent.state())),
        "up" => Ok(one(agent.up())),
        "task" => Ok(owners(agent.task())),
        "rows" => answer(agent.rows(), one),
        "claim" => answer(agent.claim(), one),
        _ => panic!("{name} is no call"),
    }
}

/// A call of a replica.
pub fn replica(replica: &mut Replica, name: &str, given: &mut Given, before: &mut usize) -> Answer {
    match name {
        "learn" => {
            let rows = given.rows()?;
            learned(before, |from| replica.learn(&rows[from..]))
        }
        "next" => answer(replica.next(given.number()?), rows),
        "event" => answer(replica.event(given.number()?, given.event()?), |row| {
            rows([row])
        }),
        "show" => answer(replica.state(given.number()?), state),
        "up" => answer(replica.up(given.number()?), one),
        "task" => answer(replica.task(given.number()?), owners),
        "group" => Ok(group(replica.group())),
        "planned" => Ok(owners(replica.planned())),
        "rebalance" => {
            let (live, old) = (given.numbers()?, given.numbers()?);
            answer(replica.rebalance(&live, Some(&old)), rows)
        }
        "is_stable" => answer(replica.is_stable(&given.numbers()?, given.number()?), one),
        "owned" => answer(replica.owned(given.number()?, given.number()?), owned),
        _ => panic!("{name} is no call"),
    }
}

/// A call of a member.
pub fn member(member: &mut Member, name: &str, given: &mut Given, before: &mut usize) -> Answer {
    match name {
        "learn" => {
            let rows = given.rows()?;
            learned(before, |from| member.learn(&rows[from..]))
        }
        "next" => Ok(step(member.next(given.number()?))),
        "answered" => Ok(none(member.answered(given.number()?, given.answer()?))),
        "snapshot_read" => {
            let (now, epoch, leases) = (given.number()?, given.number()?, given.leases()?);
            let (has_unknown, has_request) = (given.is()?, given.is()?);
            let seen = Seen {
                epoch,
                leases,
                has_unknown,
                has_request,
            };
            answer(member.snapshot_read(now, &seen), none)
        }
        "followed" => answer(member.followed(given.number()?, &given.opening()?), none),
        "passed" => Ok(none(member.passed())),
        "not_there" => Ok(none(member.not_there())),
        "woke" => Ok(none(member.woke())),
        "leave" => Ok(none(member.leave())),
        "lost" => Ok(none(member.lost(given.number()?))),
        "stopped" => Ok(none(member.stopped())),
        "stopped_on" => Ok(none(member.stopped_on(given.number()?))),
        "rebalance" => answer(member.rebalance(), rows),
        "owned" => answer(member.owned(), owned),
        "owned_of" => answer(member.owned_of(&given.lease()?), owned),
        "activities" => {
            let activities = member.activities();
            let words = activities.iter().map(|each| word(each.name()));
            Ok(vec![Value::List(words.collect())])
        }
        "works" => answer(member.works(), one),
        "is_affected" => answer(member.is_affected(given.number()?), one),
        "is_stable" => Ok(one(member.is_stable())),
        "needs_promises" => Ok(one(member.needs_promises(given.number()?))),
        "show" => Ok(member_state(member.state(given.number()?))),
        "node" => answer(member.node(given.number()?), state),
        "group" => Ok(group(member.group())),
        "planned" => Ok(owners(member.planned())),
        _ => panic!("{name} is no call"),
    }
}

/// A call of no handle.
pub fn free(name: &str, given: &mut Given) -> Answer {
    match name {
        "check" => match check(given.bytes()) {
            Err(fault @ TraceFault::Form { row: at, .. }) => {
                answer(Err::<(), _>(fault), none).map_err(|fault| Fault::new(fault.status, row(at)))
            }
            other => answer(other, verdict),
        },
        "header" => answer(given.setup()?.header(), |row| rows([row])),
        "detailed_header" => answer(given.setup()?.detailed_header(), |row| rows([row])),
        "table" => {
            let (setup, members, old) = (given.setup()?, given.numbers()?, given.numbers()?);
            answer(plan_table(&setup, &members, Some(&old)), |table| {
                vec![table.owners.into(), table.moves.into()]
            })
        }
        "configuration" => configuration(given.bytes()),
        "log" => log(given.text()?, given.rows()?),
        _ => panic!("{name} is no call"),
    }
}

fn configuration(text: &[u8]) -> Answer {
    match Configuration::read(text) {
        Err(ConfigurationError::Fault(fault)) => Err(Fault::new("BAD_CONFIG".into(), one(fault))),
        read => answer(read, |Configuration { header, names }| {
            let name = |name: String| format!("{}:{name}", name.len());
            rows(std::iter::once(header).chain(names.into_iter().map(name)))
        }),
    }
}

// A new replica learns the rows up to the first that isn't learned; and `check` judges the log alike.
fn log(header: &str, given: Vec<&str>) -> Answer {
    let mut replica = match Replica::open(header) {
        Ok(replica) => replica,
        Err(fault) => return answer(Err::<(), _>(fault), none),
    };
    let text = rows(given.iter().map(|row| row.to_string()));
    let Value::Text(text) = &text[0] else {
        panic!("{text:?} is no text")
    };
    let result = replica.learn(&given);
    let group = replica.group();
    let next = group.rows + 2;
    let wanted = match result.map_err(|error| error.fault) {
        Ok(_) => Ok(Verdict::Lawful {
            events: group.events,
        }),
        Err(LearnFault::Refused(cause)) => Ok(Verdict::Refused { row: next, cause }),
        Err(LearnFault::Differs) => Ok(Verdict::Differs { row: next }),
        Err(LearnFault::Form(fault)) => Err(TraceFault::Form { row: next, fault }),
        Err(other) => panic!("{other}"),
    };
    assert_eq!(check(&[header.as_bytes(), text].concat()), wanted);
    let mut written = vec![group.rows.into(), group.events.into()];
    written.truncate(if group.rows == group.events { 1 } else { 2 });
    let taken = learned(&mut 0, |_| result);
    assert_eq!(
        taken.as_ref().unwrap_or_else(|fault| &fault.written),
        &written[..1]
    );
    taken
        .map(|_| written.clone())
        .map_err(|fault| Fault::new(fault.status, written))
}

/// Opens a handle of this kind.
pub fn open(kind: &str, given: &mut Given) -> Result<super::Handle, Fault> {
    let mut handle = None;
    match kind {
        "agent" => {
            let (setup, node, events) = (given.setup()?, given.number()?, given.number()?);
            let task = given.numbers()?;
            let builder = Agent::builder(&setup, node).events(events).task(&task);
            answer(builder.open(), |agent| {
                none(handle = Some(super::Handle::Agent(agent)))
            })?;
        }
        "replica" => {
            let opened = Replica::open(given.text()?);
            answer(opened, |replica| {
                none(handle = Some(super::Handle::Replica(replica)))
            })?;
        }
        _ => {
            let opened = Member::open(&given.opening()?, given.number()?, given.number()?);
            answer(opened, |member| {
                none(handle = Some(super::Handle::Member(member)))
            })?;
        }
    }
    Ok(handle.expect("a handle"))
}
