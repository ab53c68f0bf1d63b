//! What the library takes it gives back, and where it is refused memory it says so, and nothing changes.

mod counted;
mod story;

use bully::{LearnError, LearnFault, Replica};
use counted::{held, refused_after, Aside};
use std::cell::RefCell;
use std::collections::{BTreeMap, BTreeSet};
use story::{stories, Answer, Interpreter, Line, Value};

#[global_allocator]
static ALLOCATOR: Aside = Aside;

/// All calls, with and without faults, leave nothing once the handles are closed.
#[test]
fn all_calls() {
    let stories = stories();
    let all = || {
        stories
            .iter()
            .for_each(|story| Interpreter::tell(story, &Interpreter::make))
    };
    all();
    let before = held();
    (0..10).for_each(|_| all());
    assert_eq!(held(), before);
}

// Makes the call with all its allocations refused but the first none, one, two, .., until none is refused. Until then each call must say so, and
// leave its handle as it was, but for rows that were learned before. Returns what it answers then, and how often one was refused.
fn refused(interpreter: &mut Interpreter, line: &Line) -> (Answer, u64) {
    let before = (held(), interpreter.shown(line));
    for granted in 0..1000 {
        let (answer, was_refused) = refused_after(granted, || interpreter.make(line));
        if !was_refused {
            return (answer, granted);
        }
        let fault = answer.expect_err("it was refused");
        assert_eq!(
            fault.status, "OUT_OF_MEMORY",
            "{}, after {granted}",
            line.place
        );
        if line.name != "learn" || fault.written == [Value::Number(0)] {
            let after = (held(), interpreter.shown(line));
            assert_eq!(after, before, "{}, after {granted}", line.place);
        }
    }
    panic!("{}: it takes memory without end", line.place);
}

// The functions that the header has as taking memory, without the prefix of all.
fn taking() -> BTreeSet<String> {
    let header = include_str!("../../../include/bully.h");
    let functions = header.split("/* ").filter_map(|part| {
        let (comment, rest) = part.split_once("*/\nbully_status bully_")?;
        let takes = ["BULLY_OUT_OF_MEMORY", "statuses are those of"]
            .iter()
            .any(|words| comment.contains(words));
        takes.then(|| rest.split('(').next().expect("a name").to_string())
    });
    functions.collect()
}

/// Each call of the stories, of which a member that reads a snapshot may go another way then. No other function takes memory.
#[test]
fn refused_calls() {
    let refusals = RefCell::new(BTreeMap::<String, u64>::new());
    for story in &stories() {
        println!("{}", story.name);
        let is_last = |line: &Line| {
            story
                .lines
                .last()
                .is_some_and(|last| last.place == line.place)
        };
        Interpreter::tell(story, &|interpreter, line| {
            if line.name == "log" || line.name == "snapshot_read" && !is_last(line) {
                return interpreter.make(line);
            }
            let (answer, count) = refused(interpreter, line);
            let name = [line.kind(), line.name.as_str()]
                .join("_")
                .trim_start_matches('_')
                .to_string();
            *refusals.borrow_mut().entry(name).or_default() += count;
            answer
        });
    }
    let refusals = refusals.into_inner();
    let refused = refusals
        .into_iter()
        .filter(|(_, count)| *count > 0)
        .map(|(name, _)| name);
    assert_eq!(refused.collect::<BTreeSet<_>>(), taking());
}

/// If memory ends in mid-way, the rows before that are learned. The others are once there is some.
#[test]
fn refused_in_mid_way() {
    let rows = [
        "recover,2",
        "move,2",
        "start,2",
        "lose,2",
        "return,2",
        "move,2",
        "move,2",
        "plan,2,2 2",
    ];
    let mut stopped = 0;
    for granted in 0..1000 {
        let mut replica = Replica::open("bully,1,2,2").expect("a header");
        let (given, was_refused) = refused_after(granted, || replica.learn(rows));
        if !was_refused {
            assert_eq!(given, Ok(rows.len()));
            assert!(stopped > 0);
            return;
        }
        let LearnError { taken, fault } = given.expect_err("it was refused");
        assert_eq!(fault, LearnFault::OutOfMemory);
        assert_eq!(replica.group().rows as usize, taken);
        stopped += taken;
        assert_eq!(replica.learn(&rows[taken..]), Ok(rows.len() - taken));
        assert_eq!(replica.planned(), Some(vec![2, 2]));
    }
    panic!("it takes memory without end");
}
