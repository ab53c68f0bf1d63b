//! Two nodes elect through lines, each in the loop of `docs/NODE.md`. What they have to say follows from the rows of an election in
//! `docs/FORMATS.md`, and so do the numbers of calls.

use bully::{check, Agent, Answer, Setup, State, Status, Verdict, Want};
use std::thread;

const HEADER: &str = "bully,3,2,3,1 1,clear\n";

const LOG: &str = "\
recover,1
recover,2
start,1,are-you-up,2
run,1,are-you-up,2,yes
return,1,are-you-up,2,yes
move,2
start,2,halt,1
run,2,halt,1,yes
return,2,halt,1,yes
move,2
start,2,new-coordinator,1
run,2,new-coordinator,1,yes
return,2,new-coordinator,1,yes
move,2
plan,2,1 1 2
start,2,ready,1
run,2,ready,1,yes
return,2,ready,1,yes
move,2
";

const LINES: [&str; 8] = [
    "ask,1,1,2,are-you-up",
    "tell,1,1,yes",
    "ask,2,3,1,halt",
    "tell,2,3,yes",
    "ask,2,6,1,new-coordinator",
    "tell,2,6,yes",
    "ask,2,10,1,ready,1 1 2",
    "tell,2,10,yes",
];

/// Both nodes, what they sent each other, and the log of both in one order.
struct Pair {
    agents: [Agent; 2],
    lines: Vec<String>,
    log: String,
}

impl Pair {
    fn open(setup: &Setup) -> Pair {
        let open = |node| Agent::open(setup, node).expect("an agent");
        Pair {
            agents: [open(1), open(2)],
            lines: Vec::new(),
            log: String::new(),
        }
    }

    fn recover_both(&mut self) {
        for index in [0, 1] {
            self.agents[index].recover().expect("it was down");
            self.log_rows(index);
        }
    }

    fn log_rows(&mut self, index: usize) {
        self.log
            .push_str(&self.agents[index].rows().expect("memory"));
    }

    // The node goes on until it wants nothing more by itself.
    fn go_on(&mut self, index: usize) {
        loop {
            let agent = &mut self.agents[index];
            match agent.state().wants {
                Want::Start => agent.start().expect("a start"),
                Want::Move => agent.advance().expect("a move"),
                Want::Plan => {
                    let table = agent.prepare(agent.task().as_deref()).expect("a table");
                    agent.plan(&table).expect("a plan");
                }
                Want::Await | Want::Nothing => return,
            }
            self.log_rows(index);
            self.hand_on(index);
        }
    }

    // The request of the node, if any, goes to the other one, and the reply comes back.
    fn hand_on(&mut self, index: usize) {
        let Some(request) = self.agents[index].request().expect("memory") else {
            return;
        };
        let reply = self.agents[1 - index].serve(&request).expect("it is up");
        self.log_rows(1 - index);
        let answer = self.agents[index].replied(&reply);
        assert_eq!(answer, Ok(Answer::Yes));
        self.log_rows(index);
        self.lines.extend([request, reply]);
    }
}

fn elected() -> Pair {
    let mut pair = Pair::open(&Setup::new(2, 3, 1000));
    pair.recover_both();
    pair.go_on(0);
    pair.go_on(1);
    pair
}

#[test]
fn both_are_normal() {
    let pair = elected();
    for (agent, (node, events)) in pair.agents.iter().zip([(1, 6), (2, 13)]) {
        let state = State {
            node,
            status: Status::Normal,
            coordinator: Some(2),
            halter: Some(2),
            wants: Want::Nothing,
            call: None,
            number: if node == 1 { 1 } else { 10 },
            events,
            generation: if node == 1 { 1 } else { 0 },
        };
        assert_eq!(agent.state(), state);
        assert_eq!(agent.task(), Some(vec![1, 1, 2]));
    }
    let [lower, higher] = &pair.agents;
    assert_eq!((lower.up(), higher.up()), (vec![], vec![1]));
    assert_eq!(lower.claim().as_deref(), Ok("saw,1,normal,2,2,-,1 1 2\n"));
    assert_eq!(higher.claim().as_deref(), Ok("saw,2,normal,2,2,1,1 1 2\n"));
}

#[test]
fn their_rows_and_lines_are_those_of_an_election() {
    let pair = elected();
    assert_eq!(pair.log, LOG);
    assert_eq!(pair.lines, LINES);
}

/// So do they with a claim of each, and not with another one.
#[test]
fn their_rows_are_lawful_behind_a_header() {
    let pair = elected();
    let setup = Setup::new(2, 3, 1000);
    let mut trace = setup.detailed_header().expect("a setup") + "\n";
    assert_eq!(trace, HEADER);
    trace.push_str(&pair.log);
    assert_eq!(check(trace.as_bytes()), Ok(Verdict::Lawful { events: 19 }));
    for agent in &pair.agents {
        trace.push_str(&agent.claim().expect("memory"));
    }
    assert_eq!(check(trace.as_bytes()), Ok(Verdict::Lawful { events: 19 }));
    trace.push_str("saw,1,normal,1,2,-,1 1 2\n");
    assert_eq!(check(trace.as_bytes()), Ok(Verdict::Differs { row: 23 }));
}

/// An agent may go on in another thread, since it is `Send`.
#[test]
fn from_thread_to_thread() {
    let mut pair = Pair::open(&Setup::new(2, 3, 1000));
    pair.recover_both();
    let moved = thread::spawn(move || {
        pair.go_on(0);
        pair
    });
    let mut pair = moved.join().expect("a thread");
    pair.go_on(1);
    assert_eq!(pair.log, LOG);
}

/// Agents of their own in many threads at once.
#[test]
fn beside_other_threads() {
    let threads: Vec<_> = (0..8)
        .map(|_| thread::spawn(|| (0..200).all(|_| elected().log == LOG)))
        .collect();
    for thread in threads {
        assert!(thread.join().expect("a thread"));
    }
}
