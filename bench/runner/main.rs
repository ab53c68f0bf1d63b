//! A group in plain Rust, in threads or in rounds on one thread: what `bench/run` and `bench/play` compare `bully` with.
//!
//!     runner run CONFIG > TRACE
//!     runner play CONFIG > TRACE
//!
//! Of the configuration it reads the numbers of nodes, of partitions and of turns; all nodes weigh the same and recover in
//! the first turn, no task is kept over a crash, and a node checks at each sixteenth. `run` has a thread for the operator
//! and one for each node. They share the world and its history under one lock. In a turn a node plans first, where it has
//! to; then it serves the lowest call that waits for it; if there is none it begins a check or a timeout, or takes the step
//! that its procedure offers. It takes the lock once for these, and once more where it plans, and after a turn without an event
//! it gives its processor away, as `bully run` does. `play` takes the same turns in rounds, without a lock. In the end the history is
//! written as a trace.

// The other calls of it are the checker's.
#[allow(dead_code)]
#[path = "../../tests/oracle/world.rs"]
mod world;
// Only headers are written: reading is the checker's.
#[allow(dead_code)]
#[path = "../../tests/oracle/rows.rs"]
mod rows;
#[path = "../planning.rs"]
mod planning;

use planning::plan;
use rows::{header, Version};
use std::env;
use std::fs;
use std::io::{self, stdout, BufWriter, Write};
use std::process::ExitCode;
use std::sync::Mutex;
use std::thread;
use world::{action_word, Action, Node, NodeSet, Offer, Phase, Point, Setup, World};

const EVENTS_MAX: u32 = 1_000_000;

struct Entry {
    action: Action,
    node: u16,
    owners: Vec<u16>,
}

struct Group {
    world: World,
    history: Vec<Entry>,
}

/// What turns are taken on: a group, or one under a lock, which each call takes anew.
trait Hold {
    fn hold<T>(&mut self, does: impl FnOnce(&mut Group) -> T) -> T;
}

impl Hold for Group {
    fn hold<T>(&mut self, does: impl FnOnce(&mut Group) -> T) -> T {
        does(self)
    }
}

impl Hold for &Mutex<Group> {
    fn hold<T>(&mut self, does: impl FnOnce(&mut Group) -> T) -> T {
        does(&mut self.lock().unwrap())
    }
}

/// What a node holds between its turns: its procedure, with what that needs at its point, and the table that it planned.
struct Procedure {
    me: u16,
    point: Point,
    generation: u32,
    awaits: bool,
    up: NodeSet,
    coordinator: Option<u16>,
    table: Option<Vec<u16>>,
}

impl Group {
    /// Applies the event and records it, if it is possible.
    fn step(&mut self, action: Action, node: u16, owners: &[u16]) -> bool {
        if self.world.events == EVENTS_MAX || self.world.apply(action, node, owners).is_err() {
            return false;
        }
        let owners = owners.to_vec();
        self.history.push(Entry { action, node, owners });
        true
    }

    /// Runs the lowest call that waits for the node, if there is one.
    fn serve(&mut self, me: u16) -> bool {
        if self.world.node(me).is_down() {
            return false;
        }
        let nodes = self.world.setup.nodes;
        let waits = |&caller: &u16| {
            let slot = &self.world.node(caller).slot;
            slot.phase == Phase::Sent && slot.callee == me
        };
        match (1..=nodes).find(waits) {
            Some(caller) => self.step(Action::Run, caller, &[]),
            None => false,
        }
    }

    /// The step of the node by the turn rule, if it has one.
    fn next(&self, procedure: &Procedure) -> Option<Action> {
        let node = self.world.node(procedure.me);
        match node.slot.phase {
            Phase::Ran(_) | Phase::Failed => Some(Action::Return),
            Phase::Sent if self.world.node(node.slot.callee).is_down() => Some(Action::Lose),
            Phase::Sent if node.has_orphan() => Some(Action::Drop),
            Phase::Sent => None,
            Phase::Empty => match node.offer(self.world.setup.nodes) {
                Offer::Nothing => None,
                Offer::Call(..) => Some(Action::Start),
                Offer::Move => Some(Action::Move),
                Offer::Plan => procedure.table.is_some().then_some(Action::Plan),
            },
        }
    }

    /// Takes the step of the node, if it has one, and the procedure goes on by it; one that isn't in step is given up.
    fn proceed(&mut self, procedure: &mut Procedure) -> bool {
        let me = procedure.me;
        if !procedure.is_in_step(self.world.node(me)) {
            procedure.follow(self.world.node(me));
            return false;
        }
        let Some(action) = self.next(procedure) else {
            return false;
        };
        let taken = self.step(action, me, procedure.table.as_deref().unwrap_or_default());
        if taken {
            procedure.follow(self.world.node(me));
        }
        taken
    }
}

impl Procedure {
    fn idle(me: u16) -> Procedure {
        Procedure {
            me,
            point: Point::Idle,
            generation: 0,
            awaits: false,
            up: NodeSet::EMPTY,
            coordinator: None,
            table: None,
        }
    }

    fn is_in_step(&self, node: &Node) -> bool {
        let holds = match self.point {
            Point::Halting(_) | Point::Announcing(_) | Point::Planning => self.up == node.up,
            Point::Inquiring => self.coordinator == node.coordinator,
            _ => true,
        };
        holds && self.generation == node.generation && self.awaits == awaits(node) && self.point == node.point
    }

    /// Becomes the one that the world shows of the node.
    fn follow(&mut self, node: &Node) {
        self.generation = node.generation;
        self.point = node.point;
        self.awaits = awaits(node);
        self.table = None;
        match self.point {
            Point::Halting(_) | Point::Announcing(_) | Point::Planning => self.up = node.up,
            Point::Inquiring => self.coordinator = node.coordinator,
            _ => {}
        }
    }
}

/// Whether a live call of the node is under way.
fn awaits(node: &Node) -> bool {
    node.slot.phase != Phase::Empty && !node.has_orphan()
}

/// The table that the node plans, from its own task.
fn planned(setup: &Setup, group: &mut impl Hold, procedure: &Procedure) -> Vec<u16> {
    let old = group.hold(|group| {
        let node = group.world.node(procedure.me);
        node.has_task.then(|| node.task.clone())
    });
    plan(setup, &procedure.up.with(procedure.me), old.as_deref()).into_vec()
}

/// One turn of a node; whether there was an event.
fn take_turn(setup: &Setup, group: &mut impl Hold, turn: u32, procedure: &mut Procedure) -> bool {
    let me = procedure.me;
    if procedure.point == Point::Planning && procedure.table.is_none() {
        procedure.table = Some(planned(setup, group, procedure));
    }
    let idle = procedure.point == Point::Idle;
    group.hold(|group| {
        group.serve(me)
            || match turn % 16 {
                0 if idle => group.step(Action::Check, me, &[]),
                8 if idle => group.step(Action::Timeout, me, &[]),
                _ => group.proceed(procedure),
            }
    })
}

/// The first turn of the operator.
fn recover_all(setup: &Setup, group: &mut impl Hold) {
    for node in 1..=setup.nodes {
        group.hold(|group| group.step(Action::Recover, node, &[]));
    }
}

fn run_node(setup: &Setup, mut group: &Mutex<Group>, turns: u32, me: u16) {
    let mut procedure = Procedure::idle(me);
    for turn in 1..=turns {
        if !take_turn(setup, &mut group, turn, &mut procedure) {
            thread::yield_now();
        }
    }
}

fn run_operator(setup: &Setup, mut group: &Mutex<Group>, turns: u32) {
    recover_all(setup, &mut group);
    for _ in 1..turns {
        thread::yield_now();
    }
}

fn opening(setup: &Setup) -> Group {
    Group {
        world: World::new(*setup),
        history: Vec::new(),
    }
}

fn run(setup: &Setup, turns: u32) -> Group {
    let group = Mutex::new(opening(setup));
    thread::scope(|scope| {
        scope.spawn(|| run_operator(setup, &group, turns));
        for me in 1..=setup.nodes {
            let group = &group;
            scope.spawn(move || run_node(setup, group, turns, me));
        }
    });
    group.into_inner().unwrap()
}

fn play(setup: &Setup, turns: u32) -> Group {
    let mut group = opening(setup);
    let mut procedures: Vec<Procedure> = (1..=setup.nodes).map(Procedure::idle).collect();
    recover_all(setup, &mut group);
    for turn in 1..=turns {
        for procedure in &mut procedures {
            take_turn(setup, &mut group, turn, procedure);
        }
    }
    group
}

fn write(setup: &Setup, history: &[Entry]) -> io::Result<()> {
    let mut output = BufWriter::new(stdout().lock());
    writeln!(output, "{}", header(setup, Version::of(setup)))?;
    for entry in history {
        write!(output, "{},{}", action_word(entry.action), entry.node)?;
        for (place, owner) in entry.owners.iter().enumerate() {
            let before = if place == 0 { ',' } else { ' ' };
            write!(output, "{before}{owner}")?;
        }
        writeln!(output)?;
    }
    output.flush()
}

/// The number at a key of the configuration.
fn number_at(key: &str, config: &str) -> Option<u32> {
    let value = |line: &str| line.strip_prefix(key)?.trim_start().strip_prefix('=')?.trim().parse().ok();
    config.lines().find_map(value)
}

fn asked() -> Option<(Setup, u32, bool)> {
    let words: Vec<String> = env::args().skip(1).collect();
    let [command, path] = words.as_slice() else {
        return None;
    };
    let config = fs::read_to_string(path).ok()?;
    let (nodes, partitions) = (number_at("nodes", &config)?, number_at("partitions", &config)?);
    let setup = Setup::even(nodes as u16, partitions as usize);
    Some((setup, number_at("turns", &config)?, command == "run"))
}

fn main() -> ExitCode {
    let Some((setup, turns, in_threads)) = asked() else {
        eprintln!("usage: runner run|play CONFIG");
        return ExitCode::from(2);
    };
    let group = if in_threads { run(&setup, turns) } else { play(&setup, turns) };
    match write(&setup, &group.history) {
        Ok(()) => ExitCode::SUCCESS,
        Err(_) => ExitCode::FAILURE,
    }
}
