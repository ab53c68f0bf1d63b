//! Looks at a group's view behind `RwLock`, in plain Rust: what `bench/look` compares observers with.
//!
//!     looker quiet|glances|publishing NODES LOOKS
//!
//! The group takes its first turns and is published. Then the view is looked at, read and cloned, so often, beside a thread
//! that goes on with the turns and publishes after each, or with nothing beside it. A publish writes what changed alone. A
//! glance reads the events and what is shown of node 1 but its table.
//! It prints the looks and what the last view makes, or the looks and the publishes.

// The checks of it are the oracle's.
#[allow(dead_code)]
#[path = "../../tests/oracle/world.rs"]
mod world;

#[path = "../planning.rs"]
mod planning;

// The history of it is the turner's.
#[allow(dead_code)]
#[path = "../turning.rs"]
mod turning;

use std::env;
use std::hint::black_box;
use std::process::exit;
use std::sync::atomic::{AtomicBool, Ordering};
use std::sync::RwLock;
use std::thread;
use turning::Group;
use world::{Node, Status, World};

/// How many rounds of turns come first, before the last node crashes for the first time.
const ROUNDS: u32 = 1000;

/// What is shown of one node.
#[derive(Clone)]
struct Shown {
    status: Status,
    coordinator: Option<u16>,
    task: Option<Vec<u16>>,
}

/// How many events were applied, and what is shown of each node.
#[derive(Clone)]
struct View {
    events: u64,
    nodes: Vec<Shown>,
}

impl Shown {
    fn of(node: &Node) -> Shown {
        Shown {
            status: node.status,
            coordinator: node.coordinator,
            task: node.has_task.then(|| node.task.clone()),
        }
    }
}

impl View {
    fn of(group: &Group) -> View {
        let nodes = |world: &World| (1..=world.setup.nodes).map(|node| Shown::of(world.node(node))).collect();
        View {
            events: group.events(),
            nodes: group.read(nodes),
        }
    }

    /// A number that all of it makes.
    fn made(&self) -> u64 {
        let mut made = self.events;
        let mut join = |number: u64| made = joined(made, number);
        for shown in &self.nodes {
            join(shown.status as u64);
            join(u64::from(shown.coordinator.unwrap_or(0)));
            for &owner in shown.task.iter().flatten() {
                join(u64::from(owner));
            }
        }
        made
    }
}

/// Looks so often; the last view. The counts never fall.
fn look(shown: &RwLock<View>, looks: u32) -> View {
    let mut last = shown.read().unwrap().clone();
    for _ in 1..looks {
        let view = black_box(shown.read().unwrap().clone());
        assert!(last.events <= view.events);
        last = view;
    }
    last
}

/// A number that what was made and one number more make.
fn joined(made: u64, number: u64) -> u64 {
    made.wrapping_mul(31).wrapping_add(number)
}

/// The events, and the status and the coordinator of node 1.
type Glance = (u64, Status, Option<u16>);

/// Glances so often; the last glance. The counts never fall.
fn glance(shown: &RwLock<View>, glances: u32) -> Glance {
    let glance = || -> Glance {
        let view = shown.read().unwrap();
        (view.events, view.nodes[0].status, view.nodes[0].coordinator)
    };
    let mut last = glance();
    for _ in 1..glances {
        let next = black_box(glance());
        assert!(last.0 <= next.0);
        last = next;
    }
    last
}

/// Goes on with the turns, and publishes after each, until told to stop; how often it did.
fn publish(group: &mut Group, nodes: u16, shown: &RwLock<View>, stop: &AtomicBool) -> u64 {
    let mut turn = ROUNDS * u32::from(nodes);
    let mut publishes = 0;
    while !stop.load(Ordering::SeqCst) {
        let node = group.turn(turn);
        let changed = [node, nodes].map(|node| group.read(|world| Shown::of(world.node(node))));
        let events = group.events();
        let mut view = shown.write().unwrap();
        view.events = events;
        for (node, changed) in [node, nodes].into_iter().zip(changed) {
            view.nodes[usize::from(node) - 1] = changed;
        }
        turn += 1;
        publishes += 1;
    }
    publishes
}

fn main() {
    let words: Vec<String> = env::args().skip(1).collect();
    let [task, nodes, looks] = words.as_slice() else {
        exit(2);
    };
    let (nodes, looks): (u16, u32) = (nodes.parse().unwrap(), looks.parse().unwrap());
    let mut group = Group::new(nodes);
    for turn in 0..ROUNDS * u32::from(nodes) {
        group.turn(turn);
    }
    let shown = RwLock::new(View::of(&group));
    if task == "quiet" {
        println!("looks {looks}\nmade {}", look(&shown, looks).made());
        return;
    }
    if task == "glances" {
        let (events, status, coordinator) = glance(&shown, looks);
        let made = joined(joined(events, status as u64), u64::from(coordinator.unwrap_or(0)));
        println!("looks {looks}\nmade {made}");
        return;
    }
    let stop = AtomicBool::new(false);
    let publishes = thread::scope(|scope| {
        let publisher = scope.spawn(|| publish(&mut group, nodes, &shown, &stop));
        look(&shown, looks);
        stop.store(true, Ordering::SeqCst);
        publisher.join().unwrap()
    });
    println!("looks {looks}\npublishes {publishes}");
}
