//! Turns of a group by the same rules in plain Rust, behind a lock: what `bench/turns` compares the locked group with.
//!
//!     turner NODES COUNT
//!
//! It prints how many entries there are, and a number that all of them make.

// The checks of it are the oracle's.
#[allow(dead_code)]
#[path = "../../tests/oracle/world.rs"]
mod world;

#[path = "../planning.rs"]
mod planning;

// How its world is read is the looker's.
#[allow(dead_code)]
#[path = "../turning.rs"]
mod turning;

use std::env;
use turning::{Entry, Group};

fn made_by(history: &[Entry]) -> u64 {
    let mut made = 0u64;
    let mut join = |number: u64| made = made.wrapping_mul(31).wrapping_add(number);
    for entry in history {
        join(u64::from(entry.actor));
        join(entry.action as u64);
        join(u64::from(entry.node));
        join(entry.answer as u64);
        for &owner in entry.owners.iter().flat_map(|owners| owners.iter()) {
            join(u64::from(owner));
        }
    }
    made
}

fn main() {
    let words: Vec<u32> = env::args().skip(1).filter_map(|word| word.parse().ok()).collect();
    let &[nodes, count] = words.as_slice() else {
        panic!("the numbers of nodes and of turns");
    };
    let mut group = Group::new(nodes as u16);
    for turn in 0..count {
        group.turn(turn);
    }
    let history = group.history();
    println!("entries {}\nmade {}", history.len(), made_by(&history));
}
