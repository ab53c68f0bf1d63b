//! A million agents, one after the other, leave nothing. This is a program of its own, so that no other test takes memory beside it.

use bully::{Agent, Setup};
use std::fs;

// The pages that the process has in memory.
fn pages() -> u64 {
    let sizes = fs::read_to_string("/proc/self/statm").expect("its sizes");
    let pages = sizes.split(' ').nth(1).expect("its pages");
    pages.parse().expect("a number")
}

/// Each is opened, takes a step and is closed. If each left only the least that malloc gives, that were 7,812 pages.
#[test]
fn a_million_agents() {
    let setup = Setup::new(2, 3, 1000);
    let one = || {
        let mut agent = Agent::open(&setup, 1).expect("an agent");
        agent.recover().expect("it is down");
    };
    (0..1000).for_each(|_| one());
    let before = pages();
    (0..1_000_000).for_each(|_| one());
    let grown = pages().saturating_sub(before);
    assert!(grown < 100, "it grew by {grown} pages");
}
