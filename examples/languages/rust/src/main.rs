//! Three nodes elect a coordinator over a log. Here each row is only learned.

use bully::{Replica, ReplicaEvent, Setup};
use std::error::Error;

fn step(group: &mut Replica, node: u16) -> Result<bool, Box<dyn Error>> {
    let row = group.next(node)?; // none: it rests
    let has_moved = row.is_some();
    group.learn(row)?; // in a store the row is appended first
    Ok(has_moved)
}

fn elected() -> Result<Replica, Box<dyn Error>> {
    let mut group = Replica::open(&Setup::new(3, 5, 1000).header()?)?; // 3 nodes, 5 partitions
    for node in 1..=3 {
        group.learn([group.event(node, ReplicaEvent::Recover)?])?;
    }
    while step(&mut group, 1)? || step(&mut group, 2)? || step(&mut group, 3)? {}
    Ok(group)
}

fn main() -> Result<(), Box<dyn Error>> {
    let group = elected()?;
    for node in 1..=3 {
        let state = group.state(node)?;
        println!("{node} {} {}", state.status, state.coordinator.unwrap_or(0));
    }
    let owners = group.planned().unwrap_or_default();
    let owners: Vec<String> = owners.iter().map(u16::to_string).collect();
    println!("{}", owners.join(" "));
    Ok(())
}
