//! The checker: it judges each row as it comes, and goes on reading for faults of form.

use crate::reading::{Fault, Rows};
use crate::rows::{write_numbers, Claim, Rest, Room, Row, Told};
use crate::world::{Action, Answer, Node, Refusal, Status, World};
use std::io::{self, BufRead, Write};

pub enum Verdict {
    Lawful(Box<World>),
    Refused(u32, Refusal),
    Differs(u32),
}

/// The verdict on a trace, or its first fault.
pub fn check<R: BufRead>(input: R) -> Result<Verdict, Fault> {
    let mut rows = Rows::open(input)?;
    let mut world = World::new(rows.setup);
    let mut verdict = None;
    while let Some((number, row)) = rows.next()? {
        if verdict.is_none() {
            verdict = judge(&mut world, &row, &rows.room, number);
        }
    }
    Ok(verdict.unwrap_or_else(|| Verdict::Lawful(Box::new(world))))
}

/// The verdict that this row decides, if it does.
fn judge(world: &mut World, row: &Row, room: &Room, number: u32) -> Option<Verdict> {
    let is_true = match row {
        Row::Event(action, node, told) => match world.apply(*action, *node, &room.owners) {
            Ok(answer) => has_told(world.node(*node), *action, answer, told),
            Err(refusal) => return Some(Verdict::Refused(number, refusal)),
        },
        Row::Claim(claim) => has_claimed(world, claim, room),
    };
    (!is_true).then_some(Verdict::Differs(number))
}

/// Whether what the row of an event says further is so, once the event was applied to this node and answered.
fn has_told(node: &Node, action: Action, answer: Answer, told: &Option<Told>) -> bool {
    told.is_none() || *told == Told::of(action, &node.slot, answer)
}

fn has_claimed(world: &World, claim: &Claim, room: &Room) -> bool {
    if claim.node > world.setup.nodes {
        return false;
    }
    let node = world.node(claim.node);
    let shows_it = node.status == claim.status && node.coordinator == claim.coordinator;
    shows_it && claim.rest.as_ref().is_none_or(|rest| has_rest(node, rest, room))
}

fn has_rest(node: &Node, rest: &Rest, room: &Room) -> bool {
    let claimed_owners = rest.has_task.then_some(room.owners.as_slice());
    node.halter == rest.halter && node.up == room.up && node.owners() == claimed_owners
}

/// Writes the verdict.
pub fn write_verdict<W: Write>(mut output: W, verdict: &Verdict) -> io::Result<()> {
    match verdict {
        Verdict::Refused(row, refusal) => writeln!(output, "refused {row} {refusal:?}")?,
        Verdict::Differs(row) => writeln!(output, "differs {row}")?,
        Verdict::Lawful(world) => write_world(&mut output, world)?,
    }
    output.flush()
}

fn write_world<W: Write>(output: &mut W, world: &World) -> io::Result<()> {
    writeln!(output, "lawful {}", world.events)?;
    for number in 1..=world.setup.nodes {
        write_node(output, number, world.node(number))?;
    }
    Ok(())
}

fn write_node<W: Write>(output: &mut W, number: u16, node: &Node) -> io::Result<()> {
    write!(output, "{number} {} ", status_word(node.status))?;
    write!(output, "{} {} ", or_dash(node.coordinator), or_dash(node.halter))?;
    write_owners(output, node, ',')?;
    writeln!(output)
}

/// Writes the owners of the node's task with this between each two, or a dash where it has none.
pub fn write_owners<W: Write>(output: &mut W, node: &Node, between: char) -> io::Result<()> {
    match node.owners() {
        Some(owners) => write_numbers(output, owners.iter().copied(), between),
        None => write!(output, "-"),
    }
}

pub fn status_word(status: Status) -> &'static str {
    match status {
        Status::Down => "down",
        Status::Election => "election",
        Status::Reorganization => "reorganization",
        Status::Normal => "normal",
    }
}

pub fn or_dash(node: Option<u16>) -> String {
    match node {
        None => "-".to_string(),
        Some(number) => number.to_string(),
    }
}
