//! Makes lawful traces: it keeps a world and takes, again and again, an event that is possible there.

use crate::checking::{or_dash, status_word};
use crate::random::Random;
use crate::rows::{header, write_event, Version};
use crate::world::{Action, CallKind, Node, Offer, Phase, Point, Setup, World};
use std::fmt;
use std::io::{self, Write};

/// What a trace has in it.
#[derive(Default)]
pub struct Tally {
    pub nodes_stood: u32,
    pub elections_won: u32,
    pub crashes: u32,
    pub calls_lost: u32,
    pub calls_orphaned: u32,
    pub orphans_run: u32,
    pub orphans_dropped: u32,
    pub plans: u32,
    pub claims: u32,
}

impl fmt::Display for Tally {
    fn fmt(&self, text: &mut fmt::Formatter) -> fmt::Result {
        write!(text, "{} times a node stood for election, ", self.nodes_stood)?;
        write!(text, "{} elections won, ", self.elections_won)?;
        write!(text, "{} plans, {} crashes, ", self.plans, self.crashes)?;
        write!(text, "{} calls lost, ", self.calls_lost)?;
        write!(text, "{} orphaned by a halt, ", self.calls_orphaned)?;
        write!(text, "{} orphans run, {} dropped, ", self.orphans_run, self.orphans_dropped)?;
        write!(text, "{} claims", self.claims)
    }
}

struct Generator<W> {
    world: World,
    random: Random,
    owners: Vec<u16>,
    output: W,
    tally: Tally,
}

/// What is written: a header of this version, a recovery of each node from this one on, and so many rows.
pub struct Order {
    pub setup: Setup,
    pub version: Version,
    pub recovers_from: u16,
    pub rows: u32,
    pub seed: u64,
}

/// Writes a lawful trace, and tells what is in it.
pub fn generate<W: Write>(order: &Order, output: W) -> io::Result<Tally> {
    let setup = order.setup;
    let mut generator = Generator {
        world: World::new(setup),
        random: Random(order.seed | 1 << 63),
        owners: vec![0; setup.partitions],
        output,
        tally: Tally::default(),
    };
    writeln!(generator.output, "{}", header(&setup, order.version))?;
    (order.recovers_from..=setup.nodes).try_for_each(|node| generator.take(Action::Recover, node))?;
    (0..order.rows).try_for_each(|_| generator.write_row())?;
    generator.output.flush()?;
    Ok(generator.tally)
}

impl<W: Write> Generator<W> {
    fn write_row(&mut self) -> io::Result<()> {
        if self.random.once_in(40) {
            return self.write_claim();
        }
        let (action, node) = self.choose();
        self.take(action, node)
    }

    /// Applies an event that is possible, and writes it.
    fn take(&mut self, action: Action, node: u16) -> io::Result<()> {
        if let Action::Plan = action {
            self.plan_owners(node);
        }
        self.count(action, node);
        self.world
            .apply(action, node, &self.owners)
            .expect("the event is possible");
        write_event(&mut self.output, action, node, &self.owners)?;
        writeln!(self.output)
    }

    /// A claim that is true.
    fn write_claim(&mut self) -> io::Result<()> {
        let number = self.any_node();
        let node = self.world.node(number);
        let coordinator = or_dash(node.coordinator);
        self.tally.claims += 1;
        writeln!(self.output, "saw,{number},{},{coordinator}", status_word(node.status))
    }

    fn any_node(&mut self) -> u16 {
        1 + self.random.below(self.world.setup.nodes.into()) as u16
    }

    /// An event that is possible. Mostly the highest node that has something to do takes a step, so that elections
    /// get on; else any node does, so that lower nodes have calls under way when they are halted.
    fn choose(&mut self) -> (Action, u16) {
        let nodes = self.world.setup.nodes;
        if self.random.once_in(4 * u32::from(nodes)) {
            if let Some(event) = self.fail_or_recover() {
                return event;
            }
        }
        let gives_up = self.random.once_in(2);
        if !self.random.once_in(4) {
            let mut steps = (1..=nodes).rev().map(|node| (self.step_of(node, gives_up), node));
            if let Some((Some(action), node)) = steps.find(|(step, _)| step.is_some()) {
                return (action, node);
            }
        }
        self.act_anywhere(gives_up)
    }

    /// A node that is down recovers; one that is up crashes now and then.
    fn fail_or_recover(&mut self) -> Option<(Action, u16)> {
        let node = self.any_node();
        if self.world.node(node).is_down() {
            Some((Action::Recover, node))
        } else if self.random.once_in(4) {
            Some((Action::Crash, node))
        } else {
            None
        }
    }

    /// A step of any node that is up, a check or a timeout where it has none; a node recovers where all are down.
    fn act_anywhere(&mut self, gives_up: bool) -> (Action, u16) {
        let start = self.any_node();
        let nodes = self.world.setup.nodes;
        let from_start = (start..=nodes).chain(1..start);
        for node in from_start {
            if !self.world.node(node).is_down() {
                return (self.act_of(node, gives_up), node);
            }
        }
        (Action::Recover, start)
    }

    /// A node that was stopped may begin anew while its orphan is under way.
    fn act_of(&mut self, number: u16, gives_up: bool) -> Action {
        let node = self.world.node(number);
        let was_stopped = node.has_orphan() && node.point == Point::Idle;
        if was_stopped && self.random.once_in(2) {
            return self.begin();
        }
        self.step_of(number, gives_up).unwrap_or_else(|| self.begin())
    }

    fn begin(&mut self) -> Action {
        if self.random.once_in(2) {
            Action::Check
        } else {
            Action::Timeout
        }
    }

    /// The step that brings a node on, if it has one. A node that gives up drops its orphan, and finds that the reply of a
    /// callee that is down by now failed.
    fn step_of(&self, number: u16, gives_up: bool) -> Option<Action> {
        let node = self.world.node(number);
        if node.is_down() {
            return None;
        }
        if node.slot.phase == Phase::Empty {
            return offered_step(node.offer(self.world.setup.nodes));
        }
        if gives_up && node.has_orphan() {
            return Some(Action::Drop);
        }
        let callee_down = self.world.node(node.slot.callee).is_down();
        match node.slot.phase {
            Phase::Sent if callee_down => Some(Action::Lose),
            Phase::Ran(_) if callee_down && gives_up => Some(Action::Lose),
            Phase::Sent => Some(Action::Run),
            _ => Some(Action::Return),
        }
    }

    /// A balanced table over the node and its up set: the members in turn, from any of them on, until each has its quota.
    /// One more than their bases have the first ones.
    fn plan_owners(&mut self, number: u16) {
        let setup = &self.world.setup;
        let set = self.world.node(number).up.with(number);
        let mut members: Vec<u16> = setup.members(&set).collect();
        let first = self.random.below(members.len() as u32) as usize;
        members.rotate_left(first);
        let mut room = setup.bases(&set);
        let rest = setup.partitions - room.iter().sum::<usize>();
        members[..rest].iter().for_each(|&node| room[node as usize] += 1);
        let mut takers = members.iter().cycle();
        for owner in &mut self.owners {
            *owner = *takers.find(|&&node| room[node as usize] > 0).expect("a member with room");
            room[*owner as usize] -= 1;
        }
    }

    /// Counts an event before it is applied.
    fn count(&mut self, action: Action, number: u16) {
        let node = self.world.node(number);
        let tally = &mut self.tally;
        match action {
            Action::Move if matches!(node.point, Point::Asking(_)) => tally.nodes_stood += 1,
            Action::Move if matches!(node.point, Point::Readying(_)) => tally.elections_won += 1,
            Action::Crash => tally.crashes += 1,
            Action::Lose => tally.calls_lost += 1,
            Action::Drop => tally.orphans_dropped += 1,
            Action::Plan => tally.plans += 1,
            Action::Run => {
                let called = self.world.node(node.slot.callee);
                let halts = matches!(node.slot.kind, CallKind::Halt);
                tally.orphans_run += node.has_orphan() as u32;
                tally.calls_orphaned += (halts && has_live_call(called)) as u32;
            }
            _ => {}
        }
    }
}

fn offered_step(offer: Offer) -> Option<Action> {
    match offer {
        Offer::Nothing => None,
        Offer::Call(..) => Some(Action::Start),
        Offer::Move => Some(Action::Move),
        Offer::Plan => Some(Action::Plan),
    }
}

fn has_live_call(node: &Node) -> bool {
    node.slot.phase != Phase::Empty && !node.has_orphan()
}
