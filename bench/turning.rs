//! Turns of a group in plain Rust, behind a lock. It has the same state as the locked group, the world with a history and a
//! log for each actor, and asks no step whether it may be taken.

use crate::planning::plan;
use crate::world::{Action, Answer, Node, NodeSet, Offer, Outcome, Phase, Point, Setup, World};
use std::sync::Mutex;

/// How often the last node crashes: once in so many rounds.
const PERIOD: u32 = 1024;

#[derive(Clone)]
pub struct Entry {
    pub actor: u16,
    pub action: Action,
    pub node: u16,
    pub answer: Answer,
    pub owners: Option<Box<[u16]>>,
}

/// What an actor has: its entries beside their indices, and how many there are.
#[derive(Default)]
struct Seat {
    actor: u16,
    log: Vec<(usize, Entry)>,
    count: u64,
}

/// What lies under the lock.
struct Locked {
    world: World,
    history: Vec<Entry>,
    count: u64,
}

/// The procedure that a node holds: where it stands, and what it holds at a point that needs it.
struct Procedure {
    generation: u32,
    point: Point,
    up: NodeSet,
    coordinator: Option<u16>,
    awaits: bool,
}

struct Player {
    node: u16,
    seat: Seat,
    procedure: Procedure,
}

/// A group, and all that take turns in it.
pub struct Group {
    setup: Setup,
    locked: Mutex<Locked>,
    operator: Seat,
    players: Vec<Player>,
}

/// Whether a live call of the node is under way.
fn awaits(node: &Node) -> bool {
    node.slot.phase != Phase::Empty && !node.has_orphan()
}

impl Procedure {
    /// Whether it is the one that the world shows of the node.
    fn is_in_step(&self, node: &Node) -> bool {
        let holds = match self.point {
            Point::Halting(_) | Point::Announcing(_) | Point::Planning => self.up == node.up,
            Point::Inquiring => self.coordinator == node.coordinator,
            _ => true,
        };
        holds && self.generation == node.generation && self.awaits == awaits(node) && self.point == node.point
    }

    /// Becomes the one that the world shows of the node.
    fn follow(&mut self, node: &Node) {
        self.generation = node.generation;
        self.point = node.point;
        self.awaits = awaits(node);
        match self.point {
            Point::Halting(_) | Point::Announcing(_) | Point::Planning => self.up = node.up,
            Point::Inquiring => self.coordinator = node.coordinator,
            _ => {}
        }
    }
}

impl Locked {
    fn record(&mut self, seat: &mut Seat, action: Action, node: u16, answer: Answer, owners: Option<Box<[u16]>>) {
        let entry = Entry {
            actor: seat.actor,
            action,
            node,
            answer,
            owners,
        };
        seat.log.push((self.history.len(), entry.clone()));
        self.history.push(entry);
        self.count += 1;
        seat.count += 1;
    }

    /// The operator's step, or an idle node's own; one that can't be is passed over.
    fn step(&mut self, seat: &mut Seat, action: Action, number: u16) {
        let Setup { nodes, keeps, .. } = self.world.setup;
        let node = self.world.node_mut(number);
        match action {
            Action::Recover if node.is_down() => node.recover(number, keeps),
            Action::Crash if !node.is_down() => node.crash(keeps),
            Action::Check if !node.is_down() && node.point == Point::Idle => node.check(number, nodes),
            Action::Timeout if !node.is_down() && node.point == Point::Idle => node.time_out(number),
            _ => return,
        }
        self.record(seat, action, number, Answer::Done, None);
    }

    /// Runs the call of the lowest caller that waits for the seat's node, if any.
    fn serve(&mut self, seat: &mut Seat) -> bool {
        let me = seat.actor;
        if self.world.node(me).is_down() {
            return false;
        }
        let waits = |&caller: &u16| {
            let slot = &self.world.node(caller).slot;
            slot.phase == Phase::Sent && slot.callee == me
        };
        let Some(caller) = (1..=self.world.setup.nodes).find(waits) else {
            return false;
        };
        let outcome = self.world.exchange(caller, me);
        self.record(seat, Action::Run, caller, outcome.into(), None);
        true
    }

    /// The turn of the seat's node, with the procedure that it holds.
    fn turn(&mut self, seat: &mut Seat, procedure: &mut Procedure) {
        let me = seat.actor;
        if procedure.is_in_step(self.world.node(me)) {
            self.take_step(seat);
        }
        procedure.follow(self.world.node(me));
    }

    fn take_step(&mut self, seat: &mut Seat) {
        match self.world.node(seat.actor).slot.phase {
            Phase::Empty => self.go(seat),
            Phase::Sent => self.give_up(seat),
            Phase::Ran(outcome) => self.take_back(seat, outcome),
            Phase::Failed => self.take_back(seat, Outcome::Failed),
        }
    }

    /// A sent call is lost where its callee is down; else it is dropped where it is an orphan.
    fn give_up(&mut self, seat: &mut Seat) {
        let node = self.world.node(seat.actor);
        let is_orphan = node.has_orphan();
        if self.world.node(node.slot.callee).is_down() {
            self.world.node_mut(seat.actor).slot.phase = Phase::Failed;
            self.record(seat, Action::Lose, seat.actor, Answer::Done, None);
        } else if is_orphan {
            self.world.node_mut(seat.actor).slot.phase = Phase::Empty;
            self.record(seat, Action::Drop, seat.actor, Answer::Discarded, None);
        }
    }

    fn take_back(&mut self, seat: &mut Seat, outcome: Outcome) {
        let nodes = self.world.setup.nodes;
        let node = self.world.node_mut(seat.actor);
        let answer = node.close(seat.actor, nodes, outcome);
        self.record(seat, Action::Return, seat.actor, answer, None);
    }

    /// What the node's point offers.
    fn go(&mut self, seat: &mut Seat) {
        let me = seat.actor;
        match self.world.node(me).offer(self.world.setup.nodes) {
            Offer::Nothing => {}
            Offer::Call(callee, kind) => {
                self.world.node_mut(me).open(callee, kind);
                self.record(seat, Action::Start, me, Answer::Done, None);
            }
            Offer::Move => {
                self.world.node_mut(me).advance(me);
                self.record(seat, Action::Move, me, Answer::Done, None);
            }
            Offer::Plan => {
                let node = self.world.node(me);
                let old = node.has_task.then_some(node.task.as_slice());
                let owners = plan(&self.world.setup, &node.up.with(me), old);
                self.world.node_mut(me).adopt(&owners);
                self.record(seat, Action::Plan, me, Answer::Done, Some(owners));
            }
        }
    }
}

impl Player {
    fn new(node: u16) -> Player {
        let procedure = Procedure {
            generation: 0,
            point: Point::Idle,
            up: NodeSet::EMPTY,
            coordinator: None,
            awaits: false,
        };
        let seat = Seat {
            actor: node,
            ..Seat::default()
        };
        Player { node, seat, procedure }
    }

    /// The node's turn in this round: it serves, or else does what it chooses.
    fn turn(&mut self, group: &Mutex<Locked>, round: u32) {
        if group.lock().unwrap().serve(&mut self.seat) {
            return;
        }
        let idle = self.procedure.point == Point::Idle;
        let mut locked = group.lock().unwrap();
        match round % 16 {
            0 if idle => locked.step(&mut self.seat, Action::Check, self.node),
            8 if idle => locked.step(&mut self.seat, Action::Timeout, self.node),
            _ => locked.turn(&mut self.seat, &mut self.procedure),
        }
    }
}

/// The operator's turn: all recover in the first round; the last node crashes once in a period, and recovers half way
/// between.
fn operate(group: &Mutex<Locked>, nodes: u16, round: u32, seat: &mut Seat) {
    if round == 1 {
        for node in 1..=nodes {
            group.lock().unwrap().step(seat, Action::Recover, node);
        }
    } else if round % PERIOD == 0 {
        group.lock().unwrap().step(seat, Action::Crash, nodes);
    } else if round % PERIOD == PERIOD / 2 {
        group.lock().unwrap().step(seat, Action::Recover, nodes);
    }
}

impl Group {
    /// A new group with four partitions for each node.
    pub fn new(nodes: u16) -> Group {
        let setup = Setup::even(nodes, 4 * nodes as usize);
        let locked = Mutex::new(Locked {
            world: World::new(setup),
            history: Vec::new(),
            count: 0,
        });
        Group {
            setup,
            locked,
            operator: Seat::default(),
            players: (1..=nodes).map(Player::new).collect(),
        }
    }

    /// Takes the turn of this number, from 0 on, of one node after the other; the operator comes before node 1. The node.
    pub fn turn(&mut self, turn: u32) -> u16 {
        let nodes = self.setup.nodes;
        let round = turn / u32::from(nodes) + 1;
        let place = turn % u32::from(nodes);
        if place == 0 {
            operate(&self.locked, nodes, round, &mut self.operator);
        }
        self.players[place as usize].turn(&self.locked, round);
        place as u16 + 1
    }

    /// How many events there were.
    pub fn events(&self) -> u64 {
        self.locked.lock().unwrap().count
    }

    /// Reads the world under the lock.
    pub fn read<T>(&self, read: impl FnOnce(&World) -> T) -> T {
        read(&self.locked.lock().unwrap().world)
    }

    /// The history, which has as many entries as all took.
    pub fn history(self) -> Vec<Entry> {
        let locked = self.locked.into_inner().unwrap();
        let counted: u64 = self.operator.count + self.players.iter().map(|player| player.seat.count).sum::<u64>();
        assert_eq!(counted, locked.count);
        locked.history
    }
}
