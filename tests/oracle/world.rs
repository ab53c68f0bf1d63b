//! The world under events, as plain structs. It is written for speed and for reading, and nothing of it is proved.

#[path = "node_set.rs"]
mod node_set;

pub use node_set::NodeSet;

pub const NODES_MAX: u16 = 1_024;
pub const PARTITIONS_MAX: u16 = 4_096;
pub const WEIGHT_MAX: u16 = 1_000;

/// The weights are those of all nodes, that of node 1 first. With `keeps` a node keeps its task over a crash.
#[derive(Clone, Copy)]
pub struct Setup {
    pub nodes: u16,
    pub partitions: usize,
    pub keeps: bool,
    pub weights: [u16; NODES_MAX as usize],
}

#[derive(Clone, Copy, PartialEq, Eq)]
pub enum Status {
    Down,
    Election,
    Reorganization,
    Normal,
}

#[derive(Clone, Copy, PartialEq, Eq)]
pub enum CallKind {
    AreYouUp,
    AreYouNormal,
    Halt,
    NewCoordinator,
    Ready,
}

#[derive(Clone, Copy, PartialEq, Eq)]
pub enum Point {
    Idle,
    Asking(u16),
    Halting(u16),
    Announcing(NodeSet),
    Planning,
    Readying(NodeSet),
    Checking(u16),
    Inquiring,
}

#[derive(Clone, Copy)]
pub enum Offer {
    Nothing,
    Call(u16, CallKind),
    Move,
    Plan,
}

#[derive(Clone, Copy, PartialEq, Eq)]
pub enum Outcome {
    Yes,
    No,
    Failed,
}

/// What an event answers.
#[derive(Clone, Copy, PartialEq, Eq)]
pub enum Answer {
    Done,
    Yes,
    No,
    Failed,
    Discarded,
}

#[derive(Clone, Copy, PartialEq, Eq)]
pub enum Phase {
    Empty,
    Sent,
    Ran(Outcome),
    Failed,
}

#[derive(Clone, Copy)]
pub enum Action {
    Recover,
    Crash,
    Check,
    Timeout,
    Start,
    Run,
    Lose,
    Return,
    Drop,
    Move,
    Plan,
}

#[derive(Debug, Clone, Copy)]
pub enum Refusal {
    BadNode,
    IsDown,
    IsUp,
    Busy,
    NoStep,
    SlotBusy,
    NoCall,
    CalleeDown,
    CalleeUp,
    BadTable,
    NotOrphan,
}

/// An empty one keeps the callee and the kind of the call that was in it last.
#[derive(Clone)]
pub struct Slot {
    pub phase: Phase,
    pub callee: u16,
    pub kind: CallKind,
    pub generation: u32,
    table: Vec<u16>,
}

#[derive(Clone)]
pub struct Node {
    pub status: Status,
    pub coordinator: Option<u16>,
    pub halter: Option<u16>,
    pub up: NodeSet,
    pub has_task: bool,
    pub task: Vec<u16>,
    pub point: Point,
    pub slot: Slot,
    pub generation: u32,
}

pub struct World {
    pub setup: Setup,
    pub events: u32,
    nodes: Vec<Node>,
}

/// The word of an event in a trace.
pub fn action_word(action: Action) -> &'static str {
    match action {
        Action::Recover => "recover",
        Action::Crash => "crash",
        Action::Check => "check",
        Action::Timeout => "timeout",
        Action::Start => "start",
        Action::Run => "run",
        Action::Lose => "lose",
        Action::Return => "return",
        Action::Drop => "drop",
        Action::Move => "move",
        Action::Plan => "plan",
    }
}

impl From<Outcome> for Answer {
    fn from(outcome: Outcome) -> Answer {
        match outcome {
            Outcome::Yes => Answer::Yes,
            Outcome::No => Answer::No,
            Outcome::Failed => Answer::Failed,
        }
    }
}

impl Setup {
    /// All nodes weigh the same, and none keeps its task.
    pub fn even(nodes: u16, partitions: usize) -> Setup {
        Setup {
            nodes,
            partitions,
            keeps: false,
            weights: [1; NODES_MAX as usize],
        }
    }

    pub fn weight(&self, node: u16) -> usize {
        self.weights[node as usize - 1] as usize
    }

    /// The members in rising order.
    pub fn members<'a>(&self, members: &'a NodeSet) -> impl Iterator<Item = u16> + 'a {
        (1..=self.nodes).filter(|&node| members.has(node))
    }

    /// A count of 0 for each node, which stands at the node's number.
    pub fn counts(&self) -> Vec<usize> {
        vec![0; self.nodes as usize + 1]
    }

    /// How many partitions each member owns at least, by node: its part of them all by weight, rounded down. Who is no
    /// member has 0.
    pub fn bases(&self, members: &NodeSet) -> Vec<usize> {
        let total: usize = self.members(members).map(|node| self.weight(node)).sum();
        let mut bases = self.counts();
        for node in self.members(members) {
            bases[node as usize] = self.partitions * self.weight(node) / total;
        }
        bases
    }
}

impl Node {
    fn new(partitions: usize) -> Node {
        let slot = Slot {
            phase: Phase::Empty,
            callee: 0,
            kind: CallKind::AreYouUp,
            generation: 0,
            table: vec![0; partitions],
        };
        Node {
            status: Status::Down,
            coordinator: None,
            halter: None,
            up: NodeSet::EMPTY,
            has_task: false,
            task: vec![0; partitions],
            point: Point::Idle,
            slot,
            generation: 0,
        }
    }

    pub fn is_down(&self) -> bool {
        self.status == Status::Down
    }

    /// The owners of the node's task, if it has one.
    pub fn owners(&self) -> Option<&[u16]> {
        self.has_task.then_some(&self.task)
    }

    /// Whether both show the same status, coordinator, halter, up set and task.
    pub fn has_vector_of(&self, other: &Node) -> bool {
        let shows_same = self.status == other.status && self.coordinator == other.coordinator;
        shows_same && self.halter == other.halter && self.up == other.up && self.owners() == other.owners()
    }

    /// Whether the call in the slot was started before the node was last stopped.
    pub fn has_orphan(&self) -> bool {
        self.slot.phase != Phase::Empty && self.slot.generation != self.generation
    }

    fn empty_vector(&mut self, status: Status, keeps: bool) {
        self.status = status;
        self.coordinator = None;
        self.halter = None;
        self.up = NodeSet::EMPTY;
        self.has_task &= keeps;
    }

    pub fn recover(&mut self, me: u16, keeps: bool) {
        self.empty_vector(Status::Election, keeps);
        self.point = Point::Asking(me + 1);
    }

    pub fn crash(&mut self, keeps: bool) {
        self.empty_vector(Status::Down, keeps);
        self.point = Point::Idle;
        self.slot.phase = Phase::Empty;
        self.generation += 1;
    }

    pub fn check(&mut self, me: u16, nodes: u16) {
        if self.status == Status::Normal && self.coordinator == Some(me) && nodes > 1 {
            self.point = Point::Checking(if me == 1 { 2 } else { 1 });
        }
    }

    pub fn time_out(&mut self, me: u16) {
        match self.status {
            Status::Down => {}
            Status::Election => self.point = Point::Asking(me + 1),
            Status::Normal | Status::Reorganization => {
                if self.coordinator != Some(me) {
                    self.point = Point::Inquiring;
                }
            }
        }
    }

    /// What the node's point offers.
    pub fn offer(&self, nodes: u16) -> Offer {
        match self.point {
            Point::Idle => Offer::Nothing,
            Point::Asking(callee) if callee <= nodes => Offer::Call(callee, CallKind::AreYouUp),
            Point::Asking(_) | Point::Halting(0) => Offer::Move,
            Point::Halting(callee) => Offer::Call(callee, CallKind::Halt),
            Point::Announcing(ref rest) => offer_to(rest, CallKind::NewCoordinator),
            Point::Planning => Offer::Plan,
            Point::Readying(ref rest) => offer_to(rest, CallKind::Ready),
            Point::Checking(callee) => Offer::Call(callee, CallKind::AreYouNormal),
            Point::Inquiring => match self.coordinator {
                Some(callee) => Offer::Call(callee, CallKind::AreYouUp),
                None => Offer::Nothing,
            },
        }
    }

    fn start(&mut self, nodes: u16) -> Result<(), Refusal> {
        let (callee, kind) = match self.offer(nodes) {
            Offer::Call(callee, kind) => (callee, kind),
            _ => return Err(Refusal::NoStep),
        };
        if self.slot.phase != Phase::Empty {
            return Err(Refusal::SlotBusy);
        }
        self.open(callee, kind);
        Ok(())
    }

    /// The node starts this call.
    pub fn open(&mut self, callee: u16, kind: CallKind) {
        self.slot.phase = Phase::Sent;
        self.slot.callee = callee;
        self.slot.kind = kind;
        self.slot.generation = self.generation;
        if let CallKind::Ready = kind {
            self.slot.table.copy_from_slice(&self.task);
        }
    }

    fn take_back(&mut self, me: u16, nodes: u16) -> Result<Answer, Refusal> {
        let outcome = match self.slot.phase {
            Phase::Empty | Phase::Sent => return Err(Refusal::NoCall),
            Phase::Ran(outcome) => outcome,
            Phase::Failed => Outcome::Failed,
        };
        Ok(self.close(me, nodes, outcome))
    }

    /// The call returns, and the point moves where it isn't an orphan.
    pub fn close(&mut self, me: u16, nodes: u16, outcome: Outcome) -> Answer {
        let is_orphan = self.has_orphan();
        self.slot.phase = Phase::Empty;
        if is_orphan {
            return Answer::Discarded;
        }
        self.proceed(me, nodes, outcome);
        outcome.into()
    }

    fn drop_call(&mut self) -> Result<Answer, Refusal> {
        if self.slot.phase == Phase::Empty {
            return Err(Refusal::NoCall);
        }
        if !self.has_orphan() {
            return Err(Refusal::NotOrphan);
        }
        self.slot.phase = Phase::Empty;
        Ok(Answer::Discarded)
    }

    /// The point moves by the outcome of its call.
    fn proceed(&mut self, me: u16, nodes: u16, outcome: Outcome) {
        let answered = outcome == Outcome::Yes;
        match &mut self.point {
            Point::Asking(_) | Point::Inquiring if answered => self.point = Point::Idle,
            Point::Asking(callee) => *callee += 1,
            Point::Halting(callee) => {
                if answered {
                    self.up.insert(*callee);
                }
                *callee -= 1;
            }
            Point::Announcing(rest) | Point::Readying(rest) if answered => rest.remove(self.slot.callee),
            Point::Checking(callee) if outcome != Outcome::No => self.point = next_checked(me, nodes, *callee),
            _ => self.point = Point::Asking(me + 1),
        }
    }

    fn move_on(&mut self, me: u16, nodes: u16) -> Result<(), Refusal> {
        if !matches!(self.offer(nodes), Offer::Move) {
            return Err(Refusal::NoStep);
        }
        if self.slot.phase != Phase::Empty {
            return Err(Refusal::SlotBusy);
        }
        self.advance(me);
        Ok(())
    }

    /// The point moves on without a call.
    pub fn advance(&mut self, me: u16) {
        match self.point {
            Point::Asking(_) => self.stand(me),
            Point::Halting(_) => self.lead(me),
            Point::Announcing(_) => self.point = Point::Planning,
            _ => {
                self.status = Status::Normal;
                self.point = Point::Idle;
            }
        }
    }

    fn stand(&mut self, me: u16) {
        self.status = Status::Election;
        self.halter = Some(me);
        self.up = NodeSet::EMPTY;
        self.point = Point::Halting(me - 1);
    }

    fn lead(&mut self, me: u16) {
        self.coordinator = Some(me);
        self.status = Status::Reorganization;
        self.point = Point::Announcing(self.up);
    }

    fn plan(&mut self, me: u16, setup: &Setup, owners: &[u16]) -> Result<(), Refusal> {
        if self.point != Point::Planning {
            return Err(Refusal::NoStep);
        }
        if self.slot.phase != Phase::Empty {
            return Err(Refusal::SlotBusy);
        }
        if !is_balanced(setup, owners, &self.up.with(me)) {
            return Err(Refusal::BadTable);
        }
        self.adopt(owners);
        Ok(())
    }

    /// The node has planned a table with these owners.
    pub fn adopt(&mut self, owners: &[u16]) {
        self.task.copy_from_slice(owners);
        self.has_task = true;
        self.point = Point::Readying(self.up);
    }

    fn halt(&mut self, caller: u16) {
        self.point = Point::Idle;
        self.generation += 1;
        self.status = Status::Election;
        self.halter = Some(caller);
    }

    fn hear_coordinator(&mut self, caller: u16) {
        if self.status == Status::Election && self.halter == Some(caller) {
            self.coordinator = Some(caller);
            self.status = Status::Reorganization;
        }
    }

    fn hear_ready(&mut self, caller: u16, table: &[u16]) {
        if self.status == Status::Reorganization && self.coordinator == Some(caller) {
            self.task.copy_from_slice(table);
            self.has_task = true;
            self.status = Status::Normal;
        }
    }

    /// The call of the caller runs at this node.
    fn hear(&mut self, caller: u16, slot: &Slot) -> Outcome {
        match slot.kind {
            CallKind::AreYouUp => {}
            CallKind::AreYouNormal if self.status == Status::Normal => {}
            CallKind::AreYouNormal => return Outcome::No,
            CallKind::Halt => self.halt(caller),
            CallKind::NewCoordinator => self.hear_coordinator(caller),
            CallKind::Ready => self.hear_ready(caller, &slot.table),
        }
        Outcome::Yes
    }
}

/// Where a check stands after this node: at the next node that isn't the checker itself.
fn next_checked(me: u16, nodes: u16, callee: u16) -> Point {
    let next = if callee + 1 == me { callee + 2 } else { callee + 1 };
    if next > nodes {
        Point::Idle
    } else {
        Point::Checking(next)
    }
}

/// The call of the highest of the nodes that are left, or a move.
fn offer_to(rest: &NodeSet, kind: CallKind) -> Offer {
    match rest.highest() {
        Some(callee) => Offer::Call(callee, kind),
        None => Offer::Move,
    }
}

/// Whether each owner is a member and each member has its base or one more.
fn is_balanced(setup: &Setup, owners: &[u16], members: &NodeSet) -> bool {
    let mut counts = setup.counts();
    for &owner in owners {
        counts[owner as usize] += 1;
    }
    let bases = setup.bases(members);
    (1..=setup.nodes).all(|node| {
        let (count, base) = (counts[node as usize], bases[node as usize]);
        if members.has(node) {
            base <= count && count <= base + 1
        } else {
            count == 0
        }
    })
}

impl World {
    pub fn new(setup: Setup) -> World {
        World {
            setup,
            events: 0,
            nodes: (0..setup.nodes).map(|_| Node::new(setup.partitions)).collect(),
        }
    }

    pub fn node(&self, number: u16) -> &Node {
        &self.nodes[number as usize - 1]
    }

    pub fn node_mut(&mut self, number: u16) -> &mut Node {
        &mut self.nodes[number as usize - 1]
    }

    /// Applies an event and tells its answer, or the first refusal and changes nothing. The owners are those of a Plan.
    pub fn apply(&mut self, action: Action, me: u16, owners: &[u16]) -> Result<Answer, Refusal> {
        let Setup { nodes, keeps, .. } = self.setup;
        if me > nodes {
            return Err(Refusal::BadNode);
        }
        let node = &mut self.nodes[me as usize - 1];
        let mut answer = Answer::Done;
        match (action, node.is_down()) {
            (Action::Recover, true) => node.recover(me, keeps),
            (Action::Recover, false) => return Err(Refusal::IsUp),
            (_, true) => return Err(Refusal::IsDown),
            (Action::Crash, _) => node.crash(keeps),
            (Action::Check | Action::Timeout, _) if node.point != Point::Idle => return Err(Refusal::Busy),
            (Action::Check, _) => node.check(me, nodes),
            (Action::Timeout, _) => node.time_out(me),
            (Action::Start, _) => node.start(nodes)?,
            (Action::Run, _) => answer = self.run(me)?,
            (Action::Lose, _) => self.lose(me)?,
            (Action::Return, _) => answer = node.take_back(me, nodes)?,
            (Action::Drop, _) => answer = node.drop_call()?,
            (Action::Move, _) => node.move_on(me, nodes)?,
            (Action::Plan, _) => node.plan(me, &self.setup, owners)?,
        }
        self.events += 1;
        Ok(answer)
    }

    fn run(&mut self, caller: u16) -> Result<Answer, Refusal> {
        if self.node(caller).slot.phase != Phase::Sent {
            return Err(Refusal::NoCall);
        }
        let callee = self.node(caller).slot.callee;
        if self.node(callee).is_down() {
            return Err(Refusal::CalleeDown);
        }
        Ok(self.exchange(caller, callee).into())
    }

    /// The caller's call runs at its callee, which answers so.
    pub fn exchange(&mut self, caller: u16, callee: u16) -> Outcome {
        let (calling, called) = self.pair(caller, callee);
        let outcome = called.hear(caller, &calling.slot);
        calling.slot.phase = Phase::Ran(outcome);
        outcome
    }

    fn lose(&mut self, caller: u16) -> Result<(), Refusal> {
        let slot = &self.node(caller).slot;
        if !matches!(slot.phase, Phase::Sent | Phase::Ran(_)) {
            return Err(Refusal::NoCall);
        }
        if !self.node(slot.callee).is_down() {
            return Err(Refusal::CalleeUp);
        }
        self.node_mut(caller).slot.phase = Phase::Failed;
        Ok(())
    }

    /// Two nodes at once. They are never the same, since no node calls itself.
    fn pair(&mut self, one: u16, other: u16) -> (&mut Node, &mut Node) {
        let (one, other) = (one as usize - 1, other as usize - 1);
        if one < other {
            let (low, high) = self.nodes.split_at_mut(other);
            (&mut low[one], &mut high[0])
        } else {
            let (low, high) = self.nodes.split_at_mut(one);
            (&mut high[0], &mut low[other])
        }
    }
}
