//! Rows of a trace, read from lines and written, and headers.

use crate::world::{
    action_word, Action, Answer, CallKind, NodeSet, Setup, Slot, Status, NODES_MAX, PARTITIONS_MAX, WEIGHT_MAX,
};
use std::fmt;
use std::io::{self, Write};

/// The words of calls and of answers, by which they are read and written.
type Words<T> = [(&'static str, T)];

const CALLS: [(&str, CallKind); 5] = [
    ("are-you-up", CallKind::AreYouUp),
    ("are-you-normal", CallKind::AreYouNormal),
    ("halt", CallKind::Halt),
    ("new-coordinator", CallKind::NewCoordinator),
    ("ready", CallKind::Ready),
];

/// The first ones are what a callee may answer.
const ANSWERS: [(&str, Answer); 5] = [
    ("done", Answer::Done),
    ("yes", Answer::Yes),
    ("no", Answer::No),
    ("failed", Answer::Failed),
    ("discarded", Answer::Discarded),
];
const CALLEE_ANSWERS: usize = 3;

/// A version of traces. The first one takes weights of 1 and no kept tasks for granted, and has limits of its own. In the
/// third one rows may say more.
#[derive(Clone, Copy, PartialEq, Eq)]
pub enum Version {
    One,
    Two,
    Three,
}

pub enum Row {
    Event(Action, u16, Option<Told>),
    Claim(Claim),
}

/// What the row of an event may say further: its call, and how that was answered where the event tells.
#[derive(PartialEq, Eq)]
pub struct Told {
    kind: CallKind,
    callee: u16,
    answer: Option<Answer>,
}

/// What a node shows. A whole claim has the rest, too.
pub struct Claim {
    pub node: u16,
    pub status: Status,
    pub coordinator: Option<u16>,
    pub rest: Option<Rest>,
}

/// The rest of a node's vector. The up set and the owners of the task stand in the room for them.
pub struct Rest {
    pub halter: Option<u16>,
    pub has_task: bool,
}

/// Room for what a row has of many nodes: the owners of a plan, and the up set and the owners of a whole claim.
pub struct Room {
    pub up: NodeSet,
    pub owners: Vec<u16>,
}

impl Room {
    pub fn new(setup: &Setup) -> Room {
        Room {
            up: NodeSet::EMPTY,
            owners: vec![0; setup.partitions],
        }
    }
}

impl Told {
    /// What there is to say of an event that was answered so: of a call that is in the slot, or that was in it last.
    pub fn of(action: Action, slot: &Slot, answer: Answer) -> Option<Told> {
        let answers = told_answers(action)?;
        Some(Told {
            kind: slot.kind,
            callee: slot.callee,
            answer: (!answers.is_empty()).then_some(answer),
        })
    }
}

/// The fields, each behind a comma.
impl fmt::Display for Told {
    fn fmt(&self, text: &mut fmt::Formatter) -> fmt::Result {
        write!(text, ",{},{}", word_of(&CALLS, self.kind), self.callee)?;
        match self.answer {
            Some(answer) => write!(text, ",{}", word_of(&ANSWERS, answer)),
            None => Ok(()),
        }
    }
}

/// The answers that the row of an event may tell, if it may say further what its call is.
fn told_answers(action: Action) -> Option<&'static Words<Answer>> {
    match action {
        Action::Start | Action::Lose | Action::Drop => Some(&[]),
        Action::Run => Some(&ANSWERS[..CALLEE_ANSWERS]),
        Action::Return => Some(&ANSWERS),
        Action::Recover | Action::Crash | Action::Check | Action::Timeout | Action::Move | Action::Plan => None,
    }
}

fn word_of<T: Copy + PartialEq>(words: &Words<T>, meaning: T) -> &'static str {
    let (word, _) = words.iter().find(|entry| entry.1 == meaning).expect("a word for each");
    word
}

fn meaning_of<T: Copy>(words: &Words<T>, word: &[u8]) -> Option<T> {
    let entry = words.iter().find(|entry| entry.0.as_bytes() == word)?;
    Some(entry.1)
}

impl Version {
    /// The lowest version that can tell the setup.
    pub fn of(setup: &Setup) -> Version {
        let one = Version::One;
        let fits = setup.nodes <= one.nodes_max() && setup.partitions <= one.partitions_max() as usize;
        let weights = &setup.weights[..setup.nodes as usize];
        if fits && !setup.keeps && weights.iter().all(|&weight| weight == 1) {
            one
        } else {
            Version::Two
        }
    }

    fn nodes_max(self) -> u16 {
        match self {
            Version::One => 64,
            Version::Two | Version::Three => NODES_MAX,
        }
    }

    fn partitions_max(self) -> u16 {
        match self {
            Version::One => 256,
            Version::Two | Version::Three => PARTITIONS_MAX,
        }
    }
}

/// The version and the setup that the first line tells; none where it is no header.
pub fn read_header(line: &[u8]) -> Option<(Version, Setup)> {
    let fields: Vec<&[u8]> = line.split(|&byte| byte == b',').collect();
    match fields.as_slice() {
        [b"bully", b"1", nodes, partitions] => {
            let version = Version::One;
            Some((version, read_size(version, nodes, partitions)?))
        }
        [b"bully", digit @ (b"2" | b"3"), nodes, partitions, weights, keeps] => {
            let version = if *digit == b"2" { Version::Two } else { Version::Three };
            let mut setup = read_size(version, nodes, partitions)?;
            read_weights(weights, &mut setup)?;
            setup.keeps = read_keeps(keeps)?;
            Some((version, setup))
        }
        _ => None,
    }
}

fn read_size(version: Version, nodes: &[u8], partitions: &[u8]) -> Option<Setup> {
    let nodes = number(nodes, version.nodes_max())?;
    let partitions = number(partitions, version.partitions_max())?;
    Some(Setup::even(nodes, partitions as usize))
}

fn read_keeps(word: &[u8]) -> Option<bool> {
    match word {
        b"keep" => Some(true),
        b"clear" => Some(false),
        _ => None,
    }
}

/// Weights with a single space between each two, one for each node.
fn read_weights(text: &[u8], setup: &mut Setup) -> Option<()> {
    let weights = &mut setup.weights[..setup.nodes as usize];
    read_numbers(text, WEIGHT_MAX, weights)
}

/// Numbers with a single space between each two, one for each place.
fn read_numbers(text: &[u8], limit: u16, places: &mut [u16]) -> Option<()> {
    let mut pieces = text.split(|&byte| byte == b' ');
    for place in places {
        *place = number(pieces.next()?, limit)?;
    }
    match pieces.next() {
        Some(_) => None,
        None => Some(()),
    }
}

/// The header of a trace of this version, which can tell the setup.
pub fn header(setup: &Setup, version: Version) -> String {
    let Setup { nodes, partitions, .. } = setup;
    let digit = match version {
        Version::One => return format!("bully,1,{nodes},{partitions}"),
        Version::Two => 2,
        Version::Three => 3,
    };
    let weights: Vec<String> = (1..=*nodes).map(|node| setup.weight(node).to_string()).collect();
    let keeps = if setup.keeps { "keep" } else { "clear" };
    format!("bully,{digit},{nodes},{partitions},{},{keeps}", weights.join(" "))
}

/// The fields of a line that aren't read yet.
struct Fields<I> {
    rest: I,
    version: Version,
}

/// The row that a later line tells; none where it has no form. What it has of many nodes is put into the room.
pub fn read_row(line: &[u8], version: Version, setup: &Setup, room: &mut Room) -> Option<Row> {
    let rest = line.split(|&byte| byte == b',');
    let mut fields = Fields { rest, version };
    let word = fields.next()?;
    let node = fields.node()?;
    let row = match word {
        b"plan" => {
            read_numbers(fields.next()?, setup.nodes, &mut room.owners)?;
            Row::Event(Action::Plan, node, None)
        }
        b"saw" => Row::Claim(fields.claim(node, setup, room)?),
        _ => {
            let action = action(word)?;
            Row::Event(action, node, fields.told(action)?)
        }
    };
    match fields.next() {
        Some(_) => None,
        None => Some(row),
    }
}

impl<'a, I: Iterator<Item = &'a [u8]>> Fields<I> {
    fn next(&mut self) -> Option<&'a [u8]> {
        self.rest.next()
    }

    fn node(&mut self) -> Option<u16> {
        number(self.next()?, self.version.nodes_max())
    }

    fn node_or_none(&mut self) -> Option<Option<u16>> {
        node_or_none(self.next()?, self.version.nodes_max())
    }

    /// The next field, where this version's rows may say more and this one does.
    fn further(&mut self) -> Option<&'a [u8]> {
        match self.version {
            Version::One | Version::Two => None,
            Version::Three => self.next(),
        }
    }

    /// What the row of an event says further, if it does; none where that has no form.
    fn told(&mut self, action: Action) -> Option<Option<Told>> {
        let Some(answers) = told_answers(action) else {
            return Some(None);
        };
        let Some(word) = self.further() else {
            return Some(None);
        };
        let kind = meaning_of(&CALLS, word)?;
        let callee = self.node()?;
        let answer = if answers.is_empty() {
            None
        } else {
            Some(meaning_of(answers, self.next()?)?)
        };
        Some(Some(Told { kind, callee, answer }))
    }

    fn claim(&mut self, node: u16, setup: &Setup, room: &mut Room) -> Option<Claim> {
        let status = status(self.next()?)?;
        let coordinator = self.node_or_none()?;
        let rest = match self.further() {
            Some(halter) => Some(self.claimed_rest(halter, setup, room)?),
            None => None,
        };
        Some(Claim {
            node,
            status,
            coordinator,
            rest,
        })
    }

    fn claimed_rest(&mut self, halter: &[u8], setup: &Setup, room: &mut Room) -> Option<Rest> {
        let limit = self.version.nodes_max();
        let halter = node_or_none(halter, limit)?;
        room.up = read_set(self.next()?, limit)?;
        let has_task = read_task(self.next()?, setup, &mut room.owners)?;
        Some(Rest { halter, has_task })
    }
}

/// Nodes in rising order with a single space between each two, or a dash for none.
fn read_set(text: &[u8], limit: u16) -> Option<NodeSet> {
    let mut set = NodeSet::EMPTY;
    if text == b"-" {
        return Some(set);
    }
    let mut last = 0;
    for piece in text.split(|&byte| byte == b' ') {
        let node = number(piece, limit)?;
        if node <= last {
            return None;
        }
        set.insert(node);
        last = node;
    }
    Some(set)
}

/// Whether there are owners, which are put into the room for them, or a dash; none where it is neither.
fn read_task(text: &[u8], setup: &Setup, owners: &mut [u16]) -> Option<bool> {
    if text == b"-" {
        return Some(false);
    }
    read_numbers(text, setup.nodes, owners)?;
    Some(true)
}

/// Writes the row of an event, without what it may say further and without a line end.
pub fn write_event<W: Write>(output: &mut W, action: Action, node: u16, owners: &[u16]) -> io::Result<()> {
    write!(output, "{},{node}", action_word(action))?;
    if let Action::Plan = action {
        write!(output, ",")?;
        write_numbers(output, owners.iter().copied(), ' ')?;
    }
    Ok(())
}

/// Writes numbers with this between each two.
pub fn write_numbers<W: Write>(output: &mut W, numbers: impl Iterator<Item = u16>, between: char) -> io::Result<()> {
    for (place, number) in numbers.enumerate() {
        if place > 0 {
            write!(output, "{between}")?;
        }
        write!(output, "{number}")?;
    }
    Ok(())
}

fn action(word: &[u8]) -> Option<Action> {
    match word {
        b"recover" => Some(Action::Recover),
        b"crash" => Some(Action::Crash),
        b"check" => Some(Action::Check),
        b"timeout" => Some(Action::Timeout),
        b"start" => Some(Action::Start),
        b"run" => Some(Action::Run),
        b"lose" => Some(Action::Lose),
        b"return" => Some(Action::Return),
        b"drop" => Some(Action::Drop),
        b"move" => Some(Action::Move),
        _ => None,
    }
}

fn status(word: &[u8]) -> Option<Status> {
    match word {
        b"down" => Some(Status::Down),
        b"election" => Some(Status::Election),
        b"reorganization" => Some(Status::Reorganization),
        b"normal" => Some(Status::Normal),
        _ => None,
    }
}

fn node_or_none(text: &[u8], limit: u16) -> Option<Option<u16>> {
    if text == b"-" {
        return Some(None);
    }
    number(text, limit).map(Some)
}

/// A number from 1 to the limit, which is below 6,000, without a leading zero.
fn number(text: &[u8], limit: u16) -> Option<u16> {
    let mut value = 0;
    for &byte in text {
        if !byte.is_ascii_digit() || (value == 0 && byte == b'0') {
            return None;
        }
        value = value * 10 + (byte - b'0') as u16;
        if value > limit {
            return None;
        }
    }
    if value == 0 {
        None
    } else {
        Some(value)
    }
}
