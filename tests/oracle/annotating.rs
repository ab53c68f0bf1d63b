//! Writes a lawful trace as one of version 3 in which all is said.

use crate::checking::{or_dash, status_word, write_owners};
use crate::reading::{Fault, Rows};
use crate::rows::{header, write_event, write_numbers, Row, Told, Version};
use crate::world::{Action, World};
use std::io::{self, BufRead, Write};

struct Annotator<W> {
    world: World,
    output: W,
}

/// Writes a trace, which is lawful, as one of version 3: each event with what its row may say further, and behind it a
/// whole claim of the node whose vector it changed, if any; and each claim of the trace as a whole one.
pub fn annotate<R: BufRead, W: Write>(input: R, output: W) -> Result<(), Fault> {
    let mut rows = Rows::open(input)?;
    let world = World::new(rows.setup);
    let mut annotator = Annotator { world, output };
    annotator.write_header().map_err(|_| Fault::Write)?;
    while let Some((_, row)) = rows.next()? {
        annotator.write_row(&row, &rows.room.owners).map_err(|_| Fault::Write)?;
    }
    annotator.output.flush().map_err(|_| Fault::Write)
}

impl<W: Write> Annotator<W> {
    fn write_header(&mut self) -> io::Result<()> {
        writeln!(self.output, "{}", header(&self.world.setup, Version::Three))
    }

    fn write_row(&mut self, row: &Row, owners: &[u16]) -> io::Result<()> {
        match row {
            Row::Event(action, node, _) => self.write_event(*action, *node, owners),
            Row::Claim(claim) => self.write_claim(claim.node),
        }
    }

    fn write_event(&mut self, action: Action, node: u16, owners: &[u16]) -> io::Result<()> {
        let changed = self.changed_by(action, node);
        let before = self.world.node(changed).clone();
        let answer = self.world.apply(action, node, owners).expect("the trace is lawful");
        write_event(&mut self.output, action, node, owners)?;
        if let Some(told) = Told::of(action, &self.world.node(node).slot, answer) {
            write!(self.output, "{told}")?;
        }
        writeln!(self.output)?;
        if self.world.node(changed).has_vector_of(&before) {
            return Ok(());
        }
        self.write_claim(changed)
    }

    /// The only node whose vector an event may change: where a call runs that is its callee.
    fn changed_by(&self, action: Action, node: u16) -> u16 {
        match action {
            Action::Run => self.world.node(node).slot.callee,
            _ => node,
        }
    }

    fn write_claim(&mut self, number: u16) -> io::Result<()> {
        let node = self.world.node(number);
        let output = &mut self.output;
        write!(output, "saw,{number},{},", status_word(node.status))?;
        write!(output, "{},{},", or_dash(node.coordinator), or_dash(node.halter))?;
        if node.up.highest().is_none() {
            write!(output, "-")?;
        }
        write_numbers(output, self.world.setup.members(&node.up), ' ')?;
        write!(output, ",")?;
        write_owners(output, node, ' ')?;
        writeln!(output)
    }
}
