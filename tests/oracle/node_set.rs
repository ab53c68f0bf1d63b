//! Sets of nodes, as bits.

use super::NODES_MAX;

const WORD_BITS: u16 = u64::BITS as u16;
const WORDS: usize = (NODES_MAX / WORD_BITS) as usize;

/// The bit of node 1 is the lowest one of the first word.
#[derive(Clone, Copy, PartialEq, Eq)]
pub struct NodeSet([u64; WORDS]);

impl NodeSet {
    pub const EMPTY: NodeSet = NodeSet([0; WORDS]);

    pub fn has(&self, node: u16) -> bool {
        let (word, bit) = place(node);
        self.0[word] & bit != 0
    }

    pub fn insert(&mut self, node: u16) {
        let (word, bit) = place(node);
        self.0[word] |= bit;
    }

    pub fn remove(&mut self, node: u16) {
        let (word, bit) = place(node);
        self.0[word] &= !bit;
    }

    /// The set with this node.
    pub fn with(mut self, node: u16) -> NodeSet {
        self.insert(node);
        self
    }

    /// The highest node, if the set isn't empty.
    pub fn highest(&self) -> Option<u16> {
        let last = self.0.iter().rposition(|&word| word != 0)?;
        let bits_above = self.0[last].leading_zeros() as u16;
        Some((last as u16 + 1) * WORD_BITS - bits_above)
    }
}

/// The word of a node, and its bit in it.
fn place(node: u16) -> (usize, u64) {
    let index = node - 1;
    ((index / WORD_BITS) as usize, 1 << (index % WORD_BITS))
}
