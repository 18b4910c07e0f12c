//! Two logs held together (document 02, W8): the nodes are linked in one pass, and whether an entry is reached from the one before is one look-up, by
//! the one move that leads from node to node.
use crate::{
    automaton::{Automaton, LEFT, RIGHT, STAY, UP},
    refused_in,
    tree::{self, Alphabet, MOST_HEIGHT},
    Refused,
};

/// The length of the part in which both agree, and how many entries from the start of each are a run.
#[derive(Clone, Copy, Debug, PartialEq, Eq)]
pub struct Compared {
    pub part: usize,
    pub first: usize,
    pub second: usize,
}

/// The next states of a state by each move.
type Next = [u32; 4];

#[derive(Clone, Copy)]
struct Node {
    /// The root has none.
    parent: u16,
    /// A leaf has none; the left part of a branch is the next node.
    right: u16,
    /// Where the next states begin, those of state 0 first.
    next: u16,
}

/// No node has this number.
const NONE: u16 = u16::MAX;

/// An automaton and a tree, prepared for entries.
struct Runs {
    initial: u32,
    states: usize,
    next: Vec<Next>,
    nodes: Vec<Node>,
}

/// The next states by (symbol * 3 + place) * states + state.
fn next_states(automaton: &Automaton) -> Vec<Next> {
    let mut next = vec![[0; 4]; automaton.symbols * 3 * automaton.states];
    for rule in &automaton.rules {
        for place in (0..3).filter(|&place| rule.applies_at(place)) {
            let at = (usize::from(rule.symbol) * 3 + place) * automaton.states + usize::from(rule.state);
            next[at][usize::from(rule.step)] |= 1 << rule.next;
        }
    }
    next
}

/// The nodes of a tree. The stack has the parent and the place of each part that is still to come, the next one on top.
fn link(symbols: &[u8], automaton: &Automaton) -> Vec<Node> {
    let mut nodes: Vec<Node> = Vec::with_capacity(symbols.len());
    let mut parts = [(NONE, 0); MOST_HEIGHT + 2];
    let mut missing = 1;
    for (node, &symbol) in symbols.iter().enumerate() {
        let (parent, place) = parts[missing - 1];
        let next = (usize::from(symbol) * 3 + place) * automaton.states;
        nodes.push(Node { parent, right: NONE, next: next as u16 });
        if place == 2 {
            nodes[usize::from(parent)].right = node as u16;
        }
        parts[missing - 1] = (node as u16, 2);
        parts[missing] = (node as u16, 1);
        missing = missing + 2 * usize::from(automaton.is_branch(symbol)) - 1;
    }
    nodes
}

/// The node and the state of an entry.
fn entry([low, high, state]: [u8; 3]) -> (u16, usize) {
    (u16::from_le_bytes([low, high]), usize::from(state))
}

impl Runs {
    fn begins(&self, (node, state): (u16, usize)) -> bool {
        node == 0 && state < self.states && self.initial >> state & 1 == 1
    }

    /// Whether a rule leads from an entry to the next one; the first stands in the tree.
    #[inline(always)]
    fn leads(&self, (node, state): (u16, usize), (to, after): (u16, usize)) -> bool {
        let here = self.nodes[usize::from(node)];
        let step = if to == node {
            STAY
        } else if to == NONE {
            return false;
        } else if to == here.parent {
            UP
        } else if to == here.right {
            RIGHT
        } else if here.right != NONE && to == node + 1 {
            LEFT
        } else {
            return false;
        };
        let next = self.next[usize::from(here.next) + state][usize::from(step)];
        after < self.states && next >> after & 1 == 1
    }

    /// How many entries from the start are a run.
    fn count(&self, entries: &[[u8; 3]]) -> usize {
        let Some(&first) = entries.first() else { return 0 };
        let mut last = entry(first);
        if !self.begins(last) {
            return 0;
        }
        for (count, &next) in entries.iter().enumerate().skip(1) {
            let next = entry(next);
            if !self.leads(last, next) {
                return count;
            }
            last = next;
        }
        entries.len()
    }
}

/// Holds two logs together, by an automaton's file and a tree's file. Refusals 1 to 9 of the automaton's file, 1 to 6 and 10 to 12 of the tree's,
/// then 23.
pub fn compare(file: &[u8], tree: &[u8], first: &[u8], second: &[u8]) -> Result<Compared, Refused> {
    let automaton = Automaton::read(file).map_err(|refusal| Refused { file: 0, refusal })?;
    let tree = tree::read(tree, Alphabet::of(&automaton)).map_err(|refusal| Refused { file: 1, refusal })?;
    let (one, []) = first.as_chunks() else { return refused_in(23, 2, 0) };
    let (other, []) = second.as_chunks() else { return refused_in(23, 2, 1) };
    let nodes = link(tree.symbols(), &automaton);
    let Automaton { initial, states, .. } = automaton;
    let runs = Runs { initial, states, next: next_states(&automaton), nodes };
    let part = 3 * one.iter().zip(other).take_while(|(a, b)| a == b).count();
    Ok(Compared { part, first: runs.count(one), second: runs.count(other) })
}
