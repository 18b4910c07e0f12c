//! Logs by chance: runs of any automaton, and logs that are none. Every step is looked for in the list of rules, as document 01 has it.
use crate::{
    automaton::{Automaton, LEFT, RIGHT},
    random::Random,
};

/// A node and a state.
pub type Entry = (usize, u8);

/// Where a node stands.
#[derive(Clone)]
struct Node {
    symbol: u8,
    /// 0 the root, 1 a left part, 2 a right part.
    place: usize,
    /// By the moves: itself, its parent, its left part, its right part.
    neighbours: [Option<usize>; 4],
}

/// An automaton and a tree.
pub struct Runs<'a> {
    automaton: &'a Automaton,
    nodes: Vec<Node>,
}

impl Runs<'_> {
    /// The runs on the tree with these symbols in preorder.
    pub fn new<'a>(automaton: &'a Automaton, symbols: &[u8]) -> Runs<'a> {
        let mut runs = Runs { automaton, nodes: Vec::new() };
        runs.grow(symbols, None, 0);
        runs
    }

    /// Adds the subtree that begins with the next symbol; where it begins.
    fn grow(&mut self, symbols: &[u8], parent: Option<usize>, place: usize) -> usize {
        let node = self.nodes.len();
        let symbol = symbols[node];
        self.nodes.push(Node { symbol, place, neighbours: [Some(node), parent, None, None] });
        if self.automaton.is_branch(symbol) {
            for (step, place) in [(LEFT, 1), (RIGHT, 2)] {
                self.nodes[node].neighbours[usize::from(step)] = Some(self.grow(symbols, Some(node), place));
            }
        }
        node
    }

    /// The root in each start state.
    pub fn starts(&self) -> Vec<Entry> {
        let starts = |&state: &usize| self.automaton.initial >> state & 1 == 1;
        (0..self.automaton.states).filter(starts).map(|state| (0, state as u8)).collect()
    }

    /// What an entry leads to, by each rule that applies there.
    pub fn steps(&self, (node, state): Entry) -> Vec<Entry> {
        let Some(here) = self.nodes.get(node) else { return Vec::new() };
        let applying = self
            .automaton
            .rules
            .iter()
            .filter(|rule| rule.symbol == here.symbol && rule.state == state && rule.applies_at(here.place));
        let target = |step: u8| here.neighbours[usize::from(step)];
        applying.filter_map(|rule| target(rule.step).map(|node| (node, rule.next))).collect()
    }

    /// How many entries of a log are a run, by the definition.
    pub fn count(&self, log: &[u8]) -> usize {
        let mut allowed = self.starts();
        let mut count = 0;
        for entry in log.as_chunks().0.iter().map(entry_of) {
            if !allowed.contains(&entry) {
                break;
            }
            count += 1;
            allowed = self.steps(entry);
        }
        count
    }

    /// A run of at most so many entries, which ends where no rule applies.
    pub fn by_chance(&self, most: usize, random: &mut Random) -> Vec<u8> {
        let mut log = Vec::new();
        let mut allowed = self.starts();
        while !allowed.is_empty() && log.len() < 3 * most {
            let entry = random.pick(&allowed);
            log.extend(bytes_of(entry));
            allowed = self.steps(entry);
        }
        log
    }
}

pub fn entry_of([low, high, state]: &[u8; 3]) -> Entry {
    (usize::from(*low) + 256 * usize::from(*high), *state)
}

pub fn bytes_of((node, state): Entry) -> [u8; 3] {
    [node as u8, (node >> 8) as u8, state]
}

/// The kinds of `damaged`.
pub const DAMAGES: usize = 10;

/// A log with a fault of one kind: an entry dropped, repeated, exchanged with the next, put in or put on; the end dropped; another node or
/// another state, by some bits; other bytes; another length.
pub fn damaged(log: &[u8], kind: usize, random: &mut Random) -> Vec<u8> {
    let mut entries: Vec<[u8; 3]> = log.as_chunks().0.to_vec();
    let at = random.below(entries.len() + 1);
    let found = entries.get(at).copied();
    let other = [random.below(12) as u8, random.below(3) as u8 / 2, random.below(4) as u8];
    match (kind, found) {
        (0, Some(_)) => drop(entries.remove(at)),
        (1, Some(entry)) => entries.insert(at, entry),
        (2, Some(_)) if at + 1 < entries.len() => entries.swap(at, at + 1),
        (3, _) => entries.insert(at, other),
        (4, _) => entries.push(other),
        (5, _) => entries.truncate(at),
        (6, Some(entry)) => entries[at] = bytes_of((entry_of(&entry).0 ^ random.pick(&[1, 2, 256]), entry[2])),
        (7, Some([low, high, state])) => entries[at] = [low, high, state ^ random.pick(&[1, 2, 24, 32])],
        (8, _) => entries.iter_mut().flatten().for_each(|byte| *byte = random.below(256) as u8),
        _ => {}
    }
    let mut bytes = entries.concat();
    if kind == 9 {
        bytes.extend(&other[..random.from_to(1, 2)]);
    }
    bytes
}
