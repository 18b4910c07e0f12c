//! Judging by search: which states can be reached at which node, to a fixpoint.
use crate::{
    automaton::Automaton,
    tree::{self, Alphabet},
    Judge, Refusal, Verdict,
};

const STAY: usize = 0;

/// An automaton, prepared for judging.
pub struct Configurations {
    states: usize,
    alphabet: Alphabet,
    initial: u32,
    accepting: u32,
    /// The next states by each move, by (symbol * 3 + place) * states + state.
    next: Vec<[u32; 4]>,
}

/// One node: where it stands in the tree, and the states seen there.
#[derive(Clone, Copy)]
struct Node {
    /// Where each move leads: this node, its parent, its left part, its right part.
    neighbours: [u32; 4],
    /// Where the node's transitions begin.
    transitions: u32,
    /// States reached here.
    reached: u32,
    /// Reached states whose steps were not taken yet.
    fresh: u32,
}

/// The search over one tree.
struct Search<'a> {
    automaton: &'a Configurations,
    nodes: Vec<Node>,
    /// Nodes with fresh states.
    waiting: Vec<u32>,
}

impl Configurations {
    pub fn prepare(file: &[u8]) -> Result<Configurations, Refusal> {
        let automaton = Automaton::read(file)?;
        let states = automaton.states;
        let mut next = vec![[0; 4]; automaton.symbols * 3 * states];
        for rule in &automaton.rules {
            for place in (0..3).filter(|&place| rule.applies_at(place)) {
                let at = (usize::from(rule.symbol) * 3 + place) * states + usize::from(rule.state);
                next[at][usize::from(rule.step)] |= 1 << rule.next;
            }
        }
        Ok(Configurations {
            states,
            alphabet: Alphabet::of(&automaton),
            initial: automaton.initial,
            accepting: automaton.accepting,
            next,
        })
    }

    /// The nodes of a tree, linked to their parents and parts. The stack has the parent and the place of each part
    /// that is still to come, the next one on top.
    fn link(&self, symbols: &[u8]) -> Vec<Node> {
        let mut nodes: Vec<Node> = Vec::with_capacity(symbols.len());
        let mut parts = [(0, 0); tree::MOST_HEIGHT + 2];
        let mut missing = 1;
        for (i, &symbol) in symbols.iter().enumerate() {
            let node = i as u32;
            let (parent, place) = parts[missing - 1];
            let transitions = (u32::from(symbol) * 3 + place) * self.states as u32;
            nodes.push(Node { neighbours: [node, parent, 0, 0], transitions, reached: 0, fresh: 0 });
            nodes[parent as usize].neighbours[place as usize + 1] = node;
            parts[missing - 1] = (node, 2);
            parts[missing] = (node, 1);
            missing = missing + 2 * usize::from(self.alphabet.is_branch(symbol)) - 1;
        }
        nodes
    }

    /// Whether the tree with these symbols is accepted.
    fn accepts(&self, symbols: &[u8]) -> bool {
        let mut search = Search { automaton: self, nodes: self.link(symbols), waiting: Vec::new() };
        search.add(0, self.initial);
        search.run()
    }
}

impl Search<'_> {
    /// Adds states at a node.
    #[inline(always)]
    fn add(&mut self, node: u32, states: u32) {
        let there = &mut self.nodes[node as usize];
        let new = states & !there.reached;
        if new != 0 {
            there.reached |= new;
            if there.fresh == 0 {
                self.waiting.push(node);
            }
            there.fresh |= new;
        }
    }

    /// The states that the fresh states of a node lead to by each move; stays are followed here, to their end.
    #[inline(always)]
    fn leave(&mut self, node: u32) -> [u32; 4] {
        let there = &mut self.nodes[node as usize];
        let next = &self.automaton.next[there.transitions as usize..][..self.automaton.states];
        let mut left_to = [0; 4];
        while there.fresh != 0 {
            let state = there.fresh.trailing_zeros() as usize;
            there.fresh &= there.fresh - 1;
            for (sum, states) in left_to.iter_mut().zip(next[state]) {
                *sum |= states;
            }
            let stayed = left_to[STAY] & !there.reached;
            there.reached |= stayed;
            there.fresh |= stayed;
        }
        left_to
    }

    /// Takes every step; whether the root is reached in an accepting state.
    fn run(&mut self) -> bool {
        while let Some(node) = self.waiting.pop() {
            let left_to = self.leave(node);
            if self.nodes[0].reached & self.automaton.accepting != 0 {
                return true;
            }
            let neighbours = self.nodes[node as usize].neighbours;
            for (neighbour, states) in neighbours.into_iter().zip(left_to).skip(1) {
                if states != 0 {
                    self.add(neighbour, states);
                }
            }
        }
        false
    }
}

impl Judge for Configurations {
    fn judge(&self, file: &[u8]) -> Verdict {
        match tree::read(file, self.alphabet) {
            Err(refusal) => Verdict::Refused(refusal),
            Ok(nodes) => Verdict::of(self.accepts(nodes.symbols())),
        }
    }
}
