//! Judging by overloops as `tables` does, but in the textbook's form and with nothing left out: each composition and
//! closure goes over all 24 rows and all 24 states. It tells what the shortcuts of `tables` gain.
use crate::{
    automaton::{Automaton, LEFT, MOST_STATES, RIGHT, STAY, UP},
    tree::{self, Alphabet},
    Judge, Refusal, Verdict,
};

/// Pairs of states: bit q of row p stands for (p, q).
#[derive(Clone, Copy)]
struct Table([u32; MOST_STATES]);

const ROOT: usize = 0;
const LEFT_PART: usize = 1;
const RIGHT_PART: usize = 2;

/// An automaton, prepared for judging.
pub struct Plain {
    alphabet: Alphabet,
    initial: u32,
    accepting: u32,
    /// By symbol, place and move.
    transitions: Vec<[[Table; 4]; 3]>,
    /// The overloops of each leaf symbol, by place.
    leaves: Vec<[Table; 3]>,
}

impl Table {
    const EMPTY: Table = Table([0; MOST_STATES]);

    /// The states that the pairs lead to from a set.
    fn image(&self, from: u32) -> u32 {
        let row = |p: usize| if from >> p & 1 == 1 { self.0[p] } else { 0 };
        (0..MOST_STATES).fold(0, |to, p| to | row(p))
    }

    /// The pairs of both.
    fn join(mut self, other: Table) -> Table {
        for p in 0..MOST_STATES {
            self.0[p] |= other.0[p];
        }
        self
    }

    /// Each pair followed by each pair of the other.
    fn then(mut self, other: &Table) -> Table {
        for p in 0..MOST_STATES {
            self.0[p] = other.image(self.0[p]);
        }
        self
    }

    /// The reflexive transitive closure (Warshall).
    fn close(mut self) -> Table {
        for k in 0..MOST_STATES {
            let row = self.0[k] | 1 << k;
            self.0[k] = row;
            for p in 0..MOST_STATES {
                self.0[p] |= if self.0[p] >> k & 1 == 1 { row } else { 0 };
            }
        }
        self
    }
}

impl Plain {
    pub fn prepare(file: &[u8]) -> Result<Plain, Refusal> {
        let automaton = Automaton::read(file)?;
        let mut transitions = vec![[[Table::EMPTY; 4]; 3]; automaton.symbols];
        for rule in &automaton.rules {
            for place in (0..3).filter(|&place| rule.applies_at(place)) {
                let moves = &mut transitions[usize::from(rule.symbol)][place];
                moves[usize::from(rule.step)].0[usize::from(rule.state)] |= 1 << rule.next;
            }
        }
        let leaf = |moves: &[Table; 4]| moves[usize::from(STAY)].close().then(&moves[usize::from(UP)]);
        let leaves = transitions.iter().map(|places| places.each_ref().map(leaf)).collect();
        let Automaton { initial, accepting, .. } = automaton;
        Ok(Plain { alphabet: Alphabet::of(&automaton), initial, accepting, transitions, leaves })
    }

    /// The overloops of the subtree at the front of the list; the list goes on after it.
    fn overloops(&self, nodes: &mut &[u8], place: usize) -> Table {
        let symbol = nodes[0];
        if self.alphabet.is_branch(symbol) {
            let up = &self.transitions[usize::from(symbol)][place][usize::from(UP)];
            self.closed(nodes, place).then(up)
        } else {
            *nodes = &nodes[1..];
            self.leaves[usize::from(symbol)][place]
        }
    }

    /// The closed table of the node at the front of the list.
    fn closed(&self, nodes: &mut &[u8], place: usize) -> Table {
        let symbol = nodes[0];
        *nodes = &nodes[1..];
        let moves = &self.transitions[usize::from(symbol)][place];
        let mut table = moves[usize::from(STAY)];
        if self.alphabet.is_branch(symbol) {
            let left = self.overloops(nodes, LEFT_PART);
            let right = self.overloops(nodes, RIGHT_PART);
            table = table.join(moves[usize::from(LEFT)].then(&left)).join(moves[usize::from(RIGHT)].then(&right));
        }
        table.close()
    }

    /// Whether the tree with these nodes is accepted.
    fn accepts(&self, mut nodes: &[u8]) -> bool {
        self.closed(&mut nodes, ROOT).image(self.initial) & self.accepting != 0
    }
}

impl Judge for Plain {
    fn judge(&self, file: &[u8]) -> Verdict {
        match tree::read(file, self.alphabet) {
            Err(refusal) => Verdict::Refused(refusal),
            Ok(nodes) => Verdict::of(self.accepts(nodes.symbols())),
        }
    }
}
