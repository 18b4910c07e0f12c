//! A run, followed step by step (document 02, W7): the nodes are linked in one pass, and a step is one look-up by node and state.
use crate::{
    automaton::{Automaton, LEFT, MOST_STATES, MOST_SYMBOLS, STAY, UP},
    refused_in,
    tree::{self, Alphabet, MOST_HEIGHT},
    Refused,
};

pub const MOST_BUDGET: usize = 20_000;

/// How a run ended, and the steps that it made.
#[derive(Clone, Copy, Debug, PartialEq, Eq)]
pub enum Watched {
    Passed(usize),
    Stuck(usize),
    Circling(usize),
    Spent(usize),
}

/// What is done at a symbol, a place and a state, in one byte: the next state in the lowest six bits, the move in the others.
type Choice = u8;

const NEXT_BITS: u8 = 6;
const NEXT: u8 = (1 << NEXT_BITS) - 1;
/// No rule applies. There is no state of this number.
const NONE: Choice = u8::MAX;

/// Where the choices of a symbol and a place begin; one for each state follows.
fn cell(symbol: u8, place: usize) -> usize {
    (usize::from(symbol) * 3 + place) * MOST_STATES
}

/// The choices of an automaton that is single; of another there are none.
fn choices(automaton: &Automaton) -> Option<[Choice; MOST_SYMBOLS * 3 * MOST_STATES]> {
    let mut choices = [NONE; MOST_SYMBOLS * 3 * MOST_STATES];
    for rule in &automaton.rules {
        let choice = rule.step << NEXT_BITS | rule.next;
        for place in (0..3).filter(|&place| rule.applies_at(place)) {
            let chosen = &mut choices[cell(rule.symbol, place) + usize::from(rule.state)];
            if *chosen != NONE && *chosen != choice {
                return None;
            }
            *chosen = choice;
        }
    }
    Some(choices)
}

#[derive(Clone, Copy)]
struct Node {
    /// The root's is itself.
    parent: u16,
    /// The right part; the left one is the next node.
    right: u16,
    /// Where its choices begin.
    cell: u16,
}

/// The nodes of a tree. The stack has the parent and the place of each part that is still to come, the next one on top.
fn link(symbols: &[u8], alphabet: Alphabet) -> Vec<Node> {
    let mut nodes: Vec<Node> = Vec::with_capacity(symbols.len());
    let mut parts = [(0, 0); MOST_HEIGHT + 2];
    let mut missing = 1;
    for (node, &symbol) in symbols.iter().enumerate() {
        let (parent, place) = parts[missing - 1];
        nodes.push(Node { parent, right: 0, cell: cell(symbol, place) as u16 });
        if place == 2 {
            nodes[usize::from(parent)].right = node as u16;
        }
        parts[missing - 1] = (node as u16, 2);
        parts[missing] = (node as u16, 1);
        missing = missing + 2 * usize::from(alphabet.is_branch(symbol)) - 1;
    }
    nodes
}

/// Follows the run from the root in a state; the log has an entry for each position that the budget allows. Every step is chosen before it is
/// known whether it may be made, so that one number ends the run: the lower of the two that may. The move is a jump, which the
/// processor foretells in most runs; a look-up of the next node by the move would be waited for at each step.
fn follow(
    nodes: &[Node],
    choices: &[Choice],
    automaton: &Automaton,
    budget: usize,
    entries: &mut [[u8; 3]],
) -> Watched {
    let all = nodes.len() * automaton.states;
    let last = all.min(budget);
    let (mut node, mut state) = (0, automaton.initial.trailing_zeros() as u8);
    for (steps, entry) in entries[..=last].iter_mut().enumerate() {
        let [low, high] = u16::to_le_bytes(node);
        *entry = [low, high, state];
        if node == 0 && automaton.accepting >> state & 1 == 1 {
            return Watched::Passed(steps);
        }
        let here = &nodes[usize::from(node)];
        let choice = choices[usize::from(here.cell) + usize::from(state)];
        if choice == NONE {
            return Watched::Stuck(steps);
        }
        node = match choice >> NEXT_BITS {
            STAY => node,
            UP => here.parent,
            LEFT => node + 1,
            _ => here.right,
        };
        state = choice & NEXT;
    }
    if last == all {
        Watched::Circling(last)
    } else {
        Watched::Spent(last)
    }
}

/// Follows the run of an automaton's file on a tree's file, and logs it at the front of the output. Refusals 1 to 9 of the automaton's file, 1 to 6
/// and 10 to 12 of the tree's, then 20, 21, 22 and 13.
pub fn watch(file: &[u8], tree: &[u8], budget: usize, log: &mut [u8]) -> Result<Watched, Refused> {
    let automaton = Automaton::read(file).map_err(|refusal| Refused { file: 0, refusal })?;
    let alphabet = Alphabet::of(&automaton);
    let tree = tree::read(tree, alphabet).map_err(|refusal| Refused { file: 1, refusal })?;
    let Some(choices) = choices(&automaton) else { return refused_in(20, 2, 0) };
    if automaton.initial.count_ones() != 1 {
        return refused_in(21, 2, automaton.initial.count_ones() as usize);
    }
    if budget > MOST_BUDGET {
        return refused_in(22, 2, MOST_BUDGET);
    }
    let length = 3 * (budget + 1);
    let Some(log) = log.get_mut(..length) else { return refused_in(13, 2, length) };
    Ok(follow(&link(tree.symbols(), alphabet), &choices, &automaton, budget, log.as_chunks_mut().0))
}
