//! Shapes of trees, and trees of a shape over an automaton's symbols.
use crate::{automaton::Automaton, random::Random};

#[derive(Clone, Copy)]
pub enum Shape {
    /// Both parts of a branch are as large as each other.
    Full,
    /// A long spine down the left, with a small tree at the right of each of its nodes.
    LeftComb,
    /// The same, down the right.
    RightComb,
    /// Parts of any size.
    Random,
}

pub const SHAPES: [Shape; 4] = [Shape::Full, Shape::LeftComb, Shape::RightComb, Shape::Random];

/// Branches of the small tree beside each node of a comb's spine.
const SIDE: usize = 31;

/// The most branches of a tree of this height.
fn most_branches(height: usize) -> usize {
    (1usize << height.min(32)) - 1
}

/// How many of the `rest` branches go to the left part, where neither part may be higher than `height`.
fn split(shape: Shape, rest: usize, height: usize, random: &mut Random) -> usize {
    let most = most_branches(height).min(rest);
    let least = rest - most;
    match shape {
        Shape::Full => rest / 2,
        Shape::LeftComb => rest.saturating_sub(SIDE).clamp(least, most),
        Shape::RightComb => SIDE.clamp(least, most),
        Shape::Random => random.from_to(least, most),
    }
}

/// Appends the nodes of a tree in preorder: whether each is a branch.
fn grow(shape: Shape, branches: usize, height: usize, random: &mut Random, nodes: &mut Vec<bool>) {
    nodes.push(branches > 0);
    if branches > 0 {
        let left = split(shape, branches - 1, height - 1, random);
        grow(shape, left, height - 1, random, nodes);
        grow(shape, branches - 1 - left, height - 1, random, nodes);
    }
}

/// A tree with this many branches and at most this height, with symbols of the automaton, in preorder.
pub fn tree(automaton: &Automaton, shape: Shape, branches: usize, height: usize, random: &mut Random) -> Vec<u8> {
    let mut nodes = Vec::with_capacity(2 * branches + 1);
    grow(shape, branches, height, random, &mut nodes);
    let (inner, leaves): (Vec<u8>, Vec<u8>) = (0..automaton.symbols as u8).partition(|&s| automaton.is_branch(s));
    nodes.into_iter().map(|branch| random.pick(if branch { &inner } else { &leaves })).collect()
}
