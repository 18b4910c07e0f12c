//! Judging by overloops: the table of pairs of each subtree, from the leaves up (document 01, "Steps, runs, crossings").
//! This is the yardstick, so rows and states that add nothing are left out, and the inner loops are such that the
//! compiler makes vector code of them. There are two forms: with the sum of the growths of closing (document 02, W9)
//! and without, which does nothing for it.
use crate::{
    automaton::{Automaton, LEFT, MOST_STATES, RIGHT, STAY, UP},
    tree::{self, Alphabet},
    Judge, JudgeSums, Judged, Refusal, Verdict,
};

/// Pairs of states: bit q of row p stands for (p, q).
pub type Table = [u32; MOST_STATES];
const NO_PAIRS: Table = [0; MOST_STATES];

pub const ROOT: usize = 0;
pub const LEFT_PART: usize = 1;
pub const RIGHT_PART: usize = 2;

/// What a part does for a node, by the node's place: the pairs of a step down to the part followed by an overloop of it.
pub type Done = [Table; 3];

/// A row that is not empty, with its state.
struct Row {
    state: usize,
    next: u32,
}

/// The transitions at one symbol and place.
struct Transitions {
    stay: Table,
    up: Table,
    /// The states with a step up.
    leaving: u32,
    left: Vec<Row>,
    right: Vec<Row>,
}

/// The overloops of a leaf, and its growth in the form with sums.
struct Leaf {
    overloops: Table,
    growth: usize,
}

/// An automaton, prepared for judging, with the sum of the growths or without.
pub struct Overloops<const SUMS: bool> {
    /// Of the 24 states of a table, those that the automaton has not; each of them only gets its own pair in closing.
    absent: usize,
    alphabet: Alphabet,
    initial: u32,
    accepting: u32,
    /// By symbol and place.
    transitions: Vec<[Transitions; 3]>,
    /// By leaf symbol and place.
    leaves: Vec<[Leaf; 3]>,
}

/// Without the sums, and with them.
pub type Tables = Overloops<false>;
pub type TablesSums = Overloops<true>;

/// The nodes that are still to come, and the growths of those before.
struct Rest<'a> {
    nodes: &'a [u8],
    growth: usize,
}

/// The numbers in a set.
fn numbers(mut set: u32) -> impl Iterator<Item = usize> {
    std::iter::from_fn(move || {
        let lowest = set.trailing_zeros() as usize;
        set &= set.wrapping_sub(1);
        (lowest < 32).then_some(lowest)
    })
}

/// Adds the pairs of a step down followed by an overloop of the part.
#[inline(always)]
fn add_part(table: &mut Table, down: &[Row], overloops: &Table) {
    for row in down {
        table[row.state] |= numbers(row.next).fold(0, |sum, next| sum | overloops[next]);
    }
}

/// The pairs of a step down followed by an overloop of the part.
fn part_done(down: &[Row], overloops: &Table) -> Table {
    let mut table = NO_PAIRS;
    add_part(&mut table, down, overloops);
    table
}

/// The row, where the set has the state, else nothing.
#[inline(always)]
fn row_if(set: u32, state: usize, row: u32) -> u32 {
    if set & 1 << state == 0 {
        0
    } else {
        row
    }
}

/// The reflexive transitive closure (Warshall). A chain goes through a state only where one pair leads to it and
/// another on from it; the other states are left out.
#[inline(always)]
fn close(table: &mut Table) {
    let (mut entered, mut left) = (0, 0);
    for (p, &row) in table.iter().enumerate() {
        let others = row & !(1 << p);
        entered |= others;
        left |= if others == 0 { 0 } else { 1 << p };
    }
    for (p, row) in table.iter_mut().enumerate() {
        *row |= 1 << p;
    }
    for through in numbers(entered & left) {
        let onward = table[through];
        for row in table.iter_mut() {
            *row |= row_if(*row, through, onward);
        }
    }
}

/// The number of pairs: the bits of each byte of a row, added up byte by byte over the rows (at most 8 x 24), then the four bytes.
#[inline(always)]
fn size(table: &Table) -> usize {
    let bits = |row: u32| {
        let twos = row - (row >> 1 & 0x5555_5555);
        let fours = (twos & 0x3333_3333) + (twos >> 2 & 0x3333_3333);
        (fours + (fours >> 4)) & 0x0f0f_0f0f
    };
    let bytes: u32 = table.iter().map(|&row| bits(row)).sum();
    let halves = (bytes & 0x00ff_00ff) + (bytes >> 8 & 0x00ff_00ff);
    ((halves & 0xffff) + (halves >> 16)) as usize
}

/// The pairs of a closed table followed by a step up.
#[inline(always)]
fn follow(closed: &Table, at: &Transitions) -> Table {
    let mut overloops = NO_PAIRS;
    for last in numbers(at.leaving) {
        let row = at.up[last];
        for p in 0..MOST_STATES {
            overloops[p] |= row_if(closed[p], last, row);
        }
    }
    overloops
}

/// The rows of a table that are not empty.
fn rows(table: &Table) -> Vec<Row> {
    let all = table.iter().enumerate().map(|(state, &next)| Row { state, next });
    all.filter(|row| row.next != 0).collect()
}

/// The transitions of one symbol and place.
fn compile(automaton: &Automaton, symbol: usize, place: usize) -> Transitions {
    let mut moves = [NO_PAIRS; 4];
    for rule in &automaton.rules {
        if usize::from(rule.symbol) == symbol && rule.applies_at(place) {
            moves[usize::from(rule.step)][usize::from(rule.state)] |= 1 << rule.next;
        }
    }
    let [stay, up, left, right] = [STAY, UP, LEFT, RIGHT].map(|step| moves[usize::from(step)]);
    let leaving = rows(&up).iter().map(|row| 1 << row.state).sum();
    Transitions { stay, up, leaving, left: rows(&left), right: rows(&right) }
}

/// The closed table of a node, from the overloops of its parts.
#[inline(always)]
fn joined(at: &Transitions, left: &Table, right: &Table) -> Table {
    let mut table = at.stay;
    add_part(&mut table, &at.left, left);
    add_part(&mut table, &at.right, right);
    close(&mut table);
    table
}

impl<const SUMS: bool> Overloops<SUMS> {
    pub fn prepare(file: &[u8]) -> Result<Self, Refusal> {
        let automaton = Automaton::read(file)?;
        let places = |symbol| [0, 1, 2].map(|place| compile(&automaton, symbol, place));
        let transitions: Vec<_> = (0..automaton.symbols).map(places).collect();
        let (absent, alphabet) = (MOST_STATES - automaton.states, Alphabet::of(&automaton));
        let Automaton { initial, accepting, .. } = automaton;
        let mut prepared = Overloops { absent, alphabet, initial, accepting, transitions, leaves: Vec::new() };
        prepared.leaves =
            prepared.transitions.iter().map(|places| places.each_ref().map(|at| prepared.new_leaf(at))).collect();
        Ok(prepared)
    }

    fn new_leaf(&self, at: &Transitions) -> Leaf {
        let (mut table, mut growth) = (at.stay, 0);
        self.close(&mut table, &mut growth);
        Leaf { overloops: follow(&table, at), growth }
    }

    /// Closes a table; in the form with sums the pairs that it gets are added to the growth.
    #[inline(always)]
    fn close(&self, table: &mut Table, growth: &mut usize) {
        if SUMS {
            let given = *table;
            close(table);
            let added: Table = std::array::from_fn(|p| table[p] & !given[p]);
            *growth += size(&added) - self.absent;
        } else {
            close(table);
        }
    }

    /// Hands on the overloops of the subtree at the front of the list; the list goes on after it.
    #[inline(always)]
    fn with_overloops(&self, rest: &mut Rest, place: usize, add: impl FnOnce(&Table)) {
        let symbol = usize::from(rest.nodes[0]);
        if self.alphabet.is_branch(rest.nodes[0]) {
            add(&self.branch_overloops(rest, place));
        } else {
            rest.nodes = &rest.nodes[1..];
            let leaf = &self.leaves[symbol][place];
            if SUMS {
                rest.growth += leaf.growth;
            }
            add(&leaf.overloops);
        }
    }

    /// The overloops of the branch at the front of the list.
    fn branch_overloops(&self, rest: &mut Rest, place: usize) -> Table {
        let at = &self.transitions[usize::from(rest.nodes[0])][place];
        follow(&self.closed(rest, at), at)
    }

    /// The closed table of the node at the front of the list.
    #[inline(always)]
    fn closed(&self, rest: &mut Rest, at: &Transitions) -> Table {
        let branch = self.alphabet.is_branch(rest.nodes[0]);
        rest.nodes = &rest.nodes[1..];
        let mut table = at.stay;
        if branch {
            self.with_overloops(rest, LEFT_PART, |part| add_part(&mut table, &at.left, part));
            self.with_overloops(rest, RIGHT_PART, |part| add_part(&mut table, &at.right, part));
        }
        self.close(&mut table, &mut rest.growth);
        table
    }

    /// The overloops of a leaf.
    pub fn leaf(&self, symbol: usize, place: usize) -> Table {
        self.leaves[symbol][place].overloops
    }

    /// The growth of a leaf, in the form with sums: as a part, or as a whole tree.
    pub fn leaf_growth(&self, symbol: usize, place: usize) -> usize {
        self.leaves[symbol][place].growth
    }

    /// The overloops of a node, from those of its parts.
    pub fn node(&self, symbol: usize, place: usize, left: &Table, right: &Table) -> Table {
        let at = &self.transitions[symbol][place];
        follow(&joined(at, left, right), at)
    }

    pub fn alphabet(&self) -> Alphabet {
        self.alphabet
    }

    /// What a part with these overloops does at a symbol, as the left part and as the right part.
    pub fn done_left(&self, symbol: usize, overloops: &Table) -> Done {
        self.transitions[symbol].each_ref().map(|at| part_done(&at.left, overloops))
    }

    pub fn done_right(&self, symbol: usize, overloops: &Table) -> Done {
        self.transitions[symbol].each_ref().map(|at| part_done(&at.right, overloops))
    }

    /// The closed table of a node at a place, from what its parts do.
    fn closed_of(&self, symbol: usize, place: usize, [left, right]: [&Done; 2], growth: &mut usize) -> Table {
        let stay = &self.transitions[symbol][place].stay;
        let mut table = std::array::from_fn(|p| stay[p] | left[place][p] | right[place][p]);
        self.close(&mut table, growth);
        table
    }

    /// The overloops of a node at a place, from what its parts do; in the form with sums its growth is added.
    pub fn node_of(&self, symbol: usize, place: usize, parts: [&Done; 2], growth: &mut usize) -> Table {
        follow(&self.closed_of(symbol, place, parts, growth), &self.transitions[symbol][place])
    }

    /// Whether a node whose parts do this is accepted as a whole tree; in the form with sums its growth is added.
    pub fn accepts_over(&self, symbol: usize, parts: [&Done; 2], growth: &mut usize) -> bool {
        self.accepting(&self.closed_of(symbol, ROOT, parts, growth))
    }

    /// Whether a tree is accepted: a leaf, or a node over parts with these overloops.
    pub fn accepts_leaf(&self, symbol: usize) -> bool {
        self.accepting(&joined(&self.transitions[symbol][ROOT], &NO_PAIRS, &NO_PAIRS))
    }

    pub fn accepts_node(&self, symbol: usize, left: &Table, right: &Table) -> bool {
        self.accepting(&joined(&self.transitions[symbol][ROOT], left, right))
    }

    fn accepting(&self, closed: &Table) -> bool {
        numbers(self.initial).any(|p| closed[p] & self.accepting != 0)
    }

    /// Whether the tree with these nodes is accepted, and the sum of the growths, or 0 in the form without sums.
    fn accepts(&self, nodes: &[u8]) -> (bool, usize) {
        let at = &self.transitions[usize::from(nodes[0])][ROOT];
        let mut rest = Rest { nodes, growth: 0 };
        let accepted = self.accepting(&self.closed(&mut rest, at));
        (accepted, rest.growth)
    }
}

impl Judge for Tables {
    fn judge(&self, file: &[u8]) -> Verdict {
        match tree::read(file, self.alphabet) {
            Err(refusal) => Verdict::Refused(refusal),
            Ok(nodes) => Verdict::of(self.accepts(nodes.symbols()).0),
        }
    }
}

impl JudgeSums for TablesSums {
    fn judge_sums(&self, file: &[u8]) -> Judged {
        match tree::read(file, self.alphabet) {
            Err(refusal) => Judged::refused(refusal),
            Ok(nodes) => Judged::of(self.accepts(nodes.symbols())),
        }
    }
}
