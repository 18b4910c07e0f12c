//! Document 01's quick check: the least sets of left and of right overloops, and whether the root has a way to acceptance.
use crate::{
    automaton::{Automaton, MOST_STATES},
    tables::{Table, Tables, LEFT_PART, RIGHT_PART},
    Refusal,
};

/// The left and the right set.
type Sets = [Table; 2];

fn add(table: &mut Table, other: &Table) {
    for (row, more) in table.iter_mut().zip(other) {
        *row |= more;
    }
}

/// Whether the quick check of an automaton's file is clear, or its refusal.
pub fn is_clear(file: &[u8]) -> Result<bool, Refusal> {
    let automaton = Automaton::read(file)?;
    let tables = Tables::prepare(file)?;
    let (branches, leaves): (Vec<usize>, Vec<usize>) =
        (0..automaton.symbols).partition(|&symbol| automaton.is_branch(symbol as u8));
    let [left, right] = least(&tables, &branches, &leaves);
    let leaf_accepted = leaves.iter().any(|&symbol| tables.accepts_leaf(symbol));
    let branch_accepted = branches.iter().any(|&symbol| tables.accepts_node(symbol, &left, &right));
    Ok(!leaf_accepted && !branch_accepted)
}

/// The least sets: the overloops of all leaves, and those that branches form until nothing is new.
fn least(tables: &Tables, branches: &[usize], leaves: &[usize]) -> Sets {
    let mut sets: Sets = [[0; MOST_STATES]; 2];
    loop {
        let mut next = sets;
        for (set, place) in next.iter_mut().zip([LEFT_PART, RIGHT_PART]) {
            for &symbol in leaves {
                add(set, &tables.leaf(symbol, place));
            }
            for &symbol in branches {
                add(set, &tables.node(symbol, place, &sets[0], &sets[1]));
            }
        }
        if next == sets {
            return sets;
        }
        sets = next;
    }
}
