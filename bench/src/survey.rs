//! Document 01's survey, word for word: every round tries every branch symbol over every two of the rows kept.
use crate::{
    automaton::Automaton,
    tables::{Table, Tables, LEFT_PART, RIGHT_PART},
    Refusal,
};

const MOST_ROWS: usize = 64;

/// A verdict: its height, and the bytes of the plan where a tree was found.
#[derive(Clone, Debug, PartialEq, Eq)]
pub enum Survey {
    Found(usize, Vec<u8>),
    Open(usize),
    Empty(usize),
}

/// The overloops of a tree as a left and as a right part.
type Class = [Table; 2];

struct Candidate {
    row: [u8; 3],
    class: Class,
    accepted: bool,
}

/// The survey of an automaton's file, and how many candidates it tried; or its refusal.
pub fn of_file(file: &[u8]) -> Result<(Survey, usize), Refusal> {
    let automaton = Automaton::read(file)?;
    Ok(survey(&Tables::prepare(file)?, automaton.symbols, automaton.branches))
}

/// The verdict, and how many candidates were tried.
fn survey(automaton: &Tables, symbols: usize, branches: u32) -> (Survey, usize) {
    let mut kept: Vec<Candidate> = Vec::new();
    let mut tried = 0;
    for height in 0.. {
        let candidates = round(automaton, symbols, branches, height, &kept);
        tried += candidates.len();
        if let Some(found) = candidates.iter().find(|candidate| candidate.accepted) {
            let rows = kept.iter().chain([found]).flat_map(|candidate| candidate.row);
            return (Survey::Found(height, rows.collect()), tried);
        }
        let before = kept.len();
        for candidate in candidates {
            if kept.iter().all(|row| row.class != candidate.class) {
                kept.push(candidate);
            }
        }
        if kept.len() > MOST_ROWS {
            return (Survey::Open(height), tried);
        }
        if kept.len() == before {
            return (Survey::Empty(height), tried);
        }
    }
    unreachable!("each round but the last keeps a row")
}

fn round(automaton: &Tables, symbols: usize, branches: u32, height: usize, kept: &[Candidate]) -> Vec<Candidate> {
    let of_kind = |branch: u32| (0..symbols).filter(move |symbol| branches >> symbol & 1 == branch);
    if height == 0 {
        return of_kind(0).map(|symbol| leaf(automaton, symbol)).collect();
    }
    let mut candidates = Vec::with_capacity(symbols * kept.len() * kept.len());
    for symbol in of_kind(1) {
        for left in 0..kept.len() {
            candidates.extend((0..kept.len()).map(|right| node(automaton, symbol, left, right, kept)));
        }
    }
    candidates
}

fn leaf(automaton: &Tables, symbol: usize) -> Candidate {
    Candidate {
        row: [symbol as u8, 255, 255],
        class: [LEFT_PART, RIGHT_PART].map(|place| automaton.leaf(symbol, place)),
        accepted: automaton.accepts_leaf(symbol),
    }
}

fn node(automaton: &Tables, symbol: usize, left: usize, right: usize, kept: &[Candidate]) -> Candidate {
    let (l, r) = (&kept[left].class[0], &kept[right].class[1]);
    Candidate {
        row: [symbol as u8, left as u8, right as u8],
        class: [LEFT_PART, RIGHT_PART].map(|place| automaton.node(symbol, place, l, r)),
        accepted: automaton.accepts_node(symbol, l, r),
    }
}
