//! What a change costs: this engine beside an earlier one, whose library's names have a prefix, on the same batches in turn.
use crate::{
    batch::Tally,
    batches::{LARGE, ROUNDS, SMALL, WARM_REPEATS},
    engine,
    families::{self, Case, Family, EXPLODING, FAMILIES},
};
use std::{hint::black_box, time::Instant};

extern "C" {
    fn earlier_engine_tally(
        automaton: *const u8,
        automaton_length: usize,
        trees: *const u8,
        trees_length: usize,
        tally: *mut [u32; 3],
        told: *mut [usize; 3],
    ) -> u32;
}

const COUNT: usize = 3;
const NAMES: [&str; COUNT] = ["earlier", "now", "now, with sums"];

/// In the order of the names: the tally, nothing where the automaton's file is refused.
const TALLIES: [fn(&[u8], &[u8]) -> Option<Tally>; COUNT] = [
    earlier,
    |automaton, trees| engine::tally(automaton, trees).ok(),
    |automaton, trees| engine::judge_all(automaton, trees).map(|(tally, _)| tally).ok(),
];

fn earlier(automaton: &[u8], trees: &[u8]) -> Option<Tally> {
    let (mut tally, mut told) = ([0; 3], [0; 3]);
    // SAFETY: the pointers are of slices, with their lengths; `tally` and `told` are written to, and are the call's own.
    let answer = unsafe {
        earlier_engine_tally(automaton.as_ptr(), automaton.len(), trees.as_ptr(), trees.len(), &mut tally, &mut told)
    };
    (answer == 0).then_some(tally)
}

/// The best time of each on a batch, in microseconds a tree.
struct Batch {
    automaton: Vec<u8>,
    trees: Vec<u8>,
    count: usize,
    best: [f64; COUNT],
}

impl Batch {
    fn new(case: &Case, repeats: usize) -> Batch {
        Batch {
            automaton: case.automaton.clone(),
            trees: case.trees.concat().repeat(repeats),
            count: case.trees.len() * repeats,
            best: [f64::INFINITY; COUNT],
        }
    }

    fn time(&mut self) -> Result<(), String> {
        let mut tallies = [None; COUNT];
        for ((tally, found), best) in TALLIES.iter().zip(&mut tallies).zip(&mut self.best) {
            let begin = Instant::now();
            *found = black_box(tally(black_box(&self.automaton), black_box(&self.trees)));
            *best = best.min(begin.elapsed().as_secs_f64() * 1e6 / self.count as f64);
        }
        if tallies[0].is_some() && tallies.iter().all(|tally| *tally == tallies[0]) {
            Ok(())
        } else {
            Err(format!("the tallies are {tallies:?}"))
        }
    }
}

fn measure(
    title: &str,
    families: &[Family],
    cases: impl Fn(&Family) -> Vec<Case>,
    repeats: usize,
) -> Result<(), String> {
    let mut groups: Vec<Vec<Batch>> =
        families.iter().map(|family| cases(family).iter().map(|case| Batch::new(case, repeats)).collect()).collect();
    for _ in 0..ROUNDS {
        groups.iter_mut().flatten().try_for_each(Batch::time)?;
    }
    println!("\n{title}, microseconds a tree, best of {ROUNDS} rounds:");
    print!("{:<14}", "family");
    NAMES.iter().for_each(|name| print!("{name:>15}"));
    NAMES[1..].iter().for_each(|name| print!("{:>26}", format!("{name} / earlier")));
    println!();
    let rows: Vec<[f64; COUNT]> = groups.iter().map(|batches| mean(batches.iter().map(|batch| batch.best))).collect();
    families.iter().zip(&rows).for_each(|(family, row)| print_row(family.name, row));
    print_row("mean", &mean(rows.iter().copied()));
    Ok(())
}

fn mean(rows: impl ExactSizeIterator<Item = [f64; COUNT]>) -> [f64; COUNT] {
    let count = rows.len() as f64;
    let sums = rows.fold([0.0; COUNT], |sums, row| std::array::from_fn(|which| sums[which] + row[which]));
    sums.map(|sum| sum / count)
}

fn print_row(name: &str, row: &[f64; COUNT]) {
    print!("{name:<14}");
    row.iter().for_each(|micros| print!("{micros:>15.2}"));
    row[1..].iter().for_each(|micros| print!("{:>26.3}", micros / row[0]));
    println!();
}

pub fn run() -> Result<(), String> {
    measure("warm, 4,095 nodes", &FAMILIES, Family::cases, WARM_REPEATS)?;
    let large = |family: &Family| family.cases_of(LARGE, families::large_tree);
    measure("trees that come once each, 4,095 nodes", &FAMILIES, large, 1)?;
    let small = |family: &Family| family.cases_of(SMALL, families::small_tree);
    measure("small trees that come once each, 5 to 59 nodes", &FAMILIES, small, 1)?;
    measure("classes explode, 4,095 nodes", &EXPLODING, large, 1)
}
