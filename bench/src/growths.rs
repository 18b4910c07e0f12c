//! Judging with the sum of the growths of closing (document 02, W9): batches, warm and where classes explode, and one call for one tree; the engine
//! with the sums beside the engine without, and beside implementations in Rust with the sums.
use crate::{
    automaton::Automaton,
    batch::{self, Tally},
    batches::{LARGE, ROUNDS, WARM_REPEATS},
    calls, engine,
    families::{self, Case, Family, BRANCHES, EXPLODING, FAMILIES},
    random::Random,
    shapes::{self, Shape},
    sums::{self, SumOf, Summing},
    tables::TablesSums,
    tree::{self, MOST_HEIGHT},
    JudgeSums, Judged,
};
use std::{hint::black_box, time::Instant};

// ---- batches

const COUNT: usize = 4;
const NAMES: [&str; COUNT] = ["engine", "without sums", "Rust tables", "Rust lazy"];
const ENGINE: usize = 0;
const WITHOUT: usize = 1;
const TABLES: usize = 2;
const LAZY: usize = 3;

/// In the order of the names; of the engine without sums the sum is 0.
const SUMS: [SumOf; COUNT] = [
    engine::judge_all,
    |automaton, trees| engine::accepts_all(automaton, trees).map(|tally| (tally, 0)),
    sums::tables,
    sums::lazy,
];

/// An automaton's file and trees' files end to end, with their tally and sum, and the best time of each implementation.
struct Input {
    automaton: Vec<u8>,
    batch: Vec<u8>,
    tally: Tally,
    sum: usize,
    best: [f64; COUNT],
}

impl Input {
    /// A batch of trees, so many times; all implementations agree on each tree.
    fn new(case: &Case, repeats: usize) -> Result<Input, String> {
        let (mut tally, mut sum) = ([0; 3], 0);
        let judges = Summing::prepare(&case.automaton).map_err(|_| "an automaton was refused")?;
        for tree in &case.trees {
            let Judged { verdict, growth } = judges.judge(tree)?;
            batch::count(&mut tally, verdict);
            sum += repeats * growth;
        }
        Ok(Input {
            automaton: case.automaton.clone(),
            batch: case.trees.concat().repeat(repeats),
            tally: tally.map(|number| number * repeats as u32),
            sum,
            best: [f64::INFINITY; COUNT],
        })
    }

    /// One call of each of these, whose tally and sum have to be those expected.
    fn time(&mut self, which: &[usize]) -> Result<(), String> {
        for &which in which {
            let begin = Instant::now();
            let found = black_box(SUMS[which](black_box(&self.automaton), black_box(&self.batch)));
            self.best[which] = self.best[which].min(begin.elapsed().as_secs_f64() * 1e6);
            let expected = (self.tally, if which == WITHOUT { 0 } else { self.sum });
            if found != Ok(expected) {
                return Err(format!("{} has {found:?} and not {expected:?}", NAMES[which]));
            }
        }
        Ok(())
    }
}

/// Measures these implementations on the batches of each family, in turn, and prints the engine's time with sums over that of the others.
fn measure(
    title: &str,
    families: &[Family],
    cases: impl Fn(&Family) -> Vec<Case>,
    repeats: usize,
    which: &[usize],
) -> Result<(), String> {
    let in_family = |family: &Family, message: String| format!("{title}, {}: {message}", family.name);
    let mut groups = Vec::new();
    for family in families {
        let inputs: Result<Vec<Input>, String> = cases(family).iter().map(|case| Input::new(case, repeats)).collect();
        groups.push(inputs.map_err(|message| in_family(family, message))?);
    }
    for _ in 0..ROUNDS {
        for (family, inputs) in families.iter().zip(&mut groups) {
            inputs.iter_mut().try_for_each(|input| input.time(which)).map_err(|message| in_family(family, message))?;
        }
    }
    println!("\nwith the sum of the growths, {title}, best of {ROUNDS} rounds:");
    print_head("family", which);
    let rows: Vec<[f64; COUNT]> = groups.iter().map(|inputs| mean(inputs)).collect();
    for (family, row) in families.iter().zip(&rows) {
        print_row(family.name, row, which);
    }
    let all = std::array::from_fn(|which| rows.iter().map(|row| row[which]).sum::<f64>() / rows.len() as f64);
    print_row("mean", &all, which);
    Ok(())
}

/// The mean over the batches of a family, in microseconds a tree.
fn mean(inputs: &[Input]) -> [f64; COUNT] {
    let trees: u32 = inputs.iter().flat_map(|input| input.tally).sum();
    std::array::from_fn(|which| inputs.iter().map(|input| input.best[which]).sum::<f64>() / f64::from(trees))
}

/// Those that the engine with sums is compared with.
fn peers(which: &[usize]) -> impl Iterator<Item = usize> + '_ {
    which.iter().copied().filter(|&which| which != ENGINE)
}

fn print_head(first: &str, which: &[usize]) {
    print!("{first:<18}");
    which.iter().for_each(|&which| print!("{:>15}", NAMES[which]));
    peers(which).for_each(|peer| print!("{:>24}", format!("engine / {}", NAMES[peer])));
    println!();
}

fn print_row(name: &str, micros: &[f64; COUNT], which: &[usize]) {
    print!("{name:<18}");
    which.iter().for_each(|&which| print!("{:>15.2}", micros[which]));
    peers(which).for_each(|peer| print!("{:>24.2}", micros[ENGINE] / micros[peer]));
    println!();
}

// ---- one call

const CALL_ROUNDS: usize = 20;
const SMALL_CALLS: usize = 500;
const LARGE_CALLS: usize = 10;

/// What an automaton's file says of a tree's file.
type Call = fn(&[u8], &[u8]) -> Judged;

/// The first ones of the names: `engine_judge`, `engine_accepts`, of which the growth is 0, and an implementation in Rust that is used once.
const CALLS: [Call; 3] = [
    engine::judge,
    |automaton, tree| Judged { verdict: engine::accepts(automaton, tree), growth: 0 },
    |automaton, tree| TablesSums::prepare(automaton).map_or_else(Judged::refused, |judge| judge.judge_sums(tree)),
];
const CALLED: [usize; 3] = [ENGINE, WITHOUT, TABLES];

fn measure_calls(name: &str, automaton: &Automaton, branches: usize, count: usize) -> Result<(), String> {
    let file = automaton.write();
    let tree = tree::write(&shapes::tree(automaton, Shape::Full, branches, MOST_HEIGHT, &mut Random::new(1)));
    let judges = Summing::prepare(&file).map_err(|_| "an automaton was refused")?;
    let judged = judges.judge(&tree).map_err(|message| format!("one call, {name}: {message}"))?;
    let mut best = [f64::INFINITY; COUNT];
    for _ in 0..CALL_ROUNDS {
        for which in CALLED {
            let expected = if which == WITHOUT { Judged { growth: 0, ..judged } } else { judged };
            let begin = Instant::now();
            for _ in 0..count {
                if black_box(CALLS[which](black_box(&file), black_box(&tree))) != expected {
                    return Err(format!("one call, {name}: the answer of {} differs", NAMES[which]));
                }
            }
            best[which] = best[which].min(begin.elapsed().as_secs_f64() * 1e6 / count as f64);
        }
    }
    print_row(name, &best, &CALLED);
    Ok(())
}

pub fn run() -> Result<(), String> {
    let warm = format!("warm: microseconds a tree (4,095 nodes) in batches of {} of one automaton", 4 * WARM_REPEATS);
    measure(&warm, &FAMILIES, Family::cases, WARM_REPEATS, &[ENGINE, WITHOUT, LAZY])?;
    let explode = format!("classes explode, 4,095 nodes, microseconds a tree in batches of {LARGE} of one automaton");
    let large = |family: &Family| family.cases_of(LARGE, families::large_tree);
    measure(&explode, &EXPLODING, large, 1, &[ENGINE, WITHOUT, TABLES, LAZY])?;
    println!("\nwith the sum of the growths, one call, microseconds a call, best of {CALL_ROUNDS} rounds:");
    print_head("automaton, nodes", &CALLED);
    let (many, few) = (calls::many_rules()?, calls::two_rules());
    measure_calls("512 rules, 15", &many, calls::BRANCHES, SMALL_CALLS)?;
    measure_calls("2 rules, 15", &few, calls::BRANCHES, SMALL_CALLS)?;
    measure_calls("512 rules, 4,095", &many, BRANCHES, LARGE_CALLS)?;
    measure_calls("2 rules, 4,095", &few, BRANCHES, LARGE_CALLS)
}
