//! The survey: the engine beside a Rust program that tries all candidates, on the cases that take longest by the
//! definition (31 branch symbols, one new row a round), on one where no row can stand for another, and on automata by
//! chance, where the answers are compared.
use crate::{
    agreement,
    automaton::{Automaton, Rule, LEFT, RIGHT, STAY, UP},
    engine,
    families::FAMILIES,
    random::Random,
    survey::{self, Survey},
};
use std::time::Instant;

const ROUNDS: usize = 5;
const SMALL: u64 = 3000;
/// Branch symbols: of the cases that take longest, and of the one where both sides count, for which the rules are many.
const BRANCHES: usize = 31;
const FEW_BRANCHES: usize = 11;
/// The states that count the nodes of a spine, in cycles that each begin with the first of two numbers and have so many as
/// the second; and the state that goes back up.
const CYCLES: [(usize, usize); 3] = [(0, 3), (3, 4), (7, 7)];
const BACK: usize = 14;
/// Places by their bytes.
const ROOT: u8 = 0;
const LEFT_PLACE: u8 = 1;
const RIGHT_PLACE: u8 = 2;

struct Worst {
    name: &'static str,
    make: fn(&mut Random) -> Automaton,
}

const WORST: [Worst; 4] = [
    Worst { name: "left spines", make: |random| spines(LEFT_PLACE, LEFT, 0, random) },
    Worst { name: "right spines", make: |random| spines(RIGHT_PLACE, RIGHT, 0, random) },
    Worst { name: "with loops", make: |random| spines(LEFT_PLACE, LEFT, 40, random) },
    Worst { name: "both sides", make: |_| both_sides() },
];

/// Rules that count the nodes of the spine to one side modulo 3, 4 and 7, where they stand at a place: 14 states go down,
/// each in its cycle, and at the leaf the first of each cycle turns back. So trees with spines of unequal lengths (modulo
/// 84) are inequivalent, and each round has one more.
fn counting(branches: usize, place: u8, down: u8) -> Vec<Rule> {
    let mut rules = Vec::new();
    for (first, length) in CYCLES {
        rules.push(rule(branches, first, place, UP, BACK));
        for (symbol, i) in (0..branches).flat_map(|symbol| (0..length).map(move |i| (symbol, i))) {
            rules.push(rule(symbol, first + i, place, down, first + (i + 1) % length));
        }
    }
    rules.extend((0..branches).map(|symbol| rule(symbol, BACK, place, UP, BACK)));
    rules
}

fn rule(symbol: usize, state: usize, place: u8, step: u8, next: usize) -> Rule {
    Rule { symbol: symbol as u8, state: state as u8, place, step, next: next as u8 }
}

/// Spines to one side. Some more transitions stay at the root, so that testing for acceptance has something to close.
fn spines(place: u8, down: u8, stays: usize, random: &mut Random) -> Automaton {
    let mut rules = counting(BRANCHES, place, down);
    for _ in 0..stays {
        rules.push(rule(random.below(BRANCHES), 16 + random.below(7), ROOT, STAY, 16 + random.below(7)));
    }
    surveyed(BRANCHES, rules)
}

/// Left spines, counted in right parts too, and into those the root steps in each counting state: rows that are unlike as
/// left parts are unlike as right parts, and every one is met on both sides.
fn both_sides() -> Automaton {
    let mut rules = counting(FEW_BRANCHES, LEFT_PLACE, LEFT);
    rules.extend(counting(FEW_BRANCHES, RIGHT_PLACE, LEFT));
    for symbol in 0..FEW_BRANCHES {
        rules.extend((0..BACK).map(|state| rule(symbol, state, ROOT, RIGHT, state)));
    }
    surveyed(FEW_BRANCHES, rules)
}

/// An automaton with some branch symbols and one leaf symbol that accepts nothing.
fn surveyed(branches: usize, rules: Vec<Rule>) -> Automaton {
    Automaton {
        states: 24,
        symbols: branches + 1,
        initial: 1 << 16,
        accepting: 1 << 23,
        branches: (1 << branches) - 1,
        rules,
    }
}

pub fn run() -> Result<(), String> {
    let [found, open, empty, refused] = compare()?;
    println!("\nboth surveys agree: {found} found, {open} open, {empty} empty, {refused} refused");
    println!("milliseconds a survey, best of {ROUNDS} rounds:");
    println!("{:<14}{:>12}{:>12}{:>14}{:>18}", "case", "candidates", "engine", "Rust, all", "engine / Rust");
    WORST.iter().enumerate().try_for_each(|(seed, worst)| measure(worst, &mut Random::new(seed as u64 + 1)))
}

/// Counts by verdict: small automata by chance, and those of the families.
fn compare() -> Result<[usize; 4], String> {
    let small = (1..=SMALL).map(|seed| agreement::small_automaton(&mut Random::new(seed)).write());
    let large = FAMILIES.iter().flat_map(|family| family.cases()).map(|case| case.automaton);
    let mut counts = [0; 4];
    for (number, file) in small.chain(large).enumerate() {
        let expected = survey::of_file(&file).map(|(verdict, _)| verdict);
        let found = engine::survey(&file);
        if found != expected {
            return Err(format!("the surveys of automaton {number} differ: {found:?} and {expected:?}"));
        }
        counts[match expected {
            Ok(Survey::Found(..)) => 0,
            Ok(Survey::Open(_)) => 1,
            Ok(Survey::Empty(_)) => 2,
            Err(_) => 3,
        }] += 1;
    }
    Ok(counts)
}

fn measure(worst: &Worst, random: &mut Random) -> Result<(), String> {
    let file = (worst.make)(random).write();
    let (expected, tried) = survey::of_file(&file).map_err(|_| "a case was refused")?;
    let mut best = [f64::INFINITY; 2];
    for _ in 0..ROUNDS {
        let begin = Instant::now();
        let found = engine::survey(&file);
        best[0] = best[0].min(begin.elapsed().as_secs_f64() * 1e3);
        let begin = Instant::now();
        let again = survey::of_file(&file).map(|(verdict, _)| verdict);
        best[1] = best[1].min(begin.elapsed().as_secs_f64() * 1e3);
        if found.as_ref() != Ok(&expected) || again.as_ref() != Ok(&expected) {
            return Err(format!("{}: the surveys differ: {found:?} and {again:?}", worst.name));
        }
    }
    let [engine, rust] = best;
    println!("{:<14}{tried:>12}{engine:>12.1}{rust:>14.1}{:>18.3}", worst.name, engine / rust);
    Ok(())
}
