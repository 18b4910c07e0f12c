//! Watching a run (document 02, W7): the engine beside a program in Rust, from the bytes of an automaton's file and of a tree's file on; on small
//! files by chance, where answers and logs are compared, and on the longest runs on the largest trees.
use crate::{
    agreement::{small_tree_file, walking_automaton, with_repeats},
    automaton::{Automaton, Rule, EVERY_PLACE, LEFT, MOST_RULES, MOST_STATES, RIGHT, STAY, UP},
    engine,
    families::BRANCHES,
    random::Random,
    shapes::{self, Shape},
    tree::{self, MOST_HEIGHT},
    watch::{self, Watched, MOST_BUDGET},
    Refusal,
};
use std::{hint::black_box, time::Instant};

const ROUNDS: usize = 100;
const CALLS: usize = 5;
const TREES: u64 = 50;
const SMALL: u64 = 3000;
const MOST_LOG: usize = 3 * (MOST_BUDGET + 1);
/// The symbols of the automata, of which the first branch.
const SYMBOLS: usize = 14;
const INNER: usize = 12;

/// Follows a run and logs it at the front of the output.
type Watch = fn(&[u8], &[u8], usize, &mut [u8]) -> Result<Watched, Refusal>;

fn in_rust(file: &[u8], tree: &[u8], budget: usize, log: &mut [u8]) -> Result<Watched, Refusal> {
    watch::watch(file, tree, budget, log).map_err(|refused| refused.refusal)
}

// ---- automata

/// An automaton with these rules, which starts in state 0; no state is final.
fn with_rules(rules: Vec<Rule>) -> Automaton {
    assert!(rules.len() <= MOST_RULES);
    let branches = (1 << INNER) - 1;
    Automaton { states: MOST_STATES, symbols: SYMBOLS, initial: 1, accepting: 0, branches, rules }
}

fn rule(symbol: usize, state: usize, place: u8, step: u8, next: usize) -> Rule {
    Rule { symbol: symbol as u8, state: state as u8, place, step, next: next as u8 }
}

/// Goes round the whole tree, depth first, again and again, and counts modulo 8 at the leaves. A state is a phase (arriving, back from the left
/// part, back from the right part) and a count.
pub fn round() -> Automaton {
    const COUNTS: usize = 8;
    let state = |phase: usize, count: usize| phase * COUNTS + count % COUNTS;
    let mut rules = Vec::new();
    for (symbol, count) in (0..SYMBOLS).flat_map(|symbol| (0..COUNTS).map(move |count| (symbol, count))) {
        let (arriving, done) = (state(0, count), if symbol < INNER { state(2, count) } else { state(0, count) });
        let after = if symbol < INNER { count } else { count + symbol };
        rules.push(rule(symbol, done, 1, UP, state(1, after)));
        rules.push(rule(symbol, done, 2, UP, state(2, after)));
        if symbol < INNER {
            rules.push(rule(symbol, arriving, EVERY_PLACE, LEFT, arriving));
            rules.push(rule(symbol, state(1, count), EVERY_PLACE, RIGHT, arriving));
            rules.push(rule(symbol, done, 0, STAY, arriving));
        }
    }
    with_rules(rules)
}

/// Stays where it is, in one state after the other.
pub fn staying() -> Automaton {
    let stay =
        |symbol| (0..MOST_STATES).map(move |state| rule(symbol, state, EVERY_PLACE, STAY, (state + 1) % MOST_STATES));
    with_rules((0..SYMBOLS).flat_map(stay).collect())
}

/// Goes down the left to the leaf and back up to the root, again and again.
pub fn up_and_down() -> Automaton {
    let mut rules = Vec::new();
    for symbol in 0..SYMBOLS {
        let (down, up) = (0, 1);
        if symbol < INNER {
            rules.push(rule(symbol, down, EVERY_PLACE, LEFT, down));
            rules.push(rule(symbol, up, 0, STAY, down));
            rules.push(rule(symbol, up, 1, UP, up));
        } else {
            rules.push(rule(symbol, down, 1, UP, up));
        }
    }
    with_rules(rules)
}

/// Two rules for one symbol, state and place: the last has another next state than the one that it repeats.
fn not_single() -> Automaton {
    let mut automaton = round();
    let last = automaton.rules.len() - 1;
    automaton.rules[last] = Rule { next: 1, ..automaton.rules[0] };
    automaton
}

// ---- cases

struct Case {
    name: &'static str,
    automaton: Vec<u8>,
    /// The tree of each call of a round.
    trees: Vec<Vec<u8>>,
    budget: usize,
}

/// The symbols of a tree of 4,095 nodes.
pub fn large_tree(automaton: &Automaton, shape: Shape, seed: u64) -> Vec<u8> {
    shapes::tree(automaton, shape, BRANCHES, MOST_HEIGHT, &mut Random::new(seed))
}

fn tree_file(automaton: &Automaton, shape: Shape, seed: u64) -> Vec<u8> {
    tree::write(&large_tree(automaton, shape, seed))
}

/// The same tree in each call.
fn case(name: &'static str, automaton: &Automaton, shape: Shape, budget: usize) -> Case {
    Case { name, automaton: automaton.write(), trees: vec![tree_file(automaton, shape, 1); CALLS], budget }
}

/// Another tree in each call, so that the processor does not know the run from the call before.
fn different(automaton: &Automaton) -> Case {
    let trees = (1..=TREES).map(|seed| tree_file(automaton, Shape::Random, seed)).collect();
    Case { name: "round, 50 random", automaton: automaton.write(), trees, budget: MOST_BUDGET }
}

/// Document 01's example, on two sections: two rules and two steps.
fn smallest() -> Case {
    let rules = [[2, 0, 0, 3, 0], [2, 0, 2, 3, 0], [1, 0, 2, 1, 1], [2, 1, 2, 1, 1]].map(Rule::from_bytes).into();
    let automaton = Automaton { states: 2, symbols: 3, initial: 1, accepting: 2, branches: 4, rules };
    let trees = vec![tree::write(&[2, 0, 1]); CALLS];
    Case { name: "2 0 1", automaton: automaton.write(), trees, budget: MOST_BUDGET }
}

/// The longest runs on trees of 4,095 nodes; a run of ten steps, and a refused one, on one of these; and the smallest files.
fn cases() -> [Case; 10] {
    let (round, up_and_down) = (round(), up_and_down());
    [
        case("round, full", &round, Shape::Full, MOST_BUDGET),
        case("round, left comb", &round, Shape::LeftComb, MOST_BUDGET),
        case("round, random", &round, Shape::Random, MOST_BUDGET),
        different(&round),
        case("stays, random", &staying(), Shape::Random, MOST_BUDGET),
        case("up and down, full", &up_and_down, Shape::Full, MOST_BUDGET),
        case("up and down, comb", &up_and_down, Shape::LeftComb, MOST_BUDGET),
        case("ten steps, random", &round, Shape::Random, 10),
        case("not single, random", &not_single(), Shape::Random, MOST_BUDGET),
        smallest(),
    ]
}

// ---- comparing

pub fn run() -> Result<(), String> {
    let [passed, stuck, circling, spent, refused] = compare()?;
    println!(
        "\nboth watch alike: {passed} passed, {stuck} stuck, {circling} circling, {spent} spent, {refused} refused"
    );
    println!("microseconds a run on 4,095 nodes, but the last, best of {ROUNDS} rounds:");
    println!("{:<22}{:>12}{:>14}{:>18}   answer", "run", "engine", "Rust", "engine / Rust");
    cases().iter().try_for_each(measure)
}

/// Small files by chance, good ones and damaged ones: answers and all bytes of the logs are alike. Counts by answer.
fn compare() -> Result<[usize; 5], String> {
    let mut counts = [0; 5];
    for seed in 1..=SMALL {
        let mut random = Random::new(seed);
        let automaton = walking_automaton(&mut random);
        let records = automaton.rules.len() + random.below(20);
        let automaton = with_repeats(automaton, records, &mut random);
        let (tree, budget) = (small_tree_file(&automaton, &mut random), random.below(2000));
        let [mut found, mut expected] = [[7; 3 * 2000]; 2];
        let answer = in_rust(&automaton.write(), &tree, budget, &mut expected);
        if engine::watch(&automaton.write(), &tree, budget, &mut found) != answer || found != expected {
            return Err(format!("small run {seed} differs"));
        }
        counts[match answer {
            Ok(Watched::Passed(_)) => 0,
            Ok(Watched::Stuck(_)) => 1,
            Ok(Watched::Circling(_)) => 2,
            Ok(Watched::Spent(_)) => 3,
            Err(_) => 4,
        }] += 1;
    }
    Ok(counts)
}

/// The answers of a round of calls, and the microseconds of one; the log is cleared before the first.
fn time(watch: Watch, case: &Case, log: &mut [u8]) -> (Vec<Result<Watched, Refusal>>, f64) {
    let mut answers = Vec::with_capacity(case.trees.len());
    log.fill(0);
    let begin = Instant::now();
    for tree in &case.trees {
        answers.push(watch(black_box(&case.automaton), black_box(tree), case.budget, black_box(log)));
    }
    let micros = begin.elapsed().as_secs_f64() * 1e6 / case.trees.len() as f64;
    (answers, micros)
}

/// The best round of each; the answers, and the logs after the last call, have to be alike.
fn measure(case: &Case) -> Result<(), String> {
    let [mut log, mut log_in_rust] = [[0; MOST_LOG]; 2];
    let (mut engine, mut rust) = (f64::INFINITY, f64::INFINITY);
    let mut told = String::new();
    for _ in 0..ROUNDS {
        let (answers, micros) = time(engine::watch, case, &mut log);
        let (answers_in_rust, micros_in_rust) = time(in_rust, case, &mut log_in_rust);
        if answers != answers_in_rust || log != log_in_rust {
            return Err(format!("{}: the runs differ", case.name));
        }
        (engine, rust) = (engine.min(micros), rust.min(micros_in_rust));
        told = match answers[0] {
            Ok(watched) => format!("{watched:?}"),
            Err(Refusal { number, place }) => format!("{number} at {place}"),
        };
    }
    println!("{:<22}{engine:>12.2}{rust:>14.2}{:>18.3}   {told}", case.name, engine / rust);
    Ok(())
}
