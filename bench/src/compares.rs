//! Two logs held together (document 02, W8): the engine beside a program in Rust, from the bytes of an automaton's file, of a tree's file and of both
//! logs on; on small files by chance, and on logs of the longest runs on the largest trees.
use crate::{
    agreement::{small_automaton, small_tree_file},
    automaton::{Automaton, Rule, EVERY_PLACE, LEFT, MOST_RULES, RIGHT, STAY, UP},
    compare::{self, Compared},
    engine,
    logs::{damaged, Runs, DAMAGES},
    random::Random,
    shapes::Shape,
    tree::{self, Alphabet},
    watches::{large_tree, round, staying, up_and_down},
    Refusal,
};
use std::{hint::black_box, time::Instant};

const ROUNDS: usize = 100;
const CALLS: usize = 5;
const TREES: u64 = 50;
const SMALL: u64 = 3000;
/// As many as the largest budget logs.
const ENTRIES: usize = 20_001;

/// Holds two logs together.
type Compare = fn(&[u8], &[u8], &[u8], &[u8]) -> Result<Compared, Refusal>;

fn in_rust(file: &[u8], tree: &[u8], first: &[u8], second: &[u8]) -> Result<Compared, Refusal> {
    compare::compare(file, tree, first, second).map_err(|refused| refused.refusal)
}

// ---- cases

/// A tree's file, and two logs.
struct Logged {
    tree: Vec<u8>,
    first: Vec<u8>,
    second: Vec<u8>,
}

struct Case {
    name: &'static str,
    automaton: Vec<u8>,
    /// Those of each call of a round.
    calls: Vec<Logged>,
}

/// A run of so many entries on a tree, twice.
fn logged(automaton: &Automaton, symbols: &[u8], entries: usize) -> Logged {
    let log = Runs::new(automaton, symbols).by_chance(entries, &mut Random::new(1));
    assert_eq!(log.len(), 3 * entries);
    Logged { tree: tree::write(symbols), first: log.clone(), second: log }
}

/// The same tree and the same logs in each call.
fn case(name: &'static str, automaton: &Automaton, shape: Shape, entries: usize) -> Case {
    let symbols = large_tree(automaton, shape, 1);
    let calls = (0..CALLS).map(|_| logged(automaton, &symbols, entries)).collect();
    Case { name, automaton: automaton.write(), calls }
}

/// Another tree and another log in each call, so that the processor does not know the log from the call before.
fn different(automaton: &Automaton) -> Case {
    let symbols = (1..=TREES).map(|seed| large_tree(automaton, Shape::Random, seed));
    let calls = symbols.map(|symbols| logged(automaton, &symbols, ENTRIES)).collect();
    Case { name: "round, 50 random", automaton: automaton.write(), calls }
}

/// Four states, in which it stays or goes anywhere: its runs by chance foretell nothing.
fn anywhere() -> Automaton {
    let mut automaton = Automaton { symbols: 4, branches: 3, rules: Vec::new(), ..round() };
    for (symbol, state, next) in (0..4).flat_map(|symbol| (0..16).map(move |both| (symbol, both / 4, both % 4))) {
        let rule = |place, step| Rule { symbol, state, place, step, next };
        automaton.rules.extend([rule(EVERY_PLACE, STAY), rule(1, UP), rule(2, UP)]);
        if automaton.is_branch(symbol) {
            automaton.rules.extend([rule(EVERY_PLACE, LEFT), rule(EVERY_PLACE, RIGHT)]);
        }
    }
    assert!(automaton.rules.len() <= MOST_RULES);
    automaton
}

/// Logs that part at once: the second begins elsewhere.
fn parting(automaton: &Automaton) -> Case {
    let mut case = case("second log wrong", automaton, Shape::Random, ENTRIES);
    for call in &mut case.calls {
        call.second[0] = 1;
    }
    case
}

/// Document 01's example, on two sections.
fn smallest() -> Case {
    let rules = [[2, 0, 0, 3, 0], [2, 0, 2, 3, 0], [1, 0, 2, 1, 1], [2, 1, 2, 1, 1]].map(Rule::from_bytes).into();
    let automaton = Automaton { states: 2, symbols: 3, initial: 1, accepting: 2, branches: 4, rules };
    let calls = (0..CALLS).map(|_| logged(&automaton, &[2, 0, 1], 3)).collect();
    Case { name: "2 0 1", automaton: automaton.write(), calls }
}

/// Logs of the longest runs on trees of 4,095 nodes; short ones, and one that is no run, on one of these; and the smallest files.
fn cases() -> [Case; 11] {
    let (round, up_and_down) = (round(), up_and_down());
    [
        case("round, full", &round, Shape::Full, ENTRIES),
        case("round, left comb", &round, Shape::LeftComb, ENTRIES),
        case("round, random", &round, Shape::Random, ENTRIES),
        different(&round),
        case("stays, random", &staying(), Shape::Random, ENTRIES),
        case("up and down, full", &up_and_down, Shape::Full, ENTRIES),
        case("up and down, comb", &up_and_down, Shape::LeftComb, ENTRIES),
        case("anywhere, random", &anywhere(), Shape::Random, ENTRIES),
        case("11 entries, random", &round, Shape::Random, 11),
        parting(&round),
        smallest(),
    ]
}

// ---- comparing

pub fn run() -> Result<(), String> {
    let [compared, refused] = compare_small()?;
    println!("\nboth hold logs together alike: {compared} pairs compared, {refused} refused");
    println!(
        "microseconds a pair of logs, of 20,001 entries on 4,095 nodes but in three lines, best of {ROUNDS} rounds:"
    );
    println!("{:<22}{:>12}{:>14}{:>18}   entries alike, and of runs", "logs", "engine", "Rust", "engine / Rust");
    cases().iter().try_for_each(measure)
}

/// Small files by chance, good ones and damaged ones, with runs by chance, of which half are damaged: answers are alike. Counts by answer.
fn compare_small() -> Result<[usize; 2], String> {
    let mut counts = [0; 2];
    for seed in 1..=SMALL {
        let mut random = Random::new(seed);
        let automaton = small_automaton(&mut random);
        let tree = small_tree_file(&automaton, &mut random);
        let log = tree::read(&tree, Alphabet::of(&automaton))
            .map(|nodes| Runs::new(&automaton, nodes.symbols()).by_chance(40, &mut random))
            .unwrap_or_default();
        let kind = random.below(2 * DAMAGES);
        let other = damaged(&log, kind, &mut random);
        let answer = in_rust(&automaton.write(), &tree, &log, &other);
        if engine::compare(&automaton.write(), &tree, &log, &other) != answer {
            return Err(format!("small pair of logs {seed} differs"));
        }
        counts[usize::from(answer.is_err())] += 1;
    }
    Ok(counts)
}

/// The answers of a round of calls, and the microseconds of one.
fn time(compare: Compare, case: &Case) -> (Vec<Result<Compared, Refusal>>, f64) {
    let mut answers = Vec::with_capacity(case.calls.len());
    let begin = Instant::now();
    for Logged { tree, first, second } in &case.calls {
        answers.push(compare(black_box(&case.automaton), black_box(tree), black_box(first), black_box(second)));
    }
    let micros = begin.elapsed().as_secs_f64() * 1e6 / case.calls.len() as f64;
    (answers, micros)
}

/// The best round of each; the answers have to be alike.
fn measure(case: &Case) -> Result<(), String> {
    let (mut engine, mut rust) = (f64::INFINITY, f64::INFINITY);
    let mut told = String::new();
    for _ in 0..ROUNDS {
        let (answers, micros) = time(engine::compare, case);
        let (answers_in_rust, micros_in_rust) = time(in_rust, case);
        if answers != answers_in_rust {
            return Err(format!("{}: the answers differ", case.name));
        }
        (engine, rust) = (engine.min(micros), rust.min(micros_in_rust));
        told = match answers[0] {
            Ok(Compared { part, first, second }) => format!("{}, {first} and {second}", part / 3),
            Err(Refusal { number, place }) => format!("{number} at {place}"),
        };
    }
    println!("{:<22}{engine:>12.2}{rust:>14.2}{:>18.3}   {told}", case.name, engine / rust);
    Ok(())
}
