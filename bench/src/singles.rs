//! Single: the engine beside the implementation in Rust, which sorts the rules; from the file's bytes on, reading included.
use crate::{
    automaton::{Automaton, Rule, LEFT, MOST_RULES, MOST_STATES, RIGHT, STAY},
    engine,
    random::Random,
    Refusal,
};
use std::{hint::black_box, time::Instant};

const ROUNDS: usize = 20;
const CALLS: u32 = 200;
const SYMBOLS: usize = 32;

/// Different rules in some order, each for a symbol, state and place of its own.
fn rules_apart(count: usize) -> Vec<Rule> {
    let cells = Random::new(1).shuffled(SYMBOLS * MOST_STATES);
    cells.iter().take(count).map(|cell| rule(cell / MOST_STATES, cell % MOST_STATES, RIGHT)).collect()
}

fn rule(symbol: usize, state: usize, step: u8) -> Rule {
    Rule { symbol: symbol as u8, state: state as u8, place: 0, step, next: state as u8 }
}

fn of(rules: Vec<Rule>) -> Automaton {
    Automaton { states: MOST_STATES, symbols: SYMBOLS, initial: 1, accepting: 1, branches: u32::MAX, rules }
}

/// Two states, one symbol and two rules.
fn small() -> Automaton {
    Automaton {
        states: 2,
        symbols: 1,
        initial: 1,
        accepting: 2,
        branches: 0,
        rules: vec![rule(0, 0, STAY), rule(0, 1, STAY)],
    }
}

/// The automata: two records; the most, all different, in no order and in rising order; the most, each four times; the most, of which the
/// last is a second rule for one place.
fn cases() -> [(&'static str, Automaton); 5] {
    let apart = rules_apart(MOST_RULES);
    let mut rising = apart.clone();
    rising.sort_unstable_by_key(|rule| (rule.symbol, rule.state));
    let mut second = apart.clone();
    second[MOST_RULES - 1] = Rule { step: LEFT, ..second[0] };
    [
        ("two records", small()),
        ("512 records", of(apart)),
        ("512, rising", of(rising)),
        ("128, 4 times", of(rules_apart(MOST_RULES / 4).repeat(4))),
        ("not single", of(second)),
    ]
}

fn in_rust(file: &[u8]) -> Result<bool, Refusal> {
    Automaton::read(file).map(|automaton| automaton.is_single())
}

pub fn run() -> Result<(), String> {
    println!("\nsingle, microseconds a file, best of {ROUNDS} rounds:");
    println!("{:<14}{:>12}{:>14}{:>18}", "case", "engine", "Rust, sorted", "engine / Rust");
    cases().iter().try_for_each(|(name, automaton)| measure(name, &automaton.write()))
}

/// The time of a call, which has to give the answer that is expected.
fn time(
    answer: fn(&[u8]) -> Result<bool, Refusal>,
    file: &[u8],
    expected: Result<bool, Refusal>,
) -> Result<f64, String> {
    let begin = Instant::now();
    for _ in 0..CALLS {
        if black_box(answer(black_box(file))) != expected {
            return Err("single differs".into());
        }
    }
    Ok(begin.elapsed().as_secs_f64() * 1e6 / f64::from(CALLS))
}

fn measure(name: &str, file: &[u8]) -> Result<(), String> {
    let expected = in_rust(file);
    let (mut engine, mut rust) = (f64::INFINITY, f64::INFINITY);
    for _ in 0..ROUNDS {
        engine = engine.min(time(engine::single, file, expected)?);
        rust = rust.min(time(in_rust, file, expected)?);
    }
    println!("{name:<14}{engine:>12.2}{rust:>14.2}{:>18.3}", engine / rust);
    Ok(())
}
