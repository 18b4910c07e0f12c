//! The one form: the engine beside the implementation in Rust, which sorts the rules, and beside the engine's judging of a tree of 4,095 nodes
//! by the same automaton; from the files' bytes on, reading included.
use crate::{
    automaton::{Automaton, Rule, EVERY_PLACE, LEFT, MOST_RULES, STAY, UP},
    blocks::BLOCK,
    canonical,
    engine::{self, Engine},
    families::Family,
    random::Random,
    Judge, Refusal, Verdict,
};
use std::{hint::black_box, time::Instant};

const ROUNDS: usize = 20;
const CALLS: usize = 200;
/// Judging takes some ten times as long.
const JUDGED: usize = 10;
const MOST_BYTES: usize = 6 * BLOCK;
/// The family whose rules stay apart when they are spread: none has place 3.
const APART: &str = "sparse";

/// Writes a file's one form to the front of the output.
type Write = fn(&[u8], &mut [u8]) -> Result<usize, Refusal>;

/// So many different rules in no order: two move up, at one place, and all others have place 3.
fn spreading(automaton: &Automaton, count: usize) -> Vec<Rule> {
    let cells = Random::new(1).shuffled(automaton.symbols * automaton.states);
    let rule = |(number, cell): (usize, &usize)| {
        let (symbol, state) = ((cell / automaton.states) as u8, (cell % automaton.states) as u8);
        let (place, step) = match (number, automaton.is_branch(symbol)) {
            (0 | 1, _) => (1, UP),
            (_, true) => (EVERY_PLACE, LEFT),
            (_, false) => (EVERY_PLACE, STAY),
        };
        Rule { symbol, state, place, step, next: state }
    };
    cells.iter().take(count).enumerate().map(rule).collect()
}

/// The automata, all over the same states and symbols: two records; the most, all different, in no order and in their one form already; 128, each
/// four times; 172 that spread to the most rules that may remain; and the most, which spread to more and are refused.
fn cases(automaton: &Automaton) -> [(&'static str, Automaton); 6] {
    let of = |rules: Vec<Rule>| Automaton { rules, ..*automaton };
    let rules = &automaton.rules;
    [
        ("two records", of(rules[..2].to_vec())),
        ("512 records", of(rules.clone())),
        ("512, in form", automaton.canonical()),
        ("128, 4 times", of(rules[..MOST_RULES / 4].repeat(4))),
        ("172, spread", of(spreading(automaton, 172))),
        ("512, refused", of(spreading(automaton, MOST_RULES))),
    ]
}

pub fn run() -> Result<(), String> {
    let family = Family::named(APART).ok_or("the family is not there")?;
    let case = family.cases().remove(0);
    let automaton = Automaton::read(&case.automaton).map_err(|_| "an automaton was refused")?;
    println!("\nthe one form, microseconds a file, best of {ROUNDS} rounds; judging of the tree that takes least:");
    println!(
        "{:<14}{:>8}{:>12}{:>14}{:>18}{:>14}{:>18}",
        "case", "remain", "engine", "Rust, sorted", "engine / Rust", "judging", "form / judging"
    );
    cases(&automaton).iter().try_for_each(|(name, automaton)| {
        print!("{name:<14}{:>8}", automaton.canonical().rules.len());
        measure(&automaton.write(), &case.trees)
    })
}

/// The time of one of so many calls, each of which has to be right.
fn time(calls: usize, mut is_right: impl FnMut() -> bool) -> Result<f64, String> {
    let begin = Instant::now();
    for _ in 0..calls {
        if !is_right() {
            return Err("the answers differ".into());
        }
    }
    Ok(begin.elapsed().as_secs_f64() * 1e6 / calls as f64)
}

/// The time of writing a form, of which the answer and every byte have to be those that are expected.
fn time_form(write: Write, file: &[u8], expected: (Result<usize, Refusal>, &[u8])) -> Result<f64, String> {
    let mut out = [0; MOST_BYTES];
    let micros = time(CALLS, || black_box(write(black_box(file), black_box(&mut out))) == expected.0)?;
    if out != expected.1 {
        return Err("the forms differ".into());
    }
    Ok(micros)
}

fn time_judging(file: &[u8], tree: &[u8]) -> Result<f64, String> {
    let engine = Engine::prepare(file).map_err(|_| "an automaton was refused")?;
    time(JUDGED, || !matches!(black_box(engine.judge(black_box(tree))), Verdict::Refused(_)))
}

fn measure(file: &[u8], trees: &[Vec<u8>]) -> Result<(), String> {
    let mut out = [0; MOST_BYTES];
    let answer = canonical::write(file, &mut out);
    let (mut engine, mut rust, mut judging) = (f64::INFINITY, f64::INFINITY, f64::INFINITY);
    for _ in 0..ROUNDS {
        engine = engine.min(time_form(engine::canonical, file, (answer, &out))?);
        rust = rust.min(time_form(canonical::write, file, (answer, &out))?);
        for tree in trees {
            judging = judging.min(time_judging(file, tree)?);
        }
    }
    println!("{engine:>12.2}{rust:>14.2}{:>18.3}{judging:>14.1}{:>18.3}", engine / rust, engine / judging);
    Ok(())
}
