//! The quick check: the engine beside the implementation in Rust, from the file's bytes on, on the automata of the families.
use crate::{engine, families::FAMILIES, quick, Refusal};
use std::{hint::black_box, time::Instant};

const ROUNDS: usize = 20;

type Answer = fn(&[u8]) -> Result<bool, Refusal>;

pub fn run() -> Result<(), String> {
    println!("\nthe quick check, microseconds a file (24 states, 512 rules), best of {ROUNDS} rounds:");
    println!("{:<14}{:>12}{:>12}{:>12}{:>18}", "family", "clear", "engine", "Rust", "engine / Rust");
    FAMILIES.iter().try_for_each(|family| {
        let files: Vec<Vec<u8>> =
            family.cases_of(0, |_, _, _| Vec::new()).into_iter().map(|case| case.automaton).collect();
        measure(family.name, &files)
    })
}

fn time(answer: Answer, files: &[Vec<u8>]) -> (Vec<Result<bool, Refusal>>, f64) {
    let begin = Instant::now();
    let answers = files.iter().map(|file| black_box(answer(black_box(file)))).collect();
    (answers, begin.elapsed().as_secs_f64() * 1e6 / files.len() as f64)
}

fn measure(name: &str, files: &[Vec<u8>]) -> Result<(), String> {
    let (expected, _) = time(quick::is_clear, files);
    let mut best = [f64::INFINITY; 2];
    for _ in 0..ROUNDS {
        for (best, answer) in best.iter_mut().zip([engine::is_clear as Answer, quick::is_clear]) {
            let (answers, microseconds) = time(answer, files);
            if answers != expected {
                return Err(format!("{name}: the quick checks differ"));
            }
            *best = best.min(microseconds);
        }
    }
    let [engine, rust] = best;
    let clear = expected.iter().filter(|&&answer| answer == Ok(true)).count();
    let clear = format!("{clear}/{}", files.len());
    println!("{name:<14}{clear:>12}{engine:>12.1}{rust:>12.1}{:>18.2}", engine / rust);
    Ok(())
}
