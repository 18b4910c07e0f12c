//! Reading 1,000 trees of nine blocks each (document 02, W5): the check of the blocks alone, a tree's file read whole, and judging. The engine
//! beside the implementations in Rust, and the check also beside a plain read of the same bytes.
use crate::{
    automaton::Automaton,
    blocks::{self, BLOCK},
    engine,
    families::{Family, BRANCHES},
    judges::{TallyOf, TABLES, TALLIES},
    parts,
    random::Random,
    shapes::{self, SHAPES},
    tree::{self, Alphabet, MOST_NODES},
};
use std::{hint::black_box, time::Instant};

const ROUNDS: usize = 20;
/// How often a round takes what is short.
const PASSES: usize = 5;
const TREES: usize = 1000;
const BYTES: usize = 9 * BLOCK;
const NODES: usize = 2 * BRANCHES + 1;
/// The family of the automaton: as many symbols as there may be.
const FAMILY: &str = "sparse";

/// The files of different trees end to end, of each shape in turn.
fn trees(automaton: &Automaton) -> Vec<u8> {
    let tree = |number: usize| {
        let mut random = Random::new(number as u64 + 1);
        let shape = SHAPES[number % SHAPES.len()];
        tree::write(&shapes::tree(automaton, shape, BRANCHES, tree::MOST_HEIGHT, &mut random))
    };
    (0..TREES).flat_map(tree).collect()
}

pub fn run() -> Result<(), String> {
    let family = Family::named(FAMILY).ok_or("the family is not there")?;
    let file = family.cases().remove(0).automaton;
    let automaton = Automaton::read(&file).map_err(|_| "an automaton was refused")?;
    let (alphabet, batch) = (Alphabet::of(&automaton), trees(&automaton));
    let files: Vec<&[u8]> = batch.chunks_exact(BYTES).collect();
    let one_file = vec![files[0]; TREES];
    compare(&files, alphabet)?;
    let (mut check, mut check_one) = ([f64::INFINITY; 3], [f64::INFINITY; 3]);
    let (mut reading, mut judging) = ([f64::INFINITY; 2], [f64::INFINITY; 2]);
    for _ in 0..ROUNDS {
        check = lower(check, time_check(&files)?);
        check_one = lower(check_one, time_check(&one_file)?);
        reading = lower(reading, time_reading(&files, alphabet)?);
        judging = lower(judging, time_judging(&file, &batch)?);
    }
    println!("\nreading {TREES} trees of nine blocks, nanoseconds a tree, best of {ROUNDS} rounds:");
    println!(
        "{:<18}{:>12}{:>14}{:>18}{:>14}{:>22}",
        "part", "engine", "Rust", "engine / Rust", "plain read", "engine / plain read"
    );
    print_line("check", &check);
    print_line("check, one tree", &check_one);
    print_line("reading whole", &reading);
    print_line("judging", &judging);
    Ok(())
}

fn print_line(name: &str, times: &[f64]) {
    let [engine, rust] = [times[0], times[1]];
    print!("{name:<18}{engine:>12.1}{rust:>14.1}{:>18.3}", engine / rust);
    if let Some(plain) = times.get(2) {
        print!("{plain:>14.1}{:>22.3}", engine / plain);
    }
    println!();
}

/// Compares all answers of the parts: on the files, which both read whole, and on each of them with one bit changed.
fn compare(files: &[&[u8]], alphabet: Alphabet) -> Result<(), String> {
    let mut random = Random::new(1);
    for (number, file) in files.iter().enumerate() {
        let count = compare_one(file, alphabet).map_err(|message| format!("tree {number}: {message}"))?;
        if count != NODES {
            return Err(format!("tree {number} is read with {count} nodes"));
        }
        let mut damaged = file.to_vec();
        damaged[random.below(BYTES)] ^= 1 << random.below(8);
        compare_one(&damaged, alphabet).map_err(|message| format!("tree {number}, damaged: {message}"))?;
    }
    Ok(())
}

/// Compares the answers on a file; the number of nodes read.
fn compare_one(file: &[u8], alphabet: Alphabet) -> Result<usize, String> {
    let [found, expected] = [parts::first_wrong(file), blocks::first_wrong(file)];
    if found != expected {
        return Err(format!("the wrong blocks differ: {found:?} and {expected:?}"));
    }
    let mut buffer = [0; MOST_NODES];
    let found = parts::read(file, alphabet, &mut buffer);
    let expected = tree::read(file, alphabet);
    if found != expected.as_ref().map(|nodes| nodes.symbols()).ok() {
        return Err("what is read differs".into());
    }
    Ok(found.map_or(0, <[u8]>::len))
}

/// The time since then, of all trees, for one.
fn nanos_a_tree(begin: Instant) -> f64 {
    begin.elapsed().as_secs_f64() * 1e9 / TREES as f64
}

/// The best of two rounds.
fn lower<const COUNT: usize>(one: [f64; COUNT], other: [f64; COUNT]) -> [f64; COUNT] {
    std::array::from_fn(|which| one[which].min(other[which]))
}

/// The time of one of the calls, each of which has to be right, in the best of some passes over the files. The first passes bring the bytes as
/// near to the processor for one as for another, whatever ran before.
fn time(files: &[&[u8]], mut is_right: impl FnMut(&[u8]) -> bool) -> Result<f64, String> {
    let mut best = f64::INFINITY;
    for _ in 0..PASSES {
        let begin = Instant::now();
        if !files.iter().all(|file| is_right(black_box(file))) {
            return Err("a tree of the batch was refused".into());
        }
        best = best.min(nanos_a_tree(begin));
    }
    Ok(best)
}

/// Reads every byte once, and does next to nothing with it: the words of eight bytes under exclusive or, of which the compiler makes vector
/// code that loads 16 bytes at a time, several of them side by side.
fn plain_read(file: &[u8]) -> u64 {
    file.as_chunks().0.iter().fold(0, |all, word| all ^ u64::from_le_bytes(*word))
}

/// The engine, Rust, and the plain read.
fn time_check(files: &[&[u8]]) -> Result<[f64; 3], String> {
    let engine = time(files, |file| black_box(parts::first_wrong(file)).is_none())?;
    let rust = time(files, |file| black_box(blocks::first_wrong(file)).is_none())?;
    let plain = time(files, |file| {
        black_box(plain_read(file));
        true
    })?;
    Ok([engine, rust, plain])
}

/// The engine, which writes the symbols to a buffer that is lent, and Rust, which makes a `Vec` for each tree.
fn time_reading(files: &[&[u8]], alphabet: Alphabet) -> Result<[f64; 2], String> {
    let mut buffer = [0; MOST_NODES];
    let engine = time(files, |file| black_box(parts::read(file, alphabet, black_box(&mut buffer))).is_some())?;
    let rust = time(files, |file| black_box(tree::read(file, alphabet)).is_ok())?;
    Ok([engine, rust])
}

/// The engine, and the same algorithm in Rust, on all trees by one call, preparing of the automaton included.
fn time_judging(automaton: &[u8], trees: &[u8]) -> Result<[f64; 2], String> {
    let time = |tally: TallyOf| {
        let begin = Instant::now();
        let found = black_box(tally(black_box(automaton), black_box(trees)));
        (nanos_a_tree(begin), found)
    };
    let [(engine, found), (rust, expected)] = [engine::tally, TALLIES[TABLES]].map(time);
    if found != expected {
        return Err(format!("the tallies of {TREES} trees differ: {found:?} and {expected:?}"));
    }
    Ok([engine, rust])
}
