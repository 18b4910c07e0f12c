//! Element texts as trees' files (document 02, W6): the engine beside the parser in Rust, from the bytes of an automaton's file and of a text on.
use crate::{
    automaton::Automaton,
    blocks::BLOCK,
    engine,
    families::BRANCHES,
    markup::{self, MOST_TEXT},
    random::Random,
    shapes::{self, Shape},
    tree::MOST_HEIGHT,
    Refusal,
};
use std::{hint::black_box, time::Instant};

const ROUNDS: usize = 200;
const CALLS: usize = 5;
const MOST_BYTES: usize = 9 * BLOCK;
/// Where indenting begins anew, so that the text stays within its limit.
const LEVELS: usize = 5;

/// An automaton of which all symbols but 0 are branches.
fn automaton() -> Automaton {
    Automaton { states: 1, symbols: 32, initial: 1, accepting: 1, branches: u32::MAX - 1, rules: Vec::new() }
}

/// The text of the run that a tree in preorder stands for, by the symbols that are left: with each tag on a line of its own, indented, or without
/// spaces.
fn put_run(symbols: &mut impl Iterator<Item = u8>, indent: Option<usize>, text: &mut Vec<u8>) {
    let line = |text: &mut Vec<u8>, tag: String| {
        text.extend(indent.iter().flat_map(|&level| std::iter::repeat_n(b' ', level % LEVELS)));
        text.extend(tag.bytes());
        text.extend(indent.map(|_| b'\n'));
    };
    while let Some(symbol @ 1..) = symbols.next() {
        line(text, format!("<{symbol}>"));
        put_run(symbols, indent.map(|level| level + 1), text);
        line(text, format!("</{symbol}>"));
    }
}

/// A text of the most elements that are written, in a shape, with spaces up to the most bytes, or without.
fn written(shape: Shape, spaced: bool) -> Vec<u8> {
    let symbols = shapes::tree(&automaton(), shape, BRANCHES, MOST_HEIGHT, &mut Random::new(1));
    let mut text = Vec::new();
    put_run(&mut symbols.into_iter(), spaced.then_some(0), &mut text);
    if spaced {
        text.resize(MOST_TEXT, b'\n');
    }
    text
}

/// The texts: two that are written, with spaces in all of their 32,768 bytes; one of them without; the same with its last byte changed; the most
/// elements that stand side by side, and the most that are opened.
fn cases() -> [(&'static str, Vec<u8>); 6] {
    let dense = written(Shape::Random, false);
    let mut wrong = dense.clone();
    wrong.pop();
    wrong.push(b' ');
    [
        ("full, spaced", written(Shape::Full, true)),
        ("random, spaced", written(Shape::Random, true)),
        ("random, dense", dense),
        ("last byte wrong", wrong),
        ("side by side", b"<1></1>".repeat(MOST_TEXT / 7)),
        ("all opened", b"<1>".repeat(MOST_TEXT / 3)),
    ]
}

/// Writes a text's tree to the front of the output.
type Write = fn(&[u8], &[u8], &mut [u8]) -> Result<usize, Refusal>;

fn in_rust(file: &[u8], text: &[u8], out: &mut [u8]) -> Result<usize, Refusal> {
    markup::write(file, text, out).map_err(|refused| refused.refusal)
}

pub fn run() -> Result<(), String> {
    let file = automaton().write();
    println!("\nelement texts, microseconds a text, best of {ROUNDS} rounds:");
    println!("{:<18}{:>8}{:>12}{:>14}{:>18}   answer", "text", "bytes", "engine", "Rust", "engine / Rust");
    cases().iter().try_for_each(|(name, text)| measure(name, &file, text))
}

/// The time of writing a text's tree, of which the answer and every byte have to be those that are expected.
fn time(write: Write, file: &[u8], text: &[u8], expected: (Result<usize, Refusal>, &[u8])) -> Result<f64, String> {
    let mut out = [0; MOST_BYTES];
    let begin = Instant::now();
    for _ in 0..CALLS {
        if black_box(write(black_box(file), black_box(text), black_box(&mut out))) != expected.0 {
            return Err("the answers to a text differ".into());
        }
    }
    let micros = begin.elapsed().as_secs_f64() * 1e6 / CALLS as f64;
    if out != expected.1 {
        return Err("the trees of a text differ".into());
    }
    Ok(micros)
}

fn measure(name: &str, file: &[u8], text: &[u8]) -> Result<(), String> {
    let mut out = [0; MOST_BYTES];
    let answer = in_rust(file, text, &mut out);
    let (mut engine, mut rust) = (f64::INFINITY, f64::INFINITY);
    for _ in 0..ROUNDS {
        engine = engine.min(time(engine::markup, file, text, (answer, &out))?);
        rust = rust.min(time(in_rust, file, text, (answer, &out))?);
    }
    let told = match answer {
        Ok(length) => format!("written, {length} bytes"),
        Err(Refusal { number, place }) => format!("{number} at {place}"),
    };
    println!("{name:<18}{:>8}{engine:>12.2}{rust:>14.2}{:>18.3}   {told}", text.len(), engine / rust);
    Ok(())
}
