//! One call for one small tree: `engine_accepts`, beside implementations in Rust that are prepared and used once. A further call that judges is one
//! more place in `CALLS`.
#[cfg(feature = "engine")]
use crate::engine;
use crate::{
    automaton::{Automaton, Rule},
    configurations::Configurations,
    families::Family,
    judges::ENGINE,
    random::Random,
    shapes::{self, Shape},
    tables::Tables,
    tree::{self, MOST_HEIGHT},
    Judge, Refusal, Verdict,
};
use std::{hint::black_box, time::Instant};

const ROUNDS: usize = 20;
const CALLS_A_ROUND: usize = 500;
/// 15 nodes.
pub const BRANCHES: usize = 7;
const FAMILY: &str = "traversal";

/// The verdict of an automaton's file on a tree's file.
type Call = fn(&[u8], &[u8]) -> Verdict;

const CALLS: &[(&str, Call)] = &[
    #[cfg(feature = "engine")]
    ("engine", engine::accepts),
    ("Rust configurations", |automaton, tree| used_once(Configurations::prepare(automaton), tree)),
    ("Rust tables", |automaton, tree| used_once(Tables::prepare(automaton), tree)),
];

fn used_once(judge: Result<impl Judge, Refusal>, tree: &[u8]) -> Verdict {
    judge.map_or_else(Verdict::Refused, |judge| judge.judge(tree))
}

/// Goes down the right and accepts where the leaf there is 1, on trees of one branch.
pub fn two_rules() -> Automaton {
    let rules = [[2, 0, 3, 3, 0], [1, 0, 2, 1, 1]].map(Rule::from_bytes).into();
    Automaton { states: 2, symbols: 3, initial: 1, accepting: 2, branches: 4, rules }
}

/// The first automaton of the family.
pub fn many_rules() -> Result<Automaton, String> {
    let family = Family::named(FAMILY).ok_or("the family is not there")?;
    Automaton::read(&family.cases().remove(0).automaton).map_err(|_| "an automaton was refused".into())
}

pub fn run() -> Result<(), String> {
    let large = many_rules()?;
    println!("\none call, a tree of 15 nodes, microseconds a call, best of {ROUNDS} rounds:");
    print!("{:<14}", "automaton");
    for (name, _) in CALLS {
        print!("{name:>21}");
    }
    for (name, _) in peers() {
        print!("{:>31}", format!("engine / {name}"));
    }
    println!();
    measure("512 rules", &large)?;
    measure("2 rules", &two_rules())
}

/// The calls that the engine's is compared with, where it is linked.
fn peers() -> &'static [(&'static str, Call)] {
    ENGINE.map_or(&[], |engine| &CALLS[engine + 1..])
}

fn measure(name: &str, automaton: &Automaton) -> Result<(), String> {
    let file = automaton.write();
    let tree = tree::write(&shapes::tree(automaton, Shape::Full, BRANCHES, MOST_HEIGHT, &mut Random::new(1)));
    let expected = CALLS[0].1(&file, &tree);
    let mut best = vec![f64::INFINITY; CALLS.len()];
    for _ in 0..ROUNDS {
        for (best, (of, call)) in best.iter_mut().zip(CALLS) {
            let begin = Instant::now();
            for _ in 0..CALLS_A_ROUND {
                if black_box(call(black_box(&file), black_box(&tree))) != expected {
                    return Err(format!("one call, {name}: the verdict of {of} differs"));
                }
            }
            *best = best.min(begin.elapsed().as_secs_f64() * 1e6 / CALLS_A_ROUND as f64);
        }
    }
    print!("{name:<14}");
    for micros in &best {
        print!("{micros:>21.2}");
    }
    for (micros, _) in best[1..].iter().zip(peers()) {
        print!("{:>31.2}", best[0] / micros);
    }
    println!();
    Ok(())
}
