//! Families of automata with 24 states and at most 512 rules, and the trees that they judge.
use crate::{
    automaton::{Automaton, Rule, EVERY_PLACE, LEFT, MOST_RULES, MOST_STATES, RIGHT, STAY, UP},
    random::Random,
    shapes::{self, Shape, SHAPES},
    tree,
};

const AUTOMATA: u64 = 4;
/// 4,095 nodes.
pub const BRANCHES: usize = 2047;

pub struct Family {
    pub name: &'static str,
    make: fn(&mut Random) -> Automaton,
}

pub const FAMILIES: [Family; 5] = [
    Family { name: "traversal", make: traversal },
    Family { name: "dense", make: dense },
    Family { name: "sparse", make: sparse },
    Family { name: "long chains", make: long_chains },
    Family { name: "deterministic", make: deterministic },
];

/// Families whose trees keep bringing new classes: 64 of them some 89,000, 36,000, and 3,000 to 11,000.
pub const EXPLODING: [Family; 3] = [
    Family { name: "permutations", make: permutations },
    Family { name: "spines", make: spines },
    Family { name: "complete", make: complete },
];

/// An automaton's file, with the files of the trees that it judges.
pub struct Case {
    pub automaton: Vec<u8>,
    pub trees: Vec<Vec<u8>>,
}

/// Makes the file of a tree for an automaton, by its number.
pub type Make = fn(&Automaton, usize, &mut Random) -> Vec<u8>;

impl Family {
    pub fn named(name: &str) -> Option<&'static Family> {
        FAMILIES.iter().find(|family| family.name == name)
    }

    /// Each automaton with a large tree of each shape.
    pub fn cases(&self) -> Vec<Case> {
        self.cases_of(SHAPES.len(), large_tree)
    }

    /// Each automaton with so many trees.
    pub fn cases_of(&self, trees: usize, tree: impl Fn(&Automaton, usize, &mut Random) -> Vec<u8>) -> Vec<Case> {
        let case = |seed| {
            let random = &mut Random::new(seed);
            let automaton = (self.make)(random);
            assert!(automaton.states == MOST_STATES && automaton.rules.len() <= MOST_RULES);
            let trees = (0..trees).map(|number| tree(&automaton, number, random)).collect();
            Case { automaton: automaton.write(), trees }
        };
        (1..=AUTOMATA).map(case).collect()
    }
}

/// The file of a tree of 4,095 nodes, of each shape in turn.
pub fn large_tree(automaton: &Automaton, number: usize, random: &mut Random) -> Vec<u8> {
    let shape = SHAPES[number % SHAPES.len()];
    tree::write(&shapes::tree(automaton, shape, BRANCHES, tree::MOST_HEIGHT, random))
}

/// The file of a tree of 5 to 59 nodes by chance, one block.
pub fn small_tree(automaton: &Automaton, _: usize, random: &mut Random) -> Vec<u8> {
    let branches = random.from_to(2, 29);
    tree::write(&shapes::tree(automaton, Shape::Random, branches, tree::MOST_HEIGHT, random))
}

/// An automaton with no rules, whose first `branches` symbols are the branch symbols.
fn blank(symbols: usize, branches: usize) -> Automaton {
    Automaton {
        states: MOST_STATES,
        symbols,
        initial: 1,
        accepting: 0,
        branches: (1 << branches) - 1,
        rules: Vec::new(),
    }
}

fn rule(symbol: usize, state: usize, place: u8, step: u8, next: usize) -> Rule {
    Rule { symbol: symbol as u8, state: state as u8, place, step, next: next as u8 }
}

/// Draws a rule that document 01 does not refuse.
fn one_rule(automaton: &Automaton, random: &mut Random, draw: impl Fn(&mut Random) -> Rule) -> Rule {
    loop {
        let rule = draw(random);
        if rule.check(automaton).is_ok() {
            return rule;
        }
    }
}

/// Draws rules until there are 512 different ones.
fn fill(automaton: &mut Automaton, random: &mut Random, draw: impl Fn(&mut Random) -> Rule) {
    while automaton.rules.len() < MOST_RULES {
        let rule = one_rule(automaton, random, &draw);
        if !automaton.rules.contains(&rule) {
            automaton.rules.push(rule);
        }
    }
}

/// A depth-first traversal that visits every node and counts weights of its symbols modulo 8. A state is a phase
/// (arriving, back from the left part, back from the right part) and a count.
fn traversal(random: &mut Random) -> Automaton {
    const COUNTS: usize = 8;
    let state = |phase: usize, count: usize| phase * COUNTS + count % COUNTS;
    let mut automaton = blank(18, 14);
    for symbol in 0..automaton.symbols {
        let weight = random.below(COUNTS);
        for count in 0..COUNTS {
            let (arriving, between) = (state(0, count), state(1, count));
            let done = if automaton.is_branch(symbol as u8) {
                automaton.rules.push(rule(symbol, arriving, EVERY_PLACE, LEFT, state(0, count + weight)));
                automaton.rules.push(rule(symbol, between, EVERY_PLACE, RIGHT, state(0, count)));
                rule(symbol, state(2, count), 1, UP, between)
            } else {
                rule(symbol, arriving, 1, UP, state(1, count + weight))
            };
            automaton.rules.push(done);
            let next = usize::from(done.next) + COUNTS;
            automaton.rules.push(Rule { place: 2, next: next as u8, ..done });
        }
    }
    let odd_counts = (0..COUNTS / 2).map(|half| 1 << state(2, 2 * half + 1));
    automaton.accepting = odd_counts.sum();
    automaton
}

/// A traversal as above that takes its count through a permutation of each symbol, where the other adds.
fn permutations(random: &mut Random) -> Automaton {
    let mut automaton = traversal(random);
    for symbol in 0..automaton.symbols as u8 {
        let (step, order) = (if automaton.is_branch(symbol) { LEFT } else { UP }, random.shuffled(8));
        for rule in automaton.rules.iter_mut().filter(|rule| rule.symbol == symbol && rule.step == step) {
            rule.next = rule.next / 8 * 8 + order[usize::from(rule.state % 8)] as u8;
        }
    }
    automaton
}

/// Goes down the left in twelve states, which each branch symbol permutes, and back up in twelve others; at the root some go right then.
fn spines(random: &mut Random) -> Automaton {
    let half = MOST_STATES / 2;
    let mut automaton = blank(14, 10);
    automaton.accepting = 0xaaa000;
    for symbol in 0..automaton.symbols {
        let order = random.shuffled(half);
        for (state, &next) in order.iter().enumerate() {
            let back = half + state;
            if automaton.is_branch(symbol as u8) {
                automaton.rules.push(rule(symbol, state, EVERY_PLACE, LEFT, next));
                automaton.rules.push(rule(symbol, back, 1, UP, back));
                if state % 3 == 0 {
                    automaton.rules.push(rule(symbol, back, 0, RIGHT, next));
                    automaton.rules.push(rule(symbol, back, 2, UP, back));
                }
            } else {
                automaton.rules.push(rule(symbol, state, 1, UP, half + next));
                automaton.rules.push(rule(symbol, state, 2, UP, half + next));
            }
        }
    }
    automaton
}

/// One transition for every symbol, place and state, as the deterministic family has for most, over fewer symbols.
fn complete(random: &mut Random) -> Automaton {
    one_each(blank(7, 4), random)
}

/// Two symbols, so that several transitions share each cell. The states are two halves with no way from one to the
/// other, and the accepting state is in either.
fn dense(random: &mut Random) -> Automaton {
    let half = MOST_STATES / 2;
    let mut automaton = blank(2, 1);
    automaton.accepting = 1 << random.pick(&[half - 1, half]);
    fill(&mut automaton, random, |random| {
        let symbol = random.pick(&[0, 0, 0, 1]);
        let state = random.below(MOST_STATES);
        let next = state / half * half + random.below(half);
        let step = random.pick(&[STAY, UP, LEFT, RIGHT]);
        let place = if step == UP { random.pick(&[1, 2]) } else { EVERY_PLACE };
        rule(symbol, state, place, step, next)
    });
    automaton
}

/// As many symbols as there may be, so that most cells are empty. One half of the states is initial, the other accepting.
fn sparse(random: &mut Random) -> Automaton {
    let mut automaton = blank(32, 16);
    automaton.initial = 0x000fff;
    automaton.accepting = 0xfff000;
    fill(&mut automaton, random, |random| {
        let step = random.pick(&[STAY, UP, LEFT, RIGHT]);
        let place = random.pick(&[0, 1, 2]);
        rule(random.below(32), random.below(MOST_STATES), place, step, random.below(MOST_STATES))
    });
    automaton
}

/// At each symbol the stays lead through all states but the last, each symbol in an order of its own; other moves are
/// few. The last state keeps to itself, and it or another one is accepting.
fn long_chains(random: &mut Random) -> Automaton {
    let last = MOST_STATES - 1;
    let mut automaton = blank(10, 6);
    automaton.accepting = 1 << random.pick(&[last - 1, last]);
    for symbol in 0..automaton.symbols {
        let order = random.shuffled(last);
        let stays = order.windows(2).map(|pair| rule(symbol, pair[0], EVERY_PLACE, STAY, pair[1]));
        automaton.rules.extend(stays);
    }
    fill(&mut automaton, random, |random| {
        let state = random.below(MOST_STATES);
        let next = if state == last { last } else { random.below(last) };
        let step = random.pick(&[UP, LEFT, RIGHT]);
        rule(random.below(10), state, random.pick(&[0, 1, 2]), step, next)
    });
    automaton
}

/// At most one transition for each symbol, place and state. Odd states are accepting.
fn deterministic(random: &mut Random) -> Automaton {
    one_each(blank(8, 4), random)
}

fn one_each(mut automaton: Automaton, random: &mut Random) -> Automaton {
    automaton.accepting = 0xaaaaaa;
    let cells = random.shuffled(automaton.symbols * 3 * MOST_STATES);
    for cell in cells.into_iter().take(MOST_RULES) {
        let (symbol, place, state) = (cell / MOST_STATES / 3, (cell / MOST_STATES % 3) as u8, cell % MOST_STATES);
        let one = one_rule(&automaton, random, |random| {
            let step = random.pick(&[STAY, UP, LEFT, RIGHT]);
            rule(symbol, state, place, step, random.below(MOST_STATES))
        });
        automaton.rules.push(one);
    }
    automaton
}
