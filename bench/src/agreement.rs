//! Comparison of the implementations on many small automata and trees, good files and damaged ones.
use crate::{
    automaton::{Automaton, Rule, EVERY_PLACE, LEFT, RIGHT, STAY, UP},
    judges::{self, Judges},
    random::Random,
    shapes::{self, Shape},
    sums::{self, Summing},
    tree, Verdict,
};

const AUTOMATA: u64 = 4000;
const TREES: usize = 4;

/// How often each verdict was given.
#[derive(Default)]
pub struct Counts {
    pub accepted: usize,
    pub other: usize,
    pub refused: usize,
    /// Automata's files that were refused.
    pub automata_refused: usize,
}

impl Counts {
    fn add(&mut self, verdict: Verdict) {
        match verdict {
            Verdict::Accepted => self.accepted += 1,
            Verdict::Other => self.other += 1,
            Verdict::Refused(_) => self.refused += 1,
        }
    }
}

/// Compares all implementations on each input; the error says on which two of them differ.
pub fn compare() -> Result<Counts, String> {
    let mut counts = Counts::default();
    compare_example(&mut counts)?;
    for seed in 1..=AUTOMATA {
        compare_one(seed, &mut counts).map_err(|message| format!("small input {seed}: {message}"))?;
    }
    Ok(counts)
}

/// Document 01's automaton A, which goes down the right parts and accepts where the leaf there is 1, with its cases.
fn compare_example(counts: &mut Counts) -> Result<(), String> {
    let rules = [[2, 0, 0, 3, 0], [2, 0, 2, 3, 0], [1, 0, 2, 1, 1], [2, 1, 2, 1, 1]];
    let rules = rules.map(Rule::from_bytes).into();
    let automaton = Automaton { states: 2, symbols: 3, initial: 1, accepting: 2, branches: 4, rules };
    let judges = Judges::prepare(&automaton.write())?.ok_or("document 01's example was refused")?;
    let cases: [(&[u8], Verdict); 5] = [
        (&[2, 0, 1], Verdict::Accepted),
        (&[2, 1, 0], Verdict::Other),
        (&[1], Verdict::Other),
        (&[2, 0, 2, 0, 1], Verdict::Accepted),
        (&[2, 2, 0, 1, 0], Verdict::Other),
    ];
    for (symbols, expected) in cases {
        let verdict = judges.judge(&tree::write(symbols))?;
        counts.add(verdict);
        if verdict != expected {
            return Err(format!("document 01's example: {symbols:?} is {verdict:?}"));
        }
    }
    Ok(())
}

fn compare_one(seed: u64, counts: &mut Counts) -> Result<(), String> {
    let mut random = Random::new(seed);
    let automaton = small_automaton(&mut random);
    let mut file = automaton.write();
    if seed.is_multiple_of(8) {
        damage(&mut file, &mut random);
    }
    let Some(judges) = Judges::prepare(&file)? else {
        counts.automata_refused += 1;
        return Ok(());
    };
    let summing = Summing::prepare(&file).map_err(|_| "with the sum the automaton is refused")?;
    let trees: Vec<Vec<u8>> = (0..TREES).map(|_| small_tree_file(&automaton, &mut random)).collect();
    for tree in &trees {
        let verdict = judges.judge(tree)?;
        if summing.judge(tree)?.verdict != verdict {
            return Err(format!("with the sum the verdict is not {verdict:?}"));
        }
        counts.add(verdict);
    }
    let (tally, sum) = (judges::tally(&file, &trees.concat())?, sums::of_batch(&file, &trees.concat())?);
    if sum.map(|(tally, _)| tally) != tally {
        return Err(format!("with the sum the tally is not {tally:?}"));
    }
    Ok(())
}

/// About a third of the items, as a set.
fn some_of(items: &[usize], random: &mut Random) -> u32 {
    items.iter().filter(|_| random.below(3) == 0).map(|&item| 1 << item).sum()
}

/// The states that an automaton uses: mostly a few of them, so that single transitions decide, and any of the 24.
fn used_states(states: usize, random: &mut Random) -> Vec<usize> {
    let mut used = random.shuffled(states);
    if random.below(8) != 0 {
        used.truncate(6);
    }
    used
}

/// An automaton with some rules, of which a few automata have one that is wrong.
pub fn small_automaton(random: &mut Random) -> Automaton {
    let states = random.from_to(1, 24);
    let symbols = random.from_to(2, 5);
    let branches = random.from_to(1, symbols - 1);
    let used = used_states(states, random);
    let (initial, accepting) = (some_of(&used, random), some_of(&used, random));
    let mut automaton =
        Automaton { states, symbols, initial, accepting, branches: (1 << branches) - 1, rules: Vec::new() };
    for _ in 0..random.below(10 * used.len()) {
        let rule = Rule {
            symbol: random.below(symbols) as u8,
            state: random.pick(&used) as u8,
            place: random.below(4) as u8,
            step: random.below(4) as u8,
            next: random.pick(&used) as u8,
        };
        if rule.check(&automaton).is_ok() || random.below(1000) == 0 {
            automaton.rules.push(rule);
        }
    }
    automaton
}

/// A rule for a symbol, state and place that document 01 does not refuse, with a next state of these.
fn rule_at(automaton: &Automaton, [symbol, state, place]: [u8; 3], next_states: &[usize], random: &mut Random) -> Rule {
    loop {
        let (step, next) = (random.pick(&[STAY, UP, LEFT, RIGHT]), random.pick(next_states) as u8);
        let rule = Rule { symbol, state, place, step, next };
        if rule.check(automaton).is_ok() {
            return rule;
        }
    }
}

/// A single automaton with one start state, which has a rule for most symbols, states and places, or for some.
pub fn walking_automaton(random: &mut Random) -> Automaton {
    let states = random.from_to(1, 24);
    let symbols = random.from_to(2, 5);
    let branches = random.from_to(1, symbols - 1);
    let used = used_states(states, random);
    let accepting = if random.below(2) == 0 { 0 } else { some_of(&used, random) };
    let (initial, branches) = (1 << random.pick(&used), (1 << branches) - 1);
    let mut automaton = Automaton { states, symbols, initial, accepting, branches, rules: Vec::new() };
    let often = random.pick(&[30, 90, 100]);
    for (symbol, &state) in (0..symbols as u8).flat_map(|symbol| used.iter().map(move |state| (symbol, state))) {
        let places: &[u8] = if random.below(3) == 0 { &[EVERY_PLACE] } else { &[0, 1, 2] };
        for &place in places {
            if random.below(100) < often {
                let rule = rule_at(&automaton, [symbol, state as u8, place], &used, random);
                automaton.rules.push(rule);
            }
        }
    }
    automaton
}

/// Records more, until there are `count`: copies, place 3's own places, and, in one of 60, another byte.
pub fn with_repeats(mut automaton: Automaton, count: usize, random: &mut Random) -> Automaton {
    while !automaton.rules.is_empty() && automaton.rules.len() < count {
        let mut rule = random.pick(&automaton.rules);
        if rule.place == EVERY_PLACE && random.below(2) == 0 {
            rule.place = random.below(3) as u8;
        }
        if random.below(60) == 0 {
            match random.below(3) {
                0 => rule.place = random.below(4) as u8,
                1 => rule.step = random.below(4) as u8,
                _ => rule.next = random.below(automaton.states) as u8,
            }
        }
        if rule.check(&automaton).is_ok() {
            automaton.rules.push(rule);
        }
    }
    automaton
}

/// The file of a small tree; some are damaged, some have a symbol too many or are higher than 64.
pub fn small_tree_file(automaton: &Automaton, random: &mut Random) -> Vec<u8> {
    let kind = random.below(16);
    let (shape, branches, height) = match kind {
        0 => (Shape::LeftComb, 32 * 60 + random.below(200), 60 + random.below(8)),
        1 => (Shape::Random, random.below(600), 30),
        _ => (Shape::Random, random.below(24), 24),
    };
    let mut symbols = shapes::tree(automaton, shape, branches, height, random);
    if kind == 2 {
        let at = random.below(symbols.len());
        symbols[at] = random.below(automaton.symbols + 1) as u8;
    }
    let mut file = tree::write(&symbols);
    if kind == 3 {
        damage(&mut file, random);
    }
    file
}

/// Changes a byte, or the length, of a file; a byte of the first block is mostly changed with its check.
pub fn damage(file: &mut Vec<u8>, random: &mut Random) {
    match random.below(8) {
        0 => file.truncate(random.below(file.len())),
        1 => file.extend_from_slice(&[0; 512]),
        2 => {
            let at = random.below(file.len());
            file[at] ^= 1 << random.below(8);
        }
        _ => {
            let at = random.below(40);
            let (old, new) = (file[at], random.below(256) as u8);
            file[at] = new;
            amend(file, at, old, new);
        }
    }
}

/// Makes the check of the first block right again after the byte at an offset changed.
fn amend(file: &mut [u8], at: usize, old: u8, new: u8) {
    let check = u32::from_le_bytes([file[508], file[509], file[510], file[511]]);
    let change = u32::from(new).wrapping_sub(u32::from(old)) << (8 * (at % 4));
    file[508..512].copy_from_slice(&check.wrapping_add(change).to_le_bytes());
}
