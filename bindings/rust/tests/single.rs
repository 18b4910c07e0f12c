//! Single, as document 02's W2 has it: the cases of its readings, and the engine beside the implementation in Rust on automata by chance whose
//! records say rules more than once, half of the files damaged.
use bench::{
    agreement::{damage, small_automaton, with_repeats},
    automaton::{Automaton, Rule, MOST_RULES},
    families::FAMILIES,
    random::Random,
};
use engine::{accepts, single, survey, File, Refusal, PLAN};

const AUTOMATA: u64 = 8000;

/// Of two states and three symbols, of which 2 is the branch.
fn automaton(rules: &[[u8; 5]]) -> Automaton {
    let rules = rules.iter().copied().map(Rule::from_bytes).collect();
    Automaton { states: 2, symbols: 3, initial: 1, accepting: 2, branches: 4, rules }
}

#[track_caller]
fn told(rules: &[[u8; 5]], expected: bool) {
    assert_eq!(single(&automaton(rules).write()), Ok(expected));
    let mut reversed = rules.to_vec();
    reversed.reverse();
    assert_eq!(single(&automaton(&reversed).write()), Ok(expected), "reversed");
    assert_eq!(single(&automaton(&rules.repeat(2)).write()), Ok(expected), "twice");
}

/// A rule met twice is one rule.
#[test]
fn repeats() {
    told(&[], true);
    told(&[[2, 0, 0, 3, 0], [2, 0, 0, 3, 0]], true);
    told(&[[1, 0, 3, 0, 1], [1, 0, 3, 0, 1]], true);
    for place in 0..3 {
        told(&[[1, 0, 3, 0, 1], [1, 0, place, 0, 1]], true);
    }
    told(&[[1, 0, 3, 0, 1], [1, 0, 0, 0, 1], [1, 0, 1, 0, 1], [1, 0, 2, 0, 1]], true);
}

/// Another move or another next state makes a second rule, at a place of its own or through place 3.
#[test]
fn second_rules() {
    told(&[[2, 0, 1, 1, 1], [2, 0, 1, 0, 1]], false);
    told(&[[2, 0, 1, 1, 1], [2, 0, 1, 1, 0]], false);
    told(&[[1, 0, 3, 0, 1], [1, 0, 1, 1, 1]], false);
    for place in 0..3 {
        told(&[[1, 0, 3, 0, 1], [1, 0, place, 0, 0]], false);
    }
    told(&[[2, 0, 1, 1, 1], [2, 0, 2, 1, 1]], true);
    told(&[[2, 0, 1, 1, 1], [2, 1, 1, 1, 1]], true);
    told(&[[2, 0, 1, 1, 1], [1, 0, 1, 1, 1]], true);
}

/// The first rule for each symbol, state and place, so that the automaton is single.
fn deterministic(automaton: Automaton) -> Automaton {
    let mut kept: Vec<Rule> = Vec::new();
    for rule in &automaton.rules {
        let met = |other: &&Rule| {
            let shared = (0..3).any(|place| rule.applies_at(place) && other.applies_at(place));
            other.symbol == rule.symbol && other.state == rule.state && shared
        };
        if !kept.iter().any(|other| met(&other)) {
            kept.push(*rule);
        }
    }
    Automaton { rules: kept, ..automaton }
}

fn made(seed: u64) -> (Automaton, Random) {
    let mut random = Random::new(seed);
    let first = small_automaton(&mut random);
    let first = if seed % 4 == 3 { first } else { deterministic(first) };
    let count = (first.rules.len() + random.below(40)).min(MOST_RULES);
    (with_repeats(first, count, &mut random), random)
}

/// What the implementation in Rust says of a file.
fn expected(file: &[u8]) -> Result<bool, Refusal> {
    let refusal = |bench::Refusal { number, place }| Refusal { number, file: File::Automaton, place };
    Automaton::read(file).map(|automaton| automaton.is_single()).map_err(refusal)
}

/// The files, each second one damaged, and those of the largest automata.
fn files() -> impl Iterator<Item = Vec<u8>> {
    let repeated = (1..=AUTOMATA).map(|seed| {
        let (automaton, mut random) = made(seed);
        let mut file = automaton.write();
        if seed.is_multiple_of(2) {
            damage(&mut file, &mut random);
        }
        file
    });
    repeated.chain(FAMILIES.iter().flat_map(|family| family.cases()).map(|case| case.automaton))
}

#[test]
fn agrees() {
    let (mut singles, mut others, mut refused) = (0, 0, 0);
    for (number, file) in files().enumerate() {
        let answer = single(&file);
        assert_eq!(answer, expected(&file), "automaton {number}");
        match answer {
            Ok(true) => singles += 1,
            Ok(false) => others += 1,
            Err(_) => refused += 1,
        }
    }
    println!("{singles} single, {others} not, {refused} refused");
    assert!(singles > 1000 && others > 1000 && refused > 1000);
}

/// No run changes: with each record repeated, in another order, every answer but the number of records stays.
#[test]
fn same_answers() {
    for seed in 1..=AUTOMATA / 8 {
        let (automaton, mut random) = made(seed);
        if automaton.rules.iter().any(|rule| rule.check(&automaton).is_err()) {
            continue;
        }
        let order = random.shuffled(automaton.rules.len());
        let mut rules: Vec<Rule> = order.iter().map(|&at| automaton.rules[at]).collect();
        rules.extend_from_slice(&automaton.rules);
        rules.truncate(MOST_RULES);
        let (file, repeated) = (automaton.write(), Automaton { rules, ..automaton.clone() }.write());
        assert_eq!(single(&file), single(&repeated), "automaton {seed}");
        let (mut plan, mut again) = ([0; PLAN], [0; PLAN]);
        assert_eq!(survey(&file, &mut plan), survey(&repeated, &mut again), "automaton {seed}");
        assert_eq!(plan, again, "automaton {seed}");
        let tree = bench::agreement::small_tree_file(&automaton, &mut random);
        assert_eq!(accepts(&file, &tree), accepts(&repeated, &tree), "automaton {seed}");
    }
}
