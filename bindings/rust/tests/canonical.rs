//! An automaton's file in its one form, as document 02's W4 has it: the cases of its readings, and the engine beside the implementation in Rust
//! on automata by chance whose records say rules more than once, half of the files damaged.
use bench::{
    agreement::{damage, small_automaton, small_tree_file, with_repeats},
    automaton::{Automaton, Rule, EVERY_PLACE, MOST_RULES, MOST_STATES, STAY, UP},
    blocks,
    families::FAMILIES,
    random::Random,
};
use engine::{accepts, canonical, quick, single, survey, File, Quick, Refusal, Survey, Verdict, AUTOMATON, PLAN};
use std::collections::{BTreeMap, BTreeSet};

const AUTOMATA: u64 = 8000;
const TREES: usize = 4;

fn refused<T>(number: u32, place: usize) -> Result<T, Refusal> {
    Err(Refusal { number, file: if number < 10 { File::Automaton } else { File::Neither }, place })
}

/// The form, or the refusal, on an output of so many bytes: the engine's answer and every byte of the output are those of the implementation in
/// Rust, and bytes after the form stay.
#[track_caller]
fn compare(file: &[u8], room: usize, random: &mut Random) -> Result<Vec<u8>, Refusal> {
    let before: Vec<u8> = (0..room).map(|_| random.below(256) as u8).collect();
    let (mut after, mut expected) = (before.clone(), before.clone());
    let answer = canonical(file, &mut after);
    let in_rust = bench::canonical::write(file, &mut expected);
    assert_eq!(answer, in_rust.or_else(|bench::Refusal { number, place }| refused(number, place)));
    assert_eq!(after, expected);
    let length = answer.unwrap_or(0);
    assert_eq!(after[length..], before[length..]);
    answer.map(|length| after[..length].to_vec())
}

/// The form of an automaton.
fn form(automaton: &Automaton) -> Result<Vec<u8>, Refusal> {
    let mut out = [7; AUTOMATON];
    canonical(&automaton.write(), &mut out).map(|length| out[..length].to_vec())
}

// ---- cases

/// Of two states and three symbols, of which 2 is the branch.
fn automaton(rules: &[[u8; 5]]) -> Automaton {
    let rules = rules.iter().copied().map(Rule::from_bytes).collect();
    Automaton { states: 2, symbols: 3, initial: 1, accepting: 2, branches: 4, rules }
}

/// The bytes of a form of one block, from records in this order, in the other, and twice.
#[track_caller]
fn told(rules: &[[u8; 5]], expected: &[[u8; 5]]) {
    let mut payload = vec![87, 2, 3, 0, expected.len() as u8, 0, 0, 0, 1, 0, 0, 0, 2, 0, 0, 0, 4, 0, 0, 0];
    payload.extend(expected.concat());
    let mut reversed = rules.to_vec();
    reversed.reverse();
    for records in [rules, &reversed, &rules.repeat(2)] {
        let mut out = [7; 600];
        assert_eq!(canonical(&automaton(records).write(), &mut out), Ok(512), "{records:?}");
        assert_eq!(out[..512], blocks::write(&payload), "{records:?}");
        assert_eq!(out[512..], [7; 88], "{records:?}");
    }
}

#[test]
fn spread() {
    told(&[], &[]);
    told(&[[1, 0, 3, 0, 1]], &[[1, 0, 0, 0, 1], [1, 0, 1, 0, 1], [1, 0, 2, 0, 1]]);
    for place in 0..3 {
        told(&[[1, 0, place, 0, 1]], &[[1, 0, place, 0, 1]]);
        told(&[[1, 0, 3, 0, 1], [1, 0, place, 0, 1]], &[[1, 0, 0, 0, 1], [1, 0, 1, 0, 1], [1, 0, 2, 0, 1]]);
    }
    let both = [[1, 0, 0, 0, 0], [1, 0, 0, 0, 1], [1, 0, 1, 0, 0], [1, 0, 1, 0, 1], [1, 0, 2, 0, 0], [1, 0, 2, 0, 1]];
    told(&[[1, 0, 3, 0, 1], [1, 0, 3, 0, 0]], &both);
    told(&[[1, 0, 1, 1, 0], [1, 0, 3, 0, 1]], &[[1, 0, 0, 0, 1], [1, 0, 1, 0, 1], [1, 0, 1, 1, 0], [1, 0, 2, 0, 1]]);
}

/// Each byte decides where those before it are equal, whatever comes after; the last two are document 01's A and A+.
#[test]
fn order() {
    told(&[[2, 0, 0, 0, 0], [1, 1, 2, 1, 1]], &[[1, 1, 2, 1, 1], [2, 0, 0, 0, 0]]);
    told(&[[2, 1, 0, 0, 0], [2, 0, 2, 3, 1]], &[[2, 0, 2, 3, 1], [2, 1, 0, 0, 0]]);
    told(&[[2, 1, 2, 0, 0], [2, 1, 1, 3, 1]], &[[2, 1, 1, 3, 1], [2, 1, 2, 0, 0]]);
    told(
        &[[2, 1, 1, 3, 0], [2, 1, 1, 2, 1], [2, 1, 1, 1, 0], [2, 1, 1, 0, 1]],
        &[[2, 1, 1, 0, 1], [2, 1, 1, 1, 0], [2, 1, 1, 2, 1], [2, 1, 1, 3, 0]],
    );
    told(&[[2, 1, 1, 1, 1], [2, 1, 1, 1, 0]], &[[2, 1, 1, 1, 0], [2, 1, 1, 1, 1]]);
    let mut rules = vec![[2, 0, 0, 3, 0], [2, 0, 2, 3, 0], [1, 0, 2, 1, 1], [2, 1, 2, 1, 1]];
    let mut expected = vec![[1, 0, 2, 1, 1], [2, 0, 0, 3, 0], [2, 0, 2, 3, 0], [2, 1, 2, 1, 1]];
    told(&rules, &expected);
    rules.push([1, 0, 0, 0, 1]);
    expected.insert(0, [1, 0, 0, 0, 1]);
    told(&rules, &expected);
}

/// Counts and sets stay, also of states and symbols that no rule uses.
#[test]
fn counts_and_sets() {
    for (states, symbols) in [(1, 1), (24, 32), (7, 19)] {
        let (all_states, all_symbols) = ((1 << states) - 1, u32::MAX >> (32 - symbols));
        for (initial, accepting, branches) in [(0, 0, 0), (all_states, 0, 0), (0, all_states, 0), (0, 0, all_symbols)] {
            let automaton = Automaton { states, symbols, initial, accepting, branches, rules: Vec::new() };
            assert_eq!(form(&automaton), Ok(automaton.write()));
        }
    }
}

/// So many different rules with place 3, and so many others.
fn largest(everywhere: usize, others: usize) -> Automaton {
    let rule = |number: usize, place: u8, step: u8| {
        let (symbol, state) = ((number / MOST_STATES) as u8, (number % MOST_STATES) as u8);
        Rule { symbol, state, place, step, next: 23 - state }
    };
    let spread = (0..everywhere).rev().map(|number| rule(number, EVERY_PLACE, STAY));
    let rules = spread.chain((0..others).map(|number| rule(number, 1 + (number % 2) as u8, UP))).collect();
    Automaton { states: MOST_STATES, symbols: 32, initial: 1, accepting: 2, branches: 0, rules }
}

/// 512 rules that remain are written, 513 are refused, whatever the room: the place is 0.
#[test]
fn most_rules() {
    let mut random = Random::new(1);
    for (everywhere, others) in [(0, 512), (170, 2), (169, 5), (1, 509)] {
        let file = largest(everywhere, others).write();
        assert_eq!(compare(&file, AUTOMATON, &mut random).map(|form| form.len()), Ok(AUTOMATON));
        assert_eq!(compare(&file, AUTOMATON - 1, &mut random), refused(13, AUTOMATON));
    }
    for (everywhere, others) in [(171, 0), (170, 3), (1, 510), (512, 0)] {
        for room in [AUTOMATON, AUTOMATON + 1, AUTOMATON - 1, 0] {
            assert_eq!(compare(&largest(everywhere, others).write(), room, &mut random), refused(17, 0));
        }
    }
    let repeated = Automaton { rules: largest(170, 2).rules.repeat(3)[..MOST_RULES].to_vec(), ..largest(0, 0) };
    assert_eq!(form(&repeated), form(&largest(170, 2)));
}

/// Every room up to the form's length and some more: 97 rules need one block, 98 two, 512 six.
#[test]
fn rooms() {
    let mut random = Random::new(2);
    for (rules, length) in [(0, 512), (97, 512), (98, 1024), (512, 3072)] {
        let file = largest(0, rules).write();
        for room in 0..length {
            assert_eq!(compare(&file, room, &mut random), refused(13, length));
        }
        for room in length..length + 9 {
            assert_eq!(compare(&file, room, &mut random).map(|form| form.len()), Ok(length));
        }
    }
}

/// Every length of a file, of zeros, and cut from or added to a good file.
#[test]
fn lengths() {
    let mut random = Random::new(3);
    let good = largest(0, MOST_RULES).write();
    for length in 0..=3600 {
        for mut file in [Vec::new(), good.clone()] {
            file.resize(length, 0);
            let answer = compare(&file, AUTOMATON, &mut random);
            assert_eq!(answer.is_ok(), file == good, "{length} bytes");
        }
    }
}

// ---- automata by chance

/// Rules by chance, with place 3 and without, of which so many remain when they are spread.
fn remaining(count: usize, random: &mut Random) -> Automaton {
    let (initial, accepting) = (random.below(1 << MOST_STATES) as u32, random.below(1 << MOST_STATES) as u32);
    let mut automaton =
        Automaton { states: MOST_STATES, symbols: 8, initial, accepting, branches: 0b1111, rules: Vec::new() };
    let mut spread = BTreeSet::new();
    while spread.len() < count {
        let rule = Rule::from_bytes([8, 24, 4, 4, 24].map(|end| random.below(end) as u8));
        let fits = spread.len() + rule.spread().count() <= count;
        if fits && rule.check(&automaton).is_ok() {
            spread.extend(rule.spread());
            automaton.rules.push(rule);
        }
    }
    automaton
}

/// The records in some order.
fn shuffled(automaton: Automaton, random: &mut Random) -> Automaton {
    let order = random.shuffled(automaton.rules.len());
    Automaton { rules: order.iter().map(|&at| automaton.rules[at]).collect(), ..automaton }
}

/// Small, or one in four with about as many rules as may remain; some records say rules again.
fn made(seed: u64) -> (Automaton, Random) {
    let mut random = Random::new(seed);
    let first = match seed % 4 {
        3 => remaining(random.from_to(500, 520), &mut random),
        _ => small_automaton(&mut random),
    };
    let count = (first.rules.len() + random.below(120)).min(MOST_RULES);
    let repeated = with_repeats(first, count, &mut random);
    (shuffled(repeated, &mut random), random)
}

/// Another byte or two among counts, sets, rules and the first filler, the checks being right; or other damage.
fn damaged(automaton: &Automaton, random: &mut Random) -> Vec<u8> {
    let mut file = automaton.write();
    if random.below(2) == 0 {
        damage(&mut file, random);
        return file;
    }
    let mut contents = blocks::join(&file, AUTOMATON).expect("its checks are right");
    let end = contents.len().min(20 + 5 * automaton.rules.len() + 5);
    for _ in 0..random.from_to(1, 2) {
        contents[random.below(end)] = random.pick(&[0, 1, 2, 3, 4, 7, 8, 23, 24, 31, 32, 255]);
    }
    blocks::write(&contents)
}

/// How often a form was written, and each number of a refusal given; and of how many files 512 rules remain, and 513.
#[derive(Debug, Default)]
struct Counts {
    written: usize,
    refused: [usize; 18],
    remain: [usize; 2],
}

impl Counts {
    fn add(&mut self, answer: &Result<Vec<u8>, Refusal>) {
        match answer {
            Ok(_) => self.written += 1,
            Err(refusal) => self.refused[refusal.number as usize] += 1,
        }
    }

    /// A file on outputs of several lengths; and the form's own form, which is no other.
    fn compare(&mut self, file: &[u8], random: &mut Random) {
        let remain = Automaton::read(file).map_or(0, |automaton| automaton.canonical().rules.len());
        self.remain[0] += usize::from(remain == MOST_RULES);
        self.remain[1] += usize::from(remain == MOST_RULES + 1);
        let room = AUTOMATON + random.below(100);
        let answer = compare(file, room, random);
        self.add(&answer);
        match answer {
            Ok(form) => {
                let length = form.len();
                assert_eq!(compare(file, length, random).as_ref(), Ok(&form));
                for room in [length - 1, random.below(length)] {
                    let answer = compare(file, room, random);
                    self.add(&answer);
                    assert_eq!(answer, refused(13, length));
                }
                let room = random.from_to(length, AUTOMATON);
                assert_eq!(compare(&form, room, random), Ok(form));
            }
            // however short the output is
            Err(refusal) => {
                let room = random.below(AUTOMATON);
                assert_eq!(compare(file, room, random), Err(refusal));
            }
        }
    }
}

#[test]
fn agrees() {
    let mut counts = Counts::default();
    for seed in 1..=AUTOMATA {
        let (automaton, mut random) = made(seed);
        let file = if seed / 4 % 2 == 0 { damaged(&automaton, &mut random) } else { automaton.write() };
        counts.compare(&file, &mut random);
    }
    for case in FAMILIES.iter().flat_map(|family| family.cases()) {
        counts.compare(&case.automaton, &mut Random::new(4));
    }
    println!("{counts:?}");
    let numbers = [1, 2, 3, 4, 5, 6, 7, 8, 9, 13, 17];
    assert!(counts.written > 1000 && numbers.iter().all(|&number| counts.refused[number] > 10));
    assert!(counts.remain.iter().all(|&count| count > 10));
}

// ---- two files

/// What a form is of: the counts, the three sets, and the set of spread rules.
fn meaning(automaton: &Automaton) -> ([usize; 2], [u32; 3], BTreeSet<[u8; 5]>) {
    let Automaton { states, symbols, initial, accepting, branches, ref rules } = *automaton;
    ([states, symbols], [initial, accepting, branches], rules.iter().flat_map(|rule| rule.spread()).collect())
}

/// Other records for the same rules: each is told by a record of its own or, where it is at all three places, by one with place 3; some are told
/// again.
fn retold(automaton: &Automaton, random: &mut Random) -> Automaton {
    let (_, _, spread) = meaning(automaton);
    let tell = |bytes: &[u8; 5]| {
        let rule = Rule::from_bytes(*bytes);
        let everywhere = Rule { place: EVERY_PLACE, ..rule };
        let may_spread = everywhere.spread().all(|one| spread.contains(&one));
        if may_spread && random.below(2) == 0 {
            everywhere
        } else {
            rule
        }
    };
    let mut rules: Vec<Rule> = spread.iter().map(tell).collect();
    while !rules.is_empty() && rules.len() < MOST_RULES && random.below(20) != 0 {
        rules.push(random.pick(&rules));
    }
    shuffled(Automaton { rules, ..*automaton }, random)
}

const CHANGES: usize = 7;

/// The number of a change, and the automaton with it: a record is missing, a byte of a record is another, a set has one member more or less, or a
/// count is one more.
fn changed(mut automaton: Automaton, random: &mut Random) -> (usize, Automaton) {
    let records = automaton.rules.len();
    let change = random.from_to(if records == 0 { 2 } else { 0 }, CHANGES - 1);
    match change {
        0 => drop(automaton.rules.remove(random.below(records))),
        1 => {
            let at = random.below(records);
            let mut bytes = automaton.rules[at].bytes();
            bytes[random.below(5)] = random.below(5) as u8;
            automaton.rules[at] = Rule::from_bytes(bytes);
        }
        2 => automaton.initial ^= 1 << random.below(automaton.states),
        3 => automaton.accepting ^= 1 << random.below(automaton.states),
        4 => automaton.branches ^= 1 << random.below(automaton.symbols),
        5 => automaton.states += 1,
        _ => automaton.symbols += 1,
    }
    (change, automaton)
}

/// Two files that are not refused have equal forms exactly if their counts, sets and spread rules are equal.
#[test]
fn equal_forms() {
    let (mut equal, mut unequal) = ([0; CHANGES], [0; CHANGES]);
    for seed in 1..=AUTOMATA {
        let (automaton, mut random) = made(seed);
        let Ok(one) = form(&automaton) else { continue };
        assert_eq!(form(&retold(&automaton, &mut random)), Ok(one.clone()), "automaton {seed}");
        let (change, other) = changed(automaton.clone(), &mut random);
        let Ok(two) = form(&retold(&other, &mut random)) else { continue };
        let same = meaning(&other) == meaning(&automaton);
        assert_eq!(two == one, same, "automaton {seed}, change {change}");
        if same {
            equal[change] += 1;
        } else {
            unequal[change] += 1;
        }
    }
    println!("equal: {equal:?}, unequal: {unequal:?}");
    assert!(equal[..2].iter().chain(&unequal).all(|&count| count > 20));
}

// ---- answers

/// The answers that are the same for two files, by their names; how often each was given.
#[derive(Debug, Default)]
struct Answers(BTreeMap<&'static str, usize>);

impl Answers {
    fn add(&mut self, name: &'static str) {
        *self.0.entry(name).or_default() += 1;
    }

    /// On trees, of the survey with its plan, of the quick check, and of single.
    fn compare(&mut self, file: &[u8], form: &[u8], trees: &[Vec<u8>]) {
        for tree in trees {
            let verdict = accepts(file, tree);
            assert_eq!(accepts(form, tree), verdict);
            self.add(match verdict {
                Ok(Verdict::Accepted) => "accepted",
                Ok(Verdict::Other) => "other",
                Err(_) => "refused",
            });
        }
        let (mut plan, mut again) = ([7; PLAN], [7; PLAN]);
        let verdict = survey(file, &mut plan);
        assert_eq!(survey(form, &mut again), verdict);
        assert_eq!(again, plan);
        self.add(match verdict.expect("the file is good") {
            Survey::Found { .. } => "found",
            Survey::Open { .. } => "open",
            Survey::Empty { .. } => "empty",
        });
        assert_eq!(quick(form), quick(file));
        self.add(if quick(file) == Ok(Quick::Clear) { "clear" } else { "unsure" });
        assert_eq!(single(form), single(file));
        self.add(if single(file) == Ok(true) { "single" } else { "not single" });
    }
}

/// Every answer of a file is that of its form. (One automaton in five has no final state, so that its survey goes on.)
#[test]
fn same_answers() {
    let mut answers = Answers::default();
    for seed in 1..=AUTOMATA {
        let (mut automaton, mut random) = made(seed);
        if seed.is_multiple_of(5) {
            automaton.accepting = 0;
        }
        let Ok(form) = form(&automaton) else { continue };
        let trees: Vec<Vec<u8>> = (0..TREES).map(|_| small_tree_file(&automaton, &mut random)).collect();
        answers.compare(&automaton.write(), &form, &trees);
    }
    for case in FAMILIES.iter().flat_map(|family| family.cases()) {
        let automaton = Automaton::read(&case.automaton).expect("it is a good file");
        let Ok(form) = form(&automaton) else { continue };
        answers.compare(&case.automaton, &form, &case.trees);
    }
    println!("{answers:?}");
    assert!(answers.0.len() == 10 && answers.0.values().all(|&count| count > 10));
}
