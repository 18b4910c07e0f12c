//! Watching a run, as document 02's W7 has it: the cases of its readings, and the engine beside a program in Rust and beside judging, on automata and
//! trees by chance, half of them damaged.
use bench::{
    agreement::{damage, small_tree_file, walking_automaton, with_repeats},
    automaton::{Automaton, Rule, LEFT, RIGHT, STAY},
    blocks,
    configurations::Configurations,
    families::FAMILIES,
    random::Random,
    tree::{self, MOST_HEIGHT},
    Judge, Verdict,
};
use engine::{watch, File, Refusal, Watched, BUDGET};

const PAIRS: u64 = 24_000;
const ENOUGH: usize = 3 * (BUDGET + 1);

fn refused<T>(number: u32, file: File, place: usize) -> Result<T, Refusal> {
    Err(Refusal { number, file, place })
}

fn in_rust(automaton: &[u8], tree: &[u8], budget: usize, log: &mut [u8]) -> Result<Watched, Refusal> {
    match bench::watch::watch(automaton, tree, budget, log) {
        Ok(bench::watch::Watched::Passed(steps)) => Ok(Watched::Passed { steps }),
        Ok(bench::watch::Watched::Stuck(steps)) => Ok(Watched::Stuck { steps }),
        Ok(bench::watch::Watched::Circling(steps)) => Ok(Watched::Circling { steps }),
        Ok(bench::watch::Watched::Spent(steps)) => Ok(Watched::Spent { steps }),
        Err(refused) => Err(Refusal {
            number: refused.refusal.number,
            file: [File::Automaton, File::Tree, File::Neither][usize::from(refused.file)],
            place: refused.refusal.place,
        }),
    }
}

fn steps_of(watched: Watched) -> usize {
    match watched {
        Watched::Passed { steps }
        | Watched::Stuck { steps }
        | Watched::Circling { steps }
        | Watched::Spent { steps } => steps,
    }
}

/// What is given to a call: the files, the budget, and how many bytes the log has.
#[derive(Clone)]
struct Given {
    automaton: Vec<u8>,
    tree: Vec<u8>,
    budget: usize,
    room: usize,
}

impl Given {
    /// How the run ended with its entries, or the refusal: the engine's answer and every byte of the log are those of the program in Rust, and
    /// bytes after the entries stay.
    #[track_caller]
    fn compare(&self, random: &mut Random) -> Result<(Watched, Vec<u8>), Refusal> {
        let Given { automaton, tree, budget, room } = self;
        let before: Vec<u8> = (0..*room).map(|_| random.below(256) as u8).collect();
        let (mut after, mut expected) = (before.clone(), before.clone());
        let answer = watch(automaton, tree, *budget, &mut after);
        assert_eq!(answer, in_rust(automaton, tree, *budget, &mut expected));
        assert_eq!(after, expected);
        let written = answer.map_or(0, |watched| 3 * (steps_of(watched) + 1));
        assert_eq!(after[written..], before[written..]);
        answer.map(|watched| (watched, after[..written].to_vec()))
    }

    /// As many steps as tell how every run ends, if a budget may have them.
    fn all_steps(&self) -> Option<usize> {
        let states = usize::from(self.automaton[1]);
        let nodes = usize::from(u16::from_le_bytes([self.tree[2], self.tree[3]]));
        Some(nodes * states).filter(|&steps| steps <= BUDGET)
    }

    /// The answer beside judging, by the engine and by a search in Rust: passed is accepted, stuck and circling are not; and none is spent whose
    /// budget is all steps, or more.
    #[track_caller]
    fn judged(&self, watched: Watched) {
        let judge = Configurations::prepare(&self.automaton).expect("it was read");
        let accepted = judge.judge(&self.tree) == Verdict::Accepted;
        let verdict = if accepted { engine::Verdict::Accepted } else { engine::Verdict::Other };
        assert_eq!(engine::accepts(&self.automaton, &self.tree), Ok(verdict));
        match watched {
            Watched::Passed { .. } => assert!(accepted),
            Watched::Stuck { .. } | Watched::Circling { .. } => assert!(!accepted),
            Watched::Spent { steps } => {
                assert_eq!(steps, self.budget);
                assert!(self.all_steps().is_none_or(|all| steps < all));
            }
        }
    }
}

// ---- cases

/// Document 01's automaton A; with one rule more it is A+.
fn of_document(more: &[[u8; 5]]) -> Automaton {
    let mut rules = vec![[2, 0, 0, 3, 0], [2, 0, 2, 3, 0], [1, 0, 2, 1, 1], [2, 1, 2, 1, 1]];
    rules.extend_from_slice(more);
    let rules = rules.into_iter().map(Rule::from_bytes).collect();
    Automaton { states: 2, symbols: 3, initial: 1, accepting: 2, branches: 4, rules }
}

/// One state, a leaf and a branch; it stays, or has no rule.
fn one_state(accepting: u32, stays: bool) -> Automaton {
    let rule = Rule { symbol: 0, state: 0, place: 0, step: STAY, next: 0 };
    let rules = if stays { vec![rule] } else { Vec::new() };
    Automaton { states: 1, symbols: 2, initial: 1, accepting, branches: 2, rules }
}

#[track_caller]
fn told(automaton: &Automaton, symbols: &[u8], budget: usize, expected: Watched, entries: &[(u16, u8)]) {
    let given = Given { automaton: automaton.write(), tree: tree::write(symbols), budget, room: 3 * (budget + 1) };
    let log: Vec<u8> = entries.iter().flat_map(|&(node, state)| [node as u8, (node >> 8) as u8, state]).collect();
    assert_eq!(given.compare(&mut Random::new(1)), Ok((expected, log)));
    given.judged(expected);
}

#[test]
fn documents_runs() {
    let (passed, stuck) = (|steps| Watched::Passed { steps }, |steps| Watched::Stuck { steps });
    let automaton = of_document(&[]);
    told(&automaton, &[2, 0, 1], 12, passed(2), &[(0, 0), (2, 0), (0, 1)]);
    told(&automaton, &[2, 1, 0], 12, stuck(1), &[(0, 0), (2, 0)]);
    told(&automaton, &[1], 12, stuck(0), &[(0, 0)]);
    told(&automaton, &[2, 0, 2, 0, 1], 12, passed(4), &[(0, 0), (2, 0), (4, 0), (2, 1), (0, 1)]);
    told(&automaton, &[2, 2, 0, 1, 0], 12, stuck(1), &[(0, 0), (4, 0)]);
    let more = of_document(&[[1, 0, 0, 0, 1]]);
    told(&more, &[1], 12, passed(1), &[(0, 0), (0, 1)]);
    told(&more, &[1], 1, passed(1), &[(0, 0), (0, 1)]);
    told(&more, &[1], 0, Watched::Spent { steps: 0 }, &[(0, 0)]);
    told(&automaton, &[2, 0, 1], 1, Watched::Spent { steps: 1 }, &[(0, 0), (2, 0)]);
    told(&automaton, &[2, 0, 1], 2, passed(2), &[(0, 0), (2, 0), (0, 1)]);
    told(&automaton, &[2, 1, 0], 1, stuck(1), &[(0, 0), (2, 0)]);
}

/// Passed before stuck, stuck before circling, circling before spent; a final state passes at the root only.
#[test]
fn order_of_answers() {
    for budget in 0..4 {
        told(&one_state(1, false), &[0], budget, Watched::Passed { steps: 0 }, &[(0, 0)]);
        told(&one_state(1, true), &[0], budget, Watched::Passed { steps: 0 }, &[(0, 0)]);
        told(&one_state(0, false), &[0], budget, Watched::Stuck { steps: 0 }, &[(0, 0)]);
    }
    told(&one_state(0, true), &[0], 0, Watched::Spent { steps: 0 }, &[(0, 0)]);
    for budget in [1, 2, 9] {
        told(&one_state(0, true), &[0], budget, Watched::Circling { steps: 1 }, &[(0, 0), (0, 0)]);
    }
    let mut automaton = of_document(&[]);
    automaton.accepting = 1;
    automaton.initial = 2;
    automaton.rules = vec![Rule { symbol: 2, state: 1, place: 0, step: LEFT, next: 0 }];
    told(&automaton, &[2, 0, 0], 12, Watched::Stuck { steps: 1 }, &[(0, 1), (1, 0)]);
}

/// Two states that stay in turn, on three nodes: six steps go round, whatever the budget is from there on.
#[test]
fn circles() {
    let stay = |state: u8| Rule { symbol: 1, state, place: 0, step: STAY, next: 1 - state };
    let automaton = Automaton { states: 2, rules: vec![stay(0), stay(1)], ..one_state(0, false) };
    let entries: Vec<(u16, u8)> = (0..7).map(|steps| (0, steps % 2)).collect();
    for budget in 0..6 {
        told(&automaton, &[1, 0, 0], budget, Watched::Spent { steps: budget }, &entries[..=budget]);
    }
    for budget in [6, 7, 600, BUDGET] {
        told(&automaton, &[1, 0, 0], budget, Watched::Circling { steps: 6 }, &entries);
    }
}

/// A full tree of 2,047 nodes, whose run goes down the right: node numbers of two bytes.
#[test]
fn two_bytes() {
    fn full(height: usize, symbols: &mut Vec<u8>) {
        symbols.push(u8::from(height > 0));
        for _ in 0..2 * usize::from(height > 0) {
            full(height - 1, symbols);
        }
    }
    let down = |place| Rule { symbol: 1, state: 0, place, step: RIGHT, next: 0 };
    let automaton = Automaton { rules: vec![down(0), down(2)], ..one_state(0, false) };
    let mut symbols = Vec::new();
    full(10, &mut symbols);
    let nodes = [0, 1024, 1536, 1792, 1920, 1984, 2016, 2032, 2040, 2044, 2046];
    told(&automaton, &symbols, 100, Watched::Stuck { steps: 10 }, &nodes.map(|node| (node, 0)));
}

/// 22 stands before 13 and goes by no log; 13 goes by the budget and not by the steps.
#[test]
fn budgets_and_rooms() {
    let mut random = Random::new(2);
    let (automaton, tree) = (of_document(&[]).write(), tree::write(&[2, 0, 1]));
    let mut answer = |budget: usize, room: usize| {
        let given = Given { automaton: automaton.clone(), tree: tree.clone(), budget, room };
        given.compare(&mut random).map(|(watched, _)| watched)
    };
    for budget in (0..40).chain([BUDGET - 1, BUDGET]) {
        let length = 3 * (budget + 1);
        for room in [0, length / 2, length - 2, length - 1] {
            assert_eq!(answer(budget, room), refused(13, File::Neither, length));
        }
        for room in [length, length + 1, length + 100] {
            let steps = budget.min(2);
            let expected = if steps == 2 { Watched::Passed { steps } } else { Watched::Spent { steps } };
            assert_eq!(answer(budget, room), Ok(expected));
        }
    }
    for budget in [BUDGET + 1, 1 << 16, 1 << 32, usize::MAX / 3, usize::MAX - 1, usize::MAX] {
        for room in [0, ENOUGH, ENOUGH + 3] {
            assert_eq!(answer(budget, room), refused(22, File::Neither, BUDGET));
        }
    }
}

/// 20 goes by W2's single, and 21 tells how many start states there are.
#[test]
fn single_and_start() {
    let mut random = Random::new(3);
    let mut answer = |automaton: &Automaton| {
        let given = Given { automaton: automaton.write(), tree: tree::write(&[1]), budget: 9, room: 30 };
        given.compare(&mut random).map(|(watched, _)| watched)
    };
    let automaton = of_document(&[[1, 0, 3, 0, 1], [1, 0, 0, 0, 1], [1, 0, 3, 0, 1]]);
    assert_eq!(answer(&automaton), refused(20, File::Neither, 0), "place 3 meets place 2");
    let automaton = of_document(&[[1, 1, 3, 0, 0], [1, 1, 0, 0, 0], [1, 1, 3, 0, 0], [2, 0, 0, 3, 0]]);
    assert_eq!(answer(&automaton), Ok(Watched::Stuck { steps: 0 }), "equal rules are one");
    for more in [[2, 0, 0, 2, 0], [2, 0, 0, 3, 1], [2, 0, 3, 0, 0]] {
        assert_eq!(answer(&of_document(&[more])), refused(20, File::Neither, 0));
    }
    let many = |initial| Automaton { states: 24, initial, ..of_document(&[]) };
    assert_eq!(answer(&many(0)), refused(21, File::Neither, 0));
    for state in 0..24 {
        assert_eq!(answer(&many(1 << state)).map(steps_of), Ok(0));
        let set = (2 << state) - 1;
        if state > 0 {
            assert_eq!(answer(&many(set)), refused(21, File::Neither, state + 1));
            assert_eq!(answer(&many(set << (23 - state))), refused(21, File::Neither, state + 1));
        }
    }
}

/// Every choice of faults: the automaton's comes first, then the tree's, 20, 21, 22 and 13.
#[test]
fn order_of_refusals() {
    let mut random = Random::new(4);
    for faults in 0..64u32 {
        let has = |fault: u32| faults >> fault & 1 == 1;
        let mut automaton = of_document(&[]);
        if has(2) {
            automaton.rules.push(Rule::from_bytes([2, 1, 2, 1, 0]));
        }
        automaton.initial = if has(3) { 0 } else { 1 };
        let mut given = Given {
            automaton: automaton.write(),
            tree: tree::write(if has(1) { &[0, 0] } else { &[2, 0, 1] }),
            budget: if has(4) { BUDGET + 1 } else { 7 },
            room: if has(5) { 23 } else { 24 },
        };
        given.automaton[508] ^= u8::from(has(0));
        let numbers = [(2, File::Automaton), (11, File::Tree), (20, File::Neither), (21, File::Neither)];
        let expected = match (faults.trailing_zeros() as usize, has(4)) {
            (fault @ 0..=3, _) => Some((numbers[fault].0, numbers[fault].1, usize::from(fault == 1))),
            (_, true) => Some((22, File::Neither, BUDGET)),
            (5, _) => Some((13, File::Neither, 24)),
            _ => None,
        };
        let answer = given.compare(&mut random).map(|(watched, _)| watched);
        let expected = expected.map(|(number, file, place)| Refusal { number, file, place });
        assert_eq!(answer.err(), expected, "faults {faults:b}");
    }
}

// ---- by chance

/// How often each answer was given: passed, stuck, circling, spent; and each number of a refusal, of the automaton's file, of the tree's and of
/// neither.
#[derive(Debug, Default)]
struct Counts {
    answers: [usize; 4],
    refused: [[usize; 23]; 3],
    longest: usize,
}

impl Counts {
    fn add(&mut self, answer: &Result<(Watched, Vec<u8>), Refusal>) {
        match answer {
            Ok((watched, _)) => {
                self.longest = self.longest.max(steps_of(*watched));
                self.answers[match watched {
                    Watched::Passed { .. } => 0,
                    Watched::Stuck { .. } => 1,
                    Watched::Circling { .. } => 2,
                    Watched::Spent { .. } => 3,
                }] += 1;
            }
            Err(Refusal { number, file, .. }) => self.refused[*file as usize][*number as usize] += 1,
        }
    }

    /// A call by itself; where it is answered, beside judging, with the budget that tells how the run ends, and with a log that is too short.
    fn compare(&mut self, given: &Given, random: &mut Random) {
        let answer = given.compare(random);
        self.add(&answer);
        let Ok((watched, log)) = answer else { return };
        given.judged(watched);
        let length = 3 * (given.budget + 1);
        let short = Given { room: random.below(length), ..given.clone() };
        assert_eq!(short.compare(random), refused(13, File::Neither, length));
        if let Some(budget) = given.all_steps() {
            let whole = Given { budget, room: 3 * (budget + 1), ..given.clone() };
            let (end, entries) = whole.compare(random).expect("the files are good");
            whole.judged(end);
            let common = log.len().min(entries.len());
            assert_eq!(log[..common], entries[..common]);
            assert!(matches!(watched, Watched::Spent { .. }) || watched == end);
        }
    }
}

/// None or a few steps, some, about as many as tell how the run ends, or the most.
fn budget_by_chance(states: usize, tree: &[u8], random: &mut Random) -> usize {
    let all = states * tree.get(2..4).map_or(0, |count| usize::from(count[0]) + 256 * usize::from(count[1]));
    match random.below(12) {
        0 => random.below(3),
        1..=4 => random.below(30),
        5 | 6 => (all + 2).saturating_sub(random.below(5)).min(BUDGET),
        7 => BUDGET,
        _ => random.below(600),
    }
}

/// An automaton with some records more, and a small tree for it; every second tree is drawn until it is good.
fn by_chance(seed: u64, random: &mut Random) -> (Automaton, Vec<u8>) {
    let first = walking_automaton(random);
    let count = first.rules.len() + random.below(20);
    let automaton = if seed.is_multiple_of(3) { with_repeats(first, count, random) } else { first };
    let good = |file: &Vec<u8>| tree::read(file, tree::Alphabet::of(&automaton)).is_ok();
    let tree = std::iter::repeat_with(|| small_tree_file(&automaton, random));
    let tree = tree.take(100).find(|file| !seed.is_multiple_of(2) || good(file)).expect("most are good");
    (automaton, tree)
}

const DAMAGES: usize = 12;

/// One fault of an automaton: a second rule for what a record is for, a record with another byte, or other start states.
fn damage_automaton(kind: usize, automaton: &mut Automaton, random: &mut Random) {
    let records = automaton.rules.len();
    match kind {
        0 if records > 0 => {
            let mut rule = random.pick(&automaton.rules);
            rule.next = (rule.next + 1) % automaton.states as u8;
            automaton.rules.push(rule);
        }
        1 if records > 0 => {
            let at = random.below(records);
            let mut bytes = automaton.rules[at].bytes();
            bytes[random.below(5)] = random.below(5) as u8;
            automaton.rules[at] = Rule::from_bytes(bytes);
        }
        2 => automaton.initial = random.below(1 << automaton.states) as u32,
        3 => automaton.initial = 0,
        _ => {}
    }
}

/// The file with a block more, whose check is right.
fn longer(file: &[u8]) -> Vec<u8> {
    let contents = blocks::join(file, file.len()).unwrap_or_default();
    blocks::write(&[contents, vec![0; blocks::CONTENT]].concat())
}

/// One fault of the other things that are given: a tree for other symbols or too high, a block, a byte or two or the length of a file, the budget,
/// the log.
fn damage_given(kind: usize, given: &mut Given, random: &mut Random) {
    match kind {
        4 => given.tree = tree::write(&[0, 1, 4, 0, 31, 0, 1].map(|last| random.below(last + 1) as u8)),
        5 => {
            let (spine, leaf) = (random.from_to(MOST_HEIGHT - 1, MOST_HEIGHT + 3), given.automaton[2] - 1);
            given.tree = tree::write(&[vec![0; spine], vec![leaf; spine + 1]].concat());
        }
        6 => given.automaton = longer(&given.automaton),
        7 => given.tree = longer(&given.tree),
        8 => damage(&mut given.automaton, random),
        9 if given.tree.len() >= blocks::BLOCK => damage(&mut given.tree, random),
        10 => given.budget = BUDGET + random.pick(&[0, 1, 2, 300, 1 << 16, 1 << 40, usize::MAX - BUDGET]),
        11 => given.room = random.below(given.room),
        _ => {}
    }
}

/// One to four faults, in any of the things that are given.
fn damaged(mut automaton: Automaton, tree: Vec<u8>, budget: usize, random: &mut Random) -> Given {
    let mut kinds: Vec<usize> = (0..random.pick(&[1, 1, 2, 4])).map(|_| random.below(DAMAGES)).collect();
    kinds.sort_unstable();
    kinds.dedup();
    for &kind in &kinds {
        damage_automaton(kind, &mut automaton, random);
    }
    let mut given = Given { automaton: automaton.write(), tree, budget, room: 3 * (budget + 1) };
    for &kind in &kinds {
        damage_given(kind, &mut given, random);
    }
    given
}

#[test]
fn agrees() {
    let mut counts = Counts::default();
    for seed in 1..=PAIRS {
        let mut random = Random::new(seed);
        let (automaton, tree) = by_chance(seed, &mut random);
        let budget = budget_by_chance(automaton.states, &tree, &mut random);
        let given = if seed % 4 < 2 {
            damaged(automaton, tree, budget, &mut random)
        } else {
            let room = 3 * (budget + 1) + random.below(10);
            Given { automaton: automaton.write(), tree, budget, room }
        };
        counts.compare(&given, &mut random);
    }
    println!("{counts:?}");
    assert!(counts.answers.iter().all(|&count| count > 1000));
    assert!([1, 2, 3, 4, 5, 6, 7, 8, 9].iter().all(|&number| counts.refused[0][number] > 10));
    assert!([1, 2, 3, 4, 5, 6, 10, 11, 12].iter().all(|&number| counts.refused[1][number] > 10));
    assert!([13, 20, 21, 22].iter().all(|&number| counts.refused[2][number] > 200));
}

/// The largest automata on the largest trees, where no budget tells that a run goes on for ever: the runs of one family go round the whole tree.
#[test]
fn largest() {
    let mut counts = Counts::default();
    let mut random = Random::new(5);
    for case in FAMILIES.iter().flat_map(|family| family.cases()) {
        for tree in case.trees {
            for budget in [0, 100, random.below(BUDGET), BUDGET] {
                let (automaton, tree) = (case.automaton.clone(), tree.clone());
                counts.compare(&Given { automaton, tree, budget, room: 3 * (budget + 1) }, &mut random);
            }
        }
    }
    println!("{counts:?}");
    let [passed, stuck, circling, spent] = counts.answers;
    assert!(passed > 10 && stuck > 10 && circling == 0 && spent > 10 && counts.longest == BUDGET);
    assert!(counts.refused[2][20] > 10);
}
