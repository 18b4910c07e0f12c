//! The growth of closing (document 02, W9), beside a reading of it in Rust that has no tables: the crossings of a part are found by walking in it from
//! each state that enters, the chains by walking the given pairs. Also what is written to, and what stays.
use bench::{
    agreement::{damage, small_automaton, small_tree_file},
    automaton::{Automaton, Rule, EVERY_PLACE, LEFT, MOST_STATES, STAY, UP},
    batch,
    blocks::BLOCK,
    families::{self, Family, EXPLODING, FAMILIES},
    random::Random,
    shapes::{self, SHAPES},
    tables::TablesSums,
    tree::{self, Alphabet, MOST_HEIGHT},
    JudgeSums,
};
use engine::{accepts, accepts_all, declared, judge, judge_all, File, Judged, Refusal, Verdict};
use std::collections::BTreeSet;

const AUTOMATA: u64 = 2000;
const TREES: usize = 4;
const BATCHES: u64 = 1000;
/// What numbers are before a call.
const UNWRITTEN: usize = usize::MAX;

// ---- by walking

/// A node, with the number of its parent, those of its parts, where it has some, and the first number after its subtree.
struct Node {
    symbol: u8,
    place: usize,
    parent: usize,
    parts: [usize; 2],
    end: usize,
}

/// An automaton on a tree, whose nodes are in preorder.
struct Walks {
    states: u8,
    /// The moves and next states of the rules, by symbol, place and state.
    rules: Vec<Vec<(u8, u8)>>,
    nodes: Vec<Node>,
}

fn cell(symbol: u8, place: usize, state: u8) -> usize {
    (usize::from(symbol) * 3 + place) * MOST_STATES + usize::from(state)
}

impl Walks {
    fn new(automaton: &Automaton, symbols: &[u8]) -> Walks {
        let mut rules = vec![Vec::new(); automaton.symbols * 3 * MOST_STATES];
        for rule in &automaton.rules {
            for place in (0..3).filter(|&place| rule.applies_at(place)) {
                rules[cell(rule.symbol, place, rule.state)].push((rule.step, rule.next));
            }
        }
        let mut walks = Walks { states: automaton.states as u8, rules, nodes: Vec::new() };
        walks.add(automaton, symbols, 0, 0);
        walks
    }

    /// Adds the subtree whose first symbol is the next; its number.
    fn add(&mut self, automaton: &Automaton, symbols: &[u8], place: usize, parent: usize) -> usize {
        let number = self.nodes.len();
        let symbol = symbols[number];
        self.nodes.push(Node { symbol, place, parent, parts: [0; 2], end: 0 });
        if automaton.is_branch(symbol) {
            self.nodes[number].parts = [1, 2].map(|place| self.add(automaton, symbols, place, number));
        }
        self.nodes[number].end = self.nodes.len();
        number
    }

    fn rules(&self, node: usize, state: u8) -> &[(u8, u8)] {
        let Node { symbol, place, .. } = self.nodes[node];
        &self.rules[cell(symbol, place, state)]
    }

    /// The states in which a walk leaves the subtree at `top` that entered it in a state.
    fn left_in(&self, top: usize, entered: u8) -> BTreeSet<u8> {
        let mut left = BTreeSet::new();
        let mut seen = vec![[false; MOST_STATES]; self.nodes[top].end - top];
        let mut waiting = vec![(top, entered)];
        while let Some((node, state)) = waiting.pop() {
            if std::mem::replace(&mut seen[node - top][usize::from(state)], true) {
                continue;
            }
            for &(step, next) in self.rules(node, state) {
                match step {
                    STAY => waiting.push((node, next)),
                    UP if node == top => _ = left.insert(next),
                    UP => waiting.push((self.nodes[node].parent, next)),
                    down => waiting.push((self.nodes[node].parts[usize::from(down - LEFT)], next)),
                }
            }
        }
        left
    }

    /// The given pairs that begin with a state.
    fn given(&self, node: usize, state: u8) -> BTreeSet<u8> {
        let mut given = BTreeSet::new();
        for &(step, next) in self.rules(node, state) {
            match step {
                STAY => _ = given.insert(next),
                UP => {}
                down => given.extend(self.left_in(self.nodes[node].parts[usize::from(down - LEFT)], next)),
            }
        }
        given
    }

    /// How many pairs closing adds at a node: for each state those that chains of given pairs lead to, itself among them, and that are not given.
    fn growth(&self, node: usize) -> usize {
        let given: Vec<BTreeSet<u8>> = (0..self.states).map(|state| self.given(node, state)).collect();
        let added = |from: u8| {
            let (mut reached, mut waiting) = (BTreeSet::new(), vec![from]);
            while let Some(state) = waiting.pop() {
                if reached.insert(state) {
                    waiting.extend(&given[usize::from(state)]);
                }
            }
            reached.difference(&given[usize::from(from)]).count()
        };
        (0..self.states).map(added).sum()
    }
}

fn in_file<T>(file: File, answer: Result<T, bench::Refusal>) -> Result<T, Refusal> {
    answer.map_err(|bench::Refusal { number, place }| Refusal { number, file, place })
}

/// The sum over the nodes of a tree, by walking, or the refusal.
fn growth(automaton: &[u8], tree: &[u8]) -> Result<usize, Refusal> {
    let automaton = in_file(File::Automaton, Automaton::read(automaton))?;
    let nodes = in_file(File::Tree, tree::read(tree, Alphabet::of(&automaton)))?;
    let walks = Walks::new(&automaton, nodes.symbols());
    let sum = (0..walks.nodes.len()).map(|node| walks.growth(node)).sum();
    assert!(sum <= 576 * walks.nodes.len());
    Ok(sum)
}

/// The sum by the tables of the benchmark, for large trees, or the refusal of the tree.
fn growth_by_tables(automaton: &TablesSums, tree: &[u8]) -> Result<usize, Refusal> {
    let bench::Judged { verdict, growth } = automaton.judge_sums(tree);
    match verdict {
        bench::Verdict::Refused(refusal) => in_file(File::Tree, Err(refusal)),
        _ => Ok(growth),
    }
}

// ---- one tree

/// `judge` gives this sum or refusal, with the verdict or refusal of `accepts`, and writes 0 for a refusal.
#[track_caller]
fn compare(automaton: &[u8], tree: &[u8], expected: Result<usize, Refusal>) {
    let answer = judge(automaton, tree);
    assert_eq!(answer.map(|judged| judged.growth), expected);
    assert_eq!(answer.map(|judged| judged.verdict), accepts(automaton, tree));
    let mut written = [UNWRITTEN];
    let (number, told) = declared::judge(automaton, tree, &mut written);
    assert_eq!((number, told), declared::accepts(automaton, tree));
    assert_eq!(written, [expected.unwrap_or(0)]);
}

/// Automata by chance, one file in eight damaged, and trees, every second file damaged.
#[test]
fn small_trees() {
    let (mut judged, mut refused, mut most) = (0, 0, 0);
    for seed in 1..=AUTOMATA {
        let mut random = Random::new(seed);
        let automaton = small_automaton(&mut random);
        let mut file = automaton.write();
        if seed.is_multiple_of(8) {
            damage(&mut file, &mut random);
        }
        for number in 0..TREES {
            let mut tree = small_tree_file(&automaton, &mut random);
            if number.is_multiple_of(2) && tree.len() >= BLOCK {
                damage(&mut tree, &mut random);
            }
            let expected = growth(&file, &tree);
            compare(&file, &tree, expected);
            match expected {
                Ok(sum) => (judged, most) = (judged + 1, most.max(sum)),
                Err(_) => refused += 1,
            }
        }
    }
    println!("judged: {judged}, refused: {refused}, the largest growth: {most}");
    assert!(judged > 2000 && refused > 2000 && most > 50_000);
}

/// The benchmark's families: small trees by walking, and trees of 4,095 nodes by tables, alone and end to end.
#[test]
fn families() {
    for family in FAMILIES.iter().chain(&EXPLODING) {
        for case in family.cases_of(10, families::small_tree) {
            case.trees.iter().for_each(|tree| compare(&case.automaton, tree, growth(&case.automaton, tree)));
        }
        for case in family.cases() {
            let tables = TablesSums::prepare(&case.automaton).expect("it is a good file");
            let expected: Vec<_> = case.trees.iter().map(|tree| growth_by_tables(&tables, tree)).collect();
            case.trees.iter().zip(&expected).for_each(|(tree, &expected)| compare(&case.automaton, tree, expected));
            let answers = judge_all(&case.automaton, &case.trees.concat().repeat(3)).expect("a good file");
            let found: Vec<_> = answers.iter().map(|answer| answer.map(|judged| judged.growth)).collect();
            assert_eq!(found, expected.repeat(3), "{}", family.name);
        }
    }
}

/// One tree of 4,095 nodes of each shape, by walking.
#[test]
fn large_trees() {
    let case = Family::named("sparse").expect("the family is there").cases().remove(0);
    case.trees.iter().for_each(|tree| compare(&case.automaton, tree, growth(&case.automaton, tree)));
}

/// An automaton with a branch 0 and a leaf 1.
fn of(states: usize, rules: Vec<Rule>) -> Automaton {
    Automaton { states, symbols: 2, initial: 1, accepting: 1, branches: 1, rules }
}

/// Stays at either symbol, wherever it stands.
fn stays(pairs: &[(usize, usize)]) -> Vec<Rule> {
    let stay = |symbol: u8| {
        move |&(state, next): &(usize, usize)| Rule::from_bytes([symbol, state as u8, EVERY_PLACE, STAY, next as u8])
    };
    [0, 1].into_iter().flat_map(|symbol| pairs.iter().map(stay(symbol))).collect()
}

/// On one leaf: no rule adds each state's own pair; given pairs are not added, and chains are.
#[test]
fn one_leaf() {
    let leaf = tree::write(&[1]);
    let cases: [(&[(usize, usize)], usize); 6] = [
        (&[], 0),
        (&[(0, 1)], 0),
        (&[(0, 1), (1, 2)], 1),
        (&[(0, 1), (1, 2), (0, 2)], 0),
        (&[(0, 1), (1, 2), (2, 0)], 3),
        (&[(0, 1), (1, 2), (2, 3)], 3),
    ];
    for states in 4..=MOST_STATES {
        for (pairs, chains) in cases {
            let file = of(states, stays(pairs)).write();
            let expected = Judged { verdict: Verdict::Accepted, growth: states + chains };
            assert_eq!(judge(&file, &leaf), Ok(expected), "{states} states, {pairs:?}");
            compare(&file, &leaf, growth(&file, &leaf));
        }
        let file = of(states, stays(&[(0, 0), (1, 1)])).write();
        assert_eq!(judge(&file, &leaf), Ok(Judged { verdict: Verdict::Accepted, growth: states - 2 }));
    }
}

/// Trees of each shape: with no rules each node grows by the states; with 24 states in a ring all pairs but the 24 given are added, the most there
/// are.
#[test]
fn each_node() {
    let ring: Vec<(usize, usize)> = (0..MOST_STATES).map(|state| (state, (state + 1) % MOST_STATES)).collect();
    let (ring, mut random) = (of(MOST_STATES, stays(&ring)).write(), Random::new(1));
    for states in 1..=MOST_STATES {
        let automaton = of(states, Vec::new());
        let file = automaton.write();
        for (shape, branches) in
            SHAPES.into_iter().flat_map(|shape| [0, 1, 7, 300, 2047].map(|branches| (shape, branches)))
        {
            let nodes = 2 * branches + 1;
            let tree = tree::write(&shapes::tree(&automaton, shape, branches, MOST_HEIGHT, &mut random));
            compare(&file, &tree, Ok(states * nodes));
            compare(&ring, &tree, Ok((576 - 24) * nodes));
        }
    }
}

// ---- trees end to end

/// Files of an automaton and of some trees end to end, every second one damaged; some come again, and some batches stop inside a file.
fn small_batch(random: &mut Random) -> (Vec<u8>, Vec<u8>) {
    let automaton = small_automaton(random);
    let mut trees = Vec::new();
    for number in 0..random.below(12) {
        let symbols = shapes::tree(&automaton, random.pick(&SHAPES), random.below(30), MOST_HEIGHT, random);
        let mut file = tree::write(&symbols);
        if number % 2 == 1 {
            match random.below(3) {
                0 => damage(&mut file, random),
                _ => file = tree::write(&[&symbols[..], &[0]].concat()),
            }
        }
        for _ in 0..=random.below(2) {
            trees.extend_from_slice(&file);
        }
    }
    if random.below(8) == 0 {
        trees.truncate(random.below(trees.len() + 1));
    }
    (automaton.write(), trees)
}

/// The growths of the first so many files, 0 for one that is refused, as one that the trees stop inside is.
fn growths(automaton: &[u8], mut trees: &[u8], files: usize) -> Vec<usize> {
    let mut growths = Vec::new();
    for _ in 0..files {
        let file = batch::first_file(trees).unwrap_or(trees);
        growths.push(growth(automaton, file).unwrap_or(0));
        trees = &trees[file.len()..];
    }
    growths
}

/// Numbers by chance, so many.
fn numbers(count: usize, random: &mut Random) -> Vec<usize> {
    (0..count).map(|_| random.below(usize::MAX >> 33)).collect()
}

/// The answers and growths in buffers of these lengths: as many as there is room for, and the later numbers as they were.
fn compare_buffers(
    automaton: &[u8],
    trees: &[u8],
    answers: &[usize],
    growths: &[usize],
    rooms: [usize; 2],
    random: &mut Random,
) {
    let before = rooms.map(|room| numbers(room, random));
    let [mut written, mut grown] = before.clone();
    let files = growths.len().min(rooms[0] / 3);
    assert_eq!(declared::judge_all(automaton, trees, &mut written, &mut grown), (0, [files, 0, 0]));
    assert_eq!(written[..3 * files], answers[..3 * files]);
    assert_eq!(written[3 * files..], before[0][3 * files..]);
    let sums = files.min(rooms[1]);
    assert_eq!(grown[..sums], growths[..sums]);
    assert_eq!(grown[sums..], before[1][sums..]);
}

/// The answers as numbers.
fn as_numbers(answers: &[Result<Verdict, Refusal>]) -> Vec<usize> {
    let numbers = |answer: &Result<Verdict, Refusal>| match answer {
        Ok(Verdict::Accepted) => [0, 0, 0],
        Ok(Verdict::Other) => [1, 0, 0],
        Err(Refusal { number, place, .. }) => [2, *number as usize, *place],
    };
    answers.iter().flat_map(numbers).collect()
}

#[test]
fn end_to_end() {
    let (mut judged, mut refused) = (0, 0);
    for seed in 1..=BATCHES {
        let mut random = Random::new(seed);
        let (automaton, trees) = small_batch(&mut random);
        let answers = match accepts_all(&automaton, &trees) {
            Ok(answers) => answers,
            Err(refusal) => {
                assert_eq!(judge_all(&automaton, &trees), Err(refusal), "batch {seed}");
                continue;
            }
        };
        let files = answers.len();
        let growths = growths(&automaton, &trees, files);
        let whole: Vec<Result<Judged, Refusal>> = answers
            .iter()
            .zip(&growths)
            .map(|(answer, &growth)| answer.map(|verdict| Judged { verdict, growth }))
            .collect();
        assert_eq!(judge_all(&automaton, &trees).as_ref(), Ok(&whole), "batch {seed}");
        judged += answers.iter().filter(|answer| answer.is_ok()).count();
        refused += answers.iter().filter(|answer| answer.is_err()).count();
        let answers = as_numbers(&answers);
        let rooms = [0, files / 2, files, files + 1 + random.below(5)];
        for room in rooms {
            for sums in rooms {
                let rooms = [3 * room + random.below(3), sums];
                compare_buffers(&automaton, &trees, &answers, &growths, rooms, &mut random);
            }
        }
    }
    println!("judged: {judged}, refused: {refused}");
    assert!(judged > 2000 && refused > 1000);
}

/// A refused automaton changes neither buffer, and judging one tree by it writes 0.
#[test]
fn refused_automata() {
    let (leaf, good) = (tree::write(&[1]), of(2, Vec::new()).write());
    let mut random = Random::new(1);
    for _ in 0..AUTOMATA {
        let mut file = good.clone();
        damage(&mut file, &mut random);
        let Err(refusal) = in_file(File::Automaton, Automaton::read(&file)) else { continue };
        compare(&file, &leaf, Err(refusal));
        let before = [7, 4].map(|count| numbers(count, &mut random));
        let [mut answers, mut growths] = before.clone();
        let told = [refusal.number as usize, 0, refusal.place];
        assert_eq!(declared::judge_all(&file, &leaf.repeat(2), &mut answers, &mut growths), (1, told));
        assert_eq!([answers, growths], before);
    }
}
