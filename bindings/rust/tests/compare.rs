//! Two logs held together, as document 02's W8 has it: the cases of its readings, and the engine beside two programs in Rust, of which one follows the
//! definition by the list of rules; on automata, trees and logs by chance, half of them damaged.
use bench::{
    agreement::{damage, small_automaton, small_tree_file, walking_automaton},
    automaton::{Automaton, Rule},
    blocks,
    families::FAMILIES,
    logs::{bytes_of, damaged, Entry, Runs, DAMAGES},
    random::Random,
    tree::{self, Alphabet, MOST_HEIGHT},
};
use engine::{compare, watch, Compared, File, Refusal, Watched, BUDGET};

const PAIRS: u64 = 24_000;

fn refused<T>(number: u32, file: File, place: usize) -> Result<T, Refusal> {
    Err(Refusal { number, file, place })
}

/// The length of the part and the two counts.
type Numbers = (usize, usize, usize);

/// What is given to a call: the files and the logs.
#[derive(Clone)]
struct Given {
    automaton: Vec<u8>,
    tree: Vec<u8>,
    first: Vec<u8>,
    second: Vec<u8>,
}

fn in_rust(Given { automaton, tree, first, second }: &Given) -> Result<Numbers, Refusal> {
    bench::compare::compare(automaton, tree, first, second)
        .map(|compared| (compared.part, compared.first, compared.second))
        .map_err(|refused| Refusal {
            number: refused.refusal.number,
            file: [File::Automaton, File::Tree, File::Neither][usize::from(refused.file)],
            place: refused.refusal.place,
        })
}

impl Given {
    /// The answer, which is that of the program in Rust, and right by the definition. The part is the first log's own memory.
    #[track_caller]
    fn compare(&self) -> Result<Numbers, Refusal> {
        let answer = compare(&self.automaton, &self.tree, &self.first, &self.second);
        if let Ok(compared) = answer {
            assert_eq!(compared.part.as_ptr(), self.first.as_ptr());
            self.defined(compared);
        }
        let numbers = answer.map(|Compared { part, first, second }| (part.len(), first, second));
        assert_eq!(numbers, in_rust(self));
        self.exchanged(numbers);
        numbers
    }

    /// The part is in both logs, in whole entries, and one entry more is not; the counts are those by the list of rules.
    #[track_caller]
    fn defined(&self, Compared { part, first, second }: Compared) {
        let (length, more) = (part.len(), part.len() + 3);
        assert!(length.is_multiple_of(3) && self.first.starts_with(part) && self.second.starts_with(part));
        assert!(self.first.get(..more).is_none_or(|longer| !self.second.starts_with(longer)));
        let automaton = Automaton::read(&self.automaton).expect("it was read");
        let nodes = tree::read(&self.tree, Alphabet::of(&automaton)).expect("it was read");
        let runs = Runs::new(&automaton, nodes.symbols());
        assert_eq!([first, second], [runs.count(&self.first), runs.count(&self.second)]);
    }

    /// With the logs exchanged the part is as long, and the counts are exchanged; but for the place of 23 a refusal is the same.
    #[track_caller]
    fn exchanged(&self, numbers: Result<Numbers, Refusal>) {
        let answer = compare(&self.automaton, &self.tree, &self.second, &self.first);
        match (answer, numbers) {
            (Ok(compared), Ok((part, first, second))) => {
                assert_eq!((compared.part.len(), compared.second, compared.first), (part, first, second));
                assert_eq!(compared.part.as_ptr(), self.second.as_ptr());
            }
            (Err(refusal), Err(other)) => {
                assert_eq!((refusal.number, refusal.file), (other.number, other.file));
                assert!(refusal.number == 23 || refusal.place == other.place);
            }
            other => panic!("{other:?}"),
        }
    }
}

// ---- cases

/// Document 01's automaton A, with these start states and some rules more.
fn of_document(initial: u32, more: &[[u8; 5]]) -> Automaton {
    let mut rules = vec![[2, 0, 0, 3, 0], [2, 0, 2, 3, 0], [1, 0, 2, 1, 1], [2, 1, 2, 1, 1]];
    rules.extend_from_slice(more);
    let rules = rules.into_iter().map(Rule::from_bytes).collect();
    Automaton { states: 2, symbols: 3, initial, accepting: 2, branches: 4, rules }
}

fn log_of(entries: &[Entry]) -> Vec<u8> {
    entries.iter().copied().flat_map(bytes_of).collect()
}

/// The entries in common, and the two counts.
#[track_caller]
fn told(automaton: &Automaton, symbols: &[u8], first: &[Entry], second: &[Entry], expected: Numbers) {
    let (automaton, tree) = (automaton.write(), tree::write(symbols));
    let given = Given { automaton, tree, first: log_of(first), second: log_of(second) };
    let (common, one, other) = expected;
    assert_eq!(given.compare(), Ok((3 * common, one, other)));
}

#[test]
fn documents_logs() {
    let automaton = of_document(1, &[]);
    let (symbols, log) = ([2, 0, 2, 0, 1], [(0, 0), (2, 0), (4, 0), (2, 1), (0, 1)]);
    for (one, other) in (0..36).map(|both| (both / 6, both % 6)) {
        told(&automaton, &symbols, &log[..one], &log[..other], (one.min(other), one, other));
    }
    told(&automaton, &symbols, &log, &[(0, 0), (2, 0), (4, 0), (2, 1), (0, 0)], (4, 5, 4));
    told(&automaton, &symbols, &log, &[(0, 0), (4, 0), (4, 0), (2, 1), (0, 1)], (1, 5, 1));
    told(&automaton, &symbols, &[(2, 0), (4, 0)], &[(2, 0), (4, 0), (2, 1)], (2, 0, 0));
    told(&automaton, &symbols, &[(0, 1)], &[(0, 1), (0, 1)], (1, 0, 0));
    told(&of_document(3, &[]), &symbols, &[(0, 1)], &[(0, 1), (0, 1)], (1, 1, 1));
    told(&of_document(0, &[]), &symbols, &log, &log, (5, 0, 0));
    told(&of_document(1, &[[2, 1, 0, 0, 0]]), &[2, 0, 1], &[(0, 0), (2, 0), (0, 1), (0, 0)], &[], (0, 4, 0));
}

/// The two logs of docs/EXAMPLE.md: the second takes the transfer for a text.
#[test]
fn example() {
    let (automaton, tree) = (include_bytes!("../../../samples/annex/walker.blk"), tree::write(&[3, 0, 3, 1, 3, 2, 0]));
    let first = include_bytes!("../../../crates/trace/stdout").to_vec();
    let mut second = first.clone();
    for (entry, state) in [(5, 1), (6, 0), (7, 0)] {
        second[3 * entry + 2] = state;
    }
    let given = Given { automaton: automaton.to_vec(), tree, first, second };
    assert_eq!(given.compare(), Ok((15, 13, 5)));
}

/// Nodes and states that do not exist end the count, and are no refusal.
#[test]
fn none_such() {
    let stays = (0..24).map(|next| [1, 0, 3, 0, next]).map(Rule::from_bytes).collect();
    let automaton = Automaton { states: 24, initial: (1 << 24) - 1, rules: stays, ..of_document(1, &[]) };
    for state in 0..=255 {
        let exists = usize::from(state < 24);
        told(&automaton, &[1], &[(0, state)], &[(0, 0), (0, state)], (usize::from(state == 0), exists, 1 + exists));
    }
    for node in [1, 2, 255, 256, 257, 512, 4095, 4096, 65535] {
        told(&automaton, &[1], &[(node, 0)], &[(0, 0), (node, 0)], (0, 0, 1));
    }
}

/// 23 goes by the lengths alone, the first log's before the second's.
#[test]
fn lengths() {
    let log = [[0, 0, 0], [2, 0, 0], [0, 0, 1], [0, 0, 0]].concat();
    for (one, other) in (0..169).map(|both| (both / 13, both % 13)) {
        let (automaton, tree) = (of_document(1, &[]).write(), tree::write(&[2, 0, 1]));
        let given = Given { automaton, tree, first: log[..one].to_vec(), second: log[..other].to_vec() };
        let expected = match (one % 3, other % 3) {
            (0, 0) => Ok((one.min(other), (one / 3).min(3), (other / 3).min(3))),
            (0, _) => refused(23, File::Neither, 1),
            _ => refused(23, File::Neither, 0),
        };
        assert_eq!(given.compare(), expected, "{one} and {other} bytes");
    }
}

/// Every choice of faults: the automaton's comes first, then the tree's, then the logs'.
#[test]
fn order_of_refusals() {
    for faults in 0..16u32 {
        let has = |fault: u32| faults >> fault & 1 == 1;
        let mut given = Given {
            automaton: of_document(1, &[]).write(),
            tree: tree::write(if has(1) { &[0, 0] } else { &[2, 0, 1] }),
            first: vec![0; if has(2) { 4 } else { 3 }],
            second: vec![0; if has(3) { 5 } else { 6 }],
        };
        given.automaton[508] ^= u8::from(has(0));
        let expected = match faults.trailing_zeros() {
            0 => refused(2, File::Automaton, 0),
            1 => refused(11, File::Tree, 1),
            fault @ (2 | 3) => refused(23, File::Neither, fault as usize - 2),
            _ => Ok((3, 1, 1)),
        };
        assert_eq!(given.compare(), expected, "faults {faults:b}");
    }
}

// ---- by chance

/// How often each kind of answer was given.
#[derive(Debug, Default)]
struct Counts {
    /// By number, of the automaton's file, of the tree's and of neither.
    refused: [[usize; 24]; 3],
    /// Refusal 23 of the first and of the second log.
    uneven: [usize; 2],
    /// Logs that are empty, that are equal, of which one begins the other, and that part.
    agreeing: [usize; 4],
    /// Logs of entries, of which none, some and all are a run.
    runs: [usize; 3],
    /// Automata that are single, and that are not.
    single: [usize; 2],
    /// Both runs go on after the logs part.
    forks: usize,
    longest: usize,
}

impl Counts {
    fn add(&mut self, given: &Given, answer: Result<Numbers, Refusal>) {
        match answer {
            Ok(numbers) => self.add_numbers(given, numbers),
            Err(Refusal { number, file, place }) => {
                self.refused[file as usize][number as usize] += 1;
                if number == 23 {
                    self.uneven[place] += 1;
                }
            }
        }
    }

    fn add_numbers(&mut self, Given { automaton, first, second, .. }: &Given, (part, one, other): Numbers) {
        let shorter = first.len().min(second.len());
        self.agreeing[match part {
            0 if first.is_empty() && second.is_empty() => 0,
            _ if first == second => 1,
            _ if part == shorter => 2,
            _ => 3,
        }] += 1;
        for (log, count) in [(first, one), (second, other)].into_iter().filter(|(log, _)| !log.is_empty()) {
            self.runs[usize::from(count > 0) + usize::from(3 * count == log.len())] += 1;
            self.longest = self.longest.max(count);
        }
        self.single[usize::from(engine::single(automaton) == Ok(false))] += 1;
        self.forks += usize::from(part < 3 * one.min(other));
    }

    #[track_caller]
    fn compare(&mut self, given: &Given) {
        let answer = given.compare();
        self.add(given, answer);
    }
}

/// Any automaton, or a single one with one start state; and a small tree for it. Every second tree is drawn until it is good.
fn files_by_chance(seed: u64, random: &mut Random) -> (Automaton, Vec<u8>) {
    let automaton = if seed.is_multiple_of(3) { walking_automaton(random) } else { small_automaton(random) };
    let good = |file: &Vec<u8>| tree::read(file, Alphabet::of(&automaton)).is_ok();
    let tree = std::iter::repeat_with(|| small_tree_file(&automaton, random));
    let tree = tree.take(100).find(|file| !seed.is_multiple_of(2) || good(file)).expect("most are good");
    (automaton, tree)
}

/// The log that the engine makes of a single automaton, or a run by chance; nothing where a file is bad.
fn log_by_chance(automaton: &Automaton, tree: &[u8], random: &mut Random) -> Vec<u8> {
    let (most, mut log) = (random.pick(&[1, 5, 20, 100]), vec![0; 3 * 101]);
    if let Ok(
        Watched::Passed { steps } | Watched::Stuck { steps } | Watched::Circling { steps } | Watched::Spent { steps },
    ) = watch(&automaton.write(), tree, most, &mut log)
    {
        log.truncate(3 * (steps + 1));
        return log;
    }
    match tree::read(tree, Alphabet::of(automaton)) {
        Ok(nodes) => Runs::new(automaton, nodes.symbols()).by_chance(most, random),
        Err(_) => Vec::new(),
    }
}

fn by_chance(seed: u64, random: &mut Random) -> Given {
    let (automaton, tree) = files_by_chance(seed, random);
    let first = log_by_chance(&automaton, &tree, random);
    let second = match random.below(4) {
        0 => first.clone(),
        1 => first[..3 * random.below(first.len() / 3 + 1)].to_vec(),
        _ => log_by_chance(&automaton, &tree, random),
    };
    Given { automaton: automaton.write(), tree, first, second }
}

/// The file with a block more, whose check is right.
fn longer(file: &[u8]) -> Vec<u8> {
    let contents = blocks::join(file, file.len()).unwrap_or_default();
    blocks::write(&[contents, vec![0; blocks::CONTENT]].concat())
}

const FILE_DAMAGES: usize = 9;

/// One fault of a file: a rule's byte, a tree for other symbols or too high, a block, a byte or the length.
fn damage_file(kind: usize, given: &mut Given, random: &mut Random) {
    match kind {
        0 => {
            let mut automaton = of_document(1, &[[0; 5]; 9]);
            let rule = automaton.rules.last_mut().expect("there are 13");
            *rule = Rule::from_bytes([3, 2, 4, 4, 2].map(|most| random.below(most + 1) as u8));
            given.automaton = automaton.write();
        }
        1 => given.tree = tree::write(&[0, 1, 4, 0, 31, 0, 1].map(|last| random.below(last + 1) as u8)),
        2 => {
            let (spine, leaf) = (random.from_to(MOST_HEIGHT - 1, MOST_HEIGHT + 3), given.automaton[2] - 1);
            given.tree = tree::write(&[vec![0; spine], vec![leaf; spine + 1]].concat());
        }
        3 => given.automaton = longer(&given.automaton),
        4 => given.tree = longer(&given.tree),
        5 | 6 => damage(&mut given.automaton, random),
        _ if given.tree.len() >= blocks::BLOCK => damage(&mut given.tree, random),
        _ => {}
    }
}

/// A fault of one log or of both, and in every second case of a file, too.
fn damage_given(given: &mut Given, random: &mut Random) {
    let logs = random.from_to(1, 3);
    for (number, log) in [&mut given.first, &mut given.second].into_iter().enumerate() {
        if logs >> number & 1 == 1 {
            *log = damaged(log, random.below(DAMAGES), random);
        }
    }
    if random.below(2) == 0 {
        damage_file(random.below(FILE_DAMAGES), given, random);
    }
}

#[test]
fn agrees() {
    let mut counts = Counts::default();
    for seed in 1..=PAIRS {
        let mut random = Random::new(seed);
        let mut given = by_chance(seed, &mut random);
        if seed % 4 < 2 {
            damage_given(&mut given, &mut random);
        }
        counts.compare(&given);
    }
    println!("{counts:?}");
    assert!([1, 2, 3, 4, 5, 6, 7, 8, 9].iter().all(|&number| counts.refused[0][number] > 10));
    assert!([1, 2, 3, 4, 5, 6, 10, 11, 12].iter().all(|&number| counts.refused[1][number] > 10));
    assert!(counts.uneven.iter().all(|&count| count > 200));
    assert!(counts.agreeing.iter().chain(&counts.runs).chain(&counts.single).all(|&count| count > 1000));
    assert!(counts.forks > 1000);
}

/// The largest automata on the largest trees, with runs that are longer than any budget.
#[test]
fn largest() {
    let mut counts = Counts::default();
    let mut random = Random::new(6);
    for case in FAMILIES.iter().flat_map(|family| family.cases()) {
        let automaton = Automaton::read(&case.automaton).expect("the families are good");
        for tree in case.trees {
            let nodes = tree::read(&tree, Alphabet::of(&automaton)).expect("the families are good");
            let first = Runs::new(&automaton, nodes.symbols()).by_chance(BUDGET + 2, &mut random);
            for kind in 0..DAMAGES {
                let (automaton, tree, first) = (case.automaton.clone(), tree.clone(), first.clone());
                let second = damaged(&first, kind, &mut random);
                counts.compare(&Given { automaton, tree, first, second });
            }
        }
    }
    println!("{counts:?}");
    assert!(counts.agreeing[2..].iter().chain(&counts.runs).chain(&counts.single).all(|&count| count > 50));
    assert!(counts.longest > BUDGET + 1);
}

/// More entries than two bytes count.
#[test]
fn longest() {
    let automaton = of_document(1, &[[1, 0, 0, 0, 0]]);
    let log = vec![0; 3 * 70_000];
    let given = Given { automaton: automaton.write(), tree: tree::write(&[1]), first: log.clone(), second: log };
    assert_eq!(given.compare(), Ok((3 * 70_000, 70_000, 70_000)));
    let second = [&given.second[..], &[0, 0, 1]].concat();
    assert_eq!(Given { second, ..given }.compare(), Ok((3 * 70_000, 70_000, 70_000)));
}
