//! The answers to trees' files end to end, beside those to each file alone and beside the implementations in Rust.
use bench::{
    agreement::{small_automaton, small_tree_file},
    automaton::Automaton,
    configurations::Configurations,
    families::FAMILIES,
    random::Random,
    Judge,
};
use engine::{accepts, accepts_all, File, Refusal, Verdict};

const BATCHES: u64 = 3000;

/// Files of an automaton and of some trees end to end, good and bad; some trees come again, and some batches stop inside a file.
fn small_batch(random: &mut Random) -> (Vec<u8>, Vec<u8>) {
    let automaton = small_automaton(random);
    let mut trees = Vec::new();
    for _ in 0..random.below(20) {
        let file = small_tree_file(&automaton, random);
        for _ in 0..=random.below(2) {
            trees.extend_from_slice(&file);
        }
    }
    if random.below(4) == 0 {
        trees.truncate(random.below(trees.len() + 1));
    }
    (automaton.write(), trees)
}

/// The first file: its first block gives its length, and is all of it where it gives more nodes than a tree may have. Nothing where the trees stop
/// inside it.
fn first_file(trees: &[u8]) -> Option<&[u8]> {
    let first = trees.get(..512)?;
    let nodes = usize::from(u16::from_le_bytes([first[2], first[3]]));
    let blocks = if nodes > 4096 { 1 } else { (4 + nodes).div_ceil(508) };
    trees.get(..512 * blocks)
}

/// What has to be answered, file by file: by the search in Rust, and for a file that the trees stop inside by the engine's refusal of it alone.
fn expected(automaton: &[u8], mut trees: &[u8]) -> Result<Vec<Result<Verdict, Refusal>>, Refusal> {
    let search = Configurations::prepare(automaton).map_err(|bench::Refusal { number, place }| Refusal {
        number,
        file: File::Automaton,
        place,
    })?;
    let mut answers = Vec::new();
    while !trees.is_empty() {
        let Some(file) = first_file(trees) else {
            let last = accepts(automaton, trees);
            assert!(last.is_err(), "a file that is cut off was judged");
            answers.push(last);
            break;
        };
        let answer = match search.judge(file) {
            bench::Verdict::Accepted => Ok(Verdict::Accepted),
            bench::Verdict::Other => Ok(Verdict::Other),
            bench::Verdict::Refused(bench::Refusal { number, place }) => {
                Err(Refusal { number, file: File::Tree, place })
            }
        };
        answers.push(answer);
        if matches!(answer, Err(Refusal { number: 1..=4, .. })) {
            break;
        }
        trees = &trees[file.len()..];
    }
    Ok(answers)
}

#[test]
fn small() {
    let mut refused = 0;
    for seed in 1..=BATCHES {
        let mut random = Random::new(seed);
        let (automaton, trees) = small_batch(&mut random);
        let answers = accepts_all(&automaton, &trees);
        assert_eq!(answers, expected(&automaton, &trees), "batch {seed}");
        refused += answers.iter().flatten().filter(|answer| answer.is_err()).count();
    }
    assert!(refused > 0, "no tree was refused");
}

/// The large trees of the benchmark's families, each three times.
#[test]
fn large() {
    for case in FAMILIES.iter().flat_map(|family| family.cases()) {
        let files: Vec<u8> = case.trees.concat();
        let trees = [&files[..], &files[..], &files[..]].concat();
        assert_eq!(accepts_all(&case.automaton, &trees), expected(&case.automaton, &trees));
    }
}

/// A bad automaton's file is refused, and no tree is no answer.
#[test]
fn refused() {
    let automaton =
        Automaton { states: 1, symbols: 2, initial: 1, accepting: 1, branches: 1, rules: Vec::new() }.write();
    assert_eq!(accepts_all(&automaton, &[]), Ok(Vec::new()));
    assert_eq!(accepts_all(&automaton[..511], &[]), Err(Refusal { number: 1, file: File::Automaton, place: 0 }));
}
