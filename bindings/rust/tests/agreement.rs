//! The engine beside the implementations in Rust, on files by chance, good and damaged, small and as large as may be.
use bench::{
    agreement::{damage, small_automaton, small_tree_file},
    automaton::Automaton,
    configurations::Configurations,
    families::FAMILIES,
    quick::is_clear,
    random::Random,
    survey,
    tree::{self, Alphabet},
    Judge,
};
use engine::{File, Quick, Refusal, Survey, Verdict, PLAN};

const AUTOMATA: u64 = 5000;
const TREES: usize = 4;

/// A small automaton's file, one in four damaged, and the files of trees for it.
fn small_case(seed: u64) -> (Vec<u8>, Vec<Vec<u8>>) {
    let mut random = Random::new(seed);
    let automaton = small_automaton(&mut random);
    let mut file = automaton.write();
    if seed.is_multiple_of(4) {
        damage(&mut file, &mut random);
    }
    let trees = (0..TREES).map(|_| small_tree_file(&automaton, &mut random)).collect();
    (file, trees)
}

fn small_automata() -> impl Iterator<Item = Vec<u8>> {
    (1..=AUTOMATA).map(|seed| small_case(seed).0)
}

fn large_automata() -> impl Iterator<Item = Vec<u8>> {
    FAMILIES.iter().flat_map(|family| family.cases()).map(|case| case.automaton)
}

/// The automata with no final state, small and large: no survey of them ends with Found.
fn without_final() -> impl Iterator<Item = Vec<u8>> {
    let small = (1..=AUTOMATA).map(|seed| small_automaton(&mut Random::new(seed)));
    let large = large_automata().map(|file| Automaton::read(&file).expect("it is a good file"));
    small.chain(large).map(|automaton| Automaton { accepting: 0, ..automaton }.write())
}

/// An answer of the implementations in Rust, with the file that a refusal is about.
fn in_file<T>(file: File, answer: Result<T, bench::Refusal>) -> Result<T, Refusal> {
    answer.map_err(|bench::Refusal { number, place }| Refusal { number, file, place })
}

fn in_automaton<T>(answer: Result<T, bench::Refusal>) -> Result<T, Refusal> {
    in_file(File::Automaton, answer)
}

/// What judging has to say: the automaton's refusal, else the tree's, else the verdict of a search over configurations.
fn judged(automaton: &[u8], file: &[u8]) -> Result<Verdict, Refusal> {
    let alphabet = Alphabet::of(&in_automaton(Automaton::read(automaton))?);
    in_file(File::Tree, tree::read(file, alphabet))?;
    match in_automaton(Configurations::prepare(automaton))?.judge(file) {
        bench::Verdict::Accepted => Ok(Verdict::Accepted),
        bench::Verdict::Other => Ok(Verdict::Other),
        bench::Verdict::Refused(_) => unreachable!("the tree was read"),
    }
}

/// How often each verdict was given, and each number of a refusal.
#[derive(Debug, Default)]
struct Counts {
    accepted: usize,
    other: usize,
    refused: [usize; 15],
}

fn compare_verdicts(cases: impl Iterator<Item = (Vec<u8>, Vec<Vec<u8>>)>) -> Counts {
    let mut counts = Counts::default();
    for (number, (automaton, trees)) in cases.enumerate() {
        for tree in trees {
            let answer = engine::accepts(&automaton, &tree);
            assert_eq!(answer, judged(&automaton, &tree), "automaton {number}");
            match answer {
                Ok(Verdict::Accepted) => counts.accepted += 1,
                Ok(Verdict::Other) => counts.other += 1,
                Err(refusal) => counts.refused[refusal.number as usize] += 1,
            }
        }
    }
    counts
}

/// Both verdicts are given, and each refusal that a file can have.
#[test]
fn small_trees() {
    let counts = compare_verdicts((1..=AUTOMATA).map(small_case));
    println!("{counts:?}");
    assert!(counts.accepted > 1000 && counts.other > 1000);
    assert!(counts.refused[1..=12].iter().all(|&count| count > 0));
}

#[test]
fn large_trees() {
    let cases = FAMILIES.iter().flat_map(|family| family.cases()).map(|case| (case.automaton, case.trees));
    let Counts { accepted, other, .. } = compare_verdicts(cases);
    assert!(accepted > 10 && other > 10 && accepted + other == 80);
}

/// Every length of a file, of zeros, and cut from or added to a good file.
#[test]
fn lengths() {
    let (automaton, tree) = (FAMILIES[0].cases().remove(0).automaton, tree::write(&[0; 4096]));
    let resized = |file: &[u8], length: usize| {
        let mut file = file.to_vec();
        file.resize(length, 0);
        file
    };
    for length in 0..=5200 {
        for file in [resized(&[], length), resized(&automaton, length), resized(&tree, length)] {
            assert_eq!(engine::accepts(&file, &tree), judged(&file, &tree), "automaton of {length} bytes");
            assert_eq!(engine::accepts(&automaton, &file), judged(&automaton, &file), "tree of {length} bytes");
        }
    }
}

/// The survey's verdict, and the buffer afterwards: the plan at its front, and the bytes after it as they were.
#[test]
fn surveys() {
    let mut counts = [0; 4];
    let mut random = Random::new(1);
    for (number, file) in small_automata().chain(large_automata()).chain(without_final()).enumerate() {
        let before: Vec<u8> = (0..PLAN + random.below(3) * 100).map(|_| random.below(256) as u8).collect();
        let mut after = before.clone();
        let answer = engine::survey(&file, &mut after);
        let (verdict, plan) = match survey::of_file(&file) {
            Ok((survey::Survey::Found(height, plan), _)) => (Ok(Survey::Found { height, rows: plan.len() / 3 }), plan),
            Ok((survey::Survey::Open(height), _)) => (Ok(Survey::Open { height }), Vec::new()),
            Ok((survey::Survey::Empty(height), _)) => (Ok(Survey::Empty { height }), Vec::new()),
            Err(refusal) => (in_automaton(Err(refusal)), Vec::new()),
        };
        assert_eq!(answer, verdict, "automaton {number}");
        assert_eq!(after[..plan.len()], plan, "automaton {number}");
        assert_eq!(after[plan.len()..], before[plan.len()..], "automaton {number}");
        counts[match answer {
            Ok(Survey::Found { .. }) => 0,
            Ok(Survey::Open { .. }) => 1,
            Ok(Survey::Empty { .. }) => 2,
            Err(_) => 3,
        }] += 1;
    }
    println!("found, open, empty, refused: {counts:?}");
    assert!(counts.iter().all(|&count| count > 10));
}

/// A buffer that is too short is refused, after the automaton's file, and stays as it was.
#[test]
fn short_buffers() {
    let good = FAMILIES[0].cases().remove(0).automaton;
    for length in 0..PLAN {
        let mut plan = vec![7; length];
        let refusal = Refusal { number: 13, file: File::Neither, place: 195 };
        assert_eq!(engine::survey(&good, &mut plan), Err(refusal));
        let refusal = Refusal { number: 1, file: File::Automaton, place: 0 };
        assert_eq!(engine::survey(&[], &mut plan), Err(refusal));
        assert!(plan.iter().all(|&byte| byte == 7));
    }
}

#[test]
fn quick_checks() {
    let mut counts = [0; 3];
    for (number, file) in small_automata().chain(large_automata()).enumerate() {
        let answer = engine::quick(&file);
        let expected = in_automaton(is_clear(&file)).map(|clear| if clear { Quick::Clear } else { Quick::Unsure });
        assert_eq!(answer, expected, "automaton {number}");
        counts[match answer {
            Ok(Quick::Clear) => 0,
            Ok(Quick::Unsure) => 1,
            Err(_) => 2,
        }] += 1;
    }
    println!("clear, unsure, refused: {counts:?}");
    assert!(counts.iter().all(|&count| count > 10));
}
