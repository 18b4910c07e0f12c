//! The implementations in Rust agree on small inputs, good and damaged, and on batches whose classes settle or explode; and the tally of a stream
//! is that of its bytes.
use bench::{
    agreement,
    automaton::Automaton,
    batch,
    configurations::Configurations,
    families::{self, Family, Make, EXPLODING, FAMILIES},
    lazy::{Lazy, LazySums},
    random::Random,
    stream,
    tables::{Tables, TablesSums},
    tree, Judge, JudgeSums, Judged, Refusal, Verdict,
};
use std::io::{self, Read};

#[test]
fn small_inputs() {
    let counts = agreement::compare().unwrap();
    assert!([counts.accepted, counts.other, counts.refused, counts.automata_refused].iter().all(|&count| count > 0));
}

/// A tree, damaged now and then.
fn some_tree(make: Make) -> impl Fn(&Automaton, usize, &mut Random) -> Vec<u8> {
    move |automaton, number, random| {
        let mut tree = make(automaton, number, random);
        if random.below(8) == 0 {
            agreement::damage(&mut tree, random);
        }
        tree
    }
}

/// One lazy judge over all trees of an automaton, so that its cache fills, gives way and begins anew; the same with the sums.
fn compare(family: &Family, trees: usize, make: Make) {
    for case in family.cases_of(trees, some_tree(make)) {
        let lazy = Lazy::prepare(&case.automaton).unwrap();
        let search = Configurations::prepare(&case.automaton).unwrap();
        let tables = Tables::prepare(&case.automaton).unwrap();
        let lazy_sums = LazySums::prepare(&case.automaton).unwrap();
        let tables_sums = TablesSums::prepare(&case.automaton).unwrap();
        for (number, tree) in case.trees.iter().enumerate() {
            let expected = search.judge(tree);
            assert_eq!(lazy.judge(tree), expected, "{}: tree {number}", family.name);
            assert_eq!(tables.judge(tree), expected, "{}: tree {number}", family.name);
            let Judged { verdict, growth } = tables_sums.judge_sums(tree);
            assert_eq!(verdict, expected, "{}: tree {number}", family.name);
            assert_eq!(lazy_sums.judge_sums(tree), Judged { verdict, growth }, "{}: tree {number}", family.name);
            assert_eq!(growth == 0, matches!(expected, Verdict::Refused(_)), "{}: tree {number}", family.name);
        }
    }
}

#[test]
fn large_trees() {
    for family in FAMILIES.iter().chain(&EXPLODING) {
        compare(family, 300, families::large_tree);
    }
}

#[test]
fn small_trees() {
    for family in FAMILIES.iter().chain(&EXPLODING) {
        compare(family, 3000, families::small_tree);
    }
}

/// Gives a few bytes at a time.
struct Slowly<'a>(&'a [u8], Random);

impl Read for Slowly<'_> {
    fn read(&mut self, buffer: &mut [u8]) -> io::Result<usize> {
        let count = self.1.from_to(1, 3000).min(self.0.len()).min(buffer.len());
        buffer[..count].copy_from_slice(&self.0[..count]);
        self.0 = &self.0[count..];
        Ok(count)
    }
}

/// A stream that may stop inside a tree, have a bit changed, or begin with a tree of no nodes or with one that is too long.
fn some_stream(trees: &[Vec<u8>], random: &mut Random) -> Vec<u8> {
    let mut stream = trees.concat();
    let at = random.below(stream.len());
    match random.below(5) {
        0 => stream.truncate(at),
        1 => stream[at] ^= 1 << random.below(8),
        2 => stream = [tree::write(&[]), stream].concat(),
        3 => stream = [vec![84, 0, 255, 255], vec![0; 508], stream].concat(),
        _ => {}
    }
    stream
}

fn compare_stream(seed: u64, make: Make) {
    let mut random = Random::new(seed);
    let case = FAMILIES[0].cases_of(seed as usize, make).remove(0);
    let stream = some_stream(&case.trees, &mut random);
    let lazy = Lazy::prepare(&case.automaton).unwrap();
    let expected = batch::tally(&Configurations::prepare(&case.automaton).unwrap(), &stream);
    assert_eq!(batch::tally(&lazy, &stream), expected);
    assert_eq!(stream::tally(&lazy, stream.as_slice()).unwrap(), expected);
    assert_eq!(stream::tally(&lazy, Slowly(&stream, random)).unwrap(), expected);
}

#[test]
fn streams() {
    for seed in 1..=60 {
        compare_stream(seed, families::small_tree);
        compare_stream(seed, families::large_tree);
    }
}

/// The same bytes, so many times.
struct Again<'a>(&'a [u8], u32);

impl Read for Again<'_> {
    fn read(&mut self, buffer: &mut [u8]) -> io::Result<usize> {
        let count = if self.1 == 0 { 0 } else { self.0.len() };
        buffer[..count].copy_from_slice(&self.0[..count]);
        self.1 = self.1.saturating_sub(1);
        Ok(count)
    }
}

/// A judge that refuses all, by a line that does not end a batch.
struct Refuses;

impl Judge for Refuses {
    fn judge(&self, _: &[u8]) -> Verdict {
        Verdict::Refused(Refusal { number: 10, place: 0 })
    }
}

#[test]
fn a_million() {
    let tree = tree::write(&[0]);
    for (trees, answers) in [(999_999, 999_999), (1_000_000, 1_000_000), (1_000_001, 1_000_000)] {
        assert_eq!(stream::tally(&Refuses, Again(&tree, trees)).unwrap(), [0, 0, answers]);
    }
    let cut = Again(&tree, 999_999).chain(&tree[..100]);
    assert_eq!(stream::tally(&Refuses, cut).unwrap(), [0, 0, 1_000_000]);
    let cut = Again(&tree, 1_000_000).chain(&tree[..100]);
    assert_eq!(stream::tally(&Refuses, cut).unwrap(), [0, 0, 1_000_000]);
}
