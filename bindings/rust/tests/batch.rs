//! The tally and the report on trees' files end to end, beside the implementations in Rust.
use bench::{
    agreement::{small_automaton, small_tree_file},
    automaton::Automaton,
    batch,
    configurations::Configurations,
    quick::is_clear,
    random::Random,
    survey::{self, Survey},
    tree,
};
use engine::{count, report, File, Outcome, Refusal, Tally};

const BATCHES: u64 = 600;

/// Document 01's four lines.
fn lines(file: &[u8], automaton: &Automaton, tally: Tally) -> String {
    let survey = match survey::of_file(file).expect("the automaton was read").0 {
        Survey::Found(height, plan) => format!("found height={height} rows={}", plan.len() / 3),
        Survey::Open(height) => format!("open height={height} rows=0"),
        Survey::Empty(height) => format!("empty height={height} rows=0"),
    };
    format!(
        "walker states={} symbols={} rules={} single={}\nquick {}\nsurvey {survey}\ndocuments accepted={} other={} refused={} percent={}\n",
        automaton.states,
        automaton.symbols,
        automaton.rules.len(),
        if automaton.is_single() { "yes" } else { "no" },
        if is_clear(file) == Ok(true) { "clear" } else { "unsure" },
        tally.accepted,
        tally.other,
        tally.refused,
        batch::percent([tally.accepted, tally.other, tally.refused]),
    )
}

/// Files of an automaton and of some trees end to end, good and bad.
fn small_batch(random: &mut Random) -> (Vec<u8>, Vec<u8>) {
    let automaton = small_automaton(random);
    let mut trees: Vec<u8> = (0..random.below(30)).flat_map(|_| small_tree_file(&automaton, random)).collect();
    if random.below(8) == 0 {
        trees.truncate(random.below(trees.len() + 1));
    }
    (automaton.write(), trees)
}

/// The tally that trees' files give, onto nothing.
fn tally_of(automaton: &[u8], trees: &[u8]) -> Result<Tally, Refusal> {
    let mut tally = Tally::default();
    engine::tally(automaton, trees, &mut tally).map(|()| tally)
}

/// A batch goes onto the tally that is lent: in two parts it comes to the same, a full tally ends it uncounted, and an automaton's file
/// that is refused leaves the tally as it was.
#[test]
fn onto() {
    let automaton =
        Automaton { states: 1, symbols: 2, initial: 1, accepting: 1, branches: 1, rules: Vec::new() }.write();
    let leaf = tree::write(&[1]);
    let mut tally = Tally { accepted: 999_997, other: 0, refused: 1 };
    assert_eq!(engine::tally(&automaton, &leaf, &mut tally), Ok(()));
    assert_eq!(tally, Tally { accepted: 999_998, other: 0, refused: 1 });
    assert_eq!(engine::tally(&automaton, &[leaf.clone(), leaf.clone(), leaf.clone()].concat(), &mut tally), Ok(()));
    assert_eq!(tally, Tally { accepted: 999_999, other: 0, refused: 1 });
    let refusal = Refusal { number: 1, file: File::Automaton, place: 0 };
    assert_eq!(engine::tally(&automaton[..511], &leaf, &mut tally), Err(refusal));
    assert_eq!(tally, Tally { accepted: 999_999, other: 0, refused: 1 });
}

#[test]
fn batches() {
    let (mut sum, mut automata_refused) = ([0u32; 3], 0);
    for seed in 1..=BATCHES {
        let (file, trees) = small_batch(&mut Random::new(seed));
        let (expected, text) = match (Automaton::read(&file), Configurations::prepare(&file)) {
            (Ok(automaton), Ok(judge)) => {
                let [accepted, other, refused] = batch::tally(&judge, &trees);
                let tally = Tally { accepted, other, refused };
                (Ok(tally), lines(&file, &automaton, tally))
            }
            (Err(bench::Refusal { number, place }), _) => {
                let text = format!("walker refused={number} place={place}\n");
                (Err(Refusal { number, file: File::Automaton, place }), text)
            }
            (_, Err(_)) => unreachable!("the automaton was read"),
        };
        assert_eq!(tally_of(&file, &trees), expected, "batch {seed}");
        assert_eq!(report(&file, &trees), text.as_bytes(), "batch {seed}");
        match expected {
            Ok(Tally { accepted, other, refused }) => sum = [sum[0] + accepted, sum[1] + other, sum[2] + refused],
            Err(_) => automata_refused += 1,
        }
    }
    println!("accepted, other, refused: {sum:?}; automata refused: {automata_refused}");
    assert!(sum.iter().all(|&number| number > 100) && automata_refused > 0);
}

/// Files of one to nine blocks end to end, in any order, are told as they are one by one.
#[test]
fn sizes() {
    let automaton =
        Automaton { states: 1, symbols: 2, initial: 1, accepting: 1, branches: 1, rules: Vec::new() }.write();
    let full = |nodes: usize| {
        let mut symbols = Vec::new();
        low_tree(nodes, &mut symbols);
        tree::write(&symbols)
    };
    let mut random = Random::new(1);
    for _ in 0..50 {
        let files: Vec<Vec<u8>> = (0..20).map(|_| full(2 * random.below(2048) + 1)).collect();
        let mut tally = Tally::default();
        for file in &files {
            let outcome = Outcome::from(engine::accepts(&automaton, file));
            assert_eq!(outcome, Outcome::Accepted);
            assert_eq!(count(&mut tally, outcome), Ok(()));
        }
        assert_eq!(tally_of(&automaton, &files.concat()), Ok(tally));
    }
}

/// The symbols of a tree of so many nodes, an odd number, as low as can be: 0 is the branch, 1 the leaf.
fn low_tree(nodes: usize, symbols: &mut Vec<u8>) {
    symbols.push(u8::from(nodes == 1));
    if nodes > 1 {
        let left = ((nodes - 1) / 2) | 1;
        low_tree(left, symbols);
        low_tree(nodes - 1 - left, symbols);
    }
}
