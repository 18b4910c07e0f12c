//! Document 01's example, and the examples of its table of refusals, with their places.
use bench::{
    automaton::{Automaton, Rule},
    blocks, tree,
};
use engine::{
    accepts, canonical, count, judge, percent, quick, single, survey, witness, File, Judged, Outcome, Quick, Refusal,
    Survey, Tally, Verdict, PLAN,
};

const RULES: [[u8; 5]; 4] = [[2, 0, 0, 3, 0], [2, 0, 2, 3, 0], [1, 0, 2, 1, 1], [2, 1, 2, 1, 1]];

/// The example's automaton: it goes down the right parts and accepts where the leaf there is 1.
fn example() -> Automaton {
    let rules = RULES.map(Rule::from_bytes).into();
    Automaton { states: 2, symbols: 3, initial: 1, accepting: 2, branches: 4, rules }
}

/// The example's file, changed at an offset of its first block, the check being right.
fn with_byte(offset: usize, byte: u8) -> Vec<u8> {
    let mut payload = example().write();
    payload.truncate(blocks::CONTENT);
    payload[offset] = byte;
    blocks::write(&payload)
}

/// A file of so many blocks with this payload.
fn padded(payload: &[u8], count: usize) -> Vec<u8> {
    let mut payload = payload.to_vec();
    payload.resize(count * blocks::CONTENT, 0);
    blocks::write(&payload)
}

fn refused<T>(number: u32, file: File, place: usize) -> Result<T, Refusal> {
    Err(Refusal { number, file, place })
}

/// All functions that read an automaton refuse it alike.
#[track_caller]
fn automaton_refused(automaton: &[u8], number: u32, place: usize) {
    assert_eq!(judge(automaton, &tree::write(&[2, 0, 1])), refused(number, File::Automaton, place));
    assert_eq!(accepts(automaton, &tree::write(&[2, 0, 1])), refused(number, File::Automaton, place));
    assert_eq!(survey(automaton, &mut [0; PLAN]), refused(number, File::Automaton, place));
    assert_eq!(quick(automaton), refused(number, File::Automaton, place));
    assert_eq!(single(automaton), refused(number, File::Automaton, place));
    assert_eq!(canonical(automaton, &mut []), refused(number, File::Automaton, place));
    assert_eq!(witness(automaton, &[], &mut []), refused(number, File::Automaton, place));
}

#[track_caller]
fn tree_refused(tree: &[u8], number: u32, place: usize) {
    assert_eq!(judge(&example().write(), tree), refused(number, File::Tree, place));
    assert_eq!(accepts(&example().write(), tree), refused(number, File::Tree, place));
}

/// Closing adds (0, 0) and (1, 1) at each of three nodes, and no other pair: (0, 1) is given at the root of the tree that is accepted.
#[test]
fn documents_example() {
    let file = example().write();
    for (symbols, verdict) in [([2, 0, 1], Verdict::Accepted), ([2, 1, 0], Verdict::Other)] {
        assert_eq!(accepts(&file, &tree::write(&symbols)), Ok(verdict));
        assert_eq!(judge(&file, &tree::write(&symbols)), Ok(Judged { verdict, growth: 6 }));
    }
    assert_eq!(single(&file), Ok(true));
    assert_eq!(quick(&file), Ok(Quick::Unsure));
    let mut plan = [9; PLAN];
    assert_eq!(survey(&file, &mut plan), Ok(Survey::Found { height: 1, rows: 3 }));
    assert_eq!(plan[..9], [0, 255, 255, 1, 255, 255, 2, 0, 1]);
    assert_eq!(plan[9..], [9; PLAN - 9]);
}

#[test]
fn automata() {
    automaton_refused(&[0; 511], 1, 0);
    automaton_refused(&[0; 512], 2, 0);
    automaton_refused(&with_byte(0, 84), 3, 0);
    automaton_refused(&with_byte(1, 25), 4, 1);
    automaton_refused(&with_byte(2, 33), 4, 2);
    automaton_refused(&with_byte(5, 3), 4, 4);
    automaton_refused(&with_byte(3, 1), 6, 3);
    automaton_refused(&with_byte(40, 1), 6, 40);
    automaton_refused(&with_byte(8, 4), 7, 8);
    automaton_refused(&with_byte(12, 4), 7, 12);
    automaton_refused(&with_byte(16, 8), 7, 16);
    automaton_refused(&with_byte(20 + 3, 4), 8, 0);
    automaton_refused(&with_byte(30 + 2, 3), 9, 2);
}

/// 97 rules need one block, 98 two.
#[test]
fn blocks_needed() {
    let of = |count: usize| Automaton { rules: vec![Rule::from_bytes(RULES[0]); count], ..example() };
    assert_eq!(single(&of(97).write()), Ok(true));
    assert_eq!((of(97).write().len(), of(98).write().len()), (512, 1024));
    automaton_refused(&padded(&of(97).write()[..508], 2), 5, 1);
    let mut damaged = of(98).write();
    damaged[600] ^= 1;
    automaton_refused(&damaged, 2, 1);
}

#[test]
fn trees() {
    tree_refused(&[0; 5120], 1, 0);
    tree_refused(&[0; 512], 2, 0);
    tree_refused(&example().write(), 3, 0);
    tree_refused(&blocks::write(&[84, 0, 0, 0]), 4, 2);
    tree_refused(&padded(&[84, 0, 1, 0, 1], 2), 5, 1);
    tree_refused(&blocks::write(&[84, 1, 1, 0, 1]), 6, 1);
    tree_refused(&tree::write(&[3]), 10, 0);
    tree_refused(&tree::write(&[0, 0]), 11, 1);
    tree_refused(&tree::write(&[2]), 11, 1);
    let mut high = vec![2; 65];
    high.extend_from_slice(&[0; 66]);
    tree_refused(&tree::write(&high), 12, 65);
}

/// The tally counts to a million answers, whatever they are, and then stays.
#[test]
fn tallies() {
    let mut tally = Tally::default();
    let outcomes = [Outcome::Accepted, Outcome::Other, Outcome::Refused, Outcome::Accepted];
    let mut expected = [0u32; 3];
    for answer in 0..1_000_000 {
        let outcome = outcomes[answer % 4];
        expected[outcome as usize] += 1;
        assert_eq!(count(&mut tally, outcome), Ok(()));
        let [accepted, other, refused] = expected;
        assert_eq!(tally, Tally { accepted, other, refused });
    }
    assert_eq!(percent(tally), 67);
    for outcome in outcomes {
        let full = tally;
        assert_eq!(count(&mut tally, outcome), refused(14, File::Neither, 0));
        assert_eq!(tally, full);
    }
}

/// Numbers of 32 bits that add to more than 32 bits hold are a full tally too.
#[test]
fn largest_tally() {
    let most = Tally { accepted: u32::MAX, other: u32::MAX, refused: u32::MAX };
    let mut tally = most;
    assert_eq!(count(&mut tally, Outcome::Other), refused(14, File::Neither, 0));
    assert_eq!(tally, most);
    assert_eq!(percent(most), 50);
}
