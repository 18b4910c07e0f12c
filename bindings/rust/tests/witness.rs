//! A plan's tree as a tree's file, beside a reading of document 02's W1 in Rust: plans that the survey found, and others, good and damaged.
use bench::{
    agreement::{damage, small_automaton},
    automaton::Automaton,
    families::FAMILIES,
    random::Random,
    tree::{self, Alphabet},
};
use engine::{File, Refusal, Survey, Verdict, PLAN, TREE};

const AUTOMATA: u64 = 5000;
const NODES: usize = 4096;

fn refused<T>(number: u32, place: usize) -> Result<T, Refusal> {
    Err(Refusal { number, file: File::Neither, place })
}

/// Whether a row names itself, a later row, a symbol that is not there, or the wrong number of parts.
fn is_bad(automaton: &Automaton, number: usize, row: &[u8]) -> bool {
    let [symbol, left, right] = row.try_into().expect("three bytes");
    if usize::from(symbol) >= automaton.symbols {
        true
    } else if Alphabet::of(automaton).is_branch(symbol) {
        [left, right].iter().any(|&part| usize::from(part) >= number)
    } else {
        [left, right] != [255, 255]
    }
}

/// The symbols of the last row's tree in preorder, or nothing where there are more than 4,096.
fn symbols(automaton: &Automaton, plan: &[u8]) -> Option<Vec<u8>> {
    let (mut symbols, mut waiting) = (Vec::new(), vec![plan.len() / 3 - 1]);
    while let Some(row) = waiting.pop() {
        let symbol = plan[3 * row];
        if Alphabet::of(automaton).is_branch(symbol) {
            waiting.extend([plan[3 * row + 2], plan[3 * row + 1]].map(usize::from));
        }
        symbols.push(symbol);
        if symbols.len() > NODES {
            return None;
        }
    }
    Some(symbols)
}

/// What has to be written, or the refusal, where the output has so much room.
fn expected(automaton: &[u8], plan: &[u8], room: usize) -> Result<Vec<u8>, Refusal> {
    let automaton = Automaton::read(automaton).map_err(|bench::Refusal { number, place }| Refusal {
        number,
        file: File::Automaton,
        place,
    })?;
    if plan.is_empty() || !plan.len().is_multiple_of(3) || plan.len() > PLAN {
        return refused(15, 0);
    }
    if let Some(place) = plan.chunks(3).enumerate().position(|(number, row)| is_bad(&automaton, number, row)) {
        return refused(15, place);
    }
    let Some(symbols) = symbols(&automaton, plan) else {
        return refused(16, 0);
    };
    let file = tree::write(&symbols);
    if room < file.len() {
        return refused(13, file.len());
    }
    Ok(file)
}

/// What is written, beside what is expected: the answer, and every byte of the output.
#[track_caller]
fn compare(automaton: &[u8], plan: &[u8], room: usize, random: &mut Random) -> Result<Vec<u8>, Refusal> {
    let before: Vec<u8> = (0..room).map(|_| random.below(256) as u8).collect();
    let mut after = before.clone();
    let answer = engine::witness(automaton, plan, &mut after);
    let expected = expected(automaton, plan, room);
    assert_eq!(answer, expected.as_ref().map(Vec::len).map_err(|&refusal| refusal));
    let file = expected.clone().unwrap_or_default();
    assert_eq!(after[..file.len()], file);
    assert_eq!(after[file.len()..], before[file.len()..]);
    expected
}

/// A plan by chance: most rows are branches over one of the last two rows.
fn by_chance(automaton: &Automaton, random: &mut Random) -> Vec<u8> {
    let alphabet = Alphabet::of(automaton);
    let (branches, leaves): (Vec<u8>, Vec<u8>) =
        (0..automaton.symbols as u8).partition(|&symbol| alphabet.is_branch(symbol));
    let mut plan = Vec::new();
    for row in 0..random.from_to(1, 66) {
        let of = if leaves.is_empty() || !branches.is_empty() && row > 0 && random.below(8) > 0 {
            &branches
        } else {
            &leaves
        };
        let symbol = random.pick(of);
        let mut part = || if alphabet.is_branch(symbol) { row.saturating_sub(random.from_to(1, 2)) as u8 } else { 255 };
        plan.extend([symbol, part(), part()]);
    }
    plan
}

/// Another length, or another byte.
fn damaged(mut plan: Vec<u8>, random: &mut Random) -> Vec<u8> {
    match random.below(4) {
        0 => plan.resize(random.below(210), 255),
        _ => {
            let at = random.below(plan.len());
            plan[at] = random.pick(&[0, 1, 2, 3, 31, 64, 255]);
        }
    }
    plan
}

#[derive(Debug, Default)]
struct Counts {
    written: usize,
    refused: [usize; 17],
}

impl Counts {
    fn add(&mut self, answer: &Result<Vec<u8>, Refusal>) {
        match answer {
            Ok(_) => self.written += 1,
            Err(refusal) => self.refused[refusal.number as usize] += 1,
        }
    }
}

/// What the survey found is a letter that the automaton accepts.
#[test]
fn found() {
    let mut random = Random::new(2);
    let mut heights = [0; 65];
    let large = FAMILIES.iter().flat_map(|family| family.cases()).map(|case| case.automaton);
    let small = (1..=AUTOMATA).map(|seed| small_automaton(&mut Random::new(seed)).write());
    for file in small.chain(large) {
        let mut buffer = [7; PLAN];
        let Ok(Survey::Found { height, rows }) = engine::survey(&file, &mut buffer) else { continue };
        let room = random.from_to(TREE, TREE + 10);
        let letter = compare(&file, &buffer[..3 * rows], room, &mut random).expect("a letter");
        assert_eq!(engine::accepts(&file, &letter), Ok(Verdict::Accepted));
        compare(&file, &buffer[..3 * rows], letter.len(), &mut random).expect("a letter");
        compare(&file, &buffer[..3 * rows], letter.len() - 1, &mut random).expect_err("too short an output");
        heights[height] += 1;
    }
    println!("found at heights: {heights:?}");
    assert!(heights[0] > 100 && heights[1] > 100 && heights[2] > 10);
}

/// Plans by chance, every second one damaged, and some files of automata damaged too.
#[test]
fn others() {
    let mut random = Random::new(3);
    let mut counts = Counts::default();
    for seed in 1..=2 * AUTOMATA {
        let automaton = small_automaton(&mut random);
        let mut plan = by_chance(&automaton, &mut random);
        let mut file = automaton.write();
        if seed.is_multiple_of(2) {
            plan = damaged(plan, &mut random);
        }
        if seed.is_multiple_of(16) {
            damage(&mut file, &mut random);
        }
        let room = random.pick(&[TREE, TREE + 1, TREE, 512, 0, 1023]);
        counts.add(&compare(&file, &plan, room, &mut random));
    }
    println!("{counts:?}");
    assert!(
        counts.written > 100
            && counts.refused[13..].iter().enumerate().all(|(number, &count)| number == 1 || count > 100)
    );
}
