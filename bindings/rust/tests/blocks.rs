//! The check of the blocks, as document 01 has it, by what the engine says of files: every bit of the largest files changed alone; and trees'
//! files by chance, of one to nine blocks, each as it is and damaged, beside the implementation in Rust.
use bench::{
    automaton::{Automaton, Rule, EVERY_PLACE, LEFT, RIGHT, UP},
    blocks::{self, BLOCK, CONTENT},
    configurations::Configurations,
    families::{Family, BRANCHES},
    random::Random,
    shapes::{self, Shape, SHAPES},
    tree::{self, MOST_HEIGHT},
    Judge,
};
use engine::{accepts, canonical, quick, single, File, Refusal, Verdict, AUTOMATON, TREE};
use std::fmt::Debug;

const TREES: u64 = 4000;
/// The words of a block's content.
const WORDS: usize = 127;
const SUMS: u8 = 7;

/// Goes through a tree from left to right with a sum modulo 7, which each node doubles before it adds its symbol: the verdict hangs on every node
/// and on their order. A state is a phase (arriving, back from the left part, back from the right part) and a sum; 0 and 1 are the branches.
fn automaton() -> Automaton {
    let state = |phase: u8, sum: u8| phase * SUMS + sum;
    let mut rules = Vec::new();
    for (symbol, sum) in (0..4).flat_map(|symbol| (0..SUMS).map(move |sum| (symbol, sum))) {
        let added = (2 * sum + symbol) % SUMS;
        let (done, told) = if symbol < 2 {
            rules.push([symbol, state(0, sum), EVERY_PLACE, LEFT, state(0, added)]);
            rules.push([symbol, state(1, sum), EVERY_PLACE, RIGHT, state(0, sum)]);
            (state(2, sum), sum)
        } else {
            (state(0, sum), added)
        };
        rules.push([symbol, done, 1, UP, state(1, told)]);
        rules.push([symbol, done, 2, UP, state(2, told)]);
    }
    let accepting = [1, 3, 5].map(|sum| 1 << state(2, sum)).iter().sum();
    let rules = rules.into_iter().map(Rule::from_bytes).collect();
    Automaton { states: 21, symbols: 4, initial: 1, accepting, branches: 3, rules }
}

// ---- every bit

/// A file is good, and with any one bit changed, of the contents or of the checks, it is refused by the check of that bit's block.
#[track_caller]
fn each_bit<T: Debug + PartialEq>(file: &[u8], which: File, answer: impl Fn(&[u8]) -> Result<T, Refusal>) {
    assert!(answer(file).is_ok());
    let mut damaged = file.to_vec();
    for (at, bit) in (0..file.len()).flat_map(|at| (0..8).map(move |bit| (at, bit))) {
        damaged[at] ^= 1 << bit;
        let refusal = Refusal { number: 2, file: which, place: at / BLOCK };
        assert_eq!(answer(&damaged), Err(refusal), "bit {bit} of byte {at}");
        damaged[at] ^= 1 << bit;
    }
}

#[test]
fn bits_of_a_tree() {
    let automaton = automaton();
    let symbols = shapes::tree(&automaton, Shape::Full, BRANCHES, MOST_HEIGHT, &mut Random::new(1));
    let (automaton, file) = (automaton.write(), tree::write(&symbols));
    assert_eq!(file.len(), 9 * BLOCK);
    each_bit(&file, File::Tree, |file| accepts(&automaton, file));
}

#[test]
fn bits_of_an_automaton() {
    let file = Family::named("sparse").expect("the family is there").cases().remove(0).automaton;
    let leaf = tree::write(&[31]);
    assert_eq!(file.len(), 6 * BLOCK);
    each_bit(&file, File::Automaton, quick);
    each_bit(&file, File::Automaton, single);
    each_bit(&file, File::Automaton, |file| canonical(file, &mut [0; AUTOMATON]));
    each_bit(&file, File::Automaton, |file| accepts(file, &leaf));
}

// ---- files by chance

/// The answers: accepted, other, refused by line 2, refused by another line.
const ACCEPTED: usize = 0;
const OTHER: usize = 1;
const CHECK: usize = 2;
const LINE: usize = 3;

/// Something that is done to a tree's file, with its name, and the answers that come then; no other comes.
type Damage = (&'static str, fn(&mut Vec<u8>, &mut Random), &'static [usize]);

const DAMAGE: [Damage; 11] = [
    ("a bit", |file, random| change_bit(file, random), &[CHECK]),
    ("words swapped", |file, random| swap_words(file, random), &[ACCEPTED, OTHER, LINE]),
    ("raised and lowered", |file, random| raise_and_lower(file, random), &[ACCEPTED, OTHER, LINE]),
    ("blocks swapped", |file, random| swap_blocks(file, random), &[ACCEPTED, OTHER, CHECK]),
    ("no number", |file, random| recheck(file, random, |_| 1, WORDS), &[ACCEPTED, OTHER, CHECK]),
    ("no one", |file, random| recheck(file, random, |block| block, WORDS), &[CHECK]),
    ("124 words", |file, random| recheck(file, random, |block| block + 1, 124), &[ACCEPTED, OTHER, CHECK]),
    ("128 words", |file, random| recheck(file, random, |block| block + 1, 128), &[CHECK]),
    ("filler", fill, &[LINE]),
    ("offset 1", |file, random| set_offset(file, 1, random), &[LINE]),
    ("a block more", add_block, &[LINE]),
];

/// One of the file's blocks.
fn some_block(file: &[u8], random: &mut Random) -> usize {
    random.below(file.len() / BLOCK)
}

/// Two different words of one block's content, by their offsets in the file.
fn two_words(file: &[u8], random: &mut Random) -> [usize; 2] {
    let block = some_block(file, random);
    let words = random.shuffled(WORDS);
    [words[0], words[1]].map(|word| BLOCK * block + 4 * word)
}

fn word_at(file: &[u8], at: usize) -> u32 {
    u32::from_le_bytes([file[at], file[at + 1], file[at + 2], file[at + 3]])
}

fn set_word(file: &mut [u8], at: usize, word: u32) {
    file[at..at + 4].copy_from_slice(&word.to_le_bytes());
}

fn change_bit(file: &mut [u8], random: &mut Random) {
    let at = random.below(file.len());
    file[at] ^= 1 << random.below(8);
}

/// Two words of a block, whose check stays right.
fn swap_words(file: &mut [u8], random: &mut Random) {
    let [one, other] = two_words(file, random);
    let (first, second) = (word_at(file, one), word_at(file, other));
    set_word(file, one, second);
    set_word(file, other, first);
}

/// Two words of a block, by the same number, so that its check stays right: mostly one that changes two nodes by 1.
fn raise_and_lower(file: &mut [u8], random: &mut Random) {
    let [one, other] = two_words(file, random);
    let number = if random.below(4) == 0 { random.below(1 << 32) as u32 } else { 1 << (8 * random.below(4)) };
    let (raised, lowered) = (word_at(file, one).wrapping_add(number), word_at(file, other).wrapping_sub(number));
    set_word(file, one, raised);
    set_word(file, other, lowered);
}

/// Two different ones, with their checks; a file of one block stays.
fn swap_blocks(file: &mut [u8], random: &mut Random) {
    if let [one, other, ..] = random.shuffled(file.len() / BLOCK)[..] {
        let (low, high) = file.split_at_mut(BLOCK * one.max(other));
        low[BLOCK * one.min(other)..][..BLOCK].swap_with_slice(&mut high[..BLOCK]);
    }
}

/// Another check for a block: what `first` makes of its number, and so many words. (The 128th is the check that was there.)
fn recheck(file: &mut [u8], random: &mut Random, first: fn(u32) -> u32, words: usize) {
    let block = some_block(file, random);
    let added = (0..words).map(|word| word_at(file, BLOCK * block + 4 * word));
    let check = added.fold(first(block as u32), u32::wrapping_add);
    set_word(file, BLOCK * block + CONTENT, check);
}

/// Puts another number than 0 at an offset of the contents, with the right check.
fn set_offset(file: &mut Vec<u8>, offset: usize, random: &mut Random) {
    let mut contents = blocks::join(file, TREE).expect("its checks are right");
    contents[offset] = random.from_to(1, 255) as u8;
    *file = blocks::write(&contents);
}

/// One byte of the filler. (There is some: the number of nodes is odd, and so is that of bytes in use.)
fn fill(file: &mut Vec<u8>, random: &mut Random) {
    let nodes = usize::from(u16::from_le_bytes([file[2], file[3]]));
    let offset = random.from_to(4 + nodes, file.len() / BLOCK * CONTENT - 1);
    set_offset(file, offset, random);
}

/// One of zeros, with the right check.
fn add_block(file: &mut Vec<u8>, _: &mut Random) {
    let number = file.len() / BLOCK;
    file.resize(file.len() + CONTENT, 0);
    file.extend((number as u32 + 1).to_le_bytes());
}

/// A good file of one to nine blocks, each as likely as another.
fn some_tree(automaton: &Automaton, random: &mut Random) -> Vec<u8> {
    let before = CONTENT * random.below(9);
    let in_use = random.from_to((before + 1).max(5), (before + CONTENT).min(4 + tree::MOST_NODES));
    let shape = random.pick(&SHAPES);
    tree::write(&shapes::tree(automaton, shape, (in_use - 5) / 2, MOST_HEIGHT, random))
}

/// What judging has to say.
fn judged(automaton: &Configurations, file: &[u8]) -> Result<Verdict, Refusal> {
    match automaton.judge(file) {
        bench::Verdict::Accepted => Ok(Verdict::Accepted),
        bench::Verdict::Other => Ok(Verdict::Other),
        bench::Verdict::Refused(bench::Refusal { number, place }) => Err(Refusal { number, file: File::Tree, place }),
    }
}

/// How often each answer was given: of good files, and of each damage. Of the damaged files, how many have the other verdict; and the blocks of
/// wrong checks.
#[derive(Debug, Default)]
struct Counts {
    good: [usize; 4],
    damaged: [[usize; 4]; DAMAGE.len()],
    turned: usize,
    blocks: [usize; 9],
}

fn number_of(answer: Result<Verdict, Refusal>) -> usize {
    match answer {
        Ok(Verdict::Accepted) => ACCEPTED,
        Ok(Verdict::Other) => OTHER,
        Err(Refusal { number: 2, .. }) => CHECK,
        Err(_) => LINE,
    }
}

impl Counts {
    fn add(&mut self, good: Result<Verdict, Refusal>, damage: usize, damaged: Result<Verdict, Refusal>) {
        self.good[number_of(good)] += 1;
        self.damaged[damage][number_of(damaged)] += 1;
        self.turned += usize::from(damaged.is_ok() && damaged != good);
        if let Err(Refusal { number: 2, place, .. }) = damaged {
            self.blocks[place] += 1;
        }
    }

    /// Each answer that comes came often enough.
    fn assert_all(&self) {
        println!("good: {:?}, turned: {}, blocks: {:?}", self.good, self.turned, self.blocks);
        assert!(self.good[ACCEPTED] > 1000 && self.good[OTHER] > 1000 && self.good[CHECK] + self.good[LINE] == 0);
        for ((name, _, answers), counts) in DAMAGE.iter().zip(self.damaged) {
            println!("{name}: {counts:?}");
            for (answer, count) in counts.into_iter().enumerate() {
                assert!(if answers.contains(&answer) { count > 10 } else { count == 0 }, "{name}: {counts:?}");
            }
        }
        assert!(self.turned > 10 && self.blocks.iter().all(|&count| count > 10));
    }
}

#[test]
fn files_by_chance() {
    let automaton = automaton();
    let file = automaton.write();
    let in_rust = Configurations::prepare(&file).expect("it is a good file");
    let mut counts = Counts::default();
    for seed in 1..=TREES {
        let mut random = Random::new(seed);
        let mut tree = some_tree(&automaton, &mut random);
        let good = accepts(&file, &tree);
        assert_eq!(good, judged(&in_rust, &tree), "tree {seed}");
        let which = seed as usize % DAMAGE.len();
        let (name, damage, _) = DAMAGE[which];
        damage(&mut tree, &mut random);
        let damaged = accepts(&file, &tree);
        assert_eq!(damaged, judged(&in_rust, &tree), "tree {seed}, {name}");
        counts.add(good, which, damaged);
    }
    counts.assert_all();
}
