//! Judging by lazy determinization. A subtree's class is its overloops as a left part and as a right part. A part counts for its parent only by
//! what it does at the parent's symbol on its side, which is a row (left) or a column (right) of the symbol; row and column give the cell that
//! has the parent's class. All of these are found on first use and kept over the trees of a batch, so that in the end a node is one look-up.
//! There are two forms: with the sum of the growths of closing (document 02, W9), where a cell has the growths of its node too, and without.
use crate::{
    blocks::{BLOCK, CONTENT},
    configurations::Configurations,
    tables::{Done, Overloops, Table, LEFT_PART, RIGHT_PART, ROOT},
    tree::{self, Alphabet, MOST_HEIGHT},
    Judge, JudgeSums, Judged, Refusal, Verdict,
};
use std::{
    cell::RefCell,
    collections::HashMap,
    hash::{BuildHasherDefault, Hasher},
};

const CLASSES: usize = 2048;
const ROWS: usize = 2048;
/// The columns of a symbol; no power of two, so that rows do not fall into the same sets of the processor's cache. Nor is the next.
const WIDTH: usize = 272;
const STRIDE: usize = CLASSES + 16;
const SYMBOLS: usize = 32;
/// How many nodes of one tree may be computed before it is judged by search.
const MOST_NEW: usize = 512;
/// The most trees that go to the search at once after one that was not passed.
const MOST_WAIT: usize = 64;

/// A class in the lowest 16 bits, over it the height of a subtree that has it. Class 0 is none.
type Word = u32;
const CLASS: Word = 0xffff;
const LEVEL: Word = CLASS + 1;

/// The growth of a node as a left part in the lower half, and as a right part in the upper one.
type Growths = u32;

fn growths_of([left, right]: [usize; 2]) -> Growths {
    (right << 16 | left) as Growths
}

fn as_left(growths: Growths) -> usize {
    (growths & 0xffff) as usize
}

fn as_right(growths: Growths) -> usize {
    (growths >> 16) as usize
}

/// What a cell has as the root of a whole tree.
const ACCEPTED: u8 = 1;
const OTHER: u8 = 2;

/// Mixes the words of a key; on most ways to a class nothing is hashed.
#[derive(Default)]
struct Mixer(u64);

impl Hasher for Mixer {
    fn write(&mut self, bytes: &[u8]) {
        for part in bytes.chunks(8) {
            let word = part.iter().rev().fold(0, |word, &byte| word << 8 | u64::from(byte));
            self.0 = (self.0.rotate_left(23) ^ word).wrapping_mul(0x9e37_79b9_7f4a_7c15);
        }
    }

    fn finish(&self) -> u64 {
        self.0 ^ self.0 >> 32
    }
}

type Numbers<Key> = HashMap<Key, u32, BuildHasherDefault<Mixer>>;

/// What was found so far; 0 is "not known yet" everywhere, but for growths, which are known where the class or the root is.
struct Cache<const SUMS: bool> {
    /// The overloops of each class, as a left part and as a right part.
    classes: Vec<[Table; 2]>,
    class_numbers: Numbers<[Table; 2]>,
    /// What each row does, and each column of each symbol.
    rows: Vec<Done>,
    columns: [Vec<Done>; SYMBOLS],
    row_numbers: Numbers<(usize, Done)>,
    column_numbers: Numbers<(usize, Done)>,
    /// By symbol and class: where the cells of its row begin, and its column.
    row_of: Vec<u32>,
    column_of: Vec<u32>,
    /// By row and column: the class, and what a whole tree gets.
    cells: Vec<u16>,
    roots: Vec<u8>,
    leaves: [Word; SYMBOLS],
    /// The growths, in the form with sums: by row and column, as a part and as a whole tree, and of the leaves.
    growths: Vec<Growths>,
    root_growths: Vec<u16>,
    leaf_growths: [Growths; SYMBOLS],
    /// How many nodes of this tree may still be computed.
    left: usize,
    /// How many trees go to the search without a pass, and how many the last tree that was not passed sent there.
    waiting: usize,
    wait: usize,
}

/// The symbol of a root and the classes of its parts; in the form with sums, the growths of all nodes but the root.
struct Root(usize, Word, Word, usize);

/// Why a tree is not judged by classes: it may be one to refuse, or there are too many new classes.
enum Stopped {
    Off,
    Full,
}

impl<const SUMS: bool> Cache<SUMS> {
    fn new(tables: &Overloops<SUMS>, alphabet: Alphabet) -> Cache<SUMS> {
        let with_sums = if SUMS { ROWS * WIDTH } else { 0 };
        let mut cache = Cache {
            classes: vec![[[0; 24]; 2]],
            class_numbers: Numbers::default(),
            rows: vec![Done::default()],
            columns: std::array::from_fn(|_| vec![Done::default()]),
            row_numbers: Numbers::default(),
            column_numbers: Numbers::default(),
            row_of: vec![0; SYMBOLS * STRIDE],
            column_of: vec![0; SYMBOLS * STRIDE],
            cells: vec![0; ROWS * WIDTH],
            roots: vec![0; ROWS * WIDTH],
            leaves: [0; SYMBOLS],
            growths: vec![0; with_sums],
            root_growths: vec![0; with_sums],
            leaf_growths: [0; SYMBOLS],
            left: 0,
            waiting: 0,
            wait: 0,
        };
        for symbol in (0..alphabet.symbols).filter(|&symbol| !alphabet.is_branch(symbol as u8)) {
            let overloops = [LEFT_PART, RIGHT_PART].map(|place| tables.leaf(symbol, place));
            cache.leaves[symbol] = cache.class(overloops).expect("there is room for the leaves");
            cache.leaf_growths[symbol] =
                growths_of([LEFT_PART, RIGHT_PART].map(|place| tables.leaf_growth(symbol, place)));
        }
        cache
    }

    /// The number of a class, which may be a new one.
    fn class(&mut self, overloops: [Table; 2]) -> Option<Word> {
        if let Some(&number) = self.class_numbers.get(&overloops) {
            return Some(number);
        }
        let number = self.classes.len();
        (number < CLASSES).then(|| {
            self.classes.push(overloops);
            self.class_numbers.insert(overloops, number as u32);
            number as u32
        })
    }

    /// Where the cells of a left part begin at a symbol.
    fn row(&mut self, tables: &Overloops<SUMS>, symbol: usize, class: usize) -> Option<usize> {
        let at = symbol * STRIDE + class;
        if self.row_of[at] == 0 {
            let done = tables.done_left(symbol, &self.classes[class][0]);
            let number = *self.row_numbers.entry((symbol, done)).or_insert(self.rows.len() as u32) as usize;
            if number == ROWS {
                return None;
            }
            if number == self.rows.len() {
                self.rows.push(done);
            }
            self.row_of[at] = (WIDTH * number) as u32;
        }
        Some(self.row_of[at] as usize)
    }

    /// The column of a right part at a symbol.
    fn column(&mut self, tables: &Overloops<SUMS>, symbol: usize, class: usize) -> Option<usize> {
        let at = symbol * STRIDE + class;
        if self.column_of[at] == 0 {
            let done = tables.done_right(symbol, &self.classes[class][1]);
            let columns = &mut self.columns[symbol];
            let number = *self.column_numbers.entry((symbol, done)).or_insert(columns.len() as u32) as usize;
            if number == WIDTH {
                return None;
            }
            if number == columns.len() {
                columns.push(done);
            }
            self.column_of[at] = number as u32;
        }
        Some(self.column_of[at] as usize)
    }

    /// The cell of a node over two parts, with its row and column.
    fn cell(
        &mut self,
        tables: &Overloops<SUMS>,
        symbol: usize,
        [left, right]: [Word; 2],
    ) -> Result<[usize; 2], Stopped> {
        let [left, right] = [left & CLASS, right & CLASS].map(|class| class as usize);
        if left == 0 || right == 0 {
            return Err(Stopped::Off);
        }
        let row = self.row(tables, symbol, left).ok_or(Stopped::Full)?;
        Ok([row, self.column(tables, symbol, right).ok_or(Stopped::Full)?])
    }

    /// The class of a node that the look-up did not find.
    #[cold]
    #[inline(never)]
    fn find(&mut self, tables: &Overloops<SUMS>, symbol: usize, parts: [Word; 2]) -> Result<Word, Stopped> {
        let [row, column] = self.cell(tables, symbol, parts)?;
        if self.cells[row + column] == 0 {
            self.left = self.left.checked_sub(1).ok_or(Stopped::Full)?;
            let parts = [&self.rows[row / WIDTH], &self.columns[symbol][column]];
            let mut grown = [0; 2];
            let overloops = [LEFT_PART, RIGHT_PART]
                .map(|place| tables.node_of(symbol, place, parts, &mut grown[place - LEFT_PART]));
            self.cells[row + column] = self.class(overloops).ok_or(Stopped::Full)? as u16;
            if SUMS {
                self.growths[row + column] = growths_of(grown);
            }
        }
        Ok(self.cells[row + column].into())
    }

    /// Passes over all nodes but the root, from the last one back. The stack has the words of the subtrees that are whole and have no parent
    /// yet, the next one on top, over a word for none; its two top words are at hand as well. A tree that closes too soon or not at all
    /// meets a part that is none, or leaves a stack of another depth. For the sum, a node is a left part exactly where the one before it is a
    /// branch, so that its growths wait for that one.
    fn pass(&mut self, tables: &Overloops<SUMS>, branches: u32, file: &[u8], nodes: usize) -> Result<Root, Stopped> {
        let mut stack = [0; MOST_HEIGHT + 2];
        let (mut first, mut second, mut deep) = (0, 0, 0);
        let (mut sum, mut waiting) = (0, 0);
        for piece in pieces(file, nodes, 1).rev() {
            for &symbol in piece.iter().rev() {
                let symbol = usize::from(symbol) % SYMBOLS;
                if branches >> symbol & 1 == 1 {
                    let [left, right] = [first, second].map(|word| symbol * STRIDE + (word & CLASS) as usize);
                    let mut cell = (self.row_of[left] + self.column_of[right]) as usize;
                    let mut class = self.cells[cell].into();
                    if class == 0 {
                        class = self.find(tables, symbol, [first, second])?;
                        if SUMS {
                            cell = (self.row_of[left] + self.column_of[right]) as usize;
                        }
                    }
                    if SUMS {
                        sum += as_left(waiting);
                        waiting = self.growths[cell];
                    }
                    first = (first.max(second) & !CLASS) + LEVEL + class;
                    deep -= 1;
                    stack[deep] = first;
                    second = stack[deep - 1];
                } else {
                    if SUMS {
                        sum += as_right(waiting);
                        waiting = self.leaf_growths[symbol];
                    }
                    deep += 1;
                    second = first;
                    first = self.leaves[symbol];
                    *stack.get_mut(deep).ok_or(Stopped::Off)? = first;
                }
            }
        }
        let symbol = usize::from(file[4]);
        let whole = deep == if branches >> symbol & 1 == 1 { 2 } else { 0 };
        let low = first.max(second) < MOST_HEIGHT as Word * LEVEL;
        if whole && low {
            Ok(Root(symbol, first, second, sum + as_left(waiting)))
        } else {
            Err(Stopped::Off)
        }
    }

    /// Whether a whole tree is accepted, and the sum of the growths, or 0 in the form without sums.
    fn accepts(
        &mut self,
        tables: &Overloops<SUMS>,
        Root(symbol, left, right, sum): Root,
    ) -> Result<(bool, usize), Stopped> {
        if left == 0 {
            return Ok((tables.accepts_leaf(symbol), tables.leaf_growth(symbol, ROOT)));
        }
        let [row, column] = self.cell(tables, symbol, [left, right])?;
        let cell = row + column;
        if self.roots[cell] == 0 {
            let mut growth = 0;
            let parts = [&self.rows[row / WIDTH], &self.columns[symbol][column]];
            let accepted = tables.accepts_over(symbol, parts, &mut growth);
            self.roots[cell] = if accepted { ACCEPTED } else { OTHER };
            if SUMS {
                self.root_growths[cell] = growth as u16;
            }
        }
        let growth = if SUMS { sum + usize::from(self.root_growths[cell]) } else { 0 };
        Ok((self.roots[cell] == ACCEPTED, growth))
    }
}

/// The nodes from `skipped` on, block by block.
fn pieces(file: &[u8], nodes: usize, skipped: usize) -> impl DoubleEndedIterator<Item = &[u8]> {
    let blocks = file.chunks_exact(BLOCK).enumerate();
    blocks.map(move |(number, block)| {
        let begin = if number == 0 { 4 + skipped } else { 0 };
        &block[begin..(4 + nodes - number * CONTENT).min(CONTENT)]
    })
}

/// An automaton, prepared for judging, with what was found of its classes so far; with the sum of the growths or without.
pub struct Classes<const SUMS: bool> {
    alphabet: Alphabet,
    tables: Overloops<SUMS>,
    search: Configurations,
    cache: RefCell<Cache<SUMS>>,
}

/// Without the sums, and with them.
pub type Lazy = Classes<false>;
pub type LazySums = Classes<true>;

impl<const SUMS: bool> Classes<SUMS> {
    pub fn prepare(file: &[u8]) -> Result<Self, Refusal> {
        let (tables, search) = (Overloops::prepare(file)?, Configurations::prepare(file)?);
        let alphabet = tables.alphabet();
        let cache = RefCell::new(Cache::new(&tables, alphabet));
        Ok(Classes { alphabet, tables, search, cache })
    }

    /// Whether a tree is accepted, by classes, and the sum. Lines 1 to 6 and 10 are looked at before the pass, which establishes 11 and 12.
    fn accepts(&self, cache: &mut Cache<SUMS>, file: &[u8]) -> Result<(bool, usize), Stopped> {
        let nodes = tree::framed(file).ok_or(Stopped::Off)?;
        let highest = pieces(file, nodes, 0).flatten().fold(0, |highest, &symbol| symbol.max(highest));
        if usize::from(highest) >= self.alphabet.symbols {
            return Err(Stopped::Off);
        }
        cache.left = MOST_NEW;
        let root = cache.pass(&self.tables, self.alphabet.branches, file, nodes)?;
        cache.accepts(&self.tables, root)
    }

    /// Sends this tree and the next ones elsewhere, more of them each time; a cache that is full begins anew.
    fn give_way(&self, cache: &mut Cache<SUMS>) {
        let wait = (2 * cache.wait + 1).min(MOST_WAIT);
        if cache.left > 0 {
            *cache = Cache::new(&self.tables, self.alphabet);
        }
        (cache.wait, cache.waiting) = (wait, wait);
    }

    /// Whether a tree is accepted, and the sum; nothing where the pass does not judge it.
    fn passed(&self, file: &[u8]) -> Option<(bool, usize)> {
        let cache = &mut self.cache.borrow_mut();
        if cache.waiting > 0 {
            cache.waiting -= 1;
            return None;
        }
        match self.accepts(cache, file) {
            Ok(answer) => {
                cache.wait = 0;
                Some(answer)
            }
            Err(Stopped::Off) => None,
            Err(Stopped::Full) => {
                self.give_way(cache);
                None
            }
        }
    }
}

impl Judge for Lazy {
    /// What the pass does not judge goes to the search, with the exact reader.
    fn judge(&self, file: &[u8]) -> Verdict {
        match self.passed(file) {
            Some((accepted, _)) => Verdict::of(accepted),
            None => self.search.judge(file),
        }
    }
}

impl JudgeSums for LazySums {
    /// What the pass does not judge goes to the tables, with the exact reader.
    fn judge_sums(&self, file: &[u8]) -> Judged {
        self.passed(file).map_or_else(|| self.tables.judge_sums(file), Judged::of)
    }
}
