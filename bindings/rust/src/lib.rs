//! The engine for tree-walking automata, from its static library: judging one tree and many, with the growth of closing or without, the survey and
//! its plan's tree, the quick check, single, the one form of an automaton's file, element texts as trees' files, watching a run, two logs held
//! together, the tally, and the report.
//! Files are given as their bytes; every input is answered, a bad file by its refusal. Calls share nothing, and may be made by any number
//! of threads; `bindings/engine.h` says how much stack each takes.
// The functions as they are, for the tests: what they write, and what they leave.
#[doc(hidden)]
pub mod declared;

use declared::Told;

/// The most bytes that an automaton's file has.
pub const AUTOMATON: usize = 3072;

/// The most bytes that a tree's file has.
pub const TREE: usize = 4608;

/// The most bytes that an element text has.
pub const TEXT: usize = 32768;

/// The most bytes that a plan takes, and the fewest that the survey accepts as a buffer.
pub const PLAN: usize = 195;

/// The most steps that a budget may have.
pub const BUDGET: usize = 20_000;

/// Which file a refusal is about.
#[derive(Clone, Copy, Debug, PartialEq, Eq)]
pub enum File {
    Automaton,
    Tree,
    Neither,
}

/// Why an input was refused: the number of a line of document 01's table or of document 02's requests, the file, and the place that the line names.
#[derive(Clone, Copy, Debug, PartialEq, Eq)]
pub struct Refusal {
    pub number: u32,
    pub file: File,
    pub place: usize,
}

/// What judging says of a tree.
#[derive(Clone, Copy, Debug, PartialEq, Eq)]
pub enum Verdict {
    Accepted,
    Other,
}

/// What judging says of a tree, with the growth of closing: over all nodes, the pairs of states that the closed table of the node has and the given
/// one lacks; at most 576 a node. The given table has the pairs (p, q) of a rule that stays, from p to q, and of a rule down from p to p' and a crossing
/// (p', q) of that part; the closed one has these, every (p, p), and (p, q) wherever a chain of given pairs leads from p to q.
#[derive(Clone, Copy, Debug, PartialEq, Eq)]
pub struct Judged {
    pub verdict: Verdict,
    pub growth: usize,
}

/// What the survey says of an automaton: a tree of this height is accepted, and the plan has so many rows of three bytes; too many classes
/// of trees at this height; or no tree of any size is accepted.
#[derive(Clone, Copy, Debug, PartialEq, Eq)]
pub enum Survey {
    Found { height: usize, rows: usize },
    Open { height: usize },
    Empty { height: usize },
}

/// What the quick check says of an automaton: no tree is accepted, or that is not known.
#[derive(Clone, Copy, Debug, PartialEq, Eq)]
pub enum Quick {
    Clear,
    Unsure,
}

/// How a run ended, and the steps that it made: at the root in a final state, so that the tree is accepted; where no rule applies, or after
/// nodes times states steps, which come back to where it was, so that it is not accepted; or by its budget, which does not tell.
#[derive(Clone, Copy, Debug, PartialEq, Eq)]
pub enum Watched {
    Passed { steps: usize },
    Stuck { steps: usize },
    Circling { steps: usize },
    Spent { steps: usize },
}

/// What two logs held together tell: the part in which they agree, which is the front of the first log itself, and how many entries from the start
/// of each are a run: the root in a start state, then each reached from the one before by a rule.
#[derive(Clone, Copy, Debug, PartialEq, Eq)]
pub struct Compared<'a> {
    pub part: &'a [u8],
    pub first: usize,
    pub second: usize,
}

/// What became of a tree, to be counted.
#[derive(Clone, Copy, Debug, PartialEq, Eq)]
pub enum Outcome {
    Accepted,
    Other,
    Refused,
}

/// How many trees were accepted, judged and not accepted, and refused.
#[derive(Clone, Copy, Debug, Default, PartialEq, Eq)]
pub struct Tally {
    pub accepted: u32,
    pub other: u32,
    pub refused: u32,
}

impl Refusal {
    fn of([number, file, place]: Told) -> Refusal {
        let file = match file {
            0 => File::Automaton,
            1 => File::Tree,
            _ => File::Neither,
        };
        Refusal { number: number as u32, file, place }
    }
}

impl From<Result<Verdict, Refusal>> for Outcome {
    fn from(answer: Result<Verdict, Refusal>) -> Outcome {
        match answer {
            Ok(Verdict::Accepted) => Outcome::Accepted,
            Ok(Verdict::Other) => Outcome::Other,
            Err(_) => Outcome::Refused,
        }
    }
}

impl From<Result<Judged, Refusal>> for Outcome {
    fn from(answer: Result<Judged, Refusal>) -> Outcome {
        answer.map(|judged| judged.verdict).into()
    }
}

/// Whether an automaton's file accepts a tree's file, with the growth of closing.
pub fn judge(automaton: &[u8], tree: &[u8]) -> Result<Judged, Refusal> {
    let mut growth = [0];
    let verdict = told_verdict(declared::judge(automaton, tree, &mut growth))?;
    Ok(Judged { verdict, growth: growth[0] })
}

/// The verdict that `judge` gives, or its refusal. This is faster, a search over configurations.
pub fn accepts(automaton: &[u8], tree: &[u8]) -> Result<Verdict, Refusal> {
    told_verdict(declared::accepts(automaton, tree))
}

/// What `judge` answers of each of some trees' files, end to end, in their order: a file's first block gives its length; refusals 1 to 4, and trees
/// that stop inside a file, are the last answer. One call with many files is faster than many calls.
pub fn judge_all(automaton: &[u8], trees: &[u8]) -> Result<Vec<Result<Judged, Refusal>>, Refusal> {
    let mut growths = vec![0; most_files(trees)];
    let verdicts = verdicts(automaton, trees, &mut growths)?;
    let judged = |(answer, growth): (Result<Verdict, Refusal>, usize)| Ok(Judged { verdict: answer?, growth });
    Ok(verdicts.into_iter().zip(growths).map(judged).collect())
}

/// What `accepts` answers of each of some trees' files, end to end, as `judge_all` takes them. This is faster than with the growth.
pub fn accepts_all(automaton: &[u8], trees: &[u8]) -> Result<Vec<Result<Verdict, Refusal>>, Refusal> {
    verdicts(automaton, trees, &mut [])
}

/// The most files that so many bytes are.
fn most_files(trees: &[u8]) -> usize {
    trees.len() / 512 + 1
}

/// The verdicts on trees' files, end to end, and the growths of as many as there is room for.
fn verdicts(automaton: &[u8], trees: &[u8], growths: &mut [usize]) -> Result<Vec<Result<Verdict, Refusal>>, Refusal> {
    let mut numbers = vec![0; 3 * most_files(trees)];
    match declared::judge_all(automaton, trees, &mut numbers, growths) {
        (0, [files, ..]) => Ok(numbers.chunks_exact(3).take(files).map(answer).collect()),
        (_, told) => Err(Refusal::of(told)),
    }
}

/// An answer by its number, and what was told with it.
fn told_verdict(answer: (u32, Told)) -> Result<Verdict, Refusal> {
    match answer {
        (0, _) => Ok(Verdict::Accepted),
        (1, _) => Ok(Verdict::Other),
        (_, told) => Err(Refusal::of(told)),
    }
}

/// An answer by its three numbers.
fn answer(numbers: &[usize]) -> Result<Verdict, Refusal> {
    match numbers[0] {
        0 => Ok(Verdict::Accepted),
        1 => Ok(Verdict::Other),
        _ => Err(Refusal { number: numbers[1] as u32, file: File::Tree, place: numbers[2] }),
    }
}

/// Looks for a tree that an automaton's file accepts. Where one is found, the plan's rows go to the front of the buffer: symbol, left row,
/// right row, and 255 255 for a leaf.
pub fn survey(file: &[u8], plan: &mut [u8]) -> Result<Survey, Refusal> {
    match declared::survey(file, plan) {
        (0, [height, rows, _]) => Ok(Survey::Found { height, rows }),
        (1, [height, ..]) => Ok(Survey::Open { height }),
        (2, [height, ..]) => Ok(Survey::Empty { height }),
        (_, told) => Err(Refusal::of(told)),
    }
}

/// The tree that a plan builds, for an automaton's file, as a tree's file at the front of the output; its length. Later bytes stay, and a call
/// that is refused changes none. No output of `TREE` bytes is too short.
pub fn witness(file: &[u8], plan: &[u8], out: &mut [u8]) -> Result<usize, Refusal> {
    match declared::witness(file, plan, out) {
        (0, [length, ..]) => Ok(length),
        (_, told) => Err(Refusal::of(told)),
    }
}

/// The quick check of an automaton's file.
pub fn quick(file: &[u8]) -> Result<Quick, Refusal> {
    match declared::quick(file) {
        (0, _) => Ok(Quick::Clear),
        (1, _) => Ok(Quick::Unsure),
        (_, told) => Err(Refusal::of(told)),
    }
}

/// Whether an automaton's file has at most one rule for each symbol, state and place: a rule with place 3 is one at each of its places, and equal
/// rules are one rule.
pub fn single(file: &[u8]) -> Result<bool, Refusal> {
    match declared::single(file) {
        (0, _) => Ok(true),
        (1, _) => Ok(false),
        (_, told) => Err(Refusal::of(told)),
    }
}

/// An automaton's file in its one form, at the front of the output; its length. The form has the same counts of states and symbols, the same three
/// sets, and the rules with place 3 spread over places 0, 1 and 2, equal ones once, in rising order of their five bytes. Later bytes stay, and a
/// call that is refused changes none. No output of `AUTOMATON` bytes is too short.
pub fn canonical(file: &[u8], out: &mut [u8]) -> Result<usize, Refusal> {
    match declared::canonical(file, out) {
        (0, [length, ..]) => Ok(length),
        (_, told) => Err(Refusal::of(told)),
    }
}

/// The tree of an element text, for an automaton's file, as a tree's file at the front of the output; its length. A text is one or more elements,
/// an element is `<n>`, elements or none, and `</n>`, with n from 0 to 99; spaces, tabs and line ends may stand around tags. An element is a
/// branch over what stands inside it and what follows it; where nothing stands there is a leaf of symbol 0. Later bytes stay, and a call that is
/// refused changes none. No output of `TREE` bytes is too short.
pub fn markup(file: &[u8], text: &[u8], out: &mut [u8]) -> Result<usize, Refusal> {
    match declared::markup(file, text, out) {
        (0, [length, ..]) => Ok(length),
        (_, told) => Err(Refusal::of(told)),
    }
}

/// Follows the one run of a single automaton with one start state on a tree, by their files, for at most as many steps as the budget has. Each
/// position is logged at the front of `log`, three bytes an entry: the node, its number in preorder, low byte first, and the state. There is one
/// entry more than steps; later bytes stay, and a call that is refused changes none. A log of 3 * (budget + 1) bytes is not too short.
pub fn watch(automaton: &[u8], tree: &[u8], budget: usize, log: &mut [u8]) -> Result<Watched, Refusal> {
    match declared::watch(automaton, tree, budget, log) {
        (0, [steps, ..]) => Ok(Watched::Passed { steps }),
        (1, [steps, ..]) => Ok(Watched::Stuck { steps }),
        (2, [steps, ..]) => Ok(Watched::Circling { steps }),
        (3, [steps, ..]) => Ok(Watched::Spent { steps }),
        (_, told) => Err(Refusal::of(told)),
    }
}

/// Holds two logs of an automaton on a tree together, by their files; the automaton need not be single. An entry is three bytes, as `watch` logs
/// them. A log may have any number of entries, and the two may be one and the same.
pub fn compare<'a>(automaton: &[u8], tree: &[u8], first: &'a [u8], second: &[u8]) -> Result<Compared<'a>, Refusal> {
    match declared::compare(automaton, tree, first, second) {
        (0, [length, one, other], _) => Ok(Compared { part: &first[..length], first: one, second: other }),
        (_, _, told) => Err(Refusal::of(told)),
    }
}

/// A call on the three numbers of a tally, which answers 0 or a refusal.
fn on_numbers(tally: &mut Tally, call: impl FnOnce(&mut [u32; 3]) -> (u32, [usize; 3])) -> Result<(), Refusal> {
    let mut numbers = [tally.accepted, tally.other, tally.refused];
    let answer = call(&mut numbers);
    let [accepted, other, refused] = numbers;
    *tally = Tally { accepted, other, refused };
    match answer {
        (0, _) => Ok(()),
        (_, told) => Err(Refusal::of(told)),
    }
}

/// Counts one outcome more; a tally that is full stays as it was, and refusal 14 is the answer.
pub fn count(tally: &mut Tally, outcome: Outcome) -> Result<(), Refusal> {
    on_numbers(tally, |numbers| declared::count(numbers, outcome as u32))
}

/// The percent of accepted trees among those judged, to the nearest, a half to the even number; 0 where none was judged.
pub fn percent(tally: Tally) -> u32 {
    declared::percent(tally)
}

/// Counts trees' files end to end, by an automaton's file, onto a tally. (Document 01's batch: a file's first block gives its length;
/// refusals 1 to 4, and trees that stop inside a file, count one refused and are the end; a full tally is the end.) Where the automaton's
/// file is refused the tally stays as it was.
pub fn tally(automaton: &[u8], trees: &[u8], tally: &mut Tally) -> Result<(), Refusal> {
    on_numbers(tally, |numbers| declared::tally(automaton, trees, numbers))
}

/// The report's text on an automaton's file and trees' files end to end: document 01's lines, in ASCII.
pub fn report(automaton: &[u8], trees: &[u8]) -> Vec<u8> {
    declared::report(automaton, trees)
}
