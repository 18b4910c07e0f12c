//! Judging, with the growth of closing and without, the survey, the quick check, single, the one form and the percent in Rust, written from documents
//! 01 and 02 alone; and the measuring of judging, the survey, the quick check, single, the one form and reading: the engine beside these. One call
//! takes the bytes of an automaton's file and of trees' files end to end, and gives the tally, with the sum of the growths or without; or the bytes of an automaton's file, and gives the survey's verdict and
//! plan, the quick check's answer, or the file in its one form; or the bytes of a tree's file, and gives the block whose check is wrong, or the
//! nodes. `stream` measures whole programs.
pub mod agreement;
pub mod automaton;
pub mod batch;
mod batches;
pub mod blocks;
mod calls;
pub mod canonical;
pub mod compare;
#[cfg(feature = "engine")]
mod compares;
pub mod configurations;
#[cfg(feature = "earlier")]
pub mod earlier;
#[cfg(feature = "engine")]
mod engine;
pub mod families;
#[cfg(feature = "engine")]
mod forms;
#[cfg(feature = "engine")]
mod growths;
mod judges;
pub mod lazy;
pub mod logs;
pub mod markup;
mod measure;
#[cfg(feature = "engine")]
mod parts;
mod plain;
pub mod quick;
#[cfg(feature = "engine")]
mod quicks;
pub mod random;
#[cfg(feature = "engine")]
mod reads;
mod report;
pub mod shapes;
#[cfg(feature = "engine")]
mod singles;
pub mod stream;
mod sums;
pub mod survey;
#[cfg(feature = "engine")]
mod surveys;
pub mod tables;
#[cfg(feature = "engine")]
mod texts;
pub mod tree;
pub mod watch;
#[cfg(feature = "engine")]
mod watches;

/// Why an input is refused: the number of the line of document 01's table or of document 02's requests, and the place that the line names.
#[derive(Clone, Copy, Debug, PartialEq, Eq)]
pub struct Refusal {
    pub number: u32,
    pub place: usize,
}

/// The refusal by a line of the table, at a place.
fn refused<T>(number: u32, place: usize) -> Result<T, Refusal> {
    Err(Refusal { number, place })
}

/// A refusal and the file that it is about: 0 the automaton's, 1 the tree's, 2 neither.
#[derive(Clone, Copy, Debug, PartialEq, Eq)]
pub struct Refused {
    pub file: u8,
    pub refusal: Refusal,
}

/// The refusal by a line of the table, of a file, at a place.
fn refused_in<T>(number: u32, file: u8, place: usize) -> Result<T, Refused> {
    Err(Refused { file, refusal: Refusal { number, place } })
}

#[derive(Clone, Copy, Debug, PartialEq, Eq)]
pub enum Verdict {
    Accepted,
    Other,
    Refused(Refusal),
}

impl Verdict {
    fn of(accepted: bool) -> Verdict {
        if accepted {
            Verdict::Accepted
        } else {
            Verdict::Other
        }
    }
}

/// A prepared automaton that judges trees from their files.
pub trait Judge {
    fn judge(&self, file: &[u8]) -> Verdict;
}

/// What judging says of a tree, with the sum of the growths of closing (document 02, W9), which is 0 for a refusal.
#[derive(Clone, Copy, Debug, PartialEq, Eq)]
pub struct Judged {
    pub verdict: Verdict,
    pub growth: usize,
}

impl Judged {
    fn of((accepted, growth): (bool, usize)) -> Judged {
        Judged { verdict: Verdict::of(accepted), growth }
    }

    fn refused(refusal: Refusal) -> Judged {
        Judged { verdict: Verdict::Refused(refusal), growth: 0 }
    }
}

/// A prepared automaton that judges trees from their files, with the sum.
pub trait JudgeSums {
    fn judge_sums(&self, file: &[u8]) -> Judged;
}

/// Compares the implementations, measures them, and prints the figures; the error says where two of them differ.
pub fn run() -> Result<(), String> {
    let counts = agreement::compare()?;
    println!(
        "all agree on small inputs: {} trees accepted, {} other, {} refused; {} automata refused",
        counts.accepted, counts.other, counts.refused, counts.automata_refused
    );
    batches::run()?;
    calls::run()?;
    #[cfg(feature = "engine")]
    growths::run()?;
    #[cfg(feature = "engine")]
    surveys::run()?;
    #[cfg(feature = "engine")]
    quicks::run()?;
    #[cfg(feature = "engine")]
    singles::run()?;
    #[cfg(feature = "engine")]
    forms::run()?;
    #[cfg(feature = "engine")]
    reads::run()?;
    #[cfg(feature = "engine")]
    texts::run()?;
    #[cfg(feature = "engine")]
    watches::run()?;
    #[cfg(feature = "engine")]
    compares::run()?;
    Ok(())
}
