//! All implementations side by side. A further way to judge a batch, of the engine or in Rust, is one more place in `NAMES` and `TALLIES`, and
//! in `prepare_all` where it judges trees one by one; all comparisons and tables of judging go over these.
#[cfg(feature = "engine")]
use crate::engine::{self, Engine};
use crate::{
    batch::{self, Tally},
    configurations::Configurations,
    lazy::Lazy,
    plain::Plain,
    tables::Tables,
    Judge, Refusal, Verdict,
};

#[cfg(feature = "engine")]
pub const NAMES: [&str; 5] = ["engine", "Rust tables", "Rust plain", "Rust configurations", "Rust lazy"];
#[cfg(not(feature = "engine"))]
pub const NAMES: [&str; 4] = ["Rust tables", "Rust plain", "Rust configurations", "Rust lazy"];

pub const COUNT: usize = NAMES.len();

/// The engine's place among the names, where it is linked, and those of the implementations in Rust.
pub const ENGINE: Option<usize> = if cfg!(feature = "engine") { Some(0) } else { None };
pub const TABLES: usize = COUNT - 4;
pub const PLAIN: usize = COUNT - 3;
pub const CONFIGURATIONS: usize = COUNT - 2;
pub const LAZY: usize = COUNT - 1;

/// The tally of an automaton's file on trees' files end to end: the automaton is prepared once.
pub type TallyOf = fn(&[u8], &[u8]) -> Result<Tally, Refusal>;

/// The tally of each implementation, in the order of their names.
pub const TALLIES: [TallyOf; COUNT] = [
    #[cfg(feature = "engine")]
    engine::tally,
    |automaton, trees| Ok(batch::tally(&Tables::prepare(automaton)?, trees)),
    |automaton, trees| Ok(batch::tally(&Plain::prepare(automaton)?, trees)),
    |automaton, trees| Ok(batch::tally(&Configurations::prepare(automaton)?, trees)),
    |automaton, trees| Ok(batch::tally(&Lazy::prepare(automaton)?, trees)),
];

/// One automaton, prepared by each implementation, in the order of their names.
pub struct Judges([Box<dyn Judge>; COUNT]);

type Prepared = Result<Box<dyn Judge>, Refusal>;

fn boxed<J: Judge + 'static>(prepared: Result<J, Refusal>) -> Prepared {
    prepared.map(|judge| Box::new(judge) as Box<dyn Judge>)
}

fn prepare_all(file: &[u8]) -> [Prepared; COUNT] {
    [
        #[cfg(feature = "engine")]
        boxed(Engine::prepare(file)),
        boxed(Tables::prepare(file)),
        boxed(Plain::prepare(file)),
        boxed(Configurations::prepare(file)),
        boxed(Lazy::prepare(file)),
    ]
}

/// The one value of all implementations.
fn agreed<T: Copy + PartialEq + std::fmt::Debug>(values: [T; COUNT], of: &str) -> Result<T, String> {
    if values.iter().all(|value| *value == values[0]) {
        Ok(values[0])
    } else {
        Err(format!("the implementations {NAMES:?} differ in {of}: {values:?}"))
    }
}

impl Judges {
    /// Prepares an automaton; nothing where all refuse it, by the same number at the same place.
    pub fn prepare(file: &[u8]) -> Result<Option<Judges>, String> {
        let prepared = prepare_all(file);
        let refusals = prepared.each_ref().map(|one| one.as_ref().err().copied());
        Ok(match agreed(refusals, "the refusal of an automaton")? {
            Some(_) => None,
            None => Some(Judges(prepared.map(|one| one.unwrap_or_else(|_| unreachable!("none was refused"))))),
        })
    }

    /// The verdict on a tree.
    pub fn judge(&self, file: &[u8]) -> Result<Verdict, String> {
        agreed(self.0.each_ref().map(|judge| judge.judge(file)), "the verdict on a tree")
    }
}

/// The tally of trees' files end to end.
pub fn tally(automaton: &[u8], trees: &[u8]) -> Result<Result<Tally, Refusal>, String> {
    agreed(TALLIES.map(|tally| tally(automaton, trees)), "a tally")
}
