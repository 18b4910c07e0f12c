//! The implementations that give the sum of the growths of closing (document 02, W9) side by side. A further one is one more place in `SUMS`, for a
//! batch, and in `Summing::prepare`, for a tree alone.
#[cfg(feature = "engine")]
use crate::engine::{self, Engine};
use crate::{
    batch::{self, Tally},
    lazy::LazySums,
    tables::TablesSums,
    JudgeSums, Judged, Refusal,
};

/// The tally of an automaton's file on trees' files end to end, with the sum over all trees: the automaton is prepared once.
pub type SumOf = fn(&[u8], &[u8]) -> Result<(Tally, usize), Refusal>;

const SUMS: &[SumOf] = &[
    #[cfg(feature = "engine")]
    engine::judge_all,
    tables,
    lazy,
];

pub fn tables(automaton: &[u8], trees: &[u8]) -> Result<(Tally, usize), Refusal> {
    Ok(batch::sums(&TablesSums::prepare(automaton)?, trees))
}

pub fn lazy(automaton: &[u8], trees: &[u8]) -> Result<(Tally, usize), Refusal> {
    Ok(batch::sums(&LazySums::prepare(automaton)?, trees))
}

/// One automaton, prepared by each implementation.
pub struct Summing(Vec<Box<dyn JudgeSums>>);

impl Summing {
    pub fn prepare(file: &[u8]) -> Result<Summing, Refusal> {
        Ok(Summing(vec![
            #[cfg(feature = "engine")]
            Box::new(Engine::prepare(file)?),
            Box::new(TablesSums::prepare(file)?),
            Box::new(LazySums::prepare(file)?),
        ]))
    }

    /// The verdict on a tree, with the sum.
    pub fn judge(&self, file: &[u8]) -> Result<Judged, String> {
        agreed(self.0.iter().map(|judge| judge.judge_sums(file)), "a tree")
    }
}

/// The tally of trees' files end to end, with the sum.
pub fn of_batch(automaton: &[u8], trees: &[u8]) -> Result<Result<(Tally, usize), Refusal>, String> {
    agreed(SUMS.iter().map(|sum| sum(automaton, trees)), "a batch")
}

/// The one value of all implementations.
fn agreed<T: PartialEq + std::fmt::Debug>(values: impl Iterator<Item = T>, of: &str) -> Result<T, String> {
    let mut values: Vec<T> = values.collect();
    if values.iter().all(|value| *value == values[0]) {
        Ok(values.swap_remove(0))
    } else {
        Err(format!("the implementations with sums differ in {of}: {values:?}"))
    }
}
