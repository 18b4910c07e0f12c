//! Times: the best of several rounds for each batch and implementation, the implementations in turn.
use crate::{
    batch::{self, Tally},
    families::Case,
    judges::{Judges, CONFIGURATIONS, COUNT, NAMES, TALLIES},
    Verdict,
};
use std::{hint::black_box, time::Instant};

/// An automaton's file and trees' files end to end, with their tally, and the best time of each implementation.
pub struct Input {
    automaton: Vec<u8>,
    batch: Vec<u8>,
    tally: Tally,
    best: [f64; COUNT],
}

/// The batches of a family.
pub struct Group {
    pub name: &'static str,
    pub inputs: Vec<Input>,
}

/// The mean over the batches of a family, in microseconds a tree for each implementation; for those that were not measured no number.
pub struct Row {
    pub name: &'static str,
    pub trees: u32,
    pub accepted: u32,
    pub micros: [f64; COUNT],
}

impl Input {
    /// A batch of trees, so many times, whose tally is that of the verdicts on which all implementations agree tree by tree.
    pub fn repeated(case: &Case, repeats: usize) -> Result<Input, String> {
        let tally = judged(&case.automaton, &case.trees)?.map(|number| number * repeats as u32);
        Ok(Input::new(case, repeats, tally))
    }

    /// A batch of trees, once each, whose tally is that of the search.
    pub fn once(case: &Case) -> Result<Input, String> {
        let tally = TALLIES[CONFIGURATIONS](&case.automaton, &case.trees.concat());
        Ok(Input::new(case, 1, tally.map_err(|_| "an automaton was refused")?))
    }

    fn new(case: &Case, repeats: usize, tally: Tally) -> Input {
        let batch = case.trees.concat().repeat(repeats);
        Input { automaton: case.automaton.clone(), batch, tally, best: [f64::INFINITY; COUNT] }
    }

    /// One call of each of these implementations, whose tally has to be the one expected.
    fn time(&mut self, which: &[usize]) -> Result<(), String> {
        for &which in which {
            let begin = Instant::now();
            let found = black_box(TALLIES[which](black_box(&self.automaton), black_box(&self.batch)));
            let micros = begin.elapsed().as_secs_f64() * 1e6;
            self.best[which] = self.best[which].min(micros);
            if found != Ok(self.tally) {
                return Err(format!("the tally of {} is {found:?} and not {:?}", NAMES[which], self.tally));
            }
        }
        Ok(())
    }
}

/// Measures these implementations on every batch; the error says where two implementations differ.
pub fn measure(mut groups: Vec<Group>, which: &[usize], rounds: usize) -> Result<Vec<Row>, String> {
    for _ in 0..rounds {
        for Group { name, inputs } in &mut groups {
            inputs
                .iter_mut()
                .try_for_each(|input| input.time(which))
                .map_err(|message| format!("{name}: {message}"))?;
        }
    }
    Ok(groups.iter().map(row).collect())
}

/// The tally of trees judged one by one, on which all implementations agree.
fn judged(automaton: &[u8], trees: &[Vec<u8>]) -> Result<Tally, String> {
    let judges = Judges::prepare(automaton)?.ok_or("an automaton was refused")?;
    let mut tally = [0; 3];
    for tree in trees {
        let verdict = judges.judge(tree)?;
        if matches!(verdict, Verdict::Refused(_)) {
            return Err("a tree was refused".into());
        }
        batch::count(&mut tally, verdict);
    }
    Ok(tally)
}

fn row(Group { name, inputs }: &Group) -> Row {
    let trees: u32 = inputs.iter().flat_map(|input| input.tally).sum();
    let accepted: u32 = inputs.iter().map(|input| input.tally[0]).sum();
    let sum = |which: usize| inputs.iter().map(|input| input.best[which]).sum::<f64>();
    Row { name, trees, accepted, micros: std::array::from_fn(|which| sum(which) / f64::from(trees)) }
}
