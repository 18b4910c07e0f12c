//! The engine, by bindings/rust, in the terms of this crate.
use crate::{
    batch::{self, Tally},
    compare::Compared,
    survey::Survey,
    watch::Watched,
    Judge, JudgeSums, Judged, Refusal, Verdict,
};

fn refusal(::engine::Refusal { number, place, .. }: ::engine::Refusal) -> Refusal {
    Refusal { number, place }
}

/// The engine's survey of an automaton's file, or its refusal.
pub fn survey(file: &[u8]) -> Result<Survey, Refusal> {
    let mut plan = [0; ::engine::PLAN];
    match ::engine::survey(file, &mut plan).map_err(refusal)? {
        ::engine::Survey::Found { height, rows } => Ok(Survey::Found(height, plan[..3 * rows].to_vec())),
        ::engine::Survey::Open { height } => Ok(Survey::Open(height)),
        ::engine::Survey::Empty { height } => Ok(Survey::Empty(height)),
    }
}

/// Whether the quick check of an automaton's file is clear, or its refusal.
pub fn is_clear(file: &[u8]) -> Result<bool, Refusal> {
    ::engine::quick(file).map(|answer| answer == ::engine::Quick::Clear).map_err(refusal)
}

/// Whether the automaton of a file is single, or its refusal.
pub fn single(file: &[u8]) -> Result<bool, Refusal> {
    ::engine::single(file).map_err(refusal)
}

/// Writes the one form of an automaton's file to the front of the output; its length, or the refusal.
pub fn canonical(file: &[u8], out: &mut [u8]) -> Result<usize, Refusal> {
    ::engine::canonical(file, out).map_err(refusal)
}

/// Writes the tree's file of an element text to the front of the output; its length, or the refusal.
pub fn markup(file: &[u8], text: &[u8], out: &mut [u8]) -> Result<usize, Refusal> {
    ::engine::markup(file, text, out).map_err(refusal)
}

/// Follows the run of an automaton's file on a tree's file, and logs it at the front of the output; how it ended, or the refusal.
pub fn watch(file: &[u8], tree: &[u8], budget: usize, log: &mut [u8]) -> Result<Watched, Refusal> {
    Ok(match ::engine::watch(file, tree, budget, log).map_err(refusal)? {
        ::engine::Watched::Passed { steps } => Watched::Passed(steps),
        ::engine::Watched::Stuck { steps } => Watched::Stuck(steps),
        ::engine::Watched::Circling { steps } => Watched::Circling(steps),
        ::engine::Watched::Spent { steps } => Watched::Spent(steps),
    })
}

/// Holds two logs of an automaton's file and a tree's file together.
pub fn compare(file: &[u8], tree: &[u8], first: &[u8], second: &[u8]) -> Result<Compared, Refusal> {
    let ::engine::Compared { part, first, second } = ::engine::compare(file, tree, first, second).map_err(refusal)?;
    Ok(Compared { part: part.len(), first, second })
}

fn verdict(answer: Result<::engine::Verdict, ::engine::Refusal>) -> Verdict {
    match answer {
        Ok(::engine::Verdict::Accepted) => Verdict::Accepted,
        Ok(::engine::Verdict::Other) => Verdict::Other,
        Err(refused) => Verdict::Refused(refusal(refused)),
    }
}

fn judged(answer: Result<::engine::Judged, ::engine::Refusal>) -> Judged {
    let growth = answer.map_or(0, |judged| judged.growth);
    Judged { verdict: verdict(answer.map(|judged| judged.verdict)), growth }
}

/// The engine's verdict on one tree's file.
pub fn accepts(automaton: &[u8], tree: &[u8]) -> Verdict {
    verdict(::engine::accepts(automaton, tree))
}

/// The same with the sum of the growths.
pub fn judge(automaton: &[u8], tree: &[u8]) -> Judged {
    judged(::engine::judge(automaton, tree))
}

/// The engine's verdicts on trees' files end to end, as a tally.
pub fn accepts_all(automaton: &[u8], trees: &[u8]) -> Result<Tally, Refusal> {
    let answers = ::engine::accepts_all(automaton, trees).map_err(refusal)?;
    let mut tally = [0; 3];
    answers.into_iter().for_each(|answer| batch::count(&mut tally, verdict(answer)));
    Ok(tally)
}

/// The same with the sum of the growths of all trees.
pub fn judge_all(automaton: &[u8], trees: &[u8]) -> Result<(Tally, usize), Refusal> {
    let answers = ::engine::judge_all(automaton, trees).map_err(refusal)?;
    let (mut tally, mut sum) = ([0; 3], 0);
    for Judged { verdict, growth } in answers.into_iter().map(judged) {
        batch::count(&mut tally, verdict);
        sum += growth;
    }
    Ok((tally, sum))
}

/// The engine's tally of trees' files end to end.
pub fn tally(automaton: &[u8], trees: &[u8]) -> Result<Tally, Refusal> {
    let mut tally = ::engine::Tally::default();
    ::engine::tally(automaton, trees, &mut tally).map_err(refusal)?;
    Ok([tally.accepted, tally.other, tally.refused])
}

/// The file of an automaton that the engine reads. It is read again for each tree that is judged alone.
pub struct Engine {
    automaton: Vec<u8>,
}

impl Engine {
    pub fn prepare(file: &[u8]) -> Result<Engine, Refusal> {
        tally(file, &[]).map(|_| Engine { automaton: file.to_vec() })
    }
}

impl Judge for Engine {
    fn judge(&self, file: &[u8]) -> Verdict {
        accepts(&self.automaton, file)
    }
}

impl JudgeSums for Engine {
    fn judge_sums(&self, file: &[u8]) -> Judged {
        judge(&self.automaton, file)
    }
}
