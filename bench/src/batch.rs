//! Trees' files end to end (document 01, "Tally and report"; document 02, W3).
use crate::{blocks, Judge, JudgeSums, Refusal, Verdict};

/// How many trees were accepted, judged and not accepted, and refused.
pub type Tally = [u32; 3];

/// The tally of trees' files end to end. The limit of a million is left out: no batch here comes near it.
pub fn tally(judge: &impl Judge, trees: &[u8]) -> Tally {
    tally_by(|file| judge.judge(file), trees)
}

/// The tally, and the sum of the growths of all trees.
pub fn sums(judge: &impl JudgeSums, trees: &[u8]) -> (Tally, usize) {
    let mut sum = 0;
    let judged = |file: &[u8]| {
        let judged = judge.judge_sums(file);
        sum += judged.growth;
        judged.verdict
    };
    let tally = tally_by(judged, trees);
    (tally, sum)
}

#[inline(always)]
fn tally_by(mut judge: impl FnMut(&[u8]) -> Verdict, mut trees: &[u8]) -> Tally {
    let mut tally = [0; 3];
    while !trees.is_empty() {
        let Some(file) = first_file(trees) else {
            tally[2] += 1;
            break;
        };
        let verdict = judge(file);
        count(&mut tally, verdict);
        if matches!(verdict, Verdict::Refused(Refusal { number: 1..=4, .. })) {
            break;
        }
        trees = &trees[file.len()..];
    }
    tally
}

pub fn count(tally: &mut Tally, verdict: Verdict) {
    match verdict {
        Verdict::Accepted => tally[0] += 1,
        Verdict::Other => tally[1] += 1,
        Verdict::Refused(_) => tally[2] += 1,
    }
}

/// The percent of accepted trees among those judged: of the numbers from 0 to 100 the nearest, of two equally near ones the even; where none was
/// judged all are equally near, and 0 is the first.
pub fn percent([accepted, other, _]: Tally) -> u32 {
    let (all, judged) = (100 * u64::from(accepted), u64::from(accepted) + u64::from(other));
    let near = |&percent: &u32| (all.abs_diff(u64::from(percent) * judged), percent % 2);
    (0..=100).min_by_key(near).expect("there are numbers")
}

/// The first file, whose first block gives its length; nothing where the bytes stop inside it.
pub fn first_file(trees: &[u8]) -> Option<&[u8]> {
    let first = trees.get(..blocks::BLOCK)?;
    let nodes = usize::from(u16::from_le_bytes([first[2], first[3]]));
    trees.get(..blocks::BLOCK * (4 + nodes).div_ceil(blocks::CONTENT))
}
