//! The functions of libengine.a. Nothing checks these declarations against their source (crates/engine_c/src/lib.rt), so they stand here
//! alone. None asks more of its caller than what Rust's references promise: a slice is a pointer, never null, and a length, and what is
//! written to overlaps nothing else. None keeps a pointer after the call.
use crate::Tally;

/// The three numbers told with an answer.
pub type Told = [usize; 3];

/// The length of a part, and two counts of entries.
pub type Counts = [usize; 3];

/// The most bytes that a report has.
const REPORT: usize = 357;

extern "C" {
    fn engine_judge(
        automaton: *const u8,
        automaton_length: usize,
        tree: *const u8,
        tree_length: usize,
        growth: *mut [usize; 1],
        told: *mut Told,
    ) -> u32;
    fn engine_accepts(
        automaton: *const u8,
        automaton_length: usize,
        tree: *const u8,
        tree_length: usize,
        told: *mut Told,
    ) -> u32;
    fn engine_judge_all(
        automaton: *const u8,
        automaton_length: usize,
        trees: *const u8,
        trees_length: usize,
        answers: *mut usize,
        answers_length: usize,
        growths: *mut usize,
        growths_length: usize,
        told: *mut Told,
    ) -> u32;
    fn engine_survey(file: *const u8, length: usize, plan: *mut u8, plan_length: usize, told: *mut Told) -> u32;
    fn engine_witness(
        file: *const u8,
        length: usize,
        plan: *const u8,
        plan_length: usize,
        out: *mut u8,
        out_length: usize,
        told: *mut Told,
    ) -> u32;
    fn engine_quick(file: *const u8, length: usize, told: *mut Told) -> u32;
    fn engine_single(file: *const u8, length: usize, told: *mut Told) -> u32;
    fn engine_canonical(file: *const u8, length: usize, out: *mut u8, out_length: usize, told: *mut Told) -> u32;
    fn engine_markup(
        file: *const u8,
        length: usize,
        text: *const u8,
        text_length: usize,
        out: *mut u8,
        out_length: usize,
        told: *mut Told,
    ) -> u32;
    fn engine_watch(
        automaton: *const u8,
        automaton_length: usize,
        tree: *const u8,
        tree_length: usize,
        budget: usize,
        log: *mut u8,
        log_length: usize,
        told: *mut Told,
    ) -> u32;
    fn engine_compare(
        automaton: *const u8,
        automaton_length: usize,
        tree: *const u8,
        tree_length: usize,
        first: *const u8,
        first_length: usize,
        second: *const u8,
        second_length: usize,
        counts: *mut Counts,
        told: *mut Told,
    ) -> u32;
    fn engine_count(tally: *mut [u32; 3], outcome: u32, told: *mut Told) -> u32;
    fn engine_percent(accepted: u32, other: u32) -> u32;
    fn engine_tally(
        automaton: *const u8,
        automaton_length: usize,
        trees: *const u8,
        trees_length: usize,
        tally: *mut [u32; 3],
        told: *mut Told,
    ) -> u32;
    fn engine_report(
        automaton: *const u8,
        automaton_length: usize,
        trees: *const u8,
        trees_length: usize,
        text: *mut [u8; REPORT],
    ) -> usize;
}

/// The number answered, and what was told with it.
fn telling(call: impl FnOnce(*mut Told) -> u32) -> (u32, Told) {
    let mut told = [0; 3];
    let number = call(&mut told);
    (number, told)
}

pub fn judge(automaton: &[u8], tree: &[u8], growth: &mut [usize; 1]) -> (u32, Told) {
    let (file, length) = (automaton.as_ptr(), automaton.len());
    // SAFETY: both files' pointers are of slices, with their lengths; `growth` is one number, lent to be written to, and `told` is the call's own.
    telling(|told| unsafe { engine_judge(file, length, tree.as_ptr(), tree.len(), growth, told) })
}

pub fn accepts(automaton: &[u8], tree: &[u8]) -> (u32, Told) {
    // SAFETY: both pointers are of slices, with their lengths; `told` is written to, and is the call's own.
    telling(|told| unsafe { engine_accepts(automaton.as_ptr(), automaton.len(), tree.as_ptr(), tree.len(), told) })
}

pub fn judge_all(automaton: &[u8], trees: &[u8], answers: &mut [usize], growths: &mut [usize]) -> (u32, Told) {
    // SAFETY: the pointers are of slices, with their lengths; `answers` and `growths` are lent to be written to, and `told` is the call's own.
    telling(|told| unsafe {
        engine_judge_all(
            automaton.as_ptr(),
            automaton.len(),
            trees.as_ptr(),
            trees.len(),
            answers.as_mut_ptr(),
            answers.len(),
            growths.as_mut_ptr(),
            growths.len(),
            told,
        )
    })
}

pub fn survey(file: &[u8], plan: &mut [u8]) -> (u32, Told) {
    // SAFETY: both pointers are of slices, with their lengths; `plan` is lent to be written to, and `told` is the call's own.
    telling(|told| unsafe { engine_survey(file.as_ptr(), file.len(), plan.as_mut_ptr(), plan.len(), told) })
}

pub fn witness(file: &[u8], plan: &[u8], out: &mut [u8]) -> (u32, Told) {
    // SAFETY: the pointers are of slices, with their lengths; `out` is lent to be written to, and `told` is the call's own.
    telling(|told| unsafe {
        engine_witness(file.as_ptr(), file.len(), plan.as_ptr(), plan.len(), out.as_mut_ptr(), out.len(), told)
    })
}

pub fn quick(file: &[u8]) -> (u32, Told) {
    // SAFETY: the pointer is of a slice, with its length; `told` is written to, and is the call's own.
    telling(|told| unsafe { engine_quick(file.as_ptr(), file.len(), told) })
}

pub fn single(file: &[u8]) -> (u32, Told) {
    // SAFETY: the pointer is of a slice, with its length; `told` is written to, and is the call's own.
    telling(|told| unsafe { engine_single(file.as_ptr(), file.len(), told) })
}

pub fn canonical(file: &[u8], out: &mut [u8]) -> (u32, Told) {
    // SAFETY: both pointers are of slices, with their lengths; `out` is lent to be written to, and `told` is the call's own.
    telling(|told| unsafe { engine_canonical(file.as_ptr(), file.len(), out.as_mut_ptr(), out.len(), told) })
}

pub fn markup(file: &[u8], text: &[u8], out: &mut [u8]) -> (u32, Told) {
    // SAFETY: the pointers are of slices, with their lengths; `out` is lent to be written to, and `told` is the call's own.
    telling(|told| unsafe {
        engine_markup(file.as_ptr(), file.len(), text.as_ptr(), text.len(), out.as_mut_ptr(), out.len(), told)
    })
}

pub fn watch(automaton: &[u8], tree: &[u8], budget: usize, log: &mut [u8]) -> (u32, Told) {
    let (file, length) = (automaton.as_ptr(), automaton.len());
    // SAFETY: the pointers are of slices, with their lengths; `log` is lent to be written to, and `told` is the call's own.
    telling(|told| unsafe {
        engine_watch(file, length, tree.as_ptr(), tree.len(), budget, log.as_mut_ptr(), log.len(), told)
    })
}

pub fn compare(automaton: &[u8], tree: &[u8], first: &[u8], second: &[u8]) -> (u32, Counts, Told) {
    let mut counts = [0; 3];
    let (file, length, tree, tree_length) = (automaton.as_ptr(), automaton.len(), tree.as_ptr(), tree.len());
    let (one, one_length, other, other_length) = (first.as_ptr(), first.len(), second.as_ptr(), second.len());
    // SAFETY: the pointers are of slices, with their lengths; `counts` and `told` are written to, and are the call's own.
    let (number, told) = telling(|told| unsafe {
        engine_compare(file, length, tree, tree_length, one, one_length, other, other_length, &mut counts, told)
    });
    (number, counts, told)
}

pub fn count(tally: &mut [u32; 3], outcome: u32) -> (u32, Told) {
    // SAFETY: `tally` is three numbers, lent to be written to; `told` is the call's own.
    telling(|told| unsafe { engine_count(tally, outcome, told) })
}

pub fn percent(tally: Tally) -> u32 {
    // SAFETY: two numbers go in and one comes out; there is no pointer.
    unsafe { engine_percent(tally.accepted, tally.other) }
}

pub fn tally(automaton: &[u8], trees: &[u8], tally: &mut [u32; 3]) -> (u32, Told) {
    // SAFETY: both pointers are of slices, with their lengths; `tally` is three numbers, lent to be written to, and `told` is the call's own.
    telling(|told| unsafe {
        engine_tally(automaton.as_ptr(), automaton.len(), trees.as_ptr(), trees.len(), tally, told)
    })
}

pub fn report(automaton: &[u8], trees: &[u8]) -> Vec<u8> {
    let mut text = [0; REPORT];
    // SAFETY: both pointers are of slices, with their lengths; `text` has the bytes that a report may take, and is the call's own.
    let length = unsafe { engine_report(automaton.as_ptr(), automaton.len(), trees.as_ptr(), trees.len(), &mut text) };
    text[..length].to_vec()
}
