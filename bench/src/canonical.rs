//! The one form of an automaton's file (document 02, W4).
use crate::{
    automaton::{Automaton, MOST_RULES},
    refused, Refusal,
};

/// Writes the form to the front of the output; its length. Refusals 1 to 9, 17 and 13.
pub fn write(file: &[u8], out: &mut [u8]) -> Result<usize, Refusal> {
    let automaton = Automaton::read(file)?.canonical();
    if automaton.rules.len() > MOST_RULES {
        return refused(17, 0);
    }
    let form = automaton.write();
    match out.get_mut(..form.len()) {
        Some(front) => front.copy_from_slice(&form),
        None => return refused(13, form.len()),
    }
    Ok(form.len())
}
