//! The functions of libreading.a: two parts of the engine's judging, by themselves. Nothing checks these declarations against their source
//! (crates/reading_c/src/lib.rt), so they stand here alone. Neither asks more of its caller than what Rust's references promise: a slice is a
//! pointer, never null, and a length, and what is written to overlaps nothing else. Neither keeps a pointer after the call.
use crate::{
    blocks::BLOCK,
    tree::{Alphabet, MOST_NODES},
};

extern "C" {
    fn reading_check(file: *const u8, length: usize) -> usize;
    fn reading_tree(file: *const u8, length: usize, symbols: u8, branches: u32, nodes: *mut [u8; MOST_NODES]) -> usize;
}

/// The lowest block of a file whose check is wrong.
pub fn first_wrong(file: &[u8]) -> Option<usize> {
    // SAFETY: the pointer is of a slice, with its length.
    let place = unsafe { reading_check(file.as_ptr(), file.len()) };
    (place < file.len() / BLOCK).then_some(place)
}

/// Reads a tree's file; the symbols in preorder, which are the front of `nodes` then, or nothing where the file is refused.
pub fn read<'a>(file: &[u8], alphabet: Alphabet, nodes: &'a mut [u8; MOST_NODES]) -> Option<&'a [u8]> {
    let Alphabet { symbols, branches } = alphabet;
    // SAFETY: the pointer is of a slice, with its length; `nodes` has the bytes that a tree may take, and is lent to be written to.
    let count = unsafe { reading_tree(file.as_ptr(), file.len(), symbols as u8, branches, nodes) };
    (count > 0).then_some(&nodes[..count])
}
