//! Blocks of 512 bytes: 508 bytes of content and a check of four bytes (document 01, "Blocks").
use crate::{refused, Refusal};

pub const BLOCK: usize = 512;
pub const CONTENT: usize = 508;

fn word(bytes: &[u8]) -> u32 {
    u32::from_le_bytes([bytes[0], bytes[1], bytes[2], bytes[3]])
}

/// The check of a block: its number, one, and the 127 words of its content, added modulo 2^32.
fn check(number: usize, content: &[u8]) -> u32 {
    let words = content.chunks_exact(4).map(word);
    words.fold(number as u32 + 1, u32::wrapping_add)
}

/// Whether the check of a block is right.
fn is_right(number: usize, block: &[u8]) -> bool {
    let (content, sum) = block.split_at(CONTENT);
    check(number, content) == word(sum)
}

/// The lowest block of a file whose check is wrong.
pub fn first_wrong(file: &[u8]) -> Option<usize> {
    file.chunks_exact(BLOCK).enumerate().position(|(number, block)| !is_right(number, block))
}

/// The file with this payload, in the fewest blocks.
pub fn write(payload: &[u8]) -> Vec<u8> {
    let mut file = Vec::new();
    for (number, part) in payload.chunks(CONTENT).enumerate() {
        let mut content = [0; CONTENT];
        content[..part.len()].copy_from_slice(part);
        file.extend_from_slice(&content);
        file.extend_from_slice(&check(number, &content).to_le_bytes());
    }
    file
}

/// The joined contents of a file of at most `most` bytes. Refusals 1 and 2. (Each block is copied as soon as its check is right, while it is
/// near the processor.)
pub fn join(file: &[u8], most: usize) -> Result<Vec<u8>, Refusal> {
    if file.is_empty() || !file.len().is_multiple_of(BLOCK) || file.len() > most {
        return refused(1, 0);
    }
    let mut joined = Vec::with_capacity(file.len());
    for (number, block) in file.chunks_exact(BLOCK).enumerate() {
        if !is_right(number, block) {
            return refused(2, number);
        }
        joined.extend_from_slice(&block[..CONTENT]);
    }
    Ok(joined)
}

/// Refusal 5: the contents are not those of the fewest blocks that hold a payload of this length.
pub fn check_size(content: &[u8], payload: usize) -> Result<(), Refusal> {
    let needed = payload.div_ceil(CONTENT);
    if content.len() == needed * CONTENT {
        Ok(())
    } else {
        refused(5, needed)
    }
}

/// Refusal 6: a byte that has to be zero is not, one of these before the payload's end, or one of the filler after it.
pub fn check_zeros(content: &[u8], zeros: &[usize], payload: usize) -> Result<(), Refusal> {
    if zeros.iter().all(|&at| content[at] == 0) && all_zero(&content[payload..]) {
        return Ok(());
    }
    let mut offsets = zeros.iter().copied().chain(payload..content.len());
    refused(6, offsets.find(|&at| content[at] != 0).expect("one of the bytes is not zero"))
}

/// Whether all bytes are zero.
pub fn all_zero(bytes: &[u8]) -> bool {
    bytes.iter().fold(0, |seen, byte| seen | byte) == 0
}
