//! The file of a tree (document 01, "The letter file"): reading it against an automaton's symbols, and writing it.
use crate::{automaton::Automaton, blocks, refused, Refusal};

pub const MOST_HEIGHT: usize = 64;
pub const MOST_BYTES: usize = 4608;
pub const MOST_NODES: usize = 4096;
const KIND: u8 = 84;

/// What reading a tree needs of its automaton.
#[derive(Clone, Copy)]
pub struct Alphabet {
    pub symbols: usize,
    pub branches: u32,
}

impl Alphabet {
    pub fn of(automaton: &Automaton) -> Alphabet {
        Alphabet { symbols: automaton.symbols, branches: automaton.branches }
    }

    #[inline]
    pub fn is_branch(self, symbol: u8) -> bool {
        self.branches >> symbol & 1 == 1
    }
}

/// The contents of a tree's file, of which the nodes are a part.
pub struct Nodes {
    content: Vec<u8>,
    end: usize,
}

impl Nodes {
    /// The symbols in preorder.
    pub fn symbols(&self) -> &[u8] {
        &self.content[4..self.end]
    }
}

/// Reads a file. Refusals 1 to 6 and 10 to 12.
pub fn read(file: &[u8], alphabet: Alphabet) -> Result<Nodes, Refusal> {
    let content = blocks::join(file, MOST_BYTES)?;
    let end = check_layout(&content)?;
    let nodes = Nodes { content, end };
    check_symbols(nodes.symbols(), alphabet)?;
    check_shape(nodes.symbols(), alphabet)?;
    Ok(nodes)
}

/// The number of nodes of a file that lines 1 to 6 do not refuse, found without a copy.
pub fn framed(file: &[u8]) -> Option<usize> {
    let whole = !file.is_empty() && file.len().is_multiple_of(blocks::BLOCK) && file.len() <= MOST_BYTES;
    if !whole || blocks::first_wrong(file).is_some() || file[..2] != [KIND, 0] {
        return None;
    }
    let nodes = usize::from(u16::from_le_bytes([file[2], file[3]]));
    let last = file.len() / blocks::BLOCK - 1;
    let filler = (4 + nodes).checked_sub(last * blocks::CONTENT)?;
    let fits = (1..=MOST_NODES).contains(&nodes) && (1..=blocks::CONTENT).contains(&filler);
    let block = &file[last * blocks::BLOCK..][..blocks::CONTENT];
    (fits && blocks::all_zero(&block[filler..])).then_some(nodes)
}

/// The file of the tree with these symbols in preorder.
pub fn write(symbols: &[u8]) -> Vec<u8> {
    let mut payload = vec![KIND, 0];
    payload.extend_from_slice(&(symbols.len() as u16).to_le_bytes());
    payload.extend_from_slice(symbols);
    blocks::write(&payload)
}

/// Refusals 3 to 6; gives the offset after the last node.
fn check_layout(content: &[u8]) -> Result<usize, Refusal> {
    if content[0] != KIND {
        return refused(3, 0);
    }
    let nodes = usize::from(u16::from_le_bytes([content[2], content[3]]));
    if !(1..=MOST_NODES).contains(&nodes) {
        return refused(4, 2);
    }
    let end = 4 + nodes;
    blocks::check_size(content, end)?;
    blocks::check_zeros(content, &[1], end)?;
    Ok(end)
}

/// Refusal 10.
fn check_symbols(symbols: &[u8], alphabet: Alphabet) -> Result<(), Refusal> {
    let highest = symbols.iter().fold(0, |highest, &symbol| symbol.max(highest));
    if usize::from(highest) < alphabet.symbols {
        return Ok(());
    }
    let unknown = |&symbol: &u8| usize::from(symbol) >= alphabet.symbols;
    refused(10, symbols.iter().position(unknown).expect("the highest symbol is one"))
}

/// Refusals 11 and 12. The stack has the depths of the parts that are still missing, the next one on top; each node
/// takes the top away, and a branch puts two parts in its place.
fn check_shape(symbols: &[u8], alphabet: Alphabet) -> Result<(), Refusal> {
    let mut depths = [0u16; MOST_NODES + 1];
    let mut missing = 1;
    let mut height = 0;
    for (node, &symbol) in symbols.iter().enumerate() {
        if missing == 0 {
            return refused(11, node);
        }
        let depth = depths[missing - 1];
        height = height.max(depth);
        depths[missing - 1] = depth + 1;
        depths[missing] = depth + 1;
        missing = missing + 2 * usize::from(alphabet.is_branch(symbol)) - 1;
    }
    if missing != 0 {
        return refused(11, symbols.len());
    }
    if usize::from(height) > MOST_HEIGHT {
        return refused(12, first_too_low(symbols, alphabet));
    }
    Ok(())
}

/// The first node that is more than 64 steps below the root, of a tree that has one.
fn first_too_low(symbols: &[u8], alphabet: Alphabet) -> usize {
    let mut depths = vec![0];
    let too_low = |&symbol: &u8| {
        let depth = depths.pop().expect("the tree closes with its last node");
        if alphabet.is_branch(symbol) {
            depths.extend([depth + 1; 2]);
        }
        depth > MOST_HEIGHT
    };
    symbols.iter().position(too_low).expect("the tree is higher than 64")
}
