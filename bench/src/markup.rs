//! The tree of an element text, as a tree's file (document 02, W6): one pass over the text, with a stack of the elements that are open.
use crate::{
    automaton::Automaton,
    refused_in,
    tree::{self, Alphabet, MOST_HEIGHT, MOST_NODES},
    Refused,
};
use std::ops::Range;

pub const MOST_TEXT: usize = 32_768;

/// An element that is open: where its number and the `>` behind it stand in the text, and how far its node is below the root.
struct Open {
    name: Range<usize>,
    depth: usize,
}

/// What a text of the grammar says: the symbols in preorder, where the first tag stands whose number is no branch symbol, and the first node that
/// is more than 64 steps below the root.
struct Parsed {
    symbols: Vec<u8>,
    wrong_tag: Option<usize>,
    too_low: Option<usize>,
}

struct Parser<'a> {
    text: &'a [u8],
    alphabet: Alphabet,
    at: usize,
    open: Vec<Open>,
    /// How far the next node is below the root.
    depth: usize,
    parsed: Parsed,
}

impl<'a> Parser<'a> {
    fn new(text: &'a [u8], alphabet: Alphabet) -> Parser<'a> {
        let parsed = Parsed { symbols: Vec::with_capacity(MOST_NODES), wrong_tag: None, too_low: None };
        Parser { text, alphabet, at: 0, open: Vec::with_capacity(MOST_HEIGHT), depth: 0, parsed }
    }

    fn peek(&self) -> Option<u8> {
        self.text.get(self.at).copied()
    }

    /// Goes past a byte that has to be this one; the error is its place.
    fn expect(&mut self, byte: u8) -> Result<(), usize> {
        if self.peek() != Some(byte) {
            return Err(self.at);
        }
        self.at += 1;
        Ok(())
    }

    fn skip_spaces(&mut self) {
        while let Some(b'\t' | b'\n' | b'\r' | b' ') = self.peek() {
            self.at += 1;
        }
    }

    /// The next node in preorder.
    fn push(&mut self, symbol: u8) {
        if self.depth > MOST_HEIGHT && self.parsed.too_low.is_none() {
            self.parsed.too_low = Some(self.parsed.symbols.len());
        }
        self.parsed.symbols.push(symbol);
    }

    /// The number of an opening tag and the `>` behind it.
    fn number(&mut self) -> Result<u8, usize> {
        let Some(first @ b'0'..=b'9') = self.peek() else { return Err(self.at) };
        self.at += 1;
        let mut number = first - b'0';
        if let (1..=9, Some(second @ b'0'..=b'9')) = (number, self.peek()) {
            self.at += 1;
            number = 10 * number + (second - b'0');
        }
        self.expect(b'>')?;
        Ok(number)
    }

    /// An opening tag from its number on: a branch node, of which the run inside comes next.
    fn opening(&mut self) -> Result<(), usize> {
        let start = self.at;
        let symbol = self.number()?;
        let is_branch = usize::from(symbol) < self.alphabet.symbols && self.alphabet.is_branch(symbol);
        if !is_branch && self.parsed.wrong_tag.is_none() {
            self.parsed.wrong_tag = Some(start - 1);
        }
        self.push(symbol);
        self.open.push(Open { name: start..self.at, depth: self.depth });
        self.depth += 1;
        Ok(())
    }

    /// The closing tag of an element from its number on: the empty run inside ends, and the run after the element comes next.
    fn closing(&mut self, open: Open) -> Result<(), usize> {
        let (name, rest) = (&self.text[open.name], &self.text[self.at..]);
        if !rest.starts_with(name) {
            let same = rest.iter().zip(name).take_while(|(byte, expected)| byte == expected).count();
            return Err(self.at + same);
        }
        self.at += name.len();
        self.push(0);
        self.depth = open.depth + 1;
        Ok(())
    }

    /// Reads the whole text; the error is the first place at which no continuation could be right.
    fn parse(mut self) -> Result<Parsed, usize> {
        loop {
            self.skip_spaces();
            if self.at == self.text.len() && self.open.is_empty() && !self.parsed.symbols.is_empty() {
                self.push(0);
                return Ok(self.parsed);
            }
            self.expect(b'<')?;
            if self.peek() != Some(b'/') {
                self.opening()?;
            } else if let Some(open) = self.open.pop() {
                self.at += 1;
                self.closing(open)?;
            } else {
                return Err(self.at);
            }
        }
    }
}

/// The symbols of a text's tree in preorder. Refusals 18, 19, 4 and 12.
fn symbols(alphabet: Alphabet, text: &[u8]) -> Result<Vec<u8>, Refused> {
    if text.len() > MOST_TEXT {
        return refused_in(18, 2, MOST_TEXT);
    }
    let Parsed { symbols, wrong_tag, too_low } =
        Parser::new(text, alphabet).parse().or_else(|place| refused_in(18, 2, place))?;
    if alphabet.is_branch(0) {
        return refused_in(19, 2, 0);
    }
    if let Some(place) = wrong_tag {
        return refused_in(19, 2, place);
    }
    if symbols.len() > MOST_NODES {
        return refused_in(4, 1, 2);
    }
    if let Some(place) = too_low {
        return refused_in(12, 1, place);
    }
    Ok(symbols)
}

/// Writes the tree's file to the front of the output; its length. Refusals 1 to 9 of the automaton's file, then 18, 19, 4, 12 and 13.
pub fn write(file: &[u8], text: &[u8], out: &mut [u8]) -> Result<usize, Refused> {
    let automaton = Automaton::read(file).map_err(|refusal| Refused { file: 0, refusal })?;
    let tree = tree::write(&symbols(Alphabet::of(&automaton), text)?);
    match out.get_mut(..tree.len()) {
        Some(front) => front.copy_from_slice(&tree),
        None => return refused_in(13, 2, tree.len()),
    }
    Ok(tree.len())
}
