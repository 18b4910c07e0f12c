//! The file of an automaton (document 01, "The walker file"): reading it with refusals 1 to 9, and writing it.
use crate::{blocks, refused, Refusal};

/// Places and moves, by their bytes.
pub const EVERY_PLACE: u8 = 3;
pub const STAY: u8 = 0;
pub const UP: u8 = 1;
pub const LEFT: u8 = 2;
pub const RIGHT: u8 = 3;

pub const MOST_STATES: usize = 24;
pub const MOST_SYMBOLS: usize = 32;
pub const MOST_RULES: usize = 512;
const MOST_BYTES: usize = 3072;
const KIND: u8 = 87;

#[derive(Clone, Copy, PartialEq, Eq)]
pub struct Rule {
    pub symbol: u8,
    pub state: u8,
    pub place: u8,
    pub step: u8,
    pub next: u8,
}

#[derive(Clone)]
pub struct Automaton {
    pub states: usize,
    pub symbols: usize,
    pub initial: u32,
    pub accepting: u32,
    pub branches: u32,
    pub rules: Vec<Rule>,
}

fn word(content: &[u8], at: usize) -> u32 {
    u32::from_le_bytes([content[at], content[at + 1], content[at + 2], content[at + 3]])
}

/// Whether a set has a number at or above `count`.
fn exceeds(set: u32, count: usize) -> bool {
    count < 32 && set >> count != 0
}

impl Rule {
    pub fn from_bytes([symbol, state, place, step, next]: [u8; 5]) -> Rule {
        Rule { symbol, state, place, step, next }
    }

    pub fn bytes(self) -> [u8; 5] {
        [self.symbol, self.state, self.place, self.step, self.next]
    }

    /// Whether the rule applies at a place.
    pub fn applies_at(self, place: usize) -> bool {
        self.place == EVERY_PLACE || usize::from(self.place) == place
    }

    /// The rule at each place where it applies, as bytes.
    pub fn spread(self) -> impl Iterator<Item = [u8; 5]> {
        (0..EVERY_PLACE)
            .filter(move |&place| self.applies_at(place.into()))
            .map(move |place| Rule { place, ..self }.bytes())
    }

    /// Refusals 8 and 9: the number, where there is one.
    pub fn check(self, automaton: &Automaton) -> Result<(), u32> {
        let known = usize::from(self.symbol) < automaton.symbols
            && usize::from(self.state) < automaton.states
            && usize::from(self.next) < automaton.states
            && self.place <= EVERY_PLACE
            && self.step <= RIGHT;
        if !known {
            return Err(8);
        }
        let down_at_leaf = self.step >= LEFT && !automaton.is_branch(self.symbol);
        let up_from_root = self.step == UP && (self.place == 0 || self.place == EVERY_PLACE);
        if down_at_leaf || up_from_root {
            return Err(9);
        }
        Ok(())
    }
}

impl Automaton {
    pub fn is_branch(&self, symbol: u8) -> bool {
        self.branches >> symbol & 1 == 1
    }

    /// The rules with place 3 spread, as bytes in rising order, equal ones once.
    fn spread(&self) -> Vec<[u8; 5]> {
        let mut rules: Vec<[u8; 5]> = self.rules.iter().flat_map(|rule| rule.spread()).collect();
        rules.sort_unstable();
        rules.dedup();
        rules
    }

    /// Whether no two rules have one symbol, state and place, with place 3 spread and equal rules taken once (document 02, W2): sorted, two
    /// such rules would stand side by side.
    pub fn is_single(&self) -> bool {
        self.spread().windows(2).all(|pair| pair[0][..3] != pair[1][..3])
    }

    /// The automaton in its one form (document 02, W4), which may have more rules than a file.
    pub fn canonical(&self) -> Automaton {
        Automaton { rules: self.spread().into_iter().map(Rule::from_bytes).collect(), ..*self }
    }

    /// Reads a file. Refusals 1 to 9.
    pub fn read(file: &[u8]) -> Result<Automaton, Refusal> {
        let content = blocks::join(file, MOST_BYTES)?;
        let rules = check_layout(&content)?;
        let mut automaton = Automaton {
            states: usize::from(content[1]),
            symbols: usize::from(content[2]),
            initial: word(&content, 8),
            accepting: word(&content, 12),
            branches: word(&content, 16),
            rules: Vec::with_capacity(rules),
        };
        automaton.check_sets()?;
        for (place, bytes) in content[20..20 + 5 * rules].as_chunks().0.iter().enumerate() {
            let rule = Rule::from_bytes(*bytes);
            rule.check(&automaton).or_else(|number| refused(number, place))?;
            automaton.rules.push(rule);
        }
        Ok(automaton)
    }

    /// Refusal 7.
    fn check_sets(&self) -> Result<(), Refusal> {
        let sets =
            [(8, self.initial, self.states), (12, self.accepting, self.states), (16, self.branches, self.symbols)];
        match sets.iter().find(|(_, set, count)| exceeds(*set, *count)) {
            Some((place, ..)) => refused(7, *place),
            None => Ok(()),
        }
    }

    /// The automaton's file.
    pub fn write(&self) -> Vec<u8> {
        let rules = self.rules.len() as u16;
        let mut payload = vec![KIND, self.states as u8, self.symbols as u8, 0];
        payload.extend_from_slice(&rules.to_le_bytes());
        payload.extend_from_slice(&[0, 0]);
        for set in [self.initial, self.accepting, self.branches] {
            payload.extend_from_slice(&set.to_le_bytes());
        }
        for rule in &self.rules {
            payload.extend_from_slice(&rule.bytes());
        }
        blocks::write(&payload)
    }
}

/// Refusals 3 to 6; gives the number of rules.
fn check_layout(content: &[u8]) -> Result<usize, Refusal> {
    if content[0] != KIND {
        return refused(3, 0);
    }
    let rules = usize::from(u16::from_le_bytes([content[4], content[5]]));
    let within = [(1, (1..=24).contains(&content[1])), (2, (1..=32).contains(&content[2])), (4, rules <= MOST_RULES)];
    if let Some((place, _)) = within.iter().find(|(_, within)| !within) {
        return refused(4, *place);
    }
    let payload = 20 + 5 * rules;
    blocks::check_size(content, payload)?;
    blocks::check_zeros(content, &[3, 6, 7], payload)?;
    Ok(rules)
}
