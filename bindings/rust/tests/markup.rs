//! Trees from element texts, as document 02's W6 has them: the cases of its readings, and the engine beside the parser in Rust on texts by chance,
//! half of them damaged.
use bench::{
    agreement::damage,
    automaton::{Automaton, Rule, EVERY_PLACE, STAY},
    markup::MOST_TEXT,
    random::Random,
    tree::{self, MOST_HEIGHT, MOST_NODES},
};
use engine::{accepts, markup, File, Refusal, TREE};

const TEXTS: u64 = 20_000;
const SPACES: [u8; 4] = *b"\t\n\r ";

fn refused<T>(number: u32, file: File, place: usize) -> Result<T, Refusal> {
    Err(Refusal { number, file, place })
}

fn in_rust(file: &[u8], text: &[u8], out: &mut [u8]) -> Result<usize, Refusal> {
    bench::markup::write(file, text, out).map_err(|refused| Refusal {
        number: refused.refusal.number,
        file: [File::Automaton, File::Tree, File::Neither][usize::from(refused.file)],
        place: refused.refusal.place,
    })
}

/// The tree's file, or the refusal, on an output of so many bytes: the engine's answer and every byte of the output are those of the parser in
/// Rust, and bytes after the file stay.
#[track_caller]
fn compare(file: &[u8], text: &[u8], room: usize, random: &mut Random) -> Result<Vec<u8>, Refusal> {
    let before: Vec<u8> = (0..room).map(|_| random.below(256) as u8).collect();
    let (mut after, mut expected) = (before.clone(), before.clone());
    let answer = markup(file, text, &mut after);
    assert_eq!(answer, in_rust(file, text, &mut expected), "{}", text.escape_ascii());
    assert_eq!(after, expected, "{}", text.escape_ascii());
    let length = answer.unwrap_or(0);
    assert_eq!(after[length..], before[length..], "{}", text.escape_ascii());
    answer.map(|length| after[..length].to_vec())
}

// ---- cases

/// The file of an automaton with no rule.
fn automaton(symbols: usize, branches: u32) -> Vec<u8> {
    Automaton { states: 2, symbols, initial: 1, accepting: 2, branches, rules: Vec::new() }.write()
}

/// The file of an automaton of which all symbols but 0 are branches.
fn all_but_0() -> Vec<u8> {
    automaton(32, u32::MAX - 1)
}

#[track_caller]
fn told(text: &str, expected: Result<&[u8], Refusal>) {
    let answer = compare(&all_but_0(), text.as_bytes(), TREE, &mut Random::new(1));
    assert_eq!(answer, expected.map(tree::write), "{text}");
}

/// The place of 18: where the text does not end there, it is that of every longer text too.
#[track_caller]
fn outside(text: &str, place: usize) {
    told(text, refused(18, File::Neither, place));
    if place < text.len() {
        for more in ["x", ">", "</1>", "<1></1>"] {
            told(&(text.to_owned() + more), refused(18, File::Neither, place));
        }
    }
}

#[test]
fn trees() {
    told("<1></1>", Ok(&[1, 0, 0]));
    told("<1><2></2></1>", Ok(&[1, 2, 0, 0, 0]));
    told("<1></1><2></2>", Ok(&[1, 0, 2, 0, 0]));
    told("<1><2></2><3></3></1><4><31></31></4>", Ok(&[1, 2, 0, 3, 0, 0, 4, 31, 0, 0, 0]));
    for text in [" <1></1>", "<1></1>\n", "\t<1>\r\n</1> \t", "<1> </1>"] {
        told(text, Ok(&[1, 0, 0]));
    }
}

#[test]
fn outside_the_grammar() {
    for (text, place) in [("", 0), (" \t\r\n", 4), ("<", 1), ("<1", 2), ("<12", 3), ("<1>", 3), ("<1></1", 6)] {
        outside(text, place);
    }
    for (text, place) in [("<12></1>", 7), ("<1></12>", 6), ("<1><2></1>", 8), ("<1></01>", 5), ("<10></0>", 6)] {
        outside(text, place);
    }
    for (text, place) in [("<00>", 2), ("<01>", 2), ("<007>", 2), ("<100>", 3), ("<0></00>", 6), ("<->", 1)] {
        outside(text, place);
    }
    for (text, place) in [("</2>", 1), ("<2></2></2>", 8), ("<>", 1), ("<1/>", 2), ("1", 0), ("<1>1</1>", 3)] {
        outside(text, place);
    }
    for (text, place) in [("< 1>", 1), ("<1 >", 2), ("<1>< /1>", 4), ("<1></ 1>", 5), ("<1></1 >", 6), ("<1 2>", 2)] {
        outside(text, place);
        outside(&text.replace(' ', "\n"), place);
    }
    outside("\u{b}<1></1>", 0);
    outside("<1></1>\u{c}", 7);
    outside("<1></1>\0", 7);
}

/// 19 goes by the first wrong tag; by symbol 0 before all, and after 18.
#[test]
fn wrong_symbols() {
    let mut random = Random::new(2);
    for (text, place) in [("<0></0>", 0), (" <1><0></0></1>", 4), ("<32></32>", 0), ("<1></1><99><0></0></99>", 7)] {
        told(text, refused(19, File::Neither, place));
    }
    told("<0>", refused(18, File::Neither, 3));
    for (branches, text, expected) in [
        (4, "<2></2>", Ok(())),
        (4, "<2><1></1></2>", refused(19, File::Neither, 3)),
        (4, "<2><3></3></2>", refused(19, File::Neither, 3)),
        (0, "<2></2>", refused(19, File::Neither, 0)),
        (5, " <2></2>", refused(19, File::Neither, 0)),
        (7, " <2></2><9></9>", refused(19, File::Neither, 0)),
        (7, " <2></2", refused(18, File::Neither, 7)),
    ] {
        let answer = compare(&automaton(3, branches), text.as_bytes(), TREE, &mut random);
        assert_eq!(answer.map(|_| ()), expected, "{text}");
    }
}

/// A text of exactly 32,768 bytes is read, and of one longer nothing is.
#[test]
fn lengths() {
    let mut random = Random::new(3);
    let mut answer = |text: &[u8]| compare(&all_but_0(), text, 512, &mut random).map(|file| file.len());
    let too_long = refused(18, File::Neither, MOST_TEXT);
    for (text, expected) in [("<1></1>", Ok(512)), ("x", refused(18, File::Neither, 0)), ("<1>", too_long)] {
        let mut text = text.as_bytes().to_vec();
        text.resize(MOST_TEXT, b' ');
        assert_eq!(answer(&text), expected);
        for (length, byte) in [(MOST_TEXT + 1, b' '), (3 * MOST_TEXT, b'<')] {
            text.resize(length, byte);
            assert_eq!(answer(&text), too_long);
        }
    }
}

/// So many tags, one inside another or side by side.
fn nested(opening: &str, closing: &str, count: usize) -> Vec<u8> {
    (opening.repeat(count) + &closing.repeat(count)).into_bytes()
}

fn side_by_side(count: usize) -> Vec<u8> {
    "<1></1>".repeat(count).into_bytes()
}

/// The deepest and the longest texts; 4 comes before 12, and 12 before 13.
#[test]
fn deep_and_long() {
    let mut random = Random::new(4);
    let mut answer = |text: &[u8]| compare(&all_but_0(), text, 512, &mut random).map(|file| file.len());
    for count in 1..=MOST_HEIGHT {
        assert_eq!(answer(&nested("<1>", "</1>", count)), Ok(512));
        assert_eq!(answer(&side_by_side(count)), Ok(512));
    }
    for count in [65, 66, 100, 252, 2047] {
        assert_eq!(answer(&nested("<12>", "</12>", count)), refused(12, File::Tree, 65));
        assert_eq!(answer(&side_by_side(count)), refused(12, File::Tree, 129));
    }
    for text in [nested("<1>", "</1>", 2048), side_by_side(2048), side_by_side(4681), nested("<31>", "</31>", 3640)] {
        assert_eq!(answer(&text), refused(4, File::Tree, 2));
    }
    for closed in [0, 1, 64, 3639] {
        let text = nested("<31>", "</31>", 3640);
        let place = 4 * 3640 + 5 * closed;
        assert_eq!(answer(&text[..place]), refused(18, File::Neither, place));
        let mut other = text.clone();
        other[place + 3] = b'2';
        assert_eq!(answer(&other), refused(18, File::Neither, place + 3));
    }
    assert_eq!(answer(&"<0>".repeat(10_922).into_bytes()), refused(18, File::Neither, 32_766));
    assert_eq!(answer(&("<0>".repeat(10_922) + "</").into_bytes()), refused(18, File::Neither, 32_768));
}

/// Each byte at each place of a text, put in and in place of the byte there.
#[test]
fn each_byte() {
    let mut random = Random::new(5);
    let text = b" <1>\t<12>\n<7></7> </12>\r<20></20></1> <31></31> ";
    let (mut written, mut refused) = (0, 0);
    for at in 0..=text.len() {
        for byte in 0..=255 {
            let mut inserted = text.to_vec();
            inserted.insert(at, byte);
            let mut changed = inserted.clone();
            if at < text.len() {
                changed.remove(at + 1);
            }
            for text in [inserted, changed, [&text[..at], &[byte]].concat()] {
                match compare(&all_but_0(), &text, 512, &mut random) {
                    Ok(_) => written += 1,
                    Err(_) => refused += 1,
                }
            }
        }
    }
    println!("{written} written, {refused} refused");
    assert!(written > 100 && refused > 10_000);
}

// ---- texts by chance

/// An element; a text is a run of them.
struct Element {
    number: u8,
    inside: Vec<Element>,
}

/// A run of so many elements by chance: `inside` draws how many of them, below a number, are in the first.
fn run(
    mut count: usize,
    numbers: &[u8],
    inside: &mut dyn FnMut(usize, &mut Random) -> usize,
    random: &mut Random,
) -> Vec<Element> {
    let mut run = Vec::new();
    while count > 0 {
        let inner = inside(count, random);
        run.push(Element { number: random.pick(numbers), inside: self::run(inner, numbers, inside, random) });
        count -= 1 + inner;
    }
    run
}

/// Few elements; about as many as a tree's file can have; or one inside another or side by side, about as many as may be.
fn by_chance(kind: u64, numbers: &[u8], random: &mut Random) -> Vec<Element> {
    let (low, high) = match kind {
        0 => (2030, 2060),
        1 | 2 => (60, 68),
        3 => (100, 1000),
        _ => (1, 30),
    };
    let mut inside = |count: usize, random: &mut Random| match kind {
        1 => (count - 1) * usize::from(random.below(80) > 0),
        2 => usize::from(random.below(80) == 0).min(count - 1),
        _ => random.below(count),
    };
    run(random.from_to(low, high), numbers, &mut inside, random)
}

/// The symbols of a run's tree in preorder, by the document's sentence.
fn symbols(run: &[Element], listed: &mut Vec<u8>) {
    match run.split_first() {
        None => listed.push(0),
        Some((first, after)) => {
            listed.push(first.number);
            symbols(&first.inside, listed);
            symbols(after, listed);
        }
    }
}

fn height(run: &[Element]) -> usize {
    match run.split_first() {
        None => 0,
        Some((first, after)) => 1 + height(&first.inside).max(height(after)),
    }
}

fn tags(run: &[Element], listed: &mut Vec<String>) {
    for Element { number, inside } in run {
        listed.push(format!("<{number}>"));
        tags(inside, listed);
        listed.push(format!("</{number}>"));
    }
}

/// The text of these tags, with spaces before, between and after them; no text is too long by them.
fn spaced(tags: &[String], random: &mut Random) -> Vec<u8> {
    let often = random.pick(&[0, 1, 4]);
    let mut left = MOST_TEXT.saturating_sub(tags.iter().map(String::len).sum());
    let mut text = Vec::new();
    for tag in tags.iter().map(String::as_str).chain([""]) {
        while left > 0 && random.below(8) < often {
            text.push(random.pick(&SPACES));
            left -= 1;
        }
        text.extend_from_slice(tag.as_bytes());
    }
    text
}

const DAMAGES: usize = 11;

/// The number of a damage, and the text with it.
fn damaged(text: &[u8], random: &mut Random) -> (usize, Vec<u8>) {
    let mut text = text.to_vec();
    let tags: Vec<usize> = (0..text.len()).filter(|&at| text[at] == b'<').collect();
    let end = |text: &[u8], tag: usize| tag + text[tag..].iter().position(|&byte| byte == b'>').map_or(1, |at| at + 1);
    let (at, tag) = (random.below(text.len()), random.pick(&tags));
    let one = tag..end(&text, tag);
    let kind = random.below(DAMAGES);
    match kind {
        0 => text[at] = random.below(256) as u8,
        1 => text[at] = random.pick(b"<>/0123456789 "),
        2 => drop(text.remove(at)),
        3 => text.insert(at, random.below(256) as u8),
        4 => text.insert(at, random.pick(b"<>/0123456789 ")),
        5 => text.swap(at, random.pick(&tags)),
        6 => text.truncate(at),
        7 => text.insert(random.from_to(one.start + 1, one.end - 1), random.pick(&SPACES)),
        8 => text.insert(tag + 1 + usize::from(text[tag + 1] == b'/'), b'0'),
        // a tag less, or two exchanged
        9 => drop(text.drain(one)),
        _ => {
            let other = random.pick(&tags);
            let other = other..end(&text, other);
            let (first, second) = if one.start < other.start { (one, other) } else { (other, one) };
            if first != second {
                let parts = [&text[..first.start], &text[second.clone()], &text[first.end..second.start]];
                text = [&parts.concat(), &text[first], &text[second.end..]].concat();
            }
        }
    }
    (kind, text)
}

/// The branch symbols without 0, or in one automaton of 40 with it; some rules.
fn automaton_by_chance(random: &mut Random) -> (Automaton, Vec<u8>) {
    let (states, symbols) = (random.from_to(1, 24), random.from_to(2, 32));
    let mut branches = (1..symbols).filter(|_| random.below(3) > 0).fold(0, |set, symbol| set | 1 << symbol);
    branches |= 1 << random.from_to(1, symbols - 1);
    let numbers = (1..symbols as u8).filter(|&symbol| branches >> symbol & 1 == 1).collect();
    branches |= u32::from(random.below(40) == 0);
    let ends = [symbols, states, usize::from(EVERY_PLACE) + 1, 1, states];
    let rule = |_| Rule { step: STAY, ..Rule::from_bytes(ends.map(|end| random.below(end) as u8)) };
    let rules = (0..60).map(rule).collect();
    (Automaton { states, symbols, initial: 1, accepting: 1, branches, rules }, numbers)
}

/// How often a file was written, and each number of a refusal given; and how often each damage still gave a file.
#[derive(Debug, Default)]
struct Counts {
    written: usize,
    refused: [usize; 20],
    many_nodes: usize,
    damaged: [usize; DAMAGES],
}

impl Counts {
    fn add(&mut self, answer: &Result<Vec<u8>, Refusal>) {
        match answer {
            Ok(_) => self.written += 1,
            Err(Refusal { number: 4, file: File::Tree, .. }) => self.many_nodes += 1,
            Err(refusal) => self.refused[refusal.number as usize] += 1,
        }
    }

    /// A text on outputs of several lengths; what is written is a tree's file for this automaton.
    fn compare(&mut self, file: &[u8], text: &[u8], random: &mut Random) -> Result<Vec<u8>, Refusal> {
        let room = TREE + random.below(10);
        let answer = compare(file, text, room, random);
        self.add(&answer);
        match &answer {
            Ok(tree) => {
                assert!(accepts(file, tree).is_ok(), "{}", text.escape_ascii());
                assert_eq!(compare(file, text, tree.len(), random).as_ref(), Ok(tree));
                for room in [tree.len() - 1, random.below(tree.len())] {
                    let answer = compare(file, text, room, random);
                    self.add(&answer);
                    assert_eq!(answer, refused(13, File::Neither, tree.len()));
                }
            }
            // however short the output is
            Err(refusal) => {
                let room = random.below(TREE);
                assert_eq!(compare(file, text, room, random), Err(*refusal));
            }
        }
        answer
    }
}

/// What has to be answered to a run's text on a long output; the place of 12 is not told.
fn expected(automaton: &Automaton, run: &[Element]) -> Result<Vec<u8>, u32> {
    let mut listed = Vec::new();
    symbols(run, &mut listed);
    if automaton.is_branch(0) {
        Err(19)
    } else if listed.len() > MOST_NODES {
        Err(4)
    } else if height(run) > MOST_HEIGHT {
        Err(12)
    } else {
        Ok(tree::write(&listed))
    }
}

/// Each text is given with two choices of spaces, and damaged twice.
#[test]
fn agrees() {
    let mut counts = Counts::default();
    for seed in 1..=TEXTS / 4 {
        let mut random = Random::new(seed);
        let (automaton, numbers) = automaton_by_chance(&mut random);
        let elements = by_chance(seed % 40, &numbers, &mut random);
        let mut listed = Vec::new();
        tags(&elements, &mut listed);
        let mut file = automaton.write();
        let expected = expected(&automaton, &elements);
        for _ in 0..2 {
            let text = spaced(&listed, &mut random);
            let answer = counts.compare(&file, &text, &mut random);
            assert_eq!(answer.map_err(|refusal| refusal.number), expected, "text {seed}");
        }
        if seed.is_multiple_of(16) {
            damage(&mut file, &mut random);
        }
        for _ in 0..2 {
            let (damage, text) = damaged(&spaced(&listed, &mut random), &mut random);
            let answer = counts.compare(&file, &text, &mut random);
            counts.damaged[damage] += usize::from(answer.is_ok());
        }
    }
    println!("{counts:?}");
    assert!(counts.written > 1000 && counts.many_nodes > 20 && counts.refused[2] > 20);
    assert!([12, 13, 18, 19].iter().all(|&number| counts.refused[number] > 20));
    assert!(counts.damaged[3] > 0 && counts.damaged[4] > 0 && counts.damaged[7] == 0 && counts.damaged[8] == 0);
}
