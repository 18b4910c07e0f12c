//! The report on trees' files that come in a stream (document 01, "Tally and report"): the report program beside the same tally in Rust, by a
//! second process of this program, and beside `cat | wc -c`, which does no more than to read the bytes and hand them on.
use crate::{
    automaton::Automaton,
    batch::{self, Tally},
    families::{self, Family, Make},
    lazy::Lazy,
    random::Random,
    shapes::{self, Shape},
    tree::{self, MOST_BYTES, MOST_HEIGHT},
    Judge, Refusal, Verdict,
};
use std::{
    env,
    fs::{self, File},
    io::{self, BufWriter, Read, Write},
    path::{Path, PathBuf},
    process::{self, Command, Stdio},
    time::Instant,
};

const RUNS: usize = 3;
const SMALL: usize = 1_000_000;
const LARGE: usize = 10_000;
/// One of so many small trees is refused.
const REFUSED: usize = 50;
/// Bytes that are read at once.
const PIECE: usize = 1 << 16;
/// The most answers that a tally has (refusal 14).
const MOST_ANSWERS: u32 = 1_000_000;
const FAMILY: &str = "traversal";
const WALKER: &str = "walker.blk";

// ---- the report in Rust

/// The tally of trees' files that are read piece by piece.
pub fn tally(judge: &impl Judge, mut input: impl Read) -> io::Result<Tally> {
    let mut tally = [0; 3];
    let mut buffer = vec![0; MOST_BYTES + PIECE];
    let mut end = 0;
    loop {
        let mut begin = 0;
        while let Some(file) = batch::first_file(&buffer[begin..end]) {
            if tally.iter().sum::<u32>() == MOST_ANSWERS {
                return Ok(tally);
            }
            let verdict = judge.judge(file);
            batch::count(&mut tally, verdict);
            if matches!(verdict, Verdict::Refused(Refusal { number: 1..=4, .. })) {
                return Ok(tally);
            }
            begin += file.len();
        }
        buffer.copy_within(begin..end, 0);
        end -= begin;
        let read = if end < MOST_BYTES { input.read(&mut buffer[end..end + PIECE])? } else { 0 };
        end += read;
        if read == 0 {
            let stopped_inside = end > 0 && tally.iter().sum::<u32>() < MOST_ANSWERS;
            tally[2] += u32::from(stopped_inside);
            return Ok(tally);
        }
    }
}

/// Prints the last line of the report on standard input, by the automaton of the folder.
pub fn report() -> Result<(), String> {
    let automaton = fs::read(WALKER).unwrap_or_default();
    let judge = match Lazy::prepare(&automaton) {
        Ok(judge) => judge,
        Err(Refusal { number, place }) => {
            println!("walker refused={number} place={place}");
            return Ok(());
        }
    };
    let tally = tally(&judge, io::stdin().lock()).map_err(|error| error.to_string())?;
    let [accepted, other, refused] = tally;
    let percent = batch::percent(tally);
    println!("documents accepted={accepted} other={other} refused={refused} percent={percent}");
    Ok(())
}

// ---- files

/// A folder that is removed with what is in it.
struct Folder(PathBuf);

impl Folder {
    fn make() -> Result<Folder, String> {
        let path = env::temp_dir().join(format!("bench-stream-{}", process::id()));
        fs::create_dir(&path).map_err(|error| format!("{}: {error}", path.display()))?;
        Ok(Folder(path))
    }
}

impl Drop for Folder {
    fn drop(&mut self) {
        if let Err(error) = fs::remove_dir_all(&self.0) {
            eprintln!("{} is left: {error}", self.0.display());
        }
    }
}

/// A small tree, of which some have an unknown symbol or stop before they close.
fn small_tree(automaton: &Automaton, number: usize, random: &mut Random) -> Vec<u8> {
    if !number.is_multiple_of(REFUSED) {
        return families::small_tree(automaton, number, random);
    }
    let mut symbols = shapes::tree(automaton, Shape::Random, random.from_to(2, 29), MOST_HEIGHT, random);
    if random.below(2) == 0 {
        symbols.pop();
    } else {
        let at = random.below(symbols.len());
        symbols[at] = automaton.symbols as u8;
    }
    tree::write(&symbols)
}

/// Writes so many trees' files end to end; the length.
fn write(path: &Path, automaton: &Automaton, trees: usize, make: Make) -> io::Result<u64> {
    let mut file = BufWriter::new(File::create(path)?);
    let mut random = Random::new(1);
    for number in 0..trees {
        file.write_all(&make(automaton, number, &mut random))?;
    }
    file.flush()?;
    Ok(fs::metadata(path)?.len())
}

// ---- measuring

/// The seconds of a program on a file in its folder, and the last line that it prints.
fn time(program: &Path, words: &[&str], trees: &Path) -> Result<(f64, String), String> {
    let failed = |error: io::Error| format!("{}: {error}", program.display());
    let folder = trees.parent().ok_or("the file is in no folder")?;
    let mut command = Command::new(program);
    command.args(words).current_dir(folder).stdin(File::open(trees).map_err(failed)?).stderr(Stdio::inherit());
    let begin = Instant::now();
    let output = command.output().map_err(failed)?;
    let seconds = begin.elapsed().as_secs_f64();
    if !output.status.success() {
        return Err(format!("{} failed: {}", program.display(), output.status));
    }
    let printed = String::from_utf8_lossy(&output.stdout);
    Ok((seconds, printed.lines().last().unwrap_or_default().to_string()))
}

/// The programs: the reading alone, the tally in Rust, and the report program, where its path is known.
fn programs(report: Option<&Path>) -> Result<Vec<(PathBuf, Vec<&'static str>)>, String> {
    let own = env::current_exe().map_err(|error| error.to_string())?;
    let mut programs = vec![("sh".into(), vec!["-c", "cat | wc -c"]), (own, vec!["report"])];
    if let Some(path) = report {
        let path = path.canonicalize().map_err(|error| format!("{}: {error}", path.display()))?;
        programs.push((path, Vec::new()));
    }
    Ok(programs)
}

/// The best of some runs of each program, in turn; the tallies in Rust and of the report program have to be alike.
fn measure(name: &str, trees: &Path, bytes: u64, programs: &[(PathBuf, Vec<&str>)]) -> Result<(), String> {
    let mut best = vec![f64::INFINITY; programs.len()];
    let mut told = vec![String::new(); programs.len()];
    for _ in 0..RUNS {
        for (which, (program, words)) in programs.iter().enumerate() {
            let (seconds, line) = time(program, words, trees)?;
            best[which] = best[which].min(seconds);
            told[which] = line;
        }
    }
    if told[0] != bytes.to_string() {
        return Err(format!("{name}: {} of {bytes} bytes were read", told[0]));
    }
    if told[1..].iter().any(|line| *line != told[1]) {
        return Err(format!("{name}: the tallies differ: {:?}", &told[1..]));
    }
    print!("{name:<28}{bytes:>12}{:>14.3}", best[0]);
    for seconds in &best[1..] {
        print!("{seconds:>14.3}{:>26.2}", seconds / best[0]);
    }
    println!("   {}", told[1]);
    Ok(())
}

/// Writes the files, measures, and removes them.
pub fn run(report: Option<&Path>) -> Result<(), String> {
    let programs = programs(report)?;
    let family = Family::named(FAMILY).ok_or("the family is not there")?;
    let file = family.cases().remove(0).automaton;
    let automaton = Automaton::read(&file).map_err(|_| "an automaton was refused")?;
    let folder = Folder::make()?;
    fs::write(folder.0.join(WALKER), file).map_err(|error| error.to_string())?;
    println!("\nthe report on a stream, seconds, best of {RUNS} runs:");
    print!("{:<28}{:>12}{:>14}", "trees", "bytes", "cat | wc -c");
    for name in ["Rust lazy", "report"].into_iter().take(programs.len() - 1) {
        print!("{name:>14}{:>26}", format!("{name} / cat | wc -c"));
    }
    println!("   tally");
    let streams: [(&str, usize, Make); 2] =
        [("one block", SMALL, small_tree), ("4,095 nodes", LARGE, families::large_tree)];
    for (kind, count, make) in streams {
        let trees = folder.0.join("letters.blk");
        let bytes = write(&trees, &automaton, count, make).map_err(|error| error.to_string())?;
        measure(&format!("{count} of {kind}"), &trees, bytes, &programs)?;
    }
    Ok(())
}
