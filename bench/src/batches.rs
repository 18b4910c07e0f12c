//! Judging in batches, the engine beside the implementations in Rust: the families' trees again and again, trees whose classes explode, trees
//! that come once each, and small trees.
use crate::{
    families::{self, Family, Make, EXPLODING, FAMILIES},
    judges::{CONFIGURATIONS, ENGINE, LAZY, PLAIN, TABLES},
    measure::{self, Group, Input},
    report::{self, Peer, Table},
};

/// How often the trees of an automaton are in its batch, of 64 trees and of 1,024.
const REPEATS: usize = 16;
pub const WARM_REPEATS: usize = 256;
pub const ROUNDS: usize = 10;
/// Trees of an automaton that come once each.
pub const LARGE: usize = 128;
pub const SMALL: usize = 2048;

const WITHOUT_CLASSES: Peer = Peer::Best("best without classes", &[TABLES, CONFIGURATIONS]);

/// The engine, where it is linked, and others.
fn with_engine(others: &[usize]) -> Vec<usize> {
    ENGINE.into_iter().chain(others.iter().copied()).collect()
}

pub fn run() -> Result<(), String> {
    again(
        "",
        REPEATS,
        &with_engine(&[TABLES, PLAIN, CONFIGURATIONS, LAZY]),
        &[Peer::One(TABLES), Peer::One(PLAIN), Peer::One(LAZY)],
    )?;
    again(
        "\nwarm: ",
        WARM_REPEATS,
        &with_engine(&[CONFIGURATIONS, LAZY]),
        &[Peer::One(CONFIGURATIONS), Peer::One(LAZY)],
    )?;
    once("classes explode, 4,095 nodes", &EXPLODING, LARGE, families::large_tree)?;
    once("trees that come once each, 4,095 nodes", &FAMILIES, LARGE, families::large_tree)?;
    once("small trees that come once each, 5 to 59 nodes", &FAMILIES, SMALL, families::small_tree)
}

/// The families, each tree several times.
fn again(kind: &str, repeats: usize, which: &[usize], peers: &[Peer]) -> Result<(), String> {
    let inputs = |family: &Family| family.cases().iter().map(|case| Input::repeated(case, repeats)).collect();
    let groups = groups(&FAMILIES, inputs)?;
    let title = format!(
        "{kind}microseconds a tree (4,095 nodes, 24 states, 512 rules) in batches of {} trees of one automaton, best of {ROUNDS} rounds:",
        4 * repeats
    );
    report::print(&Table { title, digits: 1, columns: which, peers }, &measure::measure(groups, which, ROUNDS)?);
    Ok(())
}

/// Families with trees that are new each time.
fn once(kind: &str, families: &[Family], trees: usize, tree: Make) -> Result<(), String> {
    let inputs = |family: &Family| family.cases_of(trees, tree).iter().map(Input::once).collect();
    let groups = groups(families, inputs)?;
    let which = with_engine(&[TABLES, CONFIGURATIONS, LAZY]);
    let title =
        format!("\n{kind}, microseconds a tree in batches of {trees} of one automaton, best of {ROUNDS} rounds:");
    let table = Table { title, digits: 2, columns: &which, peers: &[WITHOUT_CLASSES, Peer::One(LAZY)] };
    report::print(&table, &measure::measure(groups, &which, ROUNDS)?);
    Ok(())
}

/// The batches of each family.
fn groups(families: &[Family], inputs: impl Fn(&Family) -> Result<Vec<Input>, String>) -> Result<Vec<Group>, String> {
    let group = |family: &Family| {
        let inputs = inputs(family).map_err(|message| format!("{}: {message}", family.name))?;
        Ok(Group { name: family.name, inputs })
    };
    families.iter().map(group).collect()
}
