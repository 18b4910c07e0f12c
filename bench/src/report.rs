//! The printed tables of figures.
use crate::{
    judges::{COUNT, ENGINE, NAMES},
    measure::Row,
};

/// A table: what it is of, the digits after the point, the implementations that have a column, and those that the engine is compared with.
pub struct Table<'a> {
    pub title: String,
    pub digits: usize,
    pub columns: &'a [usize],
    pub peers: &'a [Peer],
}

/// What the engine's time is divided by: that of one implementation, or the lowest of some.
pub enum Peer {
    One(usize),
    Best(&'static str, &'static [usize]),
}

impl Peer {
    fn name(&self) -> &'static str {
        match self {
            Peer::One(which) => NAMES[*which],
            Peer::Best(name, _) => name,
        }
    }

    /// The engine's time over that of the peer, where the engine is linked.
    fn ratio(&self, micros: [f64; COUNT]) -> Option<f64> {
        let other = match self {
            Peer::One(which) => micros[*which],
            Peer::Best(_, which) => which.iter().fold(f64::INFINITY, |best, which| best.min(micros[*which])),
        };
        ENGINE.map(|engine| micros[engine] / other)
    }
}

/// The width of a ratio's column.
fn width(peer: &Peer) -> usize {
    ratio_name(peer).len().max(21) + 2
}

fn ratio_name(peer: &Peer) -> String {
    format!("engine / {}", peer.name())
}

/// Prints the rows and their mean.
pub fn print(table: &Table, rows: &[Row]) {
    println!("{}", table.title);
    print_head(table);
    for row in rows {
        print_line(table, row.name, &format!("{}/{}", row.accepted, row.trees), row.micros);
    }
    let mean = |which: usize| rows.iter().map(|row| row.micros[which]).sum::<f64>() / rows.len() as f64;
    print_line(table, "mean", "", std::array::from_fn(mean));
}

fn print_head(table: &Table) {
    print!("{:<14}{:>9}", "family", "accepted");
    for &which in table.columns {
        print!("{:>21}", NAMES[which]);
    }
    for peer in table.peers.iter().filter(|_| ENGINE.is_some()) {
        print!("{:>1$}", ratio_name(peer), width(peer));
    }
    println!();
}

fn print_line(table: &Table, name: &str, accepted: &str, micros: [f64; COUNT]) {
    print!("{name:<14}{accepted:>9}");
    for &which in table.columns {
        print!("{:>21.1$}", micros[which], table.digits);
    }
    for (peer, ratio) in table.peers.iter().filter_map(|peer| Some((peer, peer.ratio(micros)?))) {
        print!("{ratio:>0$.2}", width(peer));
    }
    println!();
}
