//! The percent, as document 02's W3 has it: the cases of its readings, and the engine beside the implementation in Rust.
use bench::{batch, random::Random};
use engine::{percent, Tally};

const TALLIES: u64 = 8000;

fn tally(accepted: u32, other: u32) -> Tally {
    Tally { accepted, other, refused: 7 }
}

#[track_caller]
fn told(accepted: u32, other: u32, expected: u32) {
    assert_eq!(percent(tally(accepted, other)), expected, "{accepted} accepted, {other} other");
}

#[track_caller]
fn agrees(accepted: u32, other: u32) {
    told(accepted, other, batch::percent([accepted, other, 7]));
}

/// Only an exact half goes to the even number.
#[test]
fn cases() {
    told(1, 1, 50);
    told(1, 7, 12);
    told(3, 5, 38);
    told(5, 3, 62);
    told(7, 1, 88);
    told(1, 199, 0);
    told(3, 197, 2);
    told(199, 1, 100);
    told(197, 3, 98);
    told(2, 1, 67);
    told(0, 0, 0);
    told(0, 8, 0);
    told(8, 0, 100);
}

/// One letter more or less on either side of 12.5 and of 37.5 percent.
#[test]
fn beside_a_half() {
    told(124, 876, 12);
    told(125, 875, 12);
    told(126, 874, 13);
    told(374, 626, 37);
    told(375, 625, 38);
    told(376, 624, 38);
}

/// Numbers that fill 32 bits, exact halves among them: 49.5 and 50.5, and one letter beside each.
#[test]
fn largest() {
    told(u32::MAX, u32::MAX, 50);
    told(u32::MAX, 0, 100);
    told(0, u32::MAX, 0);
    told(u32::MAX, 1, 100);
    told(1, u32::MAX, 0);
    let (low, high) = (99 * 42_524_428, 101 * 42_524_428);
    told(low, high, 50);
    told(low - 1, high, 49);
    told(low, high + 1, 49);
    told(high, low, 50);
    told(high + 1, low, 51);
    told(high, low - 1, 51);
}

/// Every tally of fewer than 400 that were judged.
#[test]
fn small() {
    for judged in 0..400 {
        for accepted in 0..=judged {
            agrees(accepted, judged - accepted);
        }
    }
}

/// Exact halves, each with one of its numbers one more and one less, and any numbers.
#[test]
fn by_chance() {
    let mut random = Random::new(1);
    for _ in 0..TALLIES {
        let odd = 2 * random.below(100) as u32 + 1;
        let part = 1 + random.below((u32::MAX / odd.max(200 - odd)) as usize) as u32;
        let (accepted, other) = (odd * part, (200 - odd) * part);
        assert_eq!(percent(tally(accepted, other)) % 2, 0, "{accepted} accepted, {other} other");
        agrees(accepted, other);
        agrees(accepted.saturating_add(1), other);
        agrees(accepted - 1, other);
        agrees(accepted, other.saturating_add(1));
        agrees(accepted, other - 1);
        let mut any = || random.below(1 << 32) as u32 >> random.below(32);
        agrees(any(), any());
    }
}
