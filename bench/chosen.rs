//! Prints numbers that somebody might choose to slow a table down: they fall to a few places of a table of their count.
//!
//! chosen COUNT GREATEST            COUNT numbers from 1 to GREATEST, one a line: under the fixed seed of the kit's
//!                                  hasher, without that of the lottery
//! chosen COUNT GREATEST noughts    the same, by whoever knows that the lottery's seed is 64 noughts

const INITIAL: u64 = 0x243f_6a88_85a3_08d3;
const MULTIPLIER: u64 = 0x9e37_79b9_7f4a_7c15;

/// The product of two numbers, its upper half folded into the lower one.
fn folded(one: u64, other: u64) -> u64 {
    let product = u128::from(one) * u128::from(other);
    product as u64 ^ (product >> 64) as u64
}

/// The state of the hasher once a seed of noughts was written.
fn after_noughts() -> u64 {
    let first = folded(INITIAL.wrapping_add(32), MULTIPLIER);
    folded(first, MULTIPLIER)
}

/// The hash of a number as the papers' tables have it, from a state on: all bytes but the low one are mixed, and the low
/// one moves what comes out.
fn hash(state: u64, number: u32) -> u32 {
    let (rest, low) = (u64::from(number >> 8), u64::from(number & 0xFF));
    let mixed = folded(state ^ rest, MULTIPLIER ^ 6);
    let tag = (mixed / 0x100_0000 % 0x100 + low) % 0x100;
    let group = (mixed % 0x100_0000 + low / 2) % 0x100_0000;
    (tag << 24 | group) as u32
}

fn main() {
    let words: Vec<String> = std::env::args().skip(1).collect();
    let (count, greatest, state): (usize, usize, u64) = match words.as_slice() {
        [count, greatest] => (count.parse().expect("a number"), greatest.parse().expect("a number"), INITIAL),
        [count, greatest, _noughts] => (count.parse().expect("a number"), greatest.parse().expect("a number"), after_noughts()),
        _ => panic!("chosen COUNT GREATEST [noughts]"),
    };
    // A table of so many entries has at least as many places as this, each found by the lowest bits.
    let places = (count / 12).next_power_of_two();
    let chosen = (places * count / greatest + 1) as u32;
    let lines: Vec<String> = (1..=greatest as u32)
        .filter(|number| hash(state, *number) & (places as u32 - 1) < chosen)
        .take(count)
        .map(|number| number.to_string())
        .collect();
    println!("{}", lines.join("\n"));
}
