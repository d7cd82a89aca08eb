//! Forests with a fault through both; what they have to be refused with is known from how they are made, too.

use std::collections::BTreeMap;

use cse_reference::damage::{damaged, two_shapes, ways_of_two_shapes, Damaged};
use cse_reference::hex;

use crate::asked::Asked;
use crate::compare::{compare, tallied, Lent, Tally};

/// Forests with any fault. Whether nothing differed, no call took too long, and as many as is asked for were compared.
pub fn damaged_forests(asked: Asked) -> bool {
    tallied(asked, |seed, lent, tally| {
        compare_made(&damaged(seed), seed, lent, tally);
    })
    .print("damaged", asked.least, None)
}

/// Forests where an opcode has two shapes, which has come to `telling` of them in each way.
pub fn mixed_forests(asked: Asked) -> bool {
    let mut tally = tallied(asked, |seed, lent, tally| {
        let (made, way) = two_shapes(seed);
        compare_made(&made, seed, lent, tally);
        *tally.ways.entry(way).or_default() += 1;
    });
    tally.telling = rarest(&tally.ways);
    let told = Some(("have two shapes in the rarest way", asked.telling));
    tally.print("two-shapes", asked.least, told)
}

/// How often the rarest of all ways came.
fn rarest(ways: &BTreeMap<&'static str, u64>) -> u64 {
    let all = ways_of_two_shapes().into_iter();
    let counts = all.map(|way| ways.get(way).copied().unwrap_or(0));
    counts.min().unwrap_or(0)
}

/// A forest with a fault; what it has to be refused with, by the way it is made, is what the reading says too.
fn compare_made(made: &Damaged, seed: u64, lent: &mut Lent, tally: &mut Tally) {
    let given = compare(&made.bytes, seed, lent, tally);
    let refusal = given.map(|given| (given.number, given.place));
    if refusal != Some((made.number, made.place)) {
        let (number, place) = (made.number, made.place);
        let forest = hex::print(&made.bytes);
        tally
            .differences
            .push(format!("made for {number} at {place}: {forest}"));
    }
}

#[cfg(test)]
mod tests {
    use super::*;

    #[test]
    fn the_rarest_way_is_counted() {
        let mut ways: BTreeMap<&str, u64> = BTreeMap::new();
        for way in ways_of_two_shapes() {
            assert_eq!(rarest(&ways), 0);
            ways.insert(way, 3);
        }
        assert_eq!(rarest(&ways), 3);
    }
}
