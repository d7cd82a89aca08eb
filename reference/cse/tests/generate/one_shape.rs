//! Forests with two shapes under an opcode: each way comes, with what it says; and accepted ones that come near them.

use std::collections::{BTreeMap, BTreeSet};

use cse_reference::check::accept;
use cse_reference::damage::{two_shapes, ways_of_two_shapes};
use cse_reference::forest::{Forest, Record};
use cse_reference::generate::records::{is_free, takes_free, SHAPES};
use cse_reference::generate::{accepted, near_misses, Kind};
use cse_reference::hex;

use crate::SEEDS;

/// The shape and opcode of each record, by the directory alone.
fn records(bytes: &[u8]) -> Vec<(u8, u8)> {
    let at = |place: usize| usize::from(u16::from_le_bytes([bytes[place], bytes[place + 1]]));
    let record = |index| {
        let start = at(4 + 4 * index);
        (bytes[start], bytes[start + 1])
    };
    (0..at(2)).map(record).collect()
}

/// Where opcodes other than 00 have a shape that they had not before, each but its first.
fn further(records: &[(u8, u8)]) -> Vec<(usize, u8)> {
    let mut met: BTreeMap<u8, BTreeSet<u8>> = BTreeMap::new();
    let mut found = Vec::new();
    for (place, &(shape, opcode)) in records.iter().enumerate() {
        let shapes = met.entry(opcode).or_default();
        if shapes.insert(shape) && shapes.len() > 1 && opcode != 0 {
            found.push((place, opcode));
        }
    }
    found
}

#[test]
fn each_way_comes_and_says_what_it_does() {
    let mut ways: BTreeMap<&str, u32> = BTreeMap::new();
    for seed in 0..3_000 {
        let (case, way) = two_shapes(seed);
        *ways.entry(way).or_default() += 1;
        let records = records(&case.bytes);
        let found = further(&records);
        let (place, opcode) = found[0];
        let shape = records[place].0;
        let earlier = records.iter().position(|&(_, other)| other == opcode);
        let earlier = earlier.unwrap();
        let shown = hex::print(&case.bytes);
        assert_eq!(case, two_shapes(seed).0);
        if case.number == 16 {
            assert_eq!(place, case.place as usize, "{way}: {shown}");
        } else {
            assert!(place < case.place as usize, "{way}: {shown}");
        }
        let holds = match way {
            "the first record" => earlier == 0,
            "the last record" => place + 1 == records.len(),
            "far apart" => place - earlier >= 100,
            "Two and ByIndex" => [records[earlier].0, shape]
                .iter()
                .all(|s| [4, 24].contains(s)),
            "three shapes or more" => found.len() > 1 && found.iter().all(|at| at.1 == opcode),
            "two opcodes" => found.iter().any(|at| at.1 != opcode),
            "before a record that is too deep" => case.number == 7,
            "before an opcode of other shapes" => case.number == 5,
            "before a record left over" => case.number == 6,
            _ => case.number == 16,
        };
        assert!(holds, "{way}: {shown}");
    }
    assert!(ways
        .keys()
        .copied()
        .eq(BTreeSet::from_iter(ways_of_two_shapes())));
    assert!(ways.values().all(|&count| count >= 150), "{ways:?}");
}

/// Without the fault, by its own opcode for each of these shapes, the forest has the number of the check that comes after.
#[test]
fn what_a_later_check_finds_is_there() {
    let mut numbers = BTreeMap::new();
    for seed in 0..1_500 {
        let (case, way) = two_shapes(seed);
        if !way.starts_with("after ") {
            continue;
        }
        let mut bytes = case.bytes;
        for (record, (shape, opcode)) in records(&bytes).into_iter().enumerate() {
            let pair = 4 + 4 * record;
            let start = usize::from(u16::from_le_bytes([bytes[pair], bytes[pair + 1]]));
            if takes_free(shape) && is_free(opcode) {
                bytes[start + 1] = shape + 1;
            }
        }
        let refusal = accept(&bytes).unwrap_err();
        assert!(refusal.place < case.place, "{way}");
        *numbers.entry((way, refusal.number)).or_insert(0) += 1;
    }
    let expected = [
        ("after a definition out of place", 8),
        ("after a use of an id not in force", 10),
        ("after an id that is bound again", 9),
    ];
    assert!(numbers.keys().copied().eq(expected), "{numbers:?}");
}

#[test]
fn each_free_shape_and_opcode_comes() {
    let mut shapes = BTreeSet::new();
    let mut opcodes = BTreeSet::new();
    for seed in 0..6_000 {
        let records = records(&two_shapes(seed).0.bytes);
        let (place, opcode) = further(&records)[0];
        shapes.insert(records[place].0);
        shapes.insert(records.iter().find(|record| record.1 == opcode).unwrap().0);
        opcodes.insert(opcode);
    }
    assert!(shapes
        .into_iter()
        .eq((0..SHAPES).filter(|&shape| takes_free(shape))));
    assert!(opcodes
        .into_iter()
        .eq((0..=255).filter(|&opcode| is_free(opcode))));
}

fn all_records(forest: &Forest) -> Vec<Record> {
    let mut forest = forest.clone();
    let records = forest.records_mut();
    records.into_iter().map(|record| record.clone()).collect()
}

#[test]
fn forests_near_sixteen_have_any_opcode() {
    let mut pairs = BTreeSet::new();
    let mut near = 0;
    for seed in 0..10 * SEEDS {
        let forest = accepted(seed, Kind::OneShape);
        near += u32::from(near_misses(&forest));
        pairs.extend(all_records(&forest).iter().map(|r| (r.shape, r.opcode)));
    }
    assert!(near > 1_750, "{near}");
    // Of 19 shapes with any of 241 opcodes each.
    let free = pairs.iter().filter(|pair| is_free(pair.1)).count();
    assert!(free > 3_800, "{free}");
}
