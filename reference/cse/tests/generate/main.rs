//! Generated forests are accepted, reach what their kinds aim at, and damaged ones are told apart.

mod forms;
mod many_scopes;
mod marks;
mod one_shape;
mod rules;
mod savings;
mod simple;
mod templates;

use std::collections::{BTreeMap, BTreeSet};

use cse_reference::damage::{damaged, described, each, NUMBERS};
use cse_reference::forest::{Forest, Record, Tree};
use cse_reference::generate::records::{is_free, nested_scopes, opcodes, takes_free, SHAPES};
use cse_reference::generate::{accepted, Family, Kind};
use cse_reference::oracle::{answer, entries, MAX_OUTPUT, MIN_WORK_WORDS};

/// Seeds a kind.
const SEEDS: u64 = 350;

fn unmarked() -> impl Iterator<Item = Family> {
    Kind::ALL.into_iter().map(Family::from)
}

fn marked() -> impl Iterator<Item = Family> {
    Kind::ALL
        .into_iter()
        .map(|kind| Family { kind, marked: true })
}

fn forests(families: impl Iterator<Item = Family>) -> impl Iterator<Item = (Family, u64, Forest)> {
    families.flat_map(|family| (0..SEEDS).map(move |seed| (family, seed, family.forest(seed))))
}

fn ids(record: &Record) -> Vec<u32> {
    let mut rest = &record.literal[..];
    let mut ids = Vec::new();
    let count = match record.shape {
        12 => record.aux,
        _ => 1,
    };
    for _ in 0..count {
        ids.push(u32::from_le_bytes(rest[..4].try_into().unwrap()));
        rest = match record.shape {
            7 => &[],
            _ => after_opt(&rest[4..]),
        };
    }
    assert!(rest.is_empty());
    ids
}

fn after_opt(bytes: &[u8]) -> &[u8] {
    match bytes[0] {
        0 => &bytes[1..],
        1 => after_type(&bytes[1..]),
        _ => panic!("an opt is 0 or 1"),
    }
}

fn after_type(bytes: &[u8]) -> &[u8] {
    assert!(bytes[0] > 0);
    &bytes[1 + bytes[0] as usize..]
}

/// A second reading of document 01, chapter "The forest", by assertions on trees.
fn assert_record(tree: &Tree) {
    let Record {
        shape,
        opcode,
        aux,
        ref literal,
    } = tree.record;
    let children = match shape {
        0..=2 | 7..=9 | 15 | 19 | 20 | 23 => 0..=0,
        3 | 10 | 12 | 17 | 18 | 25 => 1..=1,
        4..=6 => usize::from(shape) - 2..=usize::from(shape) - 2,
        11 | 13 | 26 => 1..=255,
        14 | 16 | 22 => 0..=255,
        21 => 0..=1,
        24 => 2..=3,
        _ => panic!("shape {shape}"),
    };
    assert!(children.contains(&tree.children.len()));
    let rest = match shape {
        0 => &literal[literal.len().max(1)..],
        1 => &[],
        8 => &literal[4..],
        7 | 10 | 12 => {
            ids(&tree.record);
            &[]
        }
        9 => after_opt(&literal[4..]),
        13 => (0..literal[2]).fold(&literal[3..], |rest, _| after_type(rest)),
        14 | 23 | 25 => after_type(literal),
        15 => {
            assert!(literal.iter().all(|bit| *bit < 2));
            &[]
        }
        17 => &literal[1..],
        18..=21 => after_type(&literal[1..]),
        _ => &literal[..],
    };
    assert!(rest.is_empty());
    assert!(match shape {
        0 => aux <= 251,
        12 => aux <= 15,
        _ => aux == 0,
    });
    let free = takes_free(shape) && is_free(opcode);
    assert!(free || opcodes(shape).contains(&opcode));
}

fn assert_in_place(tree: &Tree, as_item: bool, in_force: &mut Vec<u32>) {
    assert_record(tree);
    let shape = tree.record.shape;
    assert_eq!(shape == 10, as_item);
    let outside = in_force.len();
    if shape == 7 {
        assert!(in_force.contains(&ids(&tree.record)[0]));
    }
    if shape == 10 {
        assert!(!in_force.contains(&ids(&tree.record)[0]));
    }
    if shape == 12 {
        for id in ids(&tree.record) {
            assert!(!in_force.contains(&id));
            in_force.push(id);
        }
    }
    for (i, child) in tree.children.iter().enumerate() {
        let item = shape == 11 && i + 1 < tree.children.len();
        assert_in_place(child, item, in_force);
        if item {
            in_force.extend(ids(&child.record));
        }
    }
    in_force.truncate(outside);
}

#[test]
fn generated_forests_are_accepted() {
    for (family, seed, forest) in forests(unmarked().chain(marked())) {
        let context = format!("{} {seed}", family.name());
        assert!((1..=16).contains(&forest.trees.len()), "{context}");
        assert!((1..=256).contains(&forest.size()), "{context}");
        assert!(forest.to_bytes().len() <= 65_535, "{context}");
        for tree in &forest.trees {
            assert!(tree.depth() <= 64, "{context}");
            assert_in_place(tree, false, &mut Vec::new());
            let scopes = match family.kind {
                Kind::Scopes | Kind::Flat => 63,
                _ => 12,
            };
            assert!(nested_scopes(tree) <= scopes, "{context}");
        }
    }
}

#[test]
fn an_opcode_has_one_shape() {
    let mut shapes = BTreeMap::new();
    for shape in 2..SHAPES {
        for opcode in opcodes(shape) {
            assert_eq!(shapes.insert(opcode, shape), None);
        }
    }
}

#[test]
fn a_seed_gives_one_forest() {
    for kind in Kind::ALL {
        assert_eq!(Kind::parse(kind.name()), Some(kind));
        assert_eq!(Family::from(kind).forest(7), accepted(7, kind));
    }
    for family in unmarked().chain(marked()) {
        assert_eq!(family.forest(7), family.forest(7));
        let all: BTreeSet<Vec<u8>> = (0..100)
            .map(|seed| family.forest(seed).to_bytes())
            .collect();
        assert!(all.len() > 60, "{}", family.name());
    }
    assert_eq!(Kind::parse("tiny"), None);
}

/// The highest of a number over the forests of a kind.
fn highest(kind: Kind, of: impl Fn(&Forest) -> usize) -> usize {
    let all = (0..SEEDS).map(|seed| of(&accepted(seed, kind)));
    all.max().unwrap()
}

fn scopes(forest: &Forest) -> usize {
    forest.trees.iter().map(nested_scopes).max().unwrap()
}

fn depth(forest: &Forest) -> usize {
    forest.trees.iter().map(Tree::depth).max().unwrap()
}

fn widest(tree: &Tree) -> usize {
    let inner = tree.children.iter().map(widest);
    inner.chain([tree.children.len()]).max().unwrap()
}

#[test]
fn kinds_reach_their_aims() {
    assert_eq!(highest(Kind::Small, Forest::size), 12);
    assert!(highest(Kind::Medium, Forest::size) > 50);
    assert_eq!(highest(Kind::Large, Forest::size), 256);
    assert_eq!(highest(Kind::Deep, depth), 64);
    let root = |forest: &Forest| widest(forest.trees.last().unwrap());
    assert!(highest(Kind::Wide, root) > 200);
    assert!(highest(Kind::Thunks, scopes) > 5);
    assert!(highest(Kind::Lambdas, scopes) > 5);
    assert_eq!(highest(Kind::Deep, scopes), 12);
    assert_eq!(highest(Kind::Scopes, scopes), 63);
    assert!(highest(Kind::Flat, scopes) > 50);
    assert_eq!(
        highest(Kind::NearLimit, |forest| forest.to_bytes().len()),
        65_535
    );
}

/// Mostly past the entries that the main call stores, at times with few more, or fewer.
#[test]
fn flat_forests_have_long_free_lists() {
    let found: Vec<usize> = (0..SEEDS)
        .map(|seed| entries(&accepted(seed, Kind::Flat)))
        .collect();
    let count = |numbers: std::ops::Range<usize>| {
        let among = found.iter().filter(|entries| numbers.contains(entries));
        among.count()
    };
    assert!(count(4_097..usize::MAX) > 300);
    assert!(count(4_097..4_200) > 30);
    assert!(count(3_900..4_097) > 5);
}

/// The kinds made by counting come out exactly at a limit and past it.
#[test]
fn limits_are_met_on_both_sides() {
    let mut seen = BTreeSet::new();
    for kind in [Kind::NearLimit, Kind::Readings, Kind::Symbols] {
        for seed in 0..800 {
            let bytes = accepted(seed, kind).to_bytes();
            let Ok(answer) = answer(&bytes, MAX_OUTPUT, MIN_WORK_WORDS) else {
                continue;
            };
            seen.insert(match (answer.number, answer.symbols, answer.readings) {
                (0, 512, _) => "512 symbols",
                (0, _, 2_048) => "2,048 readings",
                (0, _, _) if answer.written_length == 65_535 => "65,535 bytes",
                (0, _, _) if answer.tree[2..4] == [0, 1] => "256 records",
                (0, _, _) if written_depth(&answer.tree) == 64 => "64 deep",
                (0, _, _) => "written",
                (11, _, _) => "too many readings",
                (12, _, _) => "too many symbols",
                (13, _, _) => "too large",
                (14, _, _) => "too deep",
                _ => panic!("an accepted forest is refused with {}", answer.number),
            });
        }
    }
    assert_eq!(seen.len(), 10, "{seen:?}");
}

fn written_depth(bytes: &[u8]) -> usize {
    depth(&cse_reference::check::accept(bytes).unwrap())
}

#[test]
fn damage_is_of_the_number_asked_for() {
    for number in NUMBERS {
        for seed in 0..200 {
            let fault = each(number, seed);
            assert_eq!(fault.number, number);
            assert_eq!(fault, each(number, seed));
            assert!(fault.place <= 256);
        }
    }
    let numbers: BTreeSet<u32> = (0..500).map(|seed| damaged(seed).number).collect();
    assert_eq!(numbers, NUMBERS.into());
}

#[test]
fn each_number_has_many_ways() {
    for (number, count) in [
        (2, 8),
        (3, 13),
        (4, 18),
        (5, 5),
        (6, 6),
        (7, 2),
        (8, 8),
        (9, 11),
        (10, 11),
        (16, 12),
    ] {
        let ways: BTreeSet<&str> = (0..2_000).map(|seed| described(number, seed).1).collect();
        assert_eq!(ways.len(), count, "{number}: {ways:?}");
    }
}
