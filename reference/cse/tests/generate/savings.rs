//! Forests of savings have definitions that save bytes, some that do not, and what makes uses hard to count.

use crate::*;

use cse_reference::check::accept;
use cse_reference::lister::listing;
use cse_reference::savings::{savings, Definition, Savings};

/// Where a definition is written.
#[derive(Clone, Copy, Default)]
struct Inside {
    value: bool,
    lambda: bool,
    thunk: bool,
}

fn places(tree: &Tree, inside: Inside, seen: &mut BTreeSet<&'static str>) {
    let Record { shape, opcode, .. } = tree.record;
    for (i, child) in tree.children.iter().enumerate() {
        let mut inside = inside;
        inside.value |= shape == 10;
        inside.lambda |= shape == 12;
        inside.thunk |= (opcode == 0x95 && i > 0) || (matches!(opcode, 0xED | 0xEC) && i == 1);
        if child.record.shape == 10 {
            for (name, holds) in [
                ("in a value", inside.value),
                ("in a lambda", inside.lambda),
                ("in a thunk", inside.thunk),
            ] {
                if holds {
                    seen.insert(name);
                }
            }
        }
        places(child, inside, seen);
    }
}

fn repeats(found: &[Definition]) -> bool {
    let ids: BTreeSet<u32> = found.iter().map(|found| found.id).collect();
    ids.len() < found.len()
}

/// What a written tree has.
fn features(written: &Tree, found: &Savings) -> BTreeSet<&'static str> {
    let mut seen = BTreeSet::new();
    places(written, Inside::default(), &mut seen);
    for saving in found.each() {
        seen.insert(match saving {
            i64::MIN..-1 => "below",
            -1 => "just below",
            0 => "zero",
            1 => "just above",
            2..1_000 => "above",
            1_000..10_000 => "thousands",
            10_000..1_000_000 => "ten thousands",
            _ => "millions",
        });
    }
    if found.definitions.iter().any(|found| found.uses == 1) {
        seen.insert("used once");
    }
    if found.definitions.iter().any(|found| found.uses > 200) {
        seen.insert("used over 200 times");
    }
    if repeats(&found.definitions) {
        seen.insert("an id in two places");
    }
    if found.lines() != found.lines_by_id() {
        seen.insert("uses of an id elsewhere");
    }
    seen
}

/// How many of the family's forests have what, and the highest saving.
fn counted(marked: bool) -> (BTreeMap<&'static str, usize>, i64) {
    let kind = Kind::Savings;
    let mut counts = BTreeMap::new();
    let mut highest = 0;
    for seed in 0..SEEDS {
        let bytes = Family { kind, marked }.forest(seed).to_bytes();
        let listing = listing(&bytes).unwrap();
        if listing.text.starts_with("refused") {
            *counts.entry("refused").or_insert(0) += 1;
            continue;
        }
        let written = answer(&bytes, MAX_OUTPUT, MIN_WORK_WORDS).unwrap().tree;
        let written = accept(&written).unwrap().trees.swap_remove(0);
        let found = savings(&written);
        assert_eq!(found, listing.savings, "{seed}");
        highest = highest.max(found.each().max().unwrap_or(0));
        for feature in features(&written, &found) {
            *counts.entry(feature).or_insert(0) += 1;
        }
        *counts.entry("telling").or_insert(0) += usize::from(listing.tells_savings());
    }
    (counts, highest)
}

#[test]
fn they_save_much_and_little() {
    for marked in [false, true] {
        let (counts, highest) = counted(marked);
        let count = |name| counts.get(name).copied().unwrap_or(0);
        // No forest saves more with one definition.
        assert_eq!(highest, 15_614_683);
        assert!(count("refused") < 10, "{counts:?}");
        for (name, least) in [
            ("below", 200),
            ("just below", 40),
            ("zero", 30),
            ("just above", 30),
            ("above", 200),
            ("thousands", 100),
            ("ten thousands", 10),
            ("millions", 3),
            ("used once", 100),
            ("used over 200 times", 3),
            ("in a value", 50),
            ("in a lambda", 100),
            ("in a thunk", 100),
            ("an id in two places", 150),
            ("uses of an id elsewhere", 150),
            ("telling", 150),
        ] {
            assert!(count(name) > least, "{marked} {name}: {counts:?}");
        }
    }
}
