//! Simple forests are what request A.8 speaks of, and have what it is about.

use crate::*;

use cse_reference::evaluate::is_simple;

/// Where a record stands, and what it is.
struct Place<'a> {
    tree: &'a Tree,
    /// In how many branches and right operands.
    skippable: usize,
}

fn places<'a>(tree: &'a Tree, skippable: usize, out: &mut Vec<Place<'a>>) {
    out.push(Place { tree, skippable });
    for (i, child) in tree.children.iter().enumerate() {
        let inside = match tree.record.opcode {
            0x95 => i > 0,
            0xED | 0xEC => i == 1,
            _ => false,
        };
        places(child, skippable + usize::from(inside), out);
    }
}

/// Of a block's definition: its uses, and those of them that are more skippable than the block.
fn uses(block: &Tree, definition: usize) -> (usize, usize) {
    let id = ids(&block.children[definition].record);
    let mut later = Vec::new();
    for child in &block.children[definition + 1..] {
        places(child, 0, &mut later);
    }
    later.retain(|place| place.tree.record.shape == 7 && ids(&place.tree.record) == id);
    let inside = later.iter().filter(|place| place.skippable > 0);
    (later.len(), inside.count())
}

/// What a forest has.
fn features(forest: &Forest) -> BTreeSet<(&'static str, usize)> {
    let mut all = Vec::new();
    places(&forest.trees[0], 0, &mut all);
    let mut seen = BTreeSet::new();
    for (i, Place { tree, skippable }) in all.iter().enumerate() {
        let record = &tree.record;
        seen.insert(("shape", record.shape.into()));
        if let 0x95 | 0xED | 0xEC = record.opcode {
            seen.insert(("skipping", record.opcode.into()));
            seen.insert(("skipping inside", *skippable));
        }
        if record.shape == 0 {
            seen.insert(("class", record.class().into()));
        }
        for definition in 0..tree.children.len() {
            if tree.children[definition].record.shape == 10 {
                seen.insert(match uses(tree, definition) {
                    (0, _) => ("unused", 0),
                    (all, inside) if all == inside => ("used inside only", 0),
                    (_, 0) => ("used outside only", 0),
                    _ => ("used inside and outside", 0),
                });
            }
        }
        let repeated = all[..i].iter().filter(|earlier| earlier.tree == *tree);
        for earlier in repeated.filter(|_| !tree.children.is_empty()) {
            let inside = usize::from(*skippable > 0) + usize::from(earlier.skippable > 0);
            seen.insert(("repeated, of two so many inside", inside));
        }
    }
    seen
}

#[test]
fn they_are_what_they_are_called() {
    let mut sizes = BTreeMap::new();
    let mut seen = BTreeMap::new();
    for marked in [false, true] {
        let kind = Kind::Simple;
        for seed in 0..SEEDS {
            let forest = Family { kind, marked }.forest(seed);
            assert!(is_simple(&forest), "{seed}");
            for feature in features(&forest) {
                *seen.entry(feature).or_insert(0) += 1;
            }
            let size = match forest.size() {
                1 => "one",
                2..=60 => "some",
                61..=150 => "many",
                _ => "most",
            };
            *sizes.entry(size).or_insert(0) += 1;
        }
    }
    assert!(sizes["one"] > 0 && sizes["some"] > 500, "{sizes:?}");
    assert!(sizes["many"] > 10 && sizes["most"] > 5, "{sizes:?}");
    let count = |name, number| seen.get(&(name, number)).copied().unwrap_or(0);
    for shape in 0..27 {
        let wanted = !matches!(shape, 12 | 17);
        assert_eq!(count("shape", shape) > 0, wanted, "{shape}");
    }
    for class in 0..=6 {
        assert!(count("class", class) > 10, "{class}");
    }
    for opcode in [0x95, 0xED, 0xEC] {
        assert!(count("skipping", opcode) > 200, "{opcode:02X}");
    }
    for (deep, least) in [(0, 500), (1, 300), (2, 100), (3, 10)] {
        assert!(count("skipping inside", deep) > least, "{deep}");
    }
    for name in [
        "unused",
        "used inside only",
        "used outside only",
        "used inside and outside",
    ] {
        assert!(count(name, 0) > 50, "{name}");
    }
    for inside in 0..=2 {
        let count = count("repeated, of two so many inside", inside);
        assert!(count > 50, "{inside}");
    }
}
