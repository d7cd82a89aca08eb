//! Marked forests: which marks they have, and what they keep of the forests without.

use crate::*;

use cse_reference::check::{accept, Refusal};

#[test]
fn a_name_gives_one_family() {
    for family in unmarked().chain(marked()) {
        let before = if family.marked { "marked-" } else { "" };
        let name = format!("{before}{}", family.kind.name());
        assert_eq!(family.name(), name);
        assert_eq!(Family::parse(&name), Some(family));
    }
    for name in [
        "marked",
        "marked-",
        "marked-tiny",
        "marked-marked-small",
        "small-",
    ] {
        assert_eq!(Family::parse(name), None, "{name}");
    }
}

#[test]
fn only_a_marked_family_has_marks() {
    for (family, seed, forest) in forests(unmarked()) {
        let all = forest.constants();
        assert!(
            all.iter().all(|record| record.aux < 7),
            "{} {seed}",
            family.name()
        );
    }
    for family in marked() {
        let with = (0..SEEDS).filter(|seed| {
            let all = family.forest(*seed).constants();
            all.iter().any(|record| record.aux >= 7)
        });
        let with = with.count() as u64;
        assert!(with > SEEDS / 2, "{}: {with}", family.name());
    }
}

/// The tree shapes stay; a leaf that is no use may become a constant, and a constant another.
fn same_but_for_constants(marked: &Tree, plain: &Tree) -> bool {
    let leaf = plain.children.is_empty() && plain.record.shape != 7;
    let same = marked.record == plain.record || (marked.record.shape == 0 && leaf);
    let children = marked.children.iter().zip(&plain.children);
    same && marked.children.len() == plain.children.len()
        && children
            .into_iter()
            .all(|(marked, plain)| same_but_for_constants(marked, plain))
}

#[test]
fn without_marks_a_forest_has_the_shape_of_its_seed() {
    let mut unchanged = 0;
    for (family, seed, forest) in forests(marked()) {
        let plain = accepted(seed, family.kind);
        let without = forest.without_marks();
        assert!(without.constants().iter().all(|record| record.aux < 7));
        assert_eq!(without.trees.len(), plain.trees.len());
        for (tree, plain) in without.trees.iter().zip(&plain.trees) {
            assert!(
                same_but_for_constants(tree, plain),
                "{} {seed}",
                family.name()
            );
        }
        unchanged += u32::from(without == plain);
    }
    // In some forests no constant is copied.
    assert!(unchanged > 100, "{unchanged}");
}

#[test]
fn every_mark_occurs_and_the_lowest_and_the_highest_in_every_class() {
    let mut found = BTreeSet::new();
    for (_, _, forest) in forests(marked()) {
        found.extend(forest.constants().iter().map(|record| record.aux));
    }
    let marks: BTreeSet<u8> = found.iter().map(|aux| aux / 7).collect();
    assert_eq!(marks, (0..=35).collect());
    assert!(found.is_superset(&(0..=6).chain(245..=251).collect()));
}

/// Of 100 forests of each kind so many at least have two constants that are equal but for the mark, and so many two
/// that are equal with a mark that is not 0.
#[test]
fn marks_matter_in_every_kind() {
    for family in marked() {
        let (mut apart, mut alike) = (0, 0);
        for seed in 0..100 {
            let all = family.forest(seed).constants();
            let pair = |holds: &dyn Fn(&Record, &Record) -> bool| {
                let mut places = 0..all.len();
                places.any(|at| all[..at].iter().any(|before| holds(before, &all[at])))
            };
            apart += u32::from(pair(&|a, b| {
                a.aux != b.aux && a.aux % 7 == b.aux % 7 && a.literal == b.literal
            }));
            alike += u32::from(pair(&|a, b| a == b && a.aux >= 7));
        }
        let name = family.name();
        assert!(apart >= 15, "{name}: {apart} with unequal marks");
        assert!(alike >= 15, "{name}: {alike} with equal marks");
    }
}

/// The aux of each record of a forest whose directory is right.
fn auxes(bytes: &[u8]) -> Vec<(u8, u8)> {
    let word = |at: usize| usize::from(u16::from_le_bytes([bytes[at], bytes[at + 1]]));
    (0..word(2))
        .map(|record| word(4 + 4 * record))
        .map(|offset| (bytes[offset], bytes[offset + 4]))
        .collect()
}

#[test]
fn a_wrong_aux_is_one_that_no_mark_gives() {
    let (mut of_constants, mut of_others) = (BTreeSet::new(), BTreeSet::new());
    let mut right = BTreeSet::new();
    for seed in 0..6_000 {
        let (case, way) = described(4, seed);
        let auxes = auxes(&case.bytes);
        let (shape, aux) = auxes[case.place as usize];
        match way {
            "class and mark" => {
                assert_eq!(shape, 0);
                of_constants.insert(aux);
            }
            "aux not 0" => {
                assert_ne!(shape, 0);
                of_others.insert(aux);
            }
            _ => {}
        }
        let others = auxes.iter().enumerate();
        right.extend(
            others
                .filter(|(at, (shape, _))| *at != case.place as usize && *shape == 0)
                .map(|(_, (_, aux))| *aux),
        );
    }
    assert_eq!(of_constants, (252..=255).collect());
    assert!(of_others.is_superset(&[1, 7, 251].into()), "{of_others:?}");
    assert!(!of_others.contains(&0));
    assert!(right.iter().all(|aux| *aux <= 251));
    assert!(right.is_superset(&[0, 7, 245, 251].into()), "{right:?}");
}

/// Marked forests are among those that are damaged, and the other faults are as they were.
#[test]
fn damaged_forests_have_marks() {
    for number in 4..=10 {
        let mut with = 0;
        for seed in 0..300 {
            let case = each(number, seed);
            let (number, place) = (case.number, case.place);
            assert_eq!(accept(&case.bytes), Err(Refusal { number, place }));
            let marked = |(shape, aux): (u8, u8)| shape == 0 && (7..=251).contains(&aux);
            with += u32::from(auxes(&case.bytes).into_iter().any(marked));
        }
        assert!((50..200).contains(&with), "{number}: {with}");
    }
}
