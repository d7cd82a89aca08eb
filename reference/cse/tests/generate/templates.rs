//! Templates and their fillings: that they are what they are called, and reach what they aim at.

use crate::*;

use cse_reference::check::accept;
use cse_reference::generate::Way;
use cse_reference::template::{fill, values, Filling};

const TEMPLATES: u64 = 100;

fn made(make: fn(Family, u64) -> Forest) -> impl Iterator<Item = (Family, u64, Forest)> {
    unmarked().chain(marked()).flat_map(move |family| {
        let seeds = 0..TEMPLATES;
        seeds.map(move |seed| (family, seed, make(family, seed)))
    })
}

#[test]
fn templates_have_parameters_and_each_has_one_value() {
    for (family, seed, template) in made(Family::template) {
        let context = format!("{} {seed}", family.name());
        let bytes = template.to_bytes();
        assert_eq!(accept(&bytes).as_ref(), Ok(&template), "{context}");
        assert!(!values(&bytes).unwrap().is_empty(), "{context}");
    }
}

#[test]
fn a_template_of_an_unmarked_family_is_its_forest_with_marks() {
    let unmarked = made(Family::template).filter(|(family, ..)| !family.marked);
    let mut same: BTreeMap<String, u64> = BTreeMap::new();
    for (family, seed, template) in unmarked {
        let first = template.without_marks() == family.forest(seed);
        *same.entry(family.name()).or_default() += u64::from(first);
    }
    // The forests of other seeds have no constants, and their templates are those of another draw.
    for (name, same) in same {
        assert!(same > TEMPLATES / 6, "{name}: {same}");
    }
}

/// A mark alone does not say which parameter it is.
#[test]
fn parameters_of_two_classes_have_one_mark() {
    for marked in [false, true] {
        let templates = made(Family::template).filter(|(family, ..)| family.marked == marked);
        let shared = templates.filter(|(_, _, template)| {
            let parameters = values(&template.to_bytes()).unwrap();
            let marks: BTreeSet<u8> = parameters.keys().map(|aux| aux / 7).collect();
            marks.len() < parameters.len()
        });
        let shared = shared.count();
        assert!(shared > 300, "{marked}: {shared}");
    }
}

#[test]
fn two_values_are_two() {
    let mut places = BTreeSet::new();
    for (family, seed, forest) in made(Family::two_values) {
        let context = format!("{} {seed}", family.name());
        let bytes = forest.to_bytes();
        assert_eq!(accept(&bytes).as_ref(), Ok(&forest), "{context}");
        places.insert(values(&bytes).expect_err(&context).place);
    }
    assert!(places.len() > 100, "{places:?}");
}

/// The fillings of a way, each with its template.
fn fillings(way: Way) -> impl Iterator<Item = (Forest, Filling)> {
    made(Family::template).map(move |(family, seed, template)| {
        let filling = way.filling(seed, &template);
        let parameters = values(&template.to_bytes()).unwrap();
        let context = format!("{} {seed} {way:?}", family.name());
        assert!(filling.keys().eq(parameters.keys()), "{context}");
        assert!(filling.values().all(|value| !value.is_empty()), "{context}");
        (template, filling)
    })
}

fn different(filling: &Filling) -> usize {
    filling.values().collect::<BTreeSet<_>>().len()
}

#[test]
fn equal_values_are_one() {
    let mut several = 0;
    for (_, filling) in fillings(Way::Equal) {
        assert_eq!(different(&filling), 1);
        several += u32::from(filling.len() > 1);
    }
    assert!(several > 1_000, "{several}");
}

#[test]
fn values_are_shorter_and_longer_up_to_the_limit_and_some_are_equal() {
    let (mut shorter, mut longer, mut equal, mut long) = (0, 0, 0, 0);
    let mut lengths = BTreeSet::new();
    for (template, filling) in fillings(Way::Lengths) {
        let given = template.to_bytes();
        let filled = fill(&given, &filling).len();
        shorter += u32::from(filled < given.len());
        longer += u32::from(filled > given.len());
        equal += u32::from(different(&filling) < filling.len());
        long += u32::from(filling.values().any(|value| value.len() >= 100));
        lengths.insert(filled);
    }
    for count in [shorter, longer, equal, long] {
        assert!(count > 200, "{shorter} {longer} {equal} {long}");
    }
    assert!(lengths.contains(&65_535) && lengths.contains(&65_536));
}

#[test]
fn values_of_unmarked_constants_are_of_the_same_class_where_there_are_such() {
    let mut same = 0;
    for (template, filling) in fillings(Way::Unmarked) {
        let constants = template.constants();
        for (aux, value) in filling {
            let mut of_class = constants.iter().filter(|record| record.aux == aux % 7);
            if of_class.clone().next().is_some() {
                assert!(of_class.any(|record| record.literal == value));
                same += 1;
            }
        }
    }
    assert!(same > 1_000, "{same}");
}
