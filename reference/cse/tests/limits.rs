//! Both sides of refusals 11 to 14, and what is not sent through the original.

use cse_reference::forest::{Forest, Tree};
use cse_reference::limits::{count, Counts};
use cse_reference::oracle::{answer, answer_deep, Answer, NoAnswer, Skipped};
use cse_reference::trees::*;
use cse_reference::unfold::keeps_meaning;

fn call(forest: &Forest) -> Answer {
    answer(&forest.to_bytes(), 65_535, 16_384).unwrap()
}

fn refuses(forest: &Forest, number: u32, place: u32) {
    let given = call(forest);
    assert_eq!((given.number, given.place), (number, place));
    let zeros = (given.written_length, given.symbols, given.readings);
    assert_eq!((zeros, given.tree), ((0, 0, 0), vec![]));
}

/// Gives the symbols and readings of a forest that gets a tree.
fn passes(forest: &Forest) -> (u32, u32) {
    let given = call(forest);
    assert_eq!((given.number, given.place), (0, 0));
    assert_eq!(keeps_meaning(&forest.to_bytes(), &given.tree), Some(true));
    (given.symbols, given.readings)
}

/// `s1(tuple(...))` so many times around `z`: 4 × 2^levels - 3 readings.
fn readings(levels: u32) -> Tree {
    (0..levels).fold(z(), |tree, _| s1(tuple(vec![tree])))
}

#[test]
fn a_second_reading_counts_everything_again() {
    for levels in 0..9 {
        let (_, found) = passes(&alone(readings(levels)));
        assert_eq!(found, (4 << levels) - 3);
    }
    // Through a use the record that is read twice is the use.
    let used = block(vec![(1, tuple(vec![z(), z()]))], s1(val_use(1)));
    assert_eq!(passes(&alone(used)), (3, 8));
    // Only fields 1 and 2.
    for (field, expected) in [(0, 4), (1, 7), (2, 7), (3, 4)] {
        let tree = select(field, tuple(vec![z(), z()]));
        assert_eq!(passes(&alone(tree)).1, expected);
    }
    // A lambda that is read twice has fresh arguments each time.
    let twice = s1(tuple(vec![lambda(&[7], n(val_use(7)))]));
    assert_eq!(passes(&alone(twice)), (9, 9));
}

#[test]
fn eleven_is_the_record_of_reading_2049() {
    let with = |extra: usize| {
        let mut items = vec![readings(9)];
        items.extend(vec![z(); extra]);
        alone(tuple(items))
    };
    assert_eq!(passes(&with(2)).1, 2_048);
    refuses(&with(3), 11, 22);
    refuses(&with(9), 11, 22);
    // In the second reading the place goes back: records 0 and 1, 2,045 readings from record 2,
    // record 1 again, and then record 2 again.
    refuses(&alone(readings(10)), 11, 2);
    // Environment trees are read too.
    let forest = Forest {
        trees: vec![readings(9), p(z(), z()), h()],
    };
    refuses(&forest, 11, 22);
}

/// Lambdas of 15 arguments with one body: 15 symbols each, and 2 for the body and the lambda.
fn lambdas(number: usize) -> Vec<Tree> {
    let ids: Vec<u32> = (1..=15).collect();
    vec![lambda(&ids, z()); number]
}

#[test]
fn twelve_is_the_record_whose_symbol_is_made() {
    // 34 × 15 + 2 are 512; the tuple, or anything else, is one more.
    let forest = |rest: Vec<Tree>| {
        let mut trees = lambdas(10);
        trees.push(tuple([lambdas(24), rest].concat()));
        Forest { trees }
    };
    refuses(&forest(vec![]), 12, 20);
    refuses(&forest(vec![z()]), 12, 20);
    refuses(&forest(vec![h()]), 12, 69);
    // A lambda's record for its arguments, before its body is read, and for itself.
    refuses(&forest(vec![lambda(&[1], h())]), 12, 69);
    refuses(&forest(vec![lambda(&[], h())]), 12, 70);
    refuses(&forest(vec![lambda(&[], z())]), 12, 69);
    // The record of a field for both projections, also when only the second is too many.
    refuses(&forest(vec![n(s1(z()))]), 12, 70);
    let one_free = |rest: Tree| {
        let ids: Vec<u32> = (1..=14).collect();
        let mut items = lambdas(33);
        // Another literal, so a symbol for the lambda too: 33 × 15 + 2 + 14 + 1 are 512.
        items.push(lambda(&ids[..13], z()));
        items.push(rest);
        alone(tuple(items))
    };
    refuses(&one_free(n(s1(z()))), 12, 70);
    assert_eq!(
        count(&one_free(z())),
        Ok(Counts {
            symbols: 512,
            readings: 70
        })
    );
}

#[test]
fn twelve_projections_one_by_one() {
    let ids: Vec<u32> = (1..=15).collect();
    let with = |arguments: usize| {
        let mut trees = vec![tuple(lambdas(33))];
        trees.push(lambda(&ids[..arguments], s1(z())));
        Forest { trees }
    };
    // 33 × 15 + 2 and the tuple are 498; then the arguments, both projections and the lambda.
    assert_eq!(
        count(&with(11)),
        Ok(Counts {
            symbols: 512,
            readings: 70
        })
    );
    refuses(&with(12), 12, 67);
    // Only the second projection is too many.
    refuses(&with(13), 12, 68);
    refuses(&with(14), 12, 68);
    refuses(&with(15), 12, 67);
}

#[test]
fn eleven_comes_before_twelve_at_one_record() {
    let ids: Vec<u32> = (1..=15).collect();
    // Before `h`: 1 + 2 × 33 + 1,969 and the last chains' readings; 1 + 16 + 1 + 480 + 14 symbols.
    let with = |last: &[u32]| {
        let mut items = lambdas(32);
        items.push(lambda(&ids[..13], z()));
        let levels = [8, 7, 6, 5, 4].iter().chain(last);
        items.extend(levels.map(|&levels| readings(levels)));
        items.push(h());
        alone(tuple(items))
    };
    refuses(&with(&[1, 1, 0, 0]), 11, 140);
    refuses(&with(&[1, 1, 0]), 12, 139);
}

#[test]
fn thirteen_records() {
    // A definition, its value and a block are three more records than there were.
    let wide = |uses: usize| alone(tuple(vec![z(); uses]));
    passes(&wide(252));
    refuses(&wide(253), 13, 0);
    refuses(&wide(255), 13, 0);
}

#[test]
fn thirteen_bytes() {
    let large = |length: usize| {
        let constant = node(0, 0x00, 3, &vec![1; length], vec![]);
        alone(block(vec![(1, constant)], p(val_use(1), val_use(1))))
    };
    // 4 + 3 × 4 + 3 × 5 bytes beside the two literals: 65,535 is passed by two.
    let fixed = 4 + 3 * 4 + 3 * 5;
    passes(&large((65_535 - fixed) / 2));
    refuses(&large((65_535 - fixed) / 2 + 1), 13, 0);
    // A longer output does not help.
    let forest = large(32_753).to_bytes();
    assert_eq!(answer(&forest, 1_000_000, 16_384).unwrap().number, 13);
}

/// A value and a result, each so deep, that become one chain.
fn joined(value: usize, result: usize) -> Forest {
    let chain = |levels, leaf| (0..levels).fold(leaf, |tree, _| n(tree));
    alone(block(
        vec![(1, chain(value, z()))],
        chain(result, val_use(1)),
    ))
}

#[test]
fn fourteen_depth() {
    passes(&joined(30, 33));
    refuses(&joined(31, 33), 14, 0);
    // 13 is found first.
    let forest = joined(31, 33).to_bytes();
    assert_eq!(answer(&forest, 0, 16_384).unwrap().number, 13);
}

fn skipped(forest: &Forest) -> Skipped {
    match answer(&forest.to_bytes(), 65_535, 16_384) {
        Err(NoAnswer::Skipped(why)) => why,
        other => panic!("{other:?}"),
    }
}

#[test]
fn nested_scopes_are_capped() {
    let nested = |depth| (0..depth).fold(z(), |tree, _| and(h(), tree));
    passes(&alone(nested(14)));
    assert_eq!(skipped(&alone(nested(15))), Skipped::Nesting(15));
    let lambdas = (0..15).fold(z(), |tree, id| lambda(&[id], tree));
    assert_eq!(skipped(&alone(lambdas)), Skipped::Nesting(15));
    // Eager operands are no scopes; a refusal needs no run.
    let eager = (0..30).fold(z(), |tree, _| and(tree, h()));
    passes(&alone(eager));
    refuses(&alone(nested(64)), 7, 128 - 1);
}

/// Constants and unparsed trees share 00.
#[test]
fn an_opcode_with_two_shapes_is_run_where_it_is_00() {
    passes(&alone(p(k(), node(1, 0x00, 0, &[], vec![]))));
}

/// Each level uses the one below in a projection first met in a thunk, which is written inline at
/// both uses.
fn doubling(levels: u32) -> Forest {
    let mut definitions = vec![(1, n(z()))];
    let mut thunks = h();
    for level in 1..=levels {
        definitions.push((100 + level, and(h(), s1(val_use(level)))));
        definitions.push((level + 1, p(s1(val_use(level)), s1(val_use(level)))));
        thunks = p(thunks, val_use(100 + level));
    }
    alone(block(definitions, p(thunks, val_use(levels + 1))))
}

#[test]
fn inline_copies_are_capped() {
    passes(&doubling(3));
    refuses(&doubling(8), 13, 0);
    assert_eq!(skipped(&doubling(16)), Skipped::TooLarge);
    // Too large for the original, and refused all the same.
    let told = answer_deep(&doubling(16).to_bytes(), 65_535, 16_384).unwrap();
    assert_eq!((told.answer.number, told.answer.place), (13, 0));
}

#[test]
fn inline_copies_of_projections_of_projections() {
    // Fields 1 of 1 of 1 of `z` are first met in a thunk, so outside it all three are written out.
    let deep = |levels| (0..levels).fold(z(), |tree, _| s1(tree));
    let eager = p(and(z(), deep(3)), deep(3));
    passes(&alone(and(eager, deep(2))));
}
