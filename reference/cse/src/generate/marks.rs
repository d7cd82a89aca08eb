//! Marks for the constants of a forest: few, so that constants that are equal but for the mark are
//! common, and so are those that are equal with it.

use super::limits::{zero, MAX_BYTES};
use super::records::*;
use super::Rng;
use crate::forest::{Forest, Record, MARKS};

/// How the constants of a forest get their marks.
#[derive(Clone, Copy)]
enum Way {
    /// Each draws one.
    Drawn,
    /// Equal constants get equal marks: the pass has only to keep them.
    Kept,
}

/// Gives all constants marks, when some records have become copies of a few constants.
pub(super) fn put_marks(rng: &mut Rng, forest: &mut Forest) {
    put_copies(rng, forest);
    let marks = few_marks(rng);
    let way = rng.weighted(&[(Way::Drawn, 80), (Way::Kept, 20)]);
    for constant in forest.constants_mut() {
        let mark = match way {
            Way::Drawn => rng.pick(&marks),
            Way::Kept => marks[sum(constant) % marks.len()],
        };
        constant.set_mark(mark);
    }
}

/// Two or three marks, the lowest and the highest often among them.
fn few_marks(rng: &mut Rng) -> Vec<u8> {
    let any = rng.below(MARKS.into()) as u8;
    let mut marks = vec![0, 1, MARKS - 1, any];
    rng.shuffle(&mut marks);
    marks.truncate(rng.range(2, 3));
    marks
}

/// Puts a copy of one of a few constants in place of some constants and some other leaves, as far as
/// the forest's bytes allow.
fn put_copies(rng: &mut Rng, forest: &mut Forest) {
    let of_constants = rng.pick(&[0, 30, 60]);
    let of_others = rng.pick(&[30, 60, 100]);
    let few = few_constants(rng, forest);
    let mut room = MAX_BYTES - forest.to_bytes().len();
    for record in forest.records_mut() {
        let share = match record.shape {
            CONST => of_constants,
            _ if may_give_way(record) => of_others,
            _ => continue,
        };
        let copy = rng.pick(&few);
        let most = room + record.literal.len();
        if rng.chance(share) && copy.literal.len() <= most {
            room = most - copy.literal.len();
            *record = copy;
        }
    }
}

/// Leaves that get definitions as constants do, so that what a kind aims at is met still.
fn may_give_way(record: &Record) -> bool {
    let shapes = [
        CONST_PLACEHOLDER,
        TAGGED_VAR,
        BOOL_COLLECTION,
        GET_VAR,
        DESERIALIZE_CONTEXT,
        NONE_VALUE,
    ];
    *record == zero().record || shapes.contains(&record.shape)
}

/// At most two of the forest's, and one that it need not have.
fn few_constants(rng: &mut Rng, forest: &Forest) -> Vec<Record> {
    let mut few = forest.constants();
    rng.shuffle(&mut few);
    few.truncate(rng.range(0, 2));
    few.push(constant(6, vec![7, 1]).record);
    few
}

/// The same for equal constants.
fn sum(constant: &Record) -> usize {
    let bytes = constant.literal.iter().copied();
    bytes.chain([constant.class()]).map(usize::from).sum()
}
