//! Templates, their fillings, and forests that are no templates since a parameter has two values.

use std::collections::{BTreeMap, BTreeSet};

use super::limits::MAX_BYTES;
use super::{stream, Family, Rng};
use crate::forest::{constant_aux, Forest, Record, CLASSES, MARKS};
use crate::template::Filling;

/// How a template is filled.
#[derive(Clone, Copy, PartialEq, Eq, Debug)]
pub enum Way {
    /// All parameters get one value.
    Equal,
    /// Shorter and longer values, some of them equal; at times so long that the forest is near its most bytes.
    Lengths,
    /// Values of constants without mark, of the same class where there are such.
    Unmarked,
}

impl Family {
    /// The template of that seed, with one parameter at least. Of a family without marks it is one of the family's forests,
    /// but for marks on some constants.
    pub fn template(self, seed: u64) -> Forest {
        self.drawn(seed, |rng, forest| self.make_template(rng, forest))
    }

    /// The same, but that one or more parameters have another literal in one place.
    pub fn two_values(self, seed: u64) -> Forest {
        self.drawn(seed, |rng, forest| {
            self.make_template(rng, forest) && put_second_values(rng, forest)
        })
    }

    /// What was made of a forest. Some lack the constants for it; then another is drawn, and every kind has those that do.
    fn drawn(self, seed: u64, make: impl Fn(&mut Rng, &mut Forest) -> bool) -> Forest {
        let seeds = (0..).map(|turn| seed.wrapping_add(turn << 32));
        let mut made = seeds.filter_map(|seed| {
            let mut forest = self.forest(seed);
            // Another stream than those of the forest and its marks.
            let mut rng = Rng::new(stream(seed, self.kind) ^ 0x7E3B_1A7E);
            make(&mut rng, &mut forest).then_some(forest)
        });
        made.next().expect("seeds do not end")
    }

    /// False if there are no parameters in it.
    fn make_template(self, rng: &mut Rng, forest: &mut Forest) -> bool {
        match self.marked {
            true => put_values(rng, forest),
            false => put_parameters(rng, forest),
        }
        !parameters(forest).is_empty()
    }
}

impl Way {
    pub const ALL: [Way; 3] = [Way::Equal, Way::Lengths, Way::Unmarked];

    /// A literal for each parameter of a template.
    pub fn filling(self, seed: u64, template: &Forest) -> Filling {
        let mut rng = Rng::new(seed ^ ((self as u64 + 1) << 48) ^ 0xF111_1265);
        match self {
            Way::Equal => equal(&mut rng, template),
            Way::Lengths => of_lengths(&mut rng, template),
            Way::Unmarked => of_unmarked(&mut rng, template),
        }
    }
}

/// The constants with marks.
fn parameters(forest: &Forest) -> Vec<Record> {
    let mut constants = forest.constants();
    constants.retain(|record| record.mark() > 0);
    constants
}

/// Which parameters there are.
fn auxes(forest: &Forest) -> BTreeSet<u8> {
    let parameters = parameters(forest);
    parameters.iter().map(|record| record.aux).collect()
}

/// The places of a parameter.
fn places_of(forest: &mut Forest, aux: u8) -> Vec<&mut Record> {
    let mut constants = forest.constants_mut();
    constants.retain(|record| record.aux == aux);
    constants
}

fn short(rng: &mut Rng) -> Vec<u8> {
    let length = rng.range(1, 9);
    rng.bytes(length)
}

/// Gives each parameter one literal, often one of those that it has, as far as the forest's bytes allow.
fn put_values(rng: &mut Rng, forest: &mut Forest) {
    let mut room = MAX_BYTES - forest.to_bytes().len();
    for aux in auxes(forest) {
        let places = places_of(forest, aux);
        room += places
            .iter()
            .map(|record| record.literal.len())
            .sum::<usize>();
        let mut value = match rng.chance(50) {
            true => places[rng.below(places.len())].literal.clone(),
            false => short(rng),
        };
        // A byte in each place always fits.
        value.truncate(room / places.len());
        room -= places.len() * value.len();
        for record in places {
            record.literal.clone_from(&value);
        }
    }
}

/// Makes parameters of constants, of all or some: equal ones are one parameter, others are others, as far as there are
/// marks. At times the lowest are taken, so that parameters of different classes have the same.
fn put_parameters(rng: &mut Rng, forest: &mut Forest) {
    let share = rng.pick(&[50, 80, 100]);
    let lowest = rng.chance(50);
    let mut given: BTreeMap<(u8, Vec<u8>), u8> = BTreeMap::new();
    for constant in forest.constants_mut() {
        let class = constant.class();
        let taken: Vec<u8> = given.values().copied().collect();
        let key = (class, constant.literal.clone());
        constant.aux = *given.entry(key).or_insert_with(|| {
            let marks = (1..MARKS).map(|mark| constant_aux(class, mark));
            let free: Vec<u8> = marks.filter(|aux| !taken.contains(aux)).collect();
            match free.first() {
                Some(_) if !rng.chance(share) => class,
                Some(first) if lowest => *first,
                Some(_) => rng.pick(&free),
                None => class,
            }
        });
    }
}

/// Changes the literal in one place of a parameter, and at times of others; false if none has two places.
fn put_second_values(rng: &mut Rng, forest: &mut Forest) -> bool {
    let mut room = MAX_BYTES - forest.to_bytes().len();
    let mut repeated: Vec<u8> = auxes(forest).into_iter().collect();
    repeated.retain(|aux| places_of(forest, *aux).len() > 1);
    rng.shuffle(&mut repeated);
    for (turn, aux) in repeated.iter().enumerate() {
        let mut places = places_of(forest, *aux);
        let place = rng.below(places.len());
        if turn == 0 || rng.chance(30) {
            change(rng, &mut places[place].literal, room > 0);
            room = room.saturating_sub(1);
        }
    }
    !repeated.is_empty()
}

/// A byte more, where it may grow, a byte less, or a bit at either end.
fn change(rng: &mut Rng, literal: &mut Vec<u8>, may_grow: bool) {
    let last = literal.len() - 1;
    let bit = 1 << rng.below(8);
    match rng.below(4) {
        0 if may_grow => literal.push(rng.byte()),
        1 if last > 0 => literal.truncate(last),
        2 => literal[0] ^= bit,
        _ => literal[last] ^= bit,
    }
}

fn equal(rng: &mut Rng, template: &Forest) -> Filling {
    let value = short(rng);
    let auxes = auxes(template).into_iter();
    auxes.map(|aux| (aux, value.clone())).collect()
}

fn of_lengths(rng: &mut Rng, template: &Forest) -> Filling {
    let full = full_length(template);
    let (low, high) = rng.weighted(&[
        ((1, 2), 15),
        ((1, 40), 65),
        ((100, 900), 14),
        ((full, full + 1), 6),
    ]);
    let mut values: Vec<Vec<u8>> = Vec::new();
    let auxes = auxes(template).into_iter();
    auxes
        .map(|aux| {
            let value = match !values.is_empty() && rng.chance(20) {
                true => rng.pick(&values),
                false => {
                    let length = rng.range(low, high);
                    rng.bytes(length)
                }
            };
            values.push(value.clone());
            (aux, value)
        })
        .collect()
}

/// With values of this length a forest has its most bytes, or not enough less for a longer value everywhere.
fn full_length(template: &Forest) -> usize {
    let parameters = parameters(template);
    let held: usize = parameters.iter().map(|record| record.literal.len()).sum();
    (MAX_BYTES + held - template.to_bytes().len()) / parameters.len()
}

/// Where no constant is without mark, the value of another parameter; of one that is alone, a new one.
fn of_unmarked(rng: &mut Rng, template: &Forest) -> Filling {
    let constants = template.constants();
    auxes(template)
        .into_iter()
        .map(|aux| {
            let class = aux % CLASSES;
            let of = |holds: &dyn Fn(&Record) -> bool| -> Vec<Vec<u8>> {
                let constants = constants.iter().filter(|record| holds(record));
                constants.map(|record| record.literal.clone()).collect()
            };
            let candidates = [
                of(&|record| record.aux == class),
                of(&|record| record.mark() == 0),
                of(&|record| record.aux != aux),
                vec![short(rng)],
            ];
            let literals = candidates.into_iter().find(|literals| !literals.is_empty());
            (aux, rng.pick(&literals.expect("the last has one")))
        })
        .collect()
}
