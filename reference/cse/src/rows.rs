//! Rows for a comparison: a call of the main call, or of the lister, with its answer; the archive lister's text; the line of a
//! template; a filling; values of a root and of its written tree; forests for where subtrees end, and for the checks.

use crate::archive::archive_lister;
use crate::check::accept;
use crate::damage::{damaged, each, two_shapes, NUMBERS};
use crate::evaluate::{defines, strict_value, value, Numbered};
use crate::forest::Forest;
use crate::generate::{at_times_marked, Family, Kind, Rng, Way};
use crate::lister::lister;
use crate::oracle::{answer, Answer, NoAnswer, MAX_OUTPUT, MIN_WORK_WORDS};
use crate::template::{fill, line, Filling};
use crate::trees::{alone, h, marked, x};

/// How often a forest is drawn again that is too large, was skipped, or has not the wanted answer.
const TRIES: u32 = 200;

/// The most bytes of a value in a filling, since the checker computes each.
const MAX_VALUE: usize = 40;

/// One call and its answer.
#[derive(Clone, PartialEq, Eq, Debug)]
pub struct Row {
    pub forest: Vec<u8>,
    pub out_len: usize,
    pub work_words: usize,
    pub answer: Answer,
}

/// A template, values for its parameters, and the forest with these.
#[derive(Clone, PartialEq, Eq, Debug)]
pub struct Filled {
    pub template: Vec<u8>,
    pub values: Filling,
    pub filled: Vec<u8>,
}

/// A forest of request A.8, and what it gives under a meaning.
#[derive(Clone, PartialEq, Eq, Debug)]
pub struct Valued {
    pub forest: Vec<u8>,
    pub meaning: Numbered,
    pub root: Option<u64>,
    /// Of the tree that the original writes.
    pub written: Option<u64>,
    /// Whether the root has a value though something that it skips has none, and a definition is written.
    pub skips: bool,
}

/// The row of a seed, its forest of at most so many records: of 100 rows some 70 are forests to
/// accept, a third of them with marks, 25 damaged ones, and 5 at a limit.
pub fn row(seed: u64, max_records: u64) -> Result<Row, NoAnswer> {
    let mut rng = Rng::new(seed);
    match rng.below(100) {
        0..70 => plain(&mut rng, max_records),
        70..95 => refused(&mut rng, max_records),
        _ => at_limit(&mut rng, max_records),
    }
}

/// The forest of a seed and the lister's text for it.
pub fn list_row(seed: u64) -> Result<(Vec<u8>, Vec<u8>), NoAnswer> {
    let mut rng = Rng::new(seed);
    let row = match rng.below(100) {
        0..85 => plain(&mut rng, u64::MAX)?,
        85..95 => refused(&mut rng, u64::MAX)?,
        _ => at_limit(&mut rng, u64::MAX)?,
    };
    let text = lister(&row.forest)?;
    Ok((row.forest, text))
}

/// The forest of a seed, of at most so many records, and the archive lister's text for it: every fourth is accepted and comes
/// near refusal 16, and an opcode of the others has two shapes.
pub fn archive_row(seed: u64, max_records: u64) -> Result<(Vec<u8>, String), NoAnswer> {
    let mut rng = Rng::new(seed);
    let draw = || {
        let forest = match seed % 4 {
            0 => at_times_marked(rng.bits(), Kind::OneShape).to_bytes(),
            _ => two_shapes(rng.bits()).0.bytes,
        };
        let small = records(&forest) <= max_records;
        small.then(|| archive_lister(&forest).map(|text| (forest, text)))
    };
    match first(draw, |_| true)? {
        Some(row) => Ok(row),
        None => archive_lister(&[]).map(|text| (Vec::new(), text)),
    }
}

/// The forest of a seed, of at most so many records, and the line that is printed of it: in turn templates and forests with
/// two values, and every eleventh a damaged one.
pub fn template_row(seed: u64, max_records: u64) -> Result<(Vec<u8>, String), NoAnswer> {
    let mut rng = Rng::new(seed);
    let make = match seed % 11 {
        0 => return lined(refused(&mut rng, max_records)?.forest),
        1 | 3 | 5 | 7 | 9 => Family::template,
        _ => Family::two_values,
    };
    let draw = || parametric(&mut rng, max_records, make).map(|forest| lined(forest.to_bytes()));
    match first(draw, |_| true)? {
        Some(row) => Ok(row),
        None => lined(parameter().to_bytes()),
    }
}

/// The template of a seed, of at most so many records, filled in the three ways in turn with short values.
pub fn fill_row(seed: u64, max_records: u64) -> Filled {
    let mut rng = Rng::new(seed);
    let way = Way::ALL[(seed % 3) as usize];
    let mut draws = (0..TRIES).filter_map(|_| {
        let template = parametric(&mut rng, max_records, Family::template)?;
        let values = way.filling(rng.bits(), &template);
        let short = values.values().all(|value| value.len() <= MAX_VALUE);
        short.then_some((template, values))
    });
    let (template, values) = draws.next().unwrap_or_else(|| {
        let template = parameter();
        let values = Way::Equal.filling(seed, &template);
        (template, values)
    });
    let template = template.to_bytes();
    let filled = fill(&template, &values);
    Filled {
        template,
        values,
        filled,
    }
}

/// The simple forest of a seed, of at most so many records, under some meaning: every fourth skips what fails, if one is
/// found, and every fourth has a value in the written tree alone.
pub fn value_row(seed: u64, max_records: u64) -> Result<Valued, NoAnswer> {
    let mut rng = Rng::new(seed);
    let mut drawn = |wanted: fn(&Valued) -> bool| {
        let draw = || {
            let forest = at_times_marked(rng.bits(), Kind::Simple);
            let turn = rng.below(Numbered::COUNT as usize);
            fits(&forest, max_records).then(|| {
                let rows = valued(&forest)?.into_iter();
                let mut wanted: Vec<Valued> = rows.filter(wanted).collect();
                let turn = turn.checked_rem(wanted.len());
                Ok(turn.map(|turn| wanted.swap_remove(turn)))
            })
        };
        first(draw, Option::is_some).map(Option::flatten)
    };
    let mut row = match seed % 4 {
        0 => drawn(|row| row.skips)?,
        1 => drawn(|row| row.root.is_none() && row.written.is_some())?,
        _ => None,
    };
    if row.is_none() {
        row = drawn(|_| true)?;
    }
    match row {
        Some(row) => Ok(row),
        None => Ok(valued(&alone(h()))?.swap_remove(0)),
    }
}

/// A forest of one tree under each meaning; nothing if it is refused.
fn valued(forest: &Forest) -> Result<Vec<Valued>, NoAnswer> {
    let row = call(forest.to_bytes())?;
    if row.answer.number != 0 {
        return Ok(Vec::new());
    }
    let written = accept(&row.answer.tree).expect("a written tree is accepted");
    let (root, written) = (&forest.trees[0], &written.trees[0]);
    let under = |meaning| {
        let given = value(&meaning, root);
        Valued {
            forest: row.forest.clone(),
            meaning,
            root: given,
            written: value(&meaning, written),
            skips: given.is_some() && strict_value(&meaning, root).is_none() && defines(written),
        }
    };
    Ok(Numbered::all().map(under).collect())
}

/// The forest of a seed, of at most so many records, for where its subtrees end: every fourth a damaged one, and those of even
/// seeds of several trees, if one is found; some have marks.
pub fn ends_row(seed: u64, max_records: u64) -> Vec<u8> {
    let mut rng = Rng::new(seed);
    if seed % 4 == 3 {
        let mut draws = (0..TRIES).filter_map(|_| damaged_of(&mut rng, max_records));
        return draws.next().unwrap_or_default();
    }
    let mut draws = (0..TRIES).filter_map(|_| {
        let kind = rng.pick(&[Kind::Small, Kind::Medium, Kind::Unreached]);
        let forest = at_times_marked(rng.bits(), kind);
        let several = seed % 2 == 1 || forest.trees.len() > 1;
        (several && fits(&forest, max_records)).then_some(forest)
    });
    draws.next().unwrap_or_else(|| alone(h())).to_bytes()
}

/// The forest of a seed, for the checks alone: in turn one damaged for each of their refusals, and
/// five to accept, a third of them with marks.
pub fn check_row(seed: u64) -> Vec<u8> {
    const ACCEPTED: [Kind; 10] = [
        Kind::Small,
        Kind::Medium,
        Kind::Deep,
        Kind::Wide,
        Kind::Thunks,
        Kind::Lambdas,
        Kind::Projections,
        Kind::Blocks,
        Kind::Large,
        Kind::Readings,
    ];
    match NUMBERS.get((seed % 15) as usize) {
        Some(&number) => each(number, seed).bytes,
        None => at_times_marked(seed, ACCEPTED[(seed / 15 % 10) as usize]).to_bytes(),
    }
}

/// A call that lends plenty.
fn call(forest: Vec<u8>) -> Result<Row, NoAnswer> {
    lent(forest, MAX_OUTPUT, MIN_WORK_WORDS)
}

fn lent(forest: Vec<u8>, out_len: usize, work_words: usize) -> Result<Row, NoAnswer> {
    let answer = answer(&forest, out_len, work_words)?;
    Ok(Row {
        forest,
        out_len,
        work_words,
        answer,
    })
}

/// Draws rows until one is `wanted`. A forest that is skipped is drawn again; a count that differs
/// is a fault.
fn first<R>(
    mut draw: impl FnMut() -> Option<Result<R, NoAnswer>>,
    wanted: impl Fn(&R) -> bool,
) -> Result<Option<R>, NoAnswer> {
    for _ in 0..TRIES {
        match draw() {
            Some(Ok(row)) if wanted(&row) => return Ok(Some(row)),
            Some(Err(NoAnswer::Skipped(_)) | Ok(_)) | None => {}
            Some(Err(fault)) => return Err(fault),
        }
    }
    Ok(None)
}

/// A small or medium forest, or HEIGHT alone if none is small enough.
fn plain(rng: &mut Rng, max_records: u64) -> Result<Row, NoAnswer> {
    let draw = || {
        let kind = rng.pick(&[Kind::Small, Kind::Medium]);
        let forest = at_times_marked(rng.bits(), kind);
        fits(&forest, max_records).then(|| call(forest.to_bytes()))
    };
    match first(draw, |_| true)? {
        Some(row) => Ok(row),
        None => call(alone(h()).to_bytes()),
    }
}

/// A forest and its line.
fn lined(forest: Vec<u8>) -> Result<(Vec<u8>, String), NoAnswer> {
    line(&forest).map(|line| (forest, line))
}

/// A small or medium forest with parameters; none if it is too large.
fn parametric(rng: &mut Rng, max_records: u64, make: fn(Family, u64) -> Forest) -> Option<Forest> {
    let family = Family {
        kind: rng.pick(&[Kind::Small, Kind::Medium]),
        marked: rng.chance(50),
    };
    let forest = make(family, rng.bits());
    fits(&forest, max_records).then_some(forest)
}

/// A parameter alone, for where no template is small enough.
fn parameter() -> Forest {
    alone(marked(x(), 1))
}

fn fits(forest: &Forest, max_records: u64) -> bool {
    forest.size() as u64 <= max_records
}

/// A damaged forest, or no bytes if none is small enough.
fn refused(rng: &mut Rng, max_records: u64) -> Result<Row, NoAnswer> {
    let draw = || damaged_of(rng, max_records).map(call);
    match first(draw, |_| true)? {
        Some(row) => Ok(row),
        None => call(Vec::new()),
    }
}

/// A damaged forest, unless it is too large.
fn damaged_of(rng: &mut Rng, max_records: u64) -> Option<Vec<u8>> {
    let bytes = damaged(rng.bits()).bytes;
    (records(&bytes) <= max_records).then_some(bytes)
}

/// How many records a forest has, as its header says if it is long enough to say so.
fn records(bytes: &[u8]) -> u64 {
    match bytes.get(2..4) {
        Some(count) => u64::from(u16::from_le_bytes([count[0], count[1]])),
        None => 0,
    }
}

/// An output exactly long enough or a byte short, too few work words, or one of refusals 11 to 14
/// and what is just within it.
fn at_limit(rng: &mut Rng, max_records: u64) -> Result<Row, NoAnswer> {
    let case = rng.below(8);
    let (kind, number) = match case {
        3 => (Kind::Readings, 11),
        4 => (Kind::Symbols, 12),
        5 => (Kind::NearLimit, 13),
        6 => (Kind::NearLimit, 14),
        7 => (
            rng.pick(&[Kind::Readings, Kind::Symbols, Kind::NearLimit]),
            0,
        ),
        _ => {
            let row = plain(rng, max_records)?;
            let length = row.answer.tree.len();
            return match case {
                0 => lent(row.forest, length, MIN_WORK_WORDS),
                1 => lent(row.forest, length.saturating_sub(1), MIN_WORK_WORDS),
                _ => lent(row.forest, MAX_OUTPUT, MIN_WORK_WORDS - 1),
            };
        }
    };
    let draw = || {
        let forest = at_times_marked(rng.bits(), kind);
        fits(&forest, max_records).then(|| call(forest.to_bytes()))
    };
    match first(draw, |row| row.answer.number == number)? {
        Some(row) => Ok(row),
        None => plain(rng, max_records),
    }
}
