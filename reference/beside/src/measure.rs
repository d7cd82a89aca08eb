//! Time of the unchanged original, from its own tree to its own tree, and of the main call, from bytes to bytes with the
//! clearing of its work words: the same forests, in turn.

use std::hint::black_box;
use std::time::{Duration, Instant};

use cse_library::{call, MAX_WRITTEN, WORK_WORDS};
use cse_reference::check::accept;
use cse_reference::cost::{nesting, MAX_NESTING};
use cse_reference::forest::Forest;
use cse_reference::generate::{Family, Kind};
use cse_reference::notation;
use cse_reference::oracle::{answer, exprs, original, remembered};
use ergo_ser::opcode::Expr;

/// A way in which a script grows: its name, the script of a size, and sizes.
type Growing = (&'static str, fn(usize) -> String, &'static [usize]);

/// Thunks inside one another, as far as 64 levels of depth allow; with definitions in each, that and 256 written records
/// allow fewer.
const LEVELS: &[usize] = &[2, 6, 10, 14, 18, 30, 45, 60];

/// Scripts that grow in one way each, in the notation of document 01.
const GROWING: [Growing; 7] = [
    (
        "records: a tuple of equal parts",
        equal_parts,
        &[15, 30, 60, 120, 240],
    ),
    ("thunks inside one another", nested, LEVELS),
    ("the same beside a definition", nested_beside, LEVELS),
    (
        "the same with a definition in each",
        nested_defining,
        &[2, 6, 10, 14, 18, 31],
    ),
    (
        "after 4,096 entries of free lists: beside a definition",
        nested_after,
        LEVELS,
    ),
    (
        "after 4,096 entries of free lists: with a definition in each",
        defining_after,
        &[2, 6, 10, 14, 18, 25],
    ),
    (
        "tuples read twice, inside one another",
        reread,
        &[2, 4, 6, 8],
    ),
];

const CLASSES: [Kind; 6] = [
    Kind::Small,
    Kind::Medium,
    Kind::Large,
    Kind::Deep,
    Kind::Readings,
    Kind::ManyScopes,
];

/// How often each forest is sent through each side; the quickest counts.
const ROUNDS: u32 = 7;

/// The original's time doubles with each scope inside another; with so many it takes up to a third of a second.
const MOST_SCOPES: usize = 18;

/// The leaves of a flat part, and the records over them: see `flat`.
const FLAT_WIDTH: usize = 17;
const FLAT_RECORDS: usize = 30;

pub fn classes(count: usize, seed: u64) {
    println!("class: forests; original, main call: median and 90th percentile in µs; times faster: median, 10th percentile");
    for kind in CLASSES {
        class(kind, count, seed);
    }
    let clearing = quickest(|| {
        let mut work = vec![1u32; WORK_WORDS];
        let start = Instant::now();
        work.iter_mut().for_each(|word| *word = 0);
        black_box(&mut work);
        start.elapsed()
    });
    println!("clearing 16,384 words alone: {:.2} µs", micros(clearing));
}

/// How the times grow.
pub fn growth() {
    println!("records, readings; original, the copy that remembers free lists, main call in µs");
    for (name, script, sizes) in GROWING {
        println!("{name}");
        for &size in sizes {
            grown(size, &script(size));
        }
    }
}

fn equal_parts(count: usize) -> String {
    format!("tuple({})", vec!["n(p(z,h))"; count / 4].join(","))
}

fn around(count: usize, innermost: &str) -> String {
    (0..count).fold(innermost.to_string(), |inner, _| format!("and(h,{inner})"))
}

fn nested(count: usize) -> String {
    around(count, "p(z,z)")
}

/// With nothing to define in the innermost thunk: its block would be a level too many.
fn nested_beside(count: usize) -> String {
    format!("p(p(x,x),{})", around(count, "p(z,h)"))
}

/// Each thunk has a constant of its own, used twice.
fn nested_defining(count: usize) -> String {
    (0..count).fold("h".to_string(), |inner, level| {
        format!("and(p(x:{level},x:{level}),{inner})")
    })
}

/// Constants that are written where they are used.
fn leaves() -> String {
    let leaves: Vec<String> = (0..FLAT_WIDTH).map(|mark| format!("k:{mark}")).collect();
    leaves.join(",")
}

/// Leaves, and a thunk in which a tuple of all of them stands under other records: each of these has all leaves in its free
/// list. Read eight times, each time with other symbols, it makes over 4,096 entries.
fn flat() -> String {
    let leaves = leaves();
    let wide = (0..FLAT_RECORDS).fold(format!("tuple({leaves})"), |inner, _| format!("n({inner})"));
    let read = (0..3).fold(format!("and(h,{wide})"), |inner, _| {
        format!("s1(tuple({inner}))")
    });
    format!("{leaves},{read}")
}

/// Behind it thunks whose lists have all leaves too.
fn nested_after(count: usize) -> String {
    let nested = around(count, &format!("tuple({})", leaves()));
    format!("tuple({},p(x,x),{nested})", flat())
}

fn defining_after(count: usize) -> String {
    format!("tuple({},{})", flat(), nested_defining(count))
}

fn reread(count: usize) -> String {
    (0..count).fold("z".to_string(), |inner, _| format!("s1(tuple({inner},h))"))
}

fn grown(size: usize, script: &str) {
    let forest = notation::parse(script).expect("the script is in the notation");
    let bytes = forest.to_bytes();
    let (mut out, mut work) = (vec![0; MAX_WRITTEN], vec![0; WORK_WORDS]);
    let numbers = call(&bytes, &mut out, &mut work);
    assert_eq!(numbers.number, 0, "the script is written");
    let scopes = forest.trees.iter().map(nesting).max().unwrap_or(0);
    let unchanged = match scopes <= MOST_SCOPES {
        true => format!("{:.1}", micros(their_time(&forest, original))),
        false => "-".to_string(),
    };
    let copy = their_time(&forest, remembered);
    let our = our_time(&bytes, &mut out, &mut work);
    let (records, readings) = (forest.size(), numbers.readings);
    println!(
        "  {size}: {records}, {readings}; {unchanged}, {:.1}, {:.1}",
        micros(copy),
        micros(our)
    );
}

fn class(kind: Kind, count: usize, seed: u64) {
    let (mut theirs, mut ours, mut ratios) = (Vec::new(), Vec::new(), Vec::new());
    let mut out = vec![0; MAX_WRITTEN];
    let mut work = vec![0; WORK_WORDS];
    for (forest, bytes) in written(kind.into(), seed).take(count) {
        let their = their_time(&forest, original);
        let our = our_time(&bytes, &mut out, &mut work);
        ratios.push(their.as_secs_f64() / our.as_secs_f64());
        theirs.push(micros(their));
        ours.push(micros(our));
    }
    for list in [&mut theirs, &mut ours, &mut ratios] {
        list.sort_by(f64::total_cmp);
    }
    let at = |list: &[f64], percent: usize| list[(list.len() - 1) * percent / 100];
    println!(
        "{}: {}; {:.1} {:.1}, {:.1} {:.1}; {:.1} {:.1}",
        kind.name(),
        ours.len(),
        at(&theirs, 50),
        at(&theirs, 90),
        at(&ours, 50),
        at(&ours, 90),
        at(&ratios, 50),
        at(&ratios, 10),
    );
}

/// The forests of a kind that are written, with their bytes, by seeds from `seed` on.
pub fn written(family: Family, seed: u64) -> impl Iterator<Item = (Forest, Vec<u8>)> {
    (seed..).filter_map(move |seed| {
        let bytes = family.forest(seed).to_bytes();
        let answer = answer(&bytes, MAX_WRITTEN, WORK_WORDS).ok()?;
        if answer.number != 0 {
            return None;
        }
        let forest = accept(&bytes).expect("a forest with an answer is accepted");
        debug_assert!(forest.trees.iter().all(|tree| nesting(tree) <= MAX_NESTING));
        Some((forest, bytes))
    })
}

/// The time of the original, or of the copy of it.
fn their_time<T>(forest: &Forest, pass: impl Fn(Expr, &[Expr]) -> T) -> Duration {
    quickest(|| {
        let (root, env) = exprs(forest);
        let start = Instant::now();
        let tree = pass(root, &env);
        let time = start.elapsed();
        black_box(tree);
        time
    })
}

/// The main call's time.
fn our_time(bytes: &[u8], out: &mut [u8], work: &mut [u32]) -> Duration {
    quickest(|| {
        let start = Instant::now();
        black_box(call(bytes, out, work));
        start.elapsed()
    })
}

fn quickest(mut time: impl FnMut() -> Duration) -> Duration {
    (0..ROUNDS).map(|_| time()).min().expect("there is a round")
}

fn micros(time: Duration) -> f64 {
    time.as_secs_f64() * 1e6
}

#[cfg(test)]
mod tests {
    use super::*;
    use cse_reference::oracle::entries;

    /// The flat part alone uses up what the main call stores, so it stores no list of what stands behind it.
    #[test]
    fn the_flat_part_has_over_4096_entries() {
        let forest = notation::parse(&format!("tuple({})", flat())).expect("it is in the notation");
        assert_eq!(entries(&forest), 8 * FLAT_WIDTH * (FLAT_RECORDS + 1));
        assert!(entries(&forest) > 4_096);
    }

    #[test]
    fn scripts_that_grow_are_written() {
        let (mut out, mut work) = (vec![0; MAX_WRITTEN], vec![0; WORK_WORDS]);
        for (name, script, sizes) in GROWING {
            for &size in sizes {
                let forest = notation::parse(&script(size)).expect("it is in the notation");
                let numbers = call(&forest.to_bytes(), &mut out, &mut work);
                assert_eq!(numbers.number, 0, "{name} {size}");
            }
        }
    }
}
