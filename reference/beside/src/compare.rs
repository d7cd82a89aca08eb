//! Forests sent through both, every number and byte compared, with what was lent looked at afterwards.

use std::collections::BTreeMap;
use std::time::{Duration, Instant};

use cse_library::{call, Numbers, MAX_WRITTEN, WORK_WORDS};
use cse_reference::forest::Forest;
use cse_reference::generate::{near_misses, Family, Kind};
use cse_reference::hex;
use cse_reference::oracle::{answer_deep, entries, tells_marks, Answer, NoAnswer, Skipped, Work};

use crate::asked::Asked;
use crate::halves::in_two;

/// No call may take longer, on forests of whatever kind.
pub const LONGEST: Duration = Duration::from_secs(1);

/// The main call stores so many entries of free lists; lists past them it works out where it needs them.
const STORED: usize = 4_096;

/// Words past those that the call uses.
const SPARE: usize = 16;

/// What came of a run.
#[derive(Default)]
pub struct Tally {
    /// Forests that were compared, by number where plenty is lent.
    compared: BTreeMap<u32, u64>,
    /// The most scopes inside one another in these.
    nesting: usize,
    /// Those of them that tell what they have to.
    pub telling: u64,
    /// Compared forests where an opcode has two shapes, by how it came to them.
    pub ways: BTreeMap<&'static str, u64>,
    /// The longest of the main calls, by the quickest of three, and its seed.
    pub slowest: (Duration, u64),
    /// Calls by number and who made the tree.
    pub calls: BTreeMap<(u32, &'static str), u64>,
    /// Forests that were not compared, by reason.
    skipped: BTreeMap<&'static str, u64>,
    pub differences: Vec<String>,
}

impl Tally {
    pub fn join(&mut self, other: Tally) {
        for (number, count) in other.compared {
            *self.compared.entry(number).or_default() += count;
        }
        self.nesting = self.nesting.max(other.nesting);
        self.telling += other.telling;
        for (way, count) in other.ways {
            *self.ways.entry(way).or_default() += count;
        }
        self.slowest = self.slowest.max(other.slowest);
        for (key, count) in other.calls {
            *self.calls.entry(key).or_default() += count;
        }
        for (key, count) in other.skipped {
            *self.skipped.entry(key).or_default() += count;
        }
        self.differences.extend(other.differences);
    }

    /// Prints it all; whether nothing differed, no call took too long, at least so many forests were compared and, if it
    /// is asked, so many tell what they have to.
    pub fn print(&self, name: &str, least: u64, telling: Option<(&str, u64)>) -> bool {
        for ((number, maker), count) in &self.calls {
            println!("{name}: {count} calls with answer {number} ({maker})");
        }
        for (way, count) in &self.ways {
            println!("{name}: {count} forests with two shapes of an opcode: {way}");
        }
        for (reason, count) in &self.skipped {
            println!("{name}: {count} forests passed over: {reason}");
        }
        print_differences(name, &self.differences);
        let compared: u64 = self.compared.values().sum();
        let told = telling.map_or(String::new(), |(words, telling)| {
            let count = self.telling;
            format!(" {count} that {words}, at least {telling} asked for;")
        });
        let (time, slowest) = self.slowest;
        println!(
            "{name}: {compared} forests compared, at least {least} asked for, {} passed over;{told} by answer {}; nested up to {} deep; \
             slowest call {:.3} ms, of seed {slowest}; {} differences",
            self.skipped.values().sum::<u64>(),
            by_answer(&self.compared),
            self.nesting,
            time.as_secs_f64() * 1e3,
            self.differences.len()
        );
        self.differences.is_empty()
            && time <= LONGEST
            && compared >= least
            && self.telling >= telling.map_or(0, |(_, telling)| telling)
    }
}

/// Prints the first of them.
pub fn print_differences(name: &str, differences: &[String]) {
    for line in differences.iter().take(20) {
        println!("{name}: DIFFERENCE {line}");
    }
}

/// How many there are of each number, in words.
pub fn by_answer(counts: &BTreeMap<u32, u64>) -> String {
    let counts = counts.iter();
    let counts: Vec<_> = counts.map(|(n, count)| format!("{n}: {count}")).collect();
    counts.join(", ")
}

/// What a forest has to tell, where it is asked for.
#[derive(Clone, Copy)]
pub enum Told {
    /// Without marks it would have other symbols or another tree.
    Marks,
    /// The main call can't store all of its free lists.
    Entries,
    /// It has what would be refused if 00 had one shape, or child counts were part of shapes.
    NearMisses,
}

impl Told {
    /// What forests of a family are asked for, if anything.
    pub fn of(family: Family) -> Option<Told> {
        match family.kind {
            _ if family.marked => Some(Told::Marks),
            Kind::Flat => Some(Told::Entries),
            Kind::OneShape => Some(Told::NearMisses),
            _ => None,
        }
    }

    fn words(self) -> &'static str {
        match self {
            Told::Marks => "tell marks apart",
            Told::Entries => "have over 4,096 entries of free lists",
            Told::NearMisses => "have what comes near 16",
        }
    }

    /// Whether a forest with that answer tells it.
    fn is_told(self, forest: &Forest, bytes: &[u8], given: &Answer) -> bool {
        match self {
            Told::Marks => tells_marks(bytes, given),
            Told::Entries => entries(forest) > STORED,
            Told::NearMisses => near_misses(forest),
        }
    }
}

/// What both sides work in, kept from one forest to the next.
pub struct Lent {
    pub out: Vec<u8>,
    pub work: Vec<u32>,
}

impl Default for Lent {
    fn default() -> Lent {
        Lent {
            out: vec![0; MAX_WRITTEN + SPARE],
            work: vec![0; WORK_WORDS + SPARE],
        }
    }
}

/// Forests of a family. Whether nothing differed, no call took too long, and as many as is asked for were compared and tell
/// what they have to.
pub fn accepted(family: Family, asked: Asked) -> bool {
    let told = Told::of(family);
    tallied(asked, |seed, lent, tally| {
        let forest = family.forest(seed);
        let bytes = forest.to_bytes();
        let given = compare(&bytes, seed, lent, tally);
        if let (Some(told), Some(given)) = (told, given) {
            tally.telling += u64::from(told.is_told(&forest, &bytes, &given));
        }
    })
    .print(
        &family.name(),
        asked.least,
        told.map(|told| (told.words(), asked.telling)),
    )
}

/// What came of all seeds.
pub fn tallied(asked: Asked, each: impl Fn(u64, &mut Lent, &mut Tally) + Sync) -> Tally {
    let [(_, mut tally), (_, other)] = in_two(asked, |seed, (lent, tally)| each(seed, lent, tally));
    tally.join(other);
    tally
}

/// One forest: lent plenty, then an output exactly long enough and one a byte shorter, and at times too few words. The
/// answer that it has to give where plenty is lent, or none if it was not compared.
pub fn compare(forest: &[u8], seed: u64, lent: &mut Lent, tally: &mut Tally) -> Option<Answer> {
    let first = compare_call(forest, MAX_WRITTEN, WORK_WORDS, seed, lent, tally)?;
    *tally.compared.entry(first.number).or_default() += 1;
    let mut one = |out_length: usize, words: usize| {
        compare_call(forest, out_length, words, seed, lent, tally);
    };
    if first.number == 0 {
        let length = first.written_length as usize;
        one(length, WORK_WORDS + (seed % 3) as usize);
        one(length - 1, WORK_WORDS);
    }
    if seed % 64 == 0 {
        one(MAX_WRITTEN, WORK_WORDS - 1);
    }
    Some(first)
}

/// One call; the answer that it has to give, or none if it was not made.
pub fn compare_call(
    forest: &[u8],
    out_length: usize,
    words: usize,
    seed: u64,
    lent: &mut Lent,
    tally: &mut Tally,
) -> Option<Answer> {
    let told = match answer_deep(forest, out_length, words) {
        Ok(told) => told,
        Err(NoAnswer::Skipped(skipped)) => {
            *tally.skipped.entry(reason(&skipped)).or_default() += 1;
            return None;
        }
        Err(other) => {
            let difference = format!("{other}: {}", hex::print(forest));
            tally.differences.push(difference);
            return None;
        }
    };
    if let Some(work) = told.work {
        tally.nesting = tally.nesting.max(work.nesting);
    }
    let expected = told.answer;
    let calls = tally.calls.entry((expected.number, maker(told.work)));
    *calls.or_default() += 1;
    if let Err(difference) = hold(forest, out_length, words, &expected, seed, lent, tally) {
        let call = format!("{out_length} {words} {}", hex::print(forest));
        tally.differences.push(format!("{difference}: {call}"));
    }
    Some(expected)
}

/// Makes a call that has to give that answer, and notes its time; or what it did otherwise.
pub fn hold(
    forest: &[u8],
    out_length: usize,
    words: usize,
    expected: &Answer,
    seed: u64,
    lent: &mut Lent,
    tally: &mut Tally,
) -> Result<(), String> {
    let mut once = || difference(forest, out_length, words, expected, seed, lent);
    let mut time = once()?;
    if time > tally.slowest.0 {
        // The machine may have been busy with something else.
        time = time.min(once()?).min(once()?);
    }
    tally.slowest = tally.slowest.max((time, seed));
    Ok(())
}

fn maker(work: Option<Work>) -> &'static str {
    match work {
        None => "no tree needed",
        Some(work) if work.in_time() => "the unchanged files, and the copy",
        Some(_) => "the copy that remembers",
    }
}

fn reason(skipped: &Skipped) -> &'static str {
    match skipped {
        Skipped::Nesting(_) => "nested too deep",
        Skipped::TooLarge => "a written tree over 20,000 records",
    }
}

/// The time that the call took, or what it did otherwise than it has to.
fn difference(
    forest: &[u8],
    out_length: usize,
    words: usize,
    expected: &Answer,
    seed: u64,
    lent: &mut Lent,
) -> Result<Duration, String> {
    // Whatever stood there before must not matter, and what is not written must still stand there.
    let byte = |i: usize| (seed as u8).wrapping_add(i as u8) | 1;
    let word = |i: usize| {
        (seed as u32)
            .wrapping_mul(2_654_435_761)
            .wrapping_add(i as u32)
            | 1
    };
    let (out, work) = (&mut lent.out[..], &mut lent.work[..]);
    out.iter_mut()
        .enumerate()
        .for_each(|(i, place)| *place = byte(i));
    work.iter_mut()
        .enumerate()
        .for_each(|(i, place)| *place = word(i));
    let start = Instant::now();
    let numbers = call(forest, &mut out[..out_length], &mut work[..words]);
    let time = start.elapsed();
    let wanted = Numbers {
        number: expected.number,
        place: expected.place,
        written_length: expected.written_length,
        symbols: expected.symbols,
        readings: expected.readings,
    };
    if numbers != wanted {
        return Err(format!("{numbers:?} and not {wanted:?}"));
    }
    let written = expected.tree.len();
    if out[..written] != expected.tree[..] {
        return Err(format!(
            "wrote {} and not {}",
            hex::print(&out[..written]),
            hex::print(&expected.tree)
        ));
    }
    if (written..out.len()).any(|i| out[i] != byte(i)) {
        return Err("an output byte that is not the tree's was changed".to_string());
    }
    let cleared = if expected.number == 1 { 0 } else { WORK_WORDS };
    if work[..cleared].iter().any(|&word| word != 0) {
        return Err("a work word was not cleared".to_string());
    }
    if (cleared..work.len()).any(|i| work[i] != word(i)) {
        return Err("a work word past those that are used was changed".to_string());
    }
    if expected.number != 0 {
        return Ok(time);
    }
    let again = call(&expected.tree, &mut out[..], &mut work[..]).number;
    match again {
        2..=10 | 16 => Err(format!("the written tree is refused with {again}")),
        _ => Ok(time),
    }
}

#[cfg(test)]
mod tests {
    use super::*;

    #[test]
    fn fewer_than_are_asked_for_is_a_failure() {
        let tally = Tally {
            compared: [(0, 4), (12, 1)].into(),
            telling: 3,
            ..Tally::default()
        };
        assert!(tally.print("forests", 5, None));
        assert!(!tally.print("forests", 6, None));
        assert!(tally.print("forests", 5, Some((Told::Marks.words(), 3))));
        assert!(!tally.print("forests", 5, Some((Told::Marks.words(), 4))));
    }

    #[test]
    fn a_call_that_takes_too_long_is_a_failure() {
        let taking = |time| Tally {
            compared: [(0, 5)].into(),
            slowest: (time, 1),
            ..Tally::default()
        };
        assert!(taking(LONGEST).print("forests", 5, None));
        assert!(!taking(LONGEST + Duration::from_millis(1)).print("forests", 5, None));
    }
}
