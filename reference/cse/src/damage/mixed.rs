//! Refusal 16: an opcode with two shapes. Two or more records get one opcode, whatever stands between them; where another check
//! finds a fault too, the earlier check speaks.

use super::binding::{bound_again, not_in_force};
use super::structure::{depth, misplaced_definition};
use super::{base, Fault, File, Raw, MAX_RECORDS};
use crate::generate::records::*;
use crate::generate::{at_times_marked, Kind, Rng};

/// How far records are apart that are far apart.
const FAR: usize = 100;

/// A record without children whose opcode, 00, is never a pair's.
const LEFT_OVER: Raw = Raw {
    shape: UNPARSED,
    opcode: 0x00,
    count: 0,
    aux: 0,
    literal: Vec::new(),
};

/// How two records of one opcode and two shapes come into a forest.
pub(super) struct Way {
    pub(super) name: &'static str,
    /// What it is refused with.
    number: u32,
    start: fn(&mut Rng) -> Option<Start>,
    /// Which two records are wanted.
    wanted: fn(&Start, Pair) -> bool,
    /// What is done once the two have one opcode, and the place of the refusal.
    more: fn(&mut Rng, &mut Start, Pair) -> Option<usize>,
}

/// A forest to start from, where each opcode has one shape.
struct Start {
    file: File,
    /// The tree that each record is in.
    trees: Vec<usize>,
    /// The place of a fault that it has already; 0 if it has none.
    fault: usize,
}

/// A record that is the first with its opcode, which is free, and another, of another shape, that may have this opcode too.
#[derive(Clone, Copy)]
struct Pair {
    first: usize,
    other: usize,
}

impl Pair {
    fn earlier(self) -> usize {
        self.first.min(self.other)
    }

    /// Where the opcode has its second shape: before there is either the first alone with it, or the other alone.
    fn place(self) -> usize {
        self.first.max(self.other)
    }
}

const PLAIN: Way = Way {
    name: "two records",
    number: 16,
    start: |rng| Some(Start::of(File::of(&base(rng)), 0)),
    wanted: |_, _| true,
    more: |_, _, pair| Some(pair.place()),
};

pub(super) const WAYS: [Way; 15] = [
    PLAIN,
    Way {
        name: "the first record",
        wanted: |_, pair| pair.earlier() == 0,
        ..PLAIN
    },
    Way {
        name: "the last record",
        wanted: |start, pair| pair.place() + 1 == start.file.records.len(),
        ..PLAIN
    },
    Way {
        name: "far apart",
        start: |rng| of(rng, &[Kind::Large, Kind::Wide, Kind::Deep]),
        wanted: |_, pair| pair.place() - pair.earlier() >= FAR,
        ..PLAIN
    },
    Way {
        name: "in two environment trees",
        start: |rng| of(rng, &[Kind::Unreached, Kind::Wide]),
        wanted: |start, pair| {
            let [earlier, later] = start.trees_of(pair);
            earlier != later && later + 1 != start.file.trees
        },
        ..PLAIN
    },
    Way {
        name: "in an environment tree and the root",
        start: |rng| of(rng, &[Kind::Unreached, Kind::Wide]),
        wanted: |start, pair| {
            let [earlier, later] = start.trees_of(pair);
            earlier != later && later + 1 == start.file.trees
        },
        ..PLAIN
    },
    Way {
        name: "Two and ByIndex",
        wanted: |start, pair| {
            let shapes = [pair.earlier(), pair.place()].map(|at| start.file.records[at].shape);
            shapes == [TWO, BY_INDEX] || shapes == [BY_INDEX, TWO]
        },
        ..PLAIN
    },
    Way {
        name: "three shapes or more",
        more: further_shapes,
        ..PLAIN
    },
    Way {
        name: "two opcodes",
        more: second_opcode,
        ..PLAIN
    },
    Way {
        name: "after a definition out of place",
        start: |rng| faulty(misplaced_definition(rng)?),
        wanted: |start, pair| start.fault < pair.place(),
        ..PLAIN
    },
    Way {
        name: "after an id that is bound again",
        start: |rng| faulty(bound_again(rng)?),
        wanted: |start, pair| start.fault < pair.place(),
        ..PLAIN
    },
    Way {
        name: "after a use of an id not in force",
        start: |rng| faulty(not_in_force(rng)?),
        wanted: |start, pair| start.fault < pair.place(),
        ..PLAIN
    },
    Way {
        name: "before a record that is too deep",
        number: 7,
        start: |rng| faulty(depth(rng)?),
        wanted: |start, pair| pair.place() < start.fault,
        more: |_, start, _| Some(start.fault),
    },
    Way {
        name: "before an opcode of other shapes",
        number: 5,
        more: |rng, start, pair| {
            let at = start.pick_where(rng, |at| at > pair.place())?;
            start.file.records[at].opcode = 0x00;
            Some(at)
        },
        ..PLAIN
    },
    Way {
        name: "before a record left over",
        number: 6,
        more: |_, start, _| {
            let count = start.file.records.len();
            start.file.records.push(LEFT_OVER);
            (count < MAX_RECORDS).then_some(count)
        },
        ..PLAIN
    },
];

/// A forest of one of the kinds.
fn of(rng: &mut Rng, kinds: &[Kind]) -> Option<Start> {
    let kind = rng.pick(kinds);
    let forest = at_times_marked(rng.bits(), kind);
    Some(Start::of(File::of(&forest), 0))
}

fn faulty(fault: Fault) -> Option<Start> {
    Some(Start::of(File::read(&fault.bytes), fault.place))
}

/// Two to four shapes more for the pair's opcode; the second of all these records is the place.
fn further_shapes(rng: &mut Rng, start: &mut Start, pair: Pair) -> Option<usize> {
    let mut numbers = vec![pair.first, pair.other];
    for _ in 0..rng.range(1, 3) {
        let shape = |at: usize| start.file.records[at].shape;
        let shapes: Vec<u8> = numbers.iter().map(|&at| shape(at)).collect();
        match start.pick_where(rng, |at| !shapes.contains(&shape(at))) {
            Some(at) => numbers.push(at),
            None => break,
        }
    }
    for &at in &numbers[1..] {
        start.put(Pair { other: at, ..pair });
    }
    numbers.sort();
    (numbers.len() > 2).then(|| numbers[1])
}

/// Another opcode with two shapes; the first of the two places counts.
fn second_opcode(rng: &mut Rng, start: &mut Start, pair: Pair) -> Option<usize> {
    let taken = [pair.first, pair.other];
    let apart = |other: Pair| !taken.contains(&other.first) && !taken.contains(&other.other);
    let second = pick(rng, &start.pairs(apart))?;
    start.put(second);
    Some(pair.place().min(second.place()))
}

fn pick<T: Clone>(rng: &mut Rng, items: &[T]) -> Option<T> {
    (!items.is_empty()).then(|| rng.pick(items))
}

/// Refusal 16.
pub(super) fn refused(rng: &mut Rng) -> Option<Fault> {
    let ways: Vec<&Way> = WAYS.iter().filter(|way| way.number == 16).collect();
    Some(rng.pick(&ways).fault(rng))
}

/// Any way, with what it is refused with.
pub(super) fn any(rng: &mut Rng) -> (u32, Fault) {
    let way = &WAYS[rng.below(WAYS.len())];
    (way.number, way.fault(rng))
}

impl Way {
    /// Forests are drawn until one suits.
    fn fault(&self, rng: &mut Rng) -> Fault {
        loop {
            if let Some(fault) = self.attempt(rng) {
                return fault;
            }
        }
    }

    fn attempt(&self, rng: &mut Rng) -> Option<Fault> {
        let mut start = (self.start)(rng)?;
        let pair = pick(rng, &start.pairs(|pair| (self.wanted)(&start, pair)))?;
        start.put(pair);
        let place = (self.more)(rng, &mut start, pair)?;
        start.rename(rng);
        Some(Fault {
            bytes: start.file.bytes(),
            place,
            way: self.name,
        })
    }
}

impl Start {
    fn of(file: File, fault: usize) -> Start {
        let mut trees = Vec::new();
        let (mut tree, mut wanted) = (0, 1);
        for record in &file.records {
            trees.push(tree);
            wanted = wanted - 1 + record.count;
            if wanted == 0 {
                (tree, wanted) = (tree + 1, 1);
            }
        }
        Start { file, trees, fault }
    }

    /// The trees of a pair's earlier and later record.
    fn trees_of(&self, pair: Pair) -> [usize; 2] {
        [pair.earlier(), pair.place()].map(|at| self.trees[at])
    }

    /// A record that may have any free opcode, if there is one.
    fn pick_where(&self, rng: &mut Rng, wanted: impl Fn(usize) -> bool) -> Option<usize> {
        let numbers = 0..self.file.records.len();
        let free = numbers.filter(|&at| takes_free(self.file.records[at].shape) && wanted(at));
        pick(rng, &free.collect::<Vec<usize>>())
    }

    /// All pairs that are wanted.
    fn pairs(&self, wanted: impl Fn(Pair) -> bool) -> Vec<Pair> {
        let records = &self.file.records;
        let mut met = [false; 256];
        let mut pairs = Vec::new();
        for (first, record) in records.iter().enumerate() {
            let opcode = usize::from(record.opcode);
            if met[opcode] || !is_free(record.opcode) {
                continue;
            }
            met[opcode] = true;
            let others = records.iter().enumerate();
            let others = others
                .filter(|(_, other)| takes_free(other.shape) && other.shape != record.shape)
                .map(|(other, _)| Pair { first, other });
            pairs.extend(others.filter(|&pair| wanted(pair)));
        }
        pairs
    }

    /// Gives the other record of a pair the first one's opcode.
    fn put(&mut self, pair: Pair) {
        self.file.records[pair.other].opcode = self.file.records[pair.first].opcode;
    }

    /// Mostly, other opcodes in place of all that are free.
    fn rename(&mut self, rng: &mut Rng) {
        if rng.chance(20) {
            return;
        }
        let opcodes = shuffled_opcodes(rng);
        for record in &mut self.file.records {
            record.opcode = opcodes[usize::from(record.opcode)];
        }
    }
}
