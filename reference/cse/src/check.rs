//! Checks 2 to 7, 16 and 8 to 10 of document 01 and request A.9, each over the whole forest before the next.
//! Written from the papers alone, so that it can be set beside other readings of them.

use crate::forest::{Forest, Record, Tree, CLASSES, MARKS};

/// Why a call gives no tree: the number of the papers and its place.
#[derive(Clone, Copy, PartialEq, Eq, Debug)]
pub struct Refusal {
    pub number: u32,
    pub place: u32,
}

const MAX_BYTES: usize = 65_535;
const MAX_TREES: usize = 16;
const MAX_RECORDS: usize = 256;
const MAX_DEPTH: usize = 64;
/// The fixed part of a record: shape, opcode, child count, aux.
const FIXED: usize = 5;

const CONST: u8 = 0;
const UNPARSED: u8 = 1;
const ZERO: u8 = 2;
const TWO: u8 = 4;
const THREE: u8 = 5;
const VAL_USE: u8 = 7;
const VAL_DEF: u8 = 10;
const BLOCK_VALUE: u8 = 11;
const FUNC_VALUE: u8 = 12;
const TUPLE: u8 = 16;
const SELECT_FIELD: u8 = 17;

/// A record as it lies in the file, with its child count and no children yet.
struct Row {
    record: Record,
    children: usize,
}

/// The forest that the bytes hold, or the first of refusals 2 to 10 and 16 that applies.
pub fn accept(bytes: &[u8]) -> Result<Forest, Refusal> {
    let (trees, records) = header(bytes)?;
    let pairs = directory(bytes, records)?;
    let rows: Vec<Row> = pairs.iter().map(|&pair| row(bytes, pair)).collect();
    each(&rows, 4, fits_shape)?;
    each(&rows, 5, |row| {
        opcode_fits(row.record.opcode, row.record.shape)
    })?;
    closes(trees, &rows)?;
    let other = other_shape(&rows);
    let forest = grow(trees, rows);
    refuse_at(7, too_deep(&forest))?;
    refuse_at(16, other)?;
    refuse_at(8, definition_out_of_place(&forest))?;
    let mut scan = Scan::default();
    for tree in &forest.trees {
        scan.tree(tree);
        debug_assert!(scan.in_force.is_empty());
    }
    refuse_at(9, scan.bound_again)?;
    refuse_at(10, scan.unbound)?;
    Ok(forest)
}

fn refuse(number: u32, place: usize) -> Refusal {
    Refusal {
        number,
        place: place as u32,
    }
}

fn refuse_at(number: u32, place: Option<usize>) -> Result<(), Refusal> {
    place.map_or(Ok(()), |place| Err(refuse(number, place)))
}

/// Applies a check to each record in turn; the first that fails is the place.
fn each(rows: &[Row], number: u32, fits: impl Fn(&Row) -> bool) -> Result<(), Refusal> {
    refuse_at(number, rows.iter().position(|row| !fits(row)))
}

fn u16_at(bytes: &[u8], at: usize) -> usize {
    usize::from(u16::from_le_bytes([bytes[at], bytes[at + 1]]))
}

/// Check 2: the length and the two counts.
fn header(bytes: &[u8]) -> Result<(usize, usize), Refusal> {
    if bytes.len() < 4 || bytes.len() > MAX_BYTES {
        return Err(refuse(2, 0));
    }
    let (trees, records) = (u16_at(bytes, 0), u16_at(bytes, 2));
    if !(1..=MAX_TREES).contains(&trees) || !(1..=MAX_RECORDS).contains(&records) {
        return Err(refuse(2, 0));
    }
    Ok((trees, records))
}

/// Check 3: each pair by its own rule. That a pair in the middle runs past the end is no fault of
/// its own; the last pair then has one.
fn directory(bytes: &[u8], records: usize) -> Result<Vec<(usize, usize)>, Refusal> {
    let start = 4 + 4 * records;
    if start > bytes.len() {
        return Err(refuse(3, 0));
    }
    let mut expected = start;
    let mut pairs = Vec::with_capacity(records);
    for index in 0..records {
        let offset = u16_at(bytes, 4 + 4 * index);
        let length = u16_at(bytes, 6 + 4 * index);
        let last = index + 1 == records;
        if offset != expected || length < FIXED || (last && offset + length != bytes.len()) {
            return Err(refuse(3, index));
        }
        expected = offset + length;
        pairs.push((offset, length));
    }
    Ok(pairs)
}

fn row(bytes: &[u8], (offset, length): (usize, usize)) -> Row {
    Row {
        record: Record {
            shape: bytes[offset],
            opcode: bytes[offset + 1],
            aux: bytes[offset + 4],
            literal: bytes[offset + FIXED..offset + length].to_vec(),
        },
        children: u16_at(bytes, offset + 2),
    }
}

/// Check 4: child count, aux and literal against the shape.
fn fits_shape(row: &Row) -> bool {
    let record = &row.record;
    children_fit(record.shape, row.children)
        && aux_fits(record.shape, record.aux)
        && literal_fits(record)
}

/// False for a shape over 26 too.
fn children_fit(shape: u8, count: usize) -> bool {
    match shape {
        0..=2 | 7..=9 | 15 | 19 | 20 | 23 => count == 0,
        3 | 10 | 12 | 17 | 18 | 25 => count == 1,
        4 => count == 2,
        5 => count == 3,
        6 => count == 4,
        11 | 13 | 26 => count >= 1,
        14 | 16 | 22 => true,
        21 => count <= 1,
        24 => count == 2 || count == 3,
        _ => false,
    }
}

fn aux_fits(shape: u8, aux: u8) -> bool {
    match shape {
        // Every class with every mark.
        CONST => aux < CLASSES * MARKS,
        FUNC_VALUE => aux <= 15,
        _ => aux == 0,
    }
}

/// A literal must be used up exactly.
fn literal_fits(record: &Record) -> bool {
    let literal = record.literal.as_slice();
    let rest = match record.shape {
        CONST => return !literal.is_empty(),
        UNPARSED => return true,
        15 => return literal.iter().all(|&byte| byte <= 1),
        2..=6 | 11 | 16 | 22 | 24 | 26 => Some(literal),
        7 | 8 => skip(literal, 4),
        9 | 10 => skip(literal, 4).and_then(skip_opt),
        FUNC_VALUE => (0..record.aux).try_fold(literal, |rest, _| skip(rest, 4).and_then(skip_opt)),
        13 => skip(literal, 2)
            .and_then(<[u8]>::split_first)
            .and_then(|(&count, rest)| (0..count).try_fold(rest, |rest, _| skip_type(rest))),
        14 | 23 | 25 => skip_type(literal),
        17 => skip(literal, 1),
        18..=21 => skip(literal, 1).and_then(skip_type),
        _ => None,
    };
    rest.is_some_and(<[u8]>::is_empty)
}

fn skip(bytes: &[u8], count: usize) -> Option<&[u8]> {
    bytes.get(count..)
}

/// A type: a byte 1 to 255 and so many bytes.
fn skip_type(bytes: &[u8]) -> Option<&[u8]> {
    match bytes.split_first()? {
        (0, _) => None,
        (&length, rest) => skip(rest, usize::from(length)),
    }
}

/// Opt: 0, or 1 and a type.
fn skip_opt(bytes: &[u8]) -> Option<&[u8]> {
    match bytes.split_first()? {
        (0, rest) => Some(rest),
        (1, rest) => skip_type(rest),
        _ => None,
    }
}

/// Check 5. The first group binds both ways, so the shapes named there take no other opcode.
fn opcode_fits(opcode: u8, shape: u8) -> bool {
    match opcode {
        0x00 => shape == CONST || shape == UNPARSED,
        0x72 => shape == VAL_USE,
        0xD6 => shape == VAL_DEF,
        0xD8 => shape == BLOCK_VALUE,
        0xD9 => shape == FUNC_VALUE,
        0x8C => shape == SELECT_FIELD,
        0x86 => shape == TUPLE,
        _ if matches!(
            shape,
            CONST | UNPARSED | VAL_USE | VAL_DEF | BLOCK_VALUE | FUNC_VALUE | SELECT_FIELD | TUPLE
        ) =>
        {
            false
        }
        0x95 => shape == THREE,
        0xED | 0xEC => shape == TWO,
        0xA3 | 0xA4 | 0xA5 | 0xA7 | 0xDD => shape == ZERO,
        _ => true,
    }
}

/// Check 6: counts the subtrees still wanted; each record is one and asks for its children.
fn closes(trees: usize, rows: &[Row]) -> Result<(), Refusal> {
    let mut wanted = trees;
    for (index, row) in rows.iter().enumerate() {
        if wanted == 0 {
            return Err(refuse(6, index));
        }
        wanted = wanted - 1 + row.children;
    }
    match wanted {
        0 => Ok(()),
        _ => Err(refuse(6, rows.len())),
    }
}

/// Check 16: "the first record whose opcode, other than 00, had another shape earlier", in whatever tree.
fn other_shape(rows: &[Row]) -> Option<usize> {
    (0..rows.len()).find(|&place| {
        let Record { shape, opcode, .. } = rows[place].record;
        let other = |row: &Row| row.record.opcode == opcode && row.record.shape != shape;
        opcode != 0x00 && rows[..place].iter().any(other)
    })
}

/// The trees of rows that close. A stack of unfinished records, as they may nest 256 deep.
fn grow(trees: usize, rows: Vec<Row>) -> Forest {
    let mut done: Vec<Tree> = Vec::with_capacity(trees);
    // The records whose children are not all there, the innermost last.
    let mut unfinished: Vec<(Tree, usize)> = Vec::new();
    for row in rows {
        unfinished.push((
            Tree {
                record: row.record,
                children: Vec::with_capacity(row.children),
            },
            row.children,
        ));
        while let Some((tree, _)) = unfinished.pop_if(|(tree, want)| tree.children.len() == *want) {
            match unfinished.last_mut() {
                Some((parent, _)) => parent.children.push(tree),
                None => done.push(tree),
            }
        }
    }
    Forest { trees: done }
}

/// Check 7.
fn too_deep(forest: &Forest) -> Option<usize> {
    let mut index = 0;
    let mut fault = None;
    for tree in &forest.trees {
        deeper_than_allowed(tree, 1, &mut index, &mut fault);
    }
    fault
}

fn deeper_than_allowed(tree: &Tree, depth: usize, index: &mut usize, fault: &mut Option<usize>) {
    if depth > MAX_DEPTH {
        *fault = fault.or(Some(*index));
    }
    *index += 1;
    for child in &tree.children {
        deeper_than_allowed(child, depth + 1, index, fault);
    }
}

/// Check 8: a definition stands only as a block's child before the last, and such a child is one.
fn definition_out_of_place(forest: &Forest) -> Option<usize> {
    let mut index = 0;
    let mut fault = None;
    for tree in &forest.trees {
        out_of_place(tree, false, &mut index, &mut fault);
    }
    fault
}

/// `wanted`: a definition must stand here.
fn out_of_place(tree: &Tree, wanted: bool, index: &mut usize, fault: &mut Option<usize>) {
    if (tree.record.shape == VAL_DEF) != wanted {
        *fault = fault.or(Some(*index));
    }
    *index += 1;
    let last = tree.children.len().wrapping_sub(1);
    for (position, child) in tree.children.iter().enumerate() {
        let wanted = tree.record.shape == BLOCK_VALUE && position != last;
        out_of_place(child, wanted, index, fault);
    }
}

/// The id in a literal's first four bytes; check 4 has seen that they are there.
fn id(literal: &[u8]) -> u32 {
    u32::from_le_bytes([literal[0], literal[1], literal[2], literal[3]])
}

/// The ids of a lambda's arguments, in order.
fn argument_ids(record: &Record) -> Vec<u32> {
    let mut ids = Vec::with_capacity(usize::from(record.aux));
    let mut rest = record.literal.as_slice();
    for _ in 0..record.aux {
        ids.push(id(rest));
        rest = skip(rest, 4)
            .and_then(skip_opt)
            .expect("check 4 has read the arguments");
    }
    ids
}

/// Checks 9 and 10 in one walk: both look at what is in force where a record stands, and neither
/// changes it for the other. The first fault of each is kept; 9 is asked for first.
#[derive(Default)]
struct Scan {
    index: usize,
    in_force: Vec<u32>,
    bound_again: Option<usize>,
    unbound: Option<usize>,
}

impl Scan {
    fn tree(&mut self, tree: &Tree) {
        let place = self.index;
        self.index += 1;
        let outside = self.in_force.len();
        let record = &tree.record;
        match record.shape {
            VAL_USE => {
                if !self.in_force.contains(&id(&record.literal)) {
                    self.unbound = self.unbound.or(Some(place));
                }
            }
            VAL_DEF => {
                let id = id(&record.literal);
                if self.in_force.contains(&id) {
                    self.bound_again = self.bound_again.or(Some(place));
                }
                self.children(tree);
                // In force after its own value, to the end of its block, which takes it back.
                self.in_force.push(id);
            }
            BLOCK_VALUE => {
                self.children(tree);
                self.in_force.truncate(outside);
            }
            FUNC_VALUE => {
                for id in argument_ids(record) {
                    // Also finds an id that this lambda has bound before.
                    if self.in_force.contains(&id) {
                        self.bound_again = self.bound_again.or(Some(place));
                    }
                    self.in_force.push(id);
                }
                self.children(tree);
                self.in_force.truncate(outside);
            }
            _ => self.children(tree),
        }
    }

    fn children(&mut self, tree: &Tree) {
        for child in &tree.children {
            self.tree(child);
        }
    }
}
