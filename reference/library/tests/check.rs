//! The wrapper's check over the linked library, on small inputs; `beside` compares at scale.

use cse_library::{check, tree, Checked, ENTRIES, WORK_WORDS};

/// HEIGHT alone.
const HEIGHT: [u8; 13] = [1, 0, 1, 0, 8, 0, 5, 0, 2, 0xA3, 0, 0, 0];

/// The bytes of records without literals, from shape, opcode and child count.
fn forest(trees: u8, records: &[(u8, u8, u8)]) -> Vec<u8> {
    let offset = |i: usize| (4 + 4 * records.len() + 5 * i) as u16;
    let [low, high] = (records.len() as u16).to_le_bytes();
    let mut bytes = vec![trees, 0, low, high];
    for i in 0..records.len() {
        bytes.extend(offset(i).to_le_bytes());
        bytes.extend([5, 0]);
    }
    for &(shape, opcode, children) in records {
        bytes.extend([shape, opcode, children, 0, 0]);
    }
    bytes
}

const Z: (u8, u8, u8) = (2, 0xFE, 0);
const N: (u8, u8, u8) = (3, 0xF0, 1);
const P: (u8, u8, u8) = (4, 0x9A, 2);

/// A tuple of so many.
const fn tuple(children: u8) -> (u8, u8, u8) {
    (16, 0x86, children)
}

/// A check where entries and words are not 0 before must give these; entries past `first` must be 0.
fn gives(forest: &[u8], number: u32, place: u32, first: &[u16]) {
    let mut ends = [0xA5A5; ENTRIES];
    let mut work = vec![9; WORK_WORDS + 2];
    let checked = check(forest, &mut work, &mut ends);
    assert_eq!(checked, Checked { number, place });
    assert_eq!(&ends[..first.len()], first);
    assert!(ends[first.len()..].iter().all(|&end| end == 0));
    assert!(work[..WORK_WORDS].iter().all(|&word| word == 0));
    assert_eq!(work[WORK_WORDS..], [9, 9]);
}

#[test]
fn one_record() {
    gives(&HEIGHT, 0, 0, &[1]);
}

#[test]
fn subtrees_inside_one_another() {
    gives(&forest(1, &[P, Z, Z]), 0, 0, &[3, 2, 3]);
    // p(n(z),p(z,z)).
    gives(&forest(1, &[P, N, Z, P, Z, Z]), 0, 0, &[6, 3, 3, 6, 5, 6]);
}

#[test]
fn records_are_numbered_over_all_trees() {
    gives(&forest(3, &[N, Z, P, Z, Z, Z]), 0, 0, &[2, 2, 5, 4, 5, 6]);
}

#[test]
fn the_most_records() {
    let widest = forest(1, &[vec![tuple(255)], vec![Z; 255]].concat());
    let ends: Vec<u16> = [256].into_iter().chain(2..=256).collect();
    gives(&widest, 0, 0, &ends);
    // What the main call refuses for its written tree is no matter of the check.
    assert_eq!(tree(&widest), Err((13, 0)));
    let records = [tuple(15); 16].map(|tuple| [vec![tuple], vec![Z; 15]].concat());
    let ends = (0..256).map(|i| if i % 16 == 0 { i + 16 } else { i + 1 });
    gives(
        &forest(16, &records.concat()),
        0,
        0,
        &ends.collect::<Vec<u16>>(),
    );
}

#[test]
fn no_end_of_a_refused_forest() {
    gives(&[], 2, 0, &[]);
    gives(&[&HEIGHT[..], &[0]].concat(), 3, 0, &[]);
    // A lambda with aux 0 and two children, behind what is right.
    gives(&forest(1, &[P, Z, (12, 0xD9, 2), Z, Z]), 4, 2, &[]);
    // A record left over.
    gives(&forest(1, &[P, Z, Z, Z]), 6, 3, &[]);
    // 65 deep.
    gives(&forest(1, &[vec![N; 64], vec![Z]].concat()), 7, 64, &[]);
}

#[test]
fn no_end_where_an_opcode_has_two_shapes() {
    // ByIndex under 9A.
    const B: (u8, u8, u8) = (24, 0x9A, 2);
    let mixed = forest(1, &[tuple(2), P, Z, Z, B, Z, Z]);
    gives(&mixed, 16, 4, &[]);
    assert_eq!(tree(&mixed), Err((16, 4)));
    // In two trees.
    gives(&forest(2, &[B, Z, Z, N, P, Z, Z]), 16, 4, &[]);
    // With two and with three children it has one shape.
    let three = (24, 0x9A, 3);
    let ends = [8, 4, 3, 4, 8, 6, 7, 8];
    gives(
        &forest(1, &[tuple(2), B, Z, Z, three, Z, Z, Z]),
        0,
        0,
        &ends,
    );
}

#[test]
fn no_end_where_an_id_is_at_fault() {
    // A lambda with argument 1, of no type, and a use of 1.
    const LAMBDA: &[u8] = &[12, 0xD9, 1, 0, 1, 1, 0, 0, 0, 0];
    const USE: &[u8] = &[7, 0x72, 0, 0, 0, 1, 0, 0, 0];
    let three = |records: [&[u8]; 3]| {
        let mut bytes = vec![1, 0, 3, 0];
        let mut offset = 16;
        for record in records {
            let length = record.len() as u8;
            bytes.extend([offset, 0, length, 0]);
            offset += length;
        }
        [bytes, records.concat()].concat()
    };
    // L1.n(1), L1.L1.1 and p(1,1).
    gives(&three([LAMBDA, &[3, 0xF0, 1, 0, 0], USE]), 0, 0, &[3; 3]);
    gives(&three([LAMBDA, LAMBDA, USE]), 9, 1, &[]);
    gives(&three([&[4, 0x9A, 2, 0, 0], USE, USE]), 10, 1, &[]);
}

#[test]
fn too_few_work_words_are_kept() {
    for words in [0, WORK_WORDS - 1] {
        let mut ends = [0xA5A5; ENTRIES];
        let mut work = vec![9; words];
        let checked = check(&HEIGHT, &mut work, &mut ends);
        assert_eq!(
            checked,
            Checked {
                number: 1,
                place: 0
            }
        );
        assert_eq!(ends, [0; ENTRIES]);
        assert!(work.iter().all(|&word| word == 9));
    }
}

/// What a call leaves must not matter to the next one.
#[test]
fn one_check_after_another() {
    let mut ends = [0; ENTRIES];
    let mut work = vec![0; WORK_WORDS];
    let wide = forest(1, &[vec![tuple(9)], vec![Z; 9]].concat());
    for forest in [&wide[..], &HEIGHT, &[], &HEIGHT, &wide, &HEIGHT] {
        check(forest, &mut work, &mut ends);
    }
    assert_eq!(ends[0], 1);
    assert_eq!(ends[1..], [0; ENTRIES - 1]);
}
