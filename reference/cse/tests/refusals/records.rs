//! 4 and 5: records, their shapes and opcodes.

use crate::*;

/// A lone record that check 4 lets through reaches check 5 or 6; one that it refuses does not.
fn fits(shape: u8, children: u16, aux: u8, literal: &[u8]) -> bool {
    match accept(&raw(1, &[(shape, 0x01, children, aux, literal)])) {
        Err(Refusal { number: 4, place }) => {
            assert_eq!(place, 0);
            false
        }
        Err(Refusal { number, .. }) => {
            assert!(number > 4);
            true
        }
        Ok(_) => true,
    }
}

/// A literal that fits each shape, with aux 0 for a lambda.
fn a_literal(shape: u8) -> &'static [u8] {
    match shape {
        0 => &[1],
        7 | 8 => &[1, 0, 0, 0],
        9 | 10 => &[1, 0, 0, 0, 0],
        13 => &[1, 1, 0],
        14 | 23 | 25 => &[1, 9],
        17 => &[1],
        18..=21 => &[1, 1, 9],
        _ => &[],
    }
}

/// The fewest children of each shape.
fn least_children(shape: u8) -> u16 {
    match shape {
        3 | 10..=13 | 17 | 18 | 25 | 26 => 1,
        4 | 24 => 2,
        5 => 3,
        6 => 4,
        _ => 0,
    }
}

#[test]
fn four_shapes_and_child_counts() {
    let counts: [(u8, std::ops::RangeInclusive<u16>); 27] = [
        (0, 0..=0),
        (1, 0..=0),
        (2, 0..=0),
        (3, 1..=1),
        (4, 2..=2),
        (5, 3..=3),
        (6, 4..=4),
        (7, 0..=0),
        (8, 0..=0),
        (9, 0..=0),
        (10, 1..=1),
        (11, 1..=65_535),
        (12, 1..=1),
        (13, 1..=65_535),
        (14, 0..=65_535),
        (15, 0..=0),
        (16, 0..=65_535),
        (17, 1..=1),
        (18, 1..=1),
        (19, 0..=0),
        (20, 0..=0),
        (21, 0..=1),
        (22, 0..=65_535),
        (23, 0..=0),
        (24, 2..=3),
        (25, 1..=1),
        (26, 1..=65_535),
    ];
    for (shape, range) in counts {
        for count in [0, 1, 2, 3, 4, 5, 255, 256, 65_535] {
            let expected = range.contains(&count);
            assert_eq!(
                fits(shape, count, 0, a_literal(shape)),
                expected,
                "{shape} {count}"
            );
        }
    }
    for shape in 27..=255 {
        assert!(!fits(shape, 0, 0, &[]));
    }
}

#[test]
fn four_aux() {
    for shape in 0..=26 {
        let children = least_children(shape);
        for aux in 0..=255u8 {
            let arguments = [1, 0, 0, 0, 0].repeat(usize::from(aux));
            let (literal, most) = match shape {
                // 7 classes with 36 marks.
                0 => (a_literal(0), 251),
                12 => (arguments.as_slice(), 15),
                _ => (a_literal(shape), 0),
            };
            assert_eq!(
                fits(shape, children, aux, literal),
                aux <= most,
                "{shape} {aux}"
            );
        }
    }
}

#[test]
fn four_marks() {
    let constant = |aux| (0, 0x00, 0, aux, &[1][..]);
    let zero = |aux| (2, 0xFE, 0, aux, &[][..]);
    for aux in [0, 6, 7, 245, 250, 251] {
        accepts(&raw(2, &[zero(0), constant(aux)]));
    }
    for aux in 252..=255 {
        refuses(&raw(2, &[zero(0), constant(aux)]), 4, 1);
        refuses(
            &raw(3, &[constant(251), constant(aux), constant(252)]),
            4,
            1,
        );
    }
    // What is a mark of a constant is none of another shape.
    for aux in [1, 6, 7, 245, 251, 252] {
        refuses(&raw(2, &[constant(aux.min(251)), zero(aux)]), 4, 1);
    }
    refuses(&raw(1, &[(1, 0x00, 0, 7, &[1])]), 4, 0);
}

#[test]
fn four_literals() {
    let type_255 = [&[255][..], &[0; 255]].concat();
    let type_short = [&[255][..], &[0; 254]].concat();
    let types_255 = [&[1, 1, 255][..], &[1, 7].repeat(255)].concat();
    let types_254 = [&[1, 1, 255][..], &[1, 7].repeat(254)].concat();
    let id = |rest: &[u8]| [&[1, 0, 0, 0][..], rest].concat();
    let byte = |rest: &[u8]| [&[200][..], rest].concat();
    let types: [(&[u8], bool); 7] = [
        (&[], false),
        (&[0], false),
        (&[1], false),
        (&[1, 0], true),
        (&[1, 0, 0], false),
        (&type_255, true),
        (&type_short, false),
    ];
    for (tpe, good) in types {
        for shape in [14, 23, 25] {
            let children = u16::from(shape == 25);
            assert_eq!(fits(shape, children, 0, tpe), good, "{shape} {tpe:?}");
        }
        for shape in [18, 19, 20, 21] {
            let children = u16::from(shape == 18);
            assert_eq!(
                fits(shape, children, 0, &byte(tpe)),
                good,
                "{shape} {tpe:?}"
            );
        }
        let opt = [&[1][..], tpe].concat();
        assert_eq!(fits(9, 0, 0, &id(&opt)), good);
        assert_eq!(fits(10, 1, 0, &id(&opt)), good);
        assert_eq!(fits(12, 1, 1, &id(&opt)), good);
        assert_eq!(
            fits(12, 1, 2, &[id(&opt), id(&[0])].concat()),
            good,
            "{tpe:?}"
        );
        assert_eq!(fits(13, 1, 0, &[&[1, 1, 1][..], tpe].concat()), good);
    }
    for shape in [9, 10] {
        let children = u16::from(shape == 10);
        assert!(fits(shape, children, 0, &id(&[0])));
        for bad in [
            &id(&[]),
            &id(&[0, 0]),
            &id(&[2]),
            &id(&[255, 1, 1]),
            &vec![0; 3],
        ] {
            assert!(!fits(shape, children, 0, bad));
        }
    }
    for shape in [7, 8] {
        for length in 0..8 {
            assert_eq!(fits(shape, 0, 0, &vec![0; length]), length == 4);
        }
    }
    for shape in [2, 3, 4, 5, 6, 11, 16, 22, 24, 26] {
        let children = match shape {
            3 | 11 | 26 => 1,
            4 | 24 => 2,
            5 => 3,
            6 => 4,
            _ => 0,
        };
        assert!(fits(shape, children, 0, &[]));
        assert!(!fits(shape, children, 0, &[0]));
    }
    assert!(!fits(0, 0, 0, &[]));
    assert!(fits(0, 0, 6, &[0]));
    assert!(fits(1, 0, 0, &[]));
    assert!(fits(1, 0, 0, &[1, 2, 3]));
    assert!(fits(15, 0, 0, &[0, 1, 0]));
    assert!(!fits(15, 0, 0, &[0, 1, 2]));
    assert!(fits(17, 1, 0, &[255]));
    assert!(!fits(17, 1, 0, &[]));
    assert!(!fits(17, 1, 0, &[1, 1]));
    assert!(fits(12, 1, 0, &[]));
    assert!(!fits(12, 1, 0, &id(&[0])));
    assert!(!fits(12, 1, 2, &id(&[0])));
    assert!(fits(13, 1, 0, &[1, 1, 0]));
    assert!(!fits(13, 1, 0, &[1, 1]));
    assert!(!fits(13, 1, 0, &[1, 1, 0, 0]));
    assert!(fits(13, 1, 0, &types_255));
    assert!(!fits(13, 1, 0, &types_254));
}

#[test]
fn five_opcodes() {
    let alone_ok: [(u8, &[u8]); 16] = [
        (0x00, &[0, 1]),
        (0x72, &[7]),
        (0xD6, &[10]),
        (0xD8, &[11]),
        (0xD9, &[12]),
        (0x8C, &[17]),
        (0x86, &[16]),
        (0x95, &[5]),
        (0xED, &[4]),
        (0xEC, &[4]),
        (0xA3, &[2]),
        (0xA4, &[2]),
        (0xA5, &[2]),
        (0xA7, &[2]),
        (0xDD, &[2]),
        (
            0xA6,
            &[
                2, 3, 4, 5, 6, 8, 9, 13, 14, 15, 18, 19, 20, 21, 22, 23, 24, 25, 26,
            ],
        ),
    ];
    for shape in 0..=26u8 {
        let children = least_children(shape);
        for opcode in 0..=255u8 {
            let bytes = raw(1, &[(shape, opcode, children, 0, a_literal(shape))]);
            let refused = accept(&bytes)
                == Err(Refusal {
                    number: 5,
                    place: 0,
                });
            let shapes = alone_ok.iter().find(|(bound, _)| *bound == opcode);
            let expected = match shapes {
                Some((_, shapes)) => shapes.contains(&shape),
                // As 0xA6: an opcode that the paper does not name.
                None => alone_ok[15].1.contains(&shape),
            };
            assert_eq!(!refused, expected, "{opcode:02X} {shape}");
        }
    }
    // The first record that offends, and 4 before 5.
    let bad_opcode = (2, 0x95, 0, 0, &[][..]);
    let bad_shape = (2, 0xFE, 0, 1, &[][..]);
    refuses(
        &raw(3, &[(2, 0xFE, 0, 0, &[]), bad_opcode, bad_opcode]),
        5,
        1,
    );
    refuses(&raw(2, &[bad_opcode, bad_shape]), 4, 1);
}
