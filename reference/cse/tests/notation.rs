//! The short notation: what it stands for, its canonical text, and its errors.

use cse_reference::forest::{Forest, Record, Tree};
use cse_reference::generate::{accepted, Kind, Rng};
use cse_reference::notation::{parse, print};

fn tree(shape: u8, opcode: u8, aux: u8, literal: &[u8], children: Vec<Tree>) -> Tree {
    let literal = literal.to_vec();
    let record = Record {
        shape,
        opcode,
        aux,
        literal,
    };
    Tree { record, children }
}

fn one(tree: Tree) -> Forest {
    Forest { trees: vec![tree] }
}

fn z() -> Tree {
    tree(2, 0xFE, 0, &[], vec![])
}

fn use_of(id: u8) -> Tree {
    tree(7, 0x72, 0, &[id, 0, 0, 0], vec![])
}

#[test]
fn words_stand_for_their_records() {
    let leaves = [
        ("z", z()),
        ("h", tree(2, 0xA3, 0, &[], vec![])),
        ("k", tree(0, 0, 3, &[4, 2], vec![])),
        ("x", tree(0, 0, 6, &[7, 1], vec![])),
        ("k:1", tree(0, 0, 10, &[4, 2], vec![])),
        ("k:35", tree(0, 0, 248, &[4, 2], vec![])),
        ("x:1", tree(0, 0, 13, &[7, 1], vec![])),
        ("x:35", tree(0, 0, 251, &[7, 1], vec![])),
        ("3", use_of(3)),
        ("4294967295", tree(7, 0x72, 0, &[255; 4], vec![])),
        ("n(z)", tree(3, 0xF0, 0, &[], vec![z()])),
        ("p(z,3)", tree(4, 0x9A, 0, &[], vec![z(), use_of(3)])),
        ("and(z,3)", tree(4, 0xED, 0, &[], vec![z(), use_of(3)])),
        ("or(z,3)", tree(4, 0xEC, 0, &[], vec![z(), use_of(3)])),
        (
            "if(z,3,z)",
            tree(5, 0x95, 0, &[], vec![z(), use_of(3), z()]),
        ),
        ("tuple()", tree(16, 0x86, 0, &[], vec![])),
        ("tuple(z)", tree(16, 0x86, 0, &[], vec![z()])),
        ("tuple(z,3)", tree(16, 0x86, 0, &[], vec![z(), use_of(3)])),
        ("{z}", tree(11, 0xD8, 0, &[], vec![z()])),
        ("L.z", tree(12, 0xD9, 0, &[], vec![z()])),
        ("L7.7", tree(12, 0xD9, 1, &[7, 0, 0, 0, 0], vec![use_of(7)])),
        (
            "L7,256.7",
            tree(
                12,
                0xD9,
                2,
                &[7, 0, 0, 0, 0, 0, 1, 0, 0, 0],
                vec![use_of(7)],
            ),
        ),
    ];
    for (text, tree) in leaves {
        assert_eq!(parse(text), Ok(one(tree.clone())), "{text}");
        assert_eq!(print(&one(tree)).as_deref(), Some(text));
    }
    for field in 0..10u8 {
        let select = one(tree(17, 0x8C, 0, &[field], vec![z()]));
        assert_eq!(parse(&format!("s{field}(z)")), Ok(select));
    }
}

#[test]
fn blocks_hold_definitions_without_type() {
    let definition = |id: u8, value| tree(10, 0xD6, 0, &[id, 0, 0, 0, 0], vec![value]);
    let expected = tree(
        11,
        0xD8,
        0,
        &[],
        vec![
            definition(1, z()),
            definition(2, tree(3, 0xF0, 0, &[], vec![use_of(1)])),
            tree(4, 0x9A, 0, &[], vec![use_of(1), use_of(2)]),
        ],
    );
    assert_eq!(parse("{1=z; 2=n(1); p(1,2)}"), Ok(one(expected)));
}

#[test]
fn text_bytes() {
    let bytes = parse("h").map(|forest| forest.to_bytes());
    assert_eq!(bytes, Ok(vec![1, 0, 1, 0, 8, 0, 5, 0, 2, 0xA3, 0, 0, 0]));
}

/// Every tree of document 01, and nestings of each form, is its own canonical text.
#[test]
fn canonical_texts_come_back() {
    let texts = [
        "h",
        "p(h,h)",
        "p(k,k)",
        "p(x,x)",
        "{1=z; p(1,1)}",
        "p(n(z),n(z))",
        "if(z,n(z),n(z))",
        "n(z) | if(z,n(z),n(z))",
        "{1=z; 2=n(1); if(1,2,2)}",
        "{1=z; if(1,{2=s1(1); 2},s1(1))}",
        "L7.p(n(7),n(7))",
        "L1.{3=n(1); p(3,3)}",
        "{1=n(z); L2.p(1,1)}",
        "{1=z; s1(tuple(1,1))}",
        "3",
        "L1.L1.1",
        "L.L7,8,9.tuple(7,L.8,{9})",
        "{1={1=z; 1}; 1}",
        "z | x | {z} | L7.7 | tuple()",
        "p(L7.7,L7,8.p(8,7))",
        "{{{1=L2.2; {1}}}}",
        "p(k:1,k:2)",
        "p(x,x:35)",
        "x:9 | {1=x:10; L7.tuple(1,k:34,7)}",
    ];
    for text in texts {
        let forest = parse(text).expect(text);
        assert_eq!(print(&forest).as_deref(), Some(text));
    }
}

#[test]
fn white_space_is_free() {
    let loose = " \t n ( z )\n|\r\n L 7 , 8 . { 1 = s1 ( 7 ) ; p ( 1 , 8 ) } ";
    let forest = parse(loose).unwrap();
    assert_eq!(
        print(&forest).as_deref(),
        Some("n(z) | L7,8.{1=s1(7); p(1,8)}")
    );
    assert_eq!(print(&parse("007").unwrap()).as_deref(), Some("7"));
    let marks = " p ( k : 3 ,\tx\n:\r\n35 ) ";
    assert_eq!(
        print(&parse(marks).unwrap()).as_deref(),
        Some("p(k:3,x:35)")
    );
}

#[test]
fn a_mark_of_0_is_read_and_not_printed() {
    assert_eq!(parse("p(k:0,x:0)"), parse("p(k,x)"));
    assert_eq!(print(&parse("k:0").unwrap()).as_deref(), Some("k"));
    assert_eq!(print(&parse("x:007").unwrap()).as_deref(), Some("x:7"));
}

#[test]
fn errors_name_the_column() {
    let many = format!("L{}1.z", "1,".repeat(255));
    let cases = [
        ("", "column 1: a tree is missing"),
        ("  ", "column 3: a tree is missing"),
        ("z |", "column 4: a tree is missing"),
        ("| z", "column 1: a tree cannot begin with `|`"),
        ("p(z,)", "column 5: a tree cannot begin with `)`"),
        ("p(z,é)", "column 5: a tree cannot begin with `é`"),
        ("p(z,zz)", "column 5: unknown word `zz`"),
        ("s10(z)", "column 1: unknown word `s10`"),
        ("N(z)", "column 1: unknown word `N`"),
        ("n z", "column 3: `(` is missing after `n`"),
        ("tuple", "column 6: `(` is missing after `tuple`"),
        ("z()", "column 2: `z` takes no operands"),
        ("n()", "column 3: a tree cannot begin with `)`"),
        ("n(z,z)", "column 1: `n` takes 1 operands, not 2"),
        ("p(h,if(z,z))", "column 5: `if` takes 3 operands, not 2"),
        ("p(z;z)", "column 4: `,` or `)` is missing in `p`"),
        ("p(z,z", "column 6: `,` or `)` is missing in `p`"),
        ("z z", "column 3: trailing text"),
        ("z)", "column 2: trailing text"),
        ("{}", "column 2: a tree cannot begin with `}`"),
        ("{1=z}", "column 5: `;` is missing after a definition"),
        ("{1=z;}", "column 6: a tree cannot begin with `}`"),
        ("{z;z}", "column 3: `}` is missing after a block's result"),
        ("{1;z}", "column 3: `}` is missing after a block's result"),
        ("1=z", "column 2: trailing text"),
        ("Lz", "column 2: an argument's number is missing"),
        ("L7,.z", "column 4: an argument's number is missing"),
        ("L7 8.z", "column 4: `,` or `.` is missing in a lambda"),
        ("L7.", "column 4: a tree is missing"),
        (&many, "column 512: too many arguments"),
        ("k:36", "column 3: a mark is at most 35, not 36"),
        ("p(z,x : 256)", "column 9: a mark is at most 35, not 256"),
        ("k:4294967296", "column 3: number too large: 4294967296"),
        ("k:", "column 3: a mark's number is missing"),
        ("p(k: ,z)", "column 6: a mark's number is missing"),
        ("k:-1", "column 3: a mark's number is missing"),
        ("k:x", "column 3: a mark's number is missing"),
        ("k:1:2", "column 4: trailing text"),
        ("k:1()", "column 4: `k` takes no operands"),
        ("z:1", "column 2: only a constant has a mark"),
        ("h :0", "column 3: only a constant has a mark"),
        ("p(z,n:1(z))", "column 6: only a constant has a mark"),
        ("tuple:1()", "column 6: only a constant has a mark"),
        ("n(4294967296)", "column 3: number too large: 4294967296"),
        (
            "{99999999999=z; z}",
            "column 2: number too large: 99999999999",
        ),
    ];
    for (text, error) in cases {
        assert_eq!(parse(text), Err(error.to_string()), "{text}");
    }
}

#[test]
fn deep_text_is_refused_without_deep_recursion() {
    let nest = |levels: usize| format!("{}z{}", "n(".repeat(levels), ")".repeat(levels));
    let forest = parse(&nest(300)).unwrap();
    assert_eq!(print(&forest), Some(nest(300)));
    assert_eq!(parse(&nest(10_000)).map(|forest| forest.trees.len()), Ok(1));
    let error = "column 20003: nested too deep".to_string();
    assert_eq!(parse(&nest(10_001)), Err(error));
    assert!(parse(&"{1=".repeat(200_000)).is_err());
    assert!(parse(&"L.".repeat(200_000)).is_err());
}

#[test]
fn records_outside_the_notation_print_nothing() {
    let typed = [1, 0, 0, 0, 1, 1, 4];
    let trees = [
        tree(2, 0xA4, 0, &[], vec![]),
        tree(0, 0, 3, &[4, 3], vec![]),
        tree(0, 0, 6, &[4, 2], vec![]),
        // Class and mark of x with k's literal, and what would be k with mark 36.
        tree(0, 0, 251, &[4, 2], vec![]),
        tree(0, 0, 255, &[4, 2], vec![]),
        tree(2, 0xFE, 7, &[], vec![]),
        tree(3, 0xF1, 0, &[], vec![z()]),
        tree(3, 0xF0, 0, &[], vec![]),
        tree(3, 0xF0, 1, &[], vec![z()]),
        tree(17, 0x8C, 0, &[10], vec![z()]),
        tree(7, 0x72, 0, &[1, 0, 0], vec![]),
        tree(7, 0x73, 0, &[1, 0, 0, 0], vec![]),
        tree(12, 0xD9, 1, &typed, vec![z()]),
        tree(12, 0xD9, 2, &typed[..5], vec![z()]),
        tree(12, 0xD9, 1, &[1, 0, 0, 0, 0], vec![]),
        tree(10, 0xD6, 0, &[1, 0, 0, 0, 0], vec![z()]),
        tree(11, 0xD8, 0, &[], vec![]),
        tree(11, 0xD8, 0, &[], vec![z(), z()]),
        tree(
            11,
            0xD8,
            0,
            &[],
            vec![tree(10, 0xD6, 0, &[1, 0, 0, 0, 0], vec![z()])],
        ),
        tree(
            11,
            0xD8,
            0,
            &[],
            vec![tree(10, 0xD6, 0, &typed, vec![z()]), z()],
        ),
        tree(
            11,
            0xD8,
            0,
            &[],
            vec![tree(10, 0xD6, 0, &[], vec![z()]), z()],
        ),
        tree(27, 0x10, 0, &[], vec![]),
    ];
    for tree in trees {
        assert_eq!(print(&one(tree.clone())), None, "{tree:?}");
        let around = Tree {
            record: Record {
                shape: 3,
                opcode: 0xF0,
                aux: 0,
                literal: vec![],
            },
            children: vec![tree],
        };
        assert_eq!(print(&one(around)), None);
    }
    assert_eq!(print(&Forest { trees: vec![] }), None);
}

/// A tree within the notation, at most so deep.
fn random_tree(rng: &mut Rng, depth: usize) -> Tree {
    let leaves = [
        "z",
        "h",
        "k",
        "x",
        "k:1",
        "x:35",
        "0",
        "7",
        "4294967295",
        "tuple()",
    ];
    if depth == 1 || rng.chance(15) {
        return parse(rng.pick(&leaves)).unwrap().trees.remove(0);
    }
    let forms = [
        "n(z)",
        "p(z,z)",
        "and(z,z)",
        "or(z,z)",
        "if(z,z,z)",
        "s0(z)",
        "s9(z)",
        "tuple(z)",
        "tuple(z,z,z)",
        "{z}",
        "{1=z; 70000=z; z}",
        "L.z",
        "L7.z",
        "L1,2,3.z",
    ];
    let mut tree = parse(rng.pick(&forms)).unwrap().trees.remove(0);
    for child in &mut tree.children {
        match child.record.shape {
            10 => child.children[0] = random_tree(rng, depth - 1),
            _ => *child = random_tree(rng, depth - 1),
        }
    }
    tree
}

#[test]
fn random_trees_come_back() {
    let mut rng = Rng::new(1);
    for _ in 0..2_000 {
        let count = rng.range(1, 3);
        let trees = (0..count).map(|_| random_tree(&mut rng, 6)).collect();
        let forest = Forest { trees };
        let text = print(&forest).unwrap();
        assert_eq!(parse(&text).as_ref(), Ok(&forest), "{text}");
        // Spaces may stand anywhere but inside a word or a number.
        let mut loose = String::new();
        for (i, c) in text.chars().enumerate() {
            let inside =
                i > 0 && c.is_alphanumeric() && loose.ends_with(|c: char| c.is_alphanumeric());
            if !inside && rng.chance(30) {
                loose.push(rng.pick(&[' ', '\t', '\n']));
            }
            loose.push(c);
        }
        assert_eq!(parse(&loose), Ok(forest), "{loose}");
    }
}

#[test]
fn generated_forests_within_the_notation_come_back() {
    let mut printed = 0;
    for seed in 0..3_000 {
        let forest = accepted(seed, Kind::Small);
        if let Some(text) = print(&forest) {
            assert_eq!(parse(&text), Ok(forest));
            printed += 1;
        }
    }
    assert!(printed > 100, "{printed}");
}
