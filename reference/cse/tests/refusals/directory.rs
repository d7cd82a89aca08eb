//! 2 and 3: the header and the directory.

use crate::*;

#[test]
fn two_length() {
    for length in 0..4 {
        refuses(&vec![1; length], 2, 0);
    }
    let unparsed = |length| alone(node(1, 0x00, 0, &vec![0; length], vec![])).to_bytes();
    assert_eq!(unparsed(65_522).len(), 65_535);
    accepts(&unparsed(65_522));
    refuses(&unparsed(65_523), 2, 0);
}

#[test]
fn two_counts() {
    let with = |at: usize, value: u16| {
        let mut bytes = alone(h()).to_bytes();
        bytes[at..at + 2].copy_from_slice(&value.to_le_bytes());
        bytes
    };
    for (at, value) in [(0, 0), (0, 17), (0, 256), (2, 0), (2, 257), (2, 65_535)] {
        refuses(&with(at, value), 2, 0);
    }
    let trees = |count| Forest {
        trees: vec![h(); count],
    };
    accepts(&trees(16).to_bytes());
    refuses(&trees(17).to_bytes(), 2, 0);
    accepts(&alone(tuple(vec![z(); 255])).to_bytes());
    refuses(&alone(tuple(vec![z(); 256])).to_bytes(), 2, 0);
    // The counts are looked at before the directory.
    refuses(&[0, 0, 1, 0], 2, 0);
    refuses(&[1, 0, 1, 0], 3, 0);
}

/// `p(z,z)` with one number of the directory changed.
fn with_pair(index: usize, offset: i32, length: i32) -> Vec<u8> {
    let mut bytes = alone(p(z(), z())).to_bytes();
    for (at, change) in [(4 + 4 * index, offset), (6 + 4 * index, length)] {
        let old = u16::from_le_bytes([bytes[at], bytes[at + 1]]);
        let new = (i32::from(old) + change) as u16;
        bytes[at..at + 2].copy_from_slice(&new.to_le_bytes());
    }
    bytes
}

#[test]
fn three_each_pair_by_its_own_rule() {
    accepts(&with_pair(0, 0, 0));
    for index in 0..3 {
        refuses(&with_pair(index, 1, 0), 3, index as u32);
        refuses(&with_pair(index, -1, 0), 3, index as u32);
        // A length under 5.
        refuses(&with_pair(index, 0, -1), 3, index as u32);
    }
    // A pair that is too long moves the next one out of place; the last misses the end.
    refuses(&with_pair(0, 0, 1), 3, 1);
    refuses(&with_pair(1, 0, 1), 3, 2);
    refuses(&with_pair(1, 0, 60_000), 3, 2);
    refuses(&with_pair(2, 0, 1), 3, 2);
}

#[test]
fn three_a_middle_pair_past_the_end_has_no_fault_of_its_own() {
    // Pair 0 runs far past the end and pair 1 follows it: the last pair misses the end.
    let mut bytes = alone(n(z())).to_bytes();
    bytes[6..8].copy_from_slice(&1_000u16.to_le_bytes());
    bytes[8..10].copy_from_slice(&1_012u16.to_le_bytes());
    refuses(&bytes, 3, 1);
    // The next offset would not fit 16 bits.
    bytes[6..8].copy_from_slice(&65_535u16.to_le_bytes());
    refuses(&bytes, 3, 1);
}

#[test]
fn three_the_directory_must_fit() {
    let bytes = alone(p(z(), z())).to_bytes();
    refuses(&bytes[..15], 3, 0);
    // Now it fits, and the last pair misses the end.
    refuses(&bytes[..16], 3, 2);
    refuses(&bytes[..bytes.len() - 1], 3, 2);
    refuses(&[bytes.clone(), vec![0]].concat(), 3, 2);
}
