//! Refusals 2 and 3: the length, the header and the directory.

use super::{base, put16, Fault, File, MAX_BYTES};
use crate::forest::Forest;
use crate::generate::records::{constant, plain, unparsed, TUPLE};
use crate::generate::Rng;

/// Refusal 2. Its place is always 0.
pub(super) fn header(rng: &mut Rng) -> Option<Fault> {
    let mut bytes = File::of(&base(rng)).bytes();
    let way = match rng.below(8) {
        0 => {
            bytes.clear();
            "no bytes"
        }
        1 => {
            bytes.truncate(rng.range(1, 3));
            "under 4 bytes"
        }
        2 => {
            bytes = long_forest(rng, MAX_BYTES + 1);
            "one byte too long"
        }
        3 => {
            let extra = rng.range(MAX_BYTES + 1, MAX_BYTES + 2_000) - bytes.len();
            bytes.extend(rng.bytes(extra));
            "too long"
        }
        4 => {
            let count = rng.range(18, 65_535);
            let trees = rng.pick(&[0, 17, 0x0100, 0x1000, 0xFFFF, count]);
            patch16(&mut bytes, 0, trees);
            "tree count"
        }
        5 => {
            let count = rng.range(258, 65_535);
            let records = rng.pick(&[0, 257, 0x0200, 0xFF00, 0xFFFF, count]);
            patch16(&mut bytes, 2, records);
            "record count"
        }
        6 => {
            let children = (0..256).map(|i| constant(6, vec![i as u8])).collect();
            let root = plain(TUPLE, children);
            bytes = File::of(&Forest { trees: vec![root] }).bytes();
            "257 records that are all there"
        }
        _ => {
            bytes.truncate(4);
            let (trees, records) = rng.pick(&[(0, 1), (17, 1), (1, 0), (1, 257), (0, 0)]);
            patch16(&mut bytes, 0, trees);
            patch16(&mut bytes, 2, records);
            "header alone"
        }
    };
    let place = 0;
    Some(Fault { bytes, place, way })
}

/// A forest with a right directory and so many bytes.
fn long_forest(rng: &mut Rng, length: usize) -> Vec<u8> {
    let filler = length - 4 - 2 * 9;
    let root = plain(TUPLE, vec![unparsed(rng.bytes(filler))]);
    File::of(&Forest { trees: vec![root] }).bytes()
}

/// A directory as it lies in the file.
struct Directory {
    pairs: Vec<(usize, usize)>,
    /// The bytes of the whole forest.
    end: usize,
}

/// Refusal 3.
pub(super) fn directory(rng: &mut Rng) -> Option<Fault> {
    let mut bytes = File::of(&base(rng)).bytes();
    let mut directory = read(&bytes);
    let count = directory.pairs.len();
    let (last, at) = (count - 1, rng.below(count));
    // Whatever the records say, the directory is looked at first.
    if rng.chance(20) {
        for byte in &mut bytes[4 + 4 * count..] {
            *byte = rng.byte();
        }
    }
    let choice = rng.below(13);
    let (place, way) = match choice {
        0 => {
            let most = rng.pick(&[1, 4 * count]);
            bytes.truncate(4 + 4 * count - rng.range(1, most));
            return Some(Fault {
                bytes,
                place: 0,
                way: "directory cut",
            });
        }
        1 => {
            let more = (bytes.len() - 4) / 4 + 1;
            if more > 256 {
                return None;
            }
            let records = rng.range(more, 256);
            patch16(&mut bytes, 2, records);
            return Some(Fault {
                bytes,
                place: 0,
                way: "record count too large for the bytes",
            });
        }
        2 => {
            // The first offset then is four bytes off, or the directory does not fit.
            let records = match rng.chance(50) {
                true => count + 1,
                false => count - 1,
            };
            if !(1..=256).contains(&records) {
                return None;
            }
            patch16(&mut bytes, 2, records);
            return Some(Fault {
                bytes,
                place: 0,
                way: "record count off by one",
            });
        }
        3 => {
            let other = rng.range(1, 65_535);
            directory.pairs[at].0 ^= rng.pick(&[1, 4, 0x0100, 0x8000, other]);
            (at, "offset")
        }
        4 => {
            directory.pairs[at].1 = rng.below(5);
            (at, "length under 5")
        }
        5 => {
            let length = directory.pairs[at].1;
            directory.shift(at, rng.below(5), length);
            (at, "length under 5, the next pairs right")
        }
        6 => {
            let length = rng.range(5, 300);
            if length == directory.pairs[at].1 {
                return None;
            }
            directory.pairs[at].1 = length;
            // The next offset is wrong then, or the end.
            ((at + 1).min(last), "length")
        }
        7 => {
            let extra = rng.pick(&[1, 1, 4, 5, 100]);
            if bytes.len() + extra > MAX_BYTES {
                return None;
            }
            bytes.extend(rng.bytes(extra));
            (last, "bytes after the last record")
        }
        8 => {
            let body = bytes.len() - (4 + 4 * count);
            let cut = match rng.below(3) {
                0 => 1,
                1 => body,
                _ => rng.range(1, body),
            };
            bytes.truncate(bytes.len() - cut);
            (last, "bytes cut from the end")
        }
        9 => {
            // All later pairs follow on from one that runs past the end.
            let (offset, length) = directory.pairs[at];
            let later: usize = directory.pairs[at + 1..].iter().map(|pair| pair.1).sum();
            let (least, most) = (directory.end + 1 - offset, MAX_BYTES - offset - later);
            if at == last || least > most {
                return None;
            }
            directory.shift(at, rng.range(least, most), length);
            (last, "a pair past the end")
        }
        10 => {
            // Sixteen bits cannot hold the next offset: what they hold is not the sum.
            if at == last {
                return None;
            }
            let (offset, length) = directory.pairs[at];
            directory.shift(at, rng.range(MAX_BYTES + 1 - offset, MAX_BYTES), length);
            (at + 1, "offset over 65,535")
        }
        11 => {
            // The last pair's end is 65,536 more than the forest's.
            if count == 1 {
                return None;
            }
            let far = rng.range(directory.end + 1, MAX_BYTES);
            directory.pairs[last - 1].1 = far - directory.pairs[last - 1].0;
            directory.pairs[last] = (far, MAX_BYTES + 1 + directory.end - far);
            (last, "end over 65,535")
        }
        _ => {
            let other = rng.below(count);
            if other == at {
                return None;
            }
            directory.pairs.swap(at, other);
            (at.min(other), "pairs out of order")
        }
    };
    directory.write(&mut bytes);
    Some(Fault { bytes, place, way })
}

fn read(bytes: &[u8]) -> Directory {
    let word = |at: usize| usize::from(u16::from_le_bytes([bytes[at], bytes[at + 1]]));
    Directory {
        pairs: (0..word(2))
            .map(|i| (word(4 + 4 * i), word(6 + 4 * i)))
            .collect(),
        end: bytes.len(),
    }
}

impl Directory {
    /// Gives a pair another length in place of its own, and moves all later pairs by the difference.
    fn shift(&mut self, at: usize, length: usize, own: usize) {
        self.pairs[at].1 = length;
        for pair in &mut self.pairs[at + 1..] {
            pair.0 = pair.0 + length - own;
        }
    }

    fn write(&self, bytes: &mut [u8]) {
        for (i, pair) in self.pairs.iter().enumerate() {
            patch16(bytes, 4 + 4 * i, pair.0);
            patch16(bytes, 6 + 4 * i, pair.1);
        }
    }
}

fn patch16(bytes: &mut [u8], at: usize, number: usize) {
    let mut word = Vec::new();
    put16(&mut word, number);
    bytes[at..at + 2].copy_from_slice(&word);
}
