//! The byte writer behind the keys of the pass.

/// Collects bytes; integers are variable-length quantities, as in the crate this stands for.
#[derive(Default)]
pub struct VlqWriter {
    bytes: Vec<u8>,
}

impl VlqWriter {
    pub fn new() -> Self {
        Self::default()
    }

    pub fn put_u8(&mut self, value: u8) {
        self.bytes.push(value);
    }

    /// Seven bits a byte, the lowest first; the high bit says that more follow.
    pub fn put_u32(&mut self, value: u32) {
        let mut rest = value;
        while rest >= 0x80 {
            self.bytes.push(rest as u8 | 0x80);
            rest >>= 7;
        }
        self.bytes.push(rest as u8);
    }

    pub fn put_bytes(&mut self, bytes: &[u8]) {
        self.bytes.extend_from_slice(bytes);
    }

    pub fn result(self) -> Vec<u8> {
        self.bytes
    }
}

#[cfg(test)]
mod tests {
    use super::VlqWriter;

    #[test]
    fn integers_take_seven_bits_a_byte() {
        let mut writer = VlqWriter::new();
        for value in [0, 0x7f, 0x80, 300, u32::MAX] {
            writer.put_u32(value);
        }
        writer.put_u8(9);
        writer.put_bytes(&[1, 2]);
        let expected = [
            0, 0x7f, 0x80, 1, 0xac, 2, 0xff, 0xff, 0xff, 0xff, 0x0f, 9, 1, 2,
        ];
        assert_eq!(writer.result(), expected);
    }
}
