//! Fields of bits in a row of bytes, the most significant bit first.

/// The bit at place `at`.
pub fn bit(bytes: &[u8], at: usize) -> bool {
    bytes[at / 8] >> (7 - at % 8) & 1 == 1
}

/// The field of `width` bits that starts at place `at`.
pub fn field(bytes: &[u8], at: usize, width: usize) -> u32 {
    (at..at + width).fold(0, |value, place| value << 1 | bit(bytes, place) as u32)
}

/// Gives the bit at place `at` a value.
pub fn set(bytes: &mut [u8], at: usize, value: bool) {
    let one = 1 << (7 - at % 8);
    bytes[at / 8] = if value { bytes[at / 8] | one } else { bytes[at / 8] & !one };
}

/// Gives the field of `width` bits that starts at place `at` a value.
pub fn set_field(bytes: &mut [u8], at: usize, width: usize, value: u32) {
    (0..width).for_each(|place| set(bytes, at + place, value >> (width - 1 - place) & 1 == 1));
}

/// The same bytes with the bit at place `at` given a value.
pub fn with(bytes: &[u8], at: usize, value: bool) -> Vec<u8> {
    let mut changed = bytes.to_vec();
    set(&mut changed, at, value);
    changed
}

/// Fields put one after another; bytes start as zeros, so the tail fill is zero.
#[derive(Default)]
pub struct Packer {
    bytes: Vec<u8>,
    count: usize,
}

impl Packer {
    pub fn put(&mut self, value: u32, width: usize) {
        assert!(width == 32 || value >> width == 0, "{value} is wider than {width} bits");
        for shift in (0..width).rev() {
            if self.count.is_multiple_of(8) {
                self.bytes.push(0);
            }
            let last = self.bytes.len() - 1;
            self.bytes[last] |= ((value >> shift & 1) as u8) << (7 - self.count % 8);
            self.count += 1;
        }
    }

    pub fn bytes(self) -> Vec<u8> {
        self.bytes
    }
}
