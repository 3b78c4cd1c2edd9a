//! CRC-64/XZ, eight bytes at a time, and of whole blocks four such beside each other. It finds any damage that lies within 64 bits in a row, so any single bit.

/// The ECMA-182 polynomial, lowest power in the highest bit.
const POLYNOMIAL: u64 = 0xc96c_5795_d787_0f42;

/// Row k gives what a byte does to the checksum when k more bytes follow it.
const TABLES: [[u64; 256]; 8] = tables();
/// The same for the eight bytes of a number, of which the lowest has the most after it.
static BACKWARDS: [[u64; 256]; 8] = {
    let [a, b, c, d, e, f, g, h] = TABLES;
    [h, g, f, e, d, c, b, a]
};

const fn tables() -> [[u64; 256]; 8] {
    let mut tables = [[0; 256]; 8];
    let mut byte = 0;
    while byte < 256 {
        tables[0][byte] = after_a_byte(byte as u64);
        byte += 1;
    }
    let mut row = 1;
    while row < 8 {
        let mut byte = 0;
        while byte < 256 {
            let before = tables[row - 1][byte];
            tables[row][byte] = (before >> 8) ^ tables[0][(before & 0xff) as usize];
            byte += 1;
        }
        row += 1;
    }
    tables
}

/// The rest of a division by the polynomial, a bit at a time over one byte.
const fn after_a_byte(mut rest: u64) -> u64 {
    let mut bit = 0;
    while bit < 8 {
        rest = (rest >> 1) ^ (POLYNOMIAL * (rest & 1));
        bit += 1;
    }
    rest
}

/// A block is taken in four lanes beside each other: a lane waits for its own last step alone.
const LANES: usize = 4;
const LANE: usize = 1_024;
const BLOCK: usize = LANES * LANE;

/// Row k gives what a byte, the k-th of a checksum from its lowest on, becomes when a lane of zeros follows.
static PAST_A_LANE: [[u64; 256]; 8] = past_a_lane();

const fn past_a_lane() -> [[u64; 256]; 8] {
    let mut tables = [[0; 256]; 8];
    let mut bit = 0;
    while bit < 64 {
        let moved = past_zeros(1 << bit, LANE);
        // all bytes that have this bit as their highest: the others with it
        let (row, highest) = (bit / 8, 1 << (bit % 8));
        let mut lower = 0;
        while lower < highest {
            tables[row][highest + lower] = tables[row][lower] ^ moved;
            lower += 1;
        }
        bit += 1;
    }
    tables
}

const fn past_zeros(mut rest: u64, mut bytes: usize) -> u64 {
    while bytes > 0 {
        rest = (rest >> 8) ^ TABLES[0][(rest & 0xff) as usize];
        bytes -= 1;
    }
    rest
}

/// What eight rows give for the eight bytes of a number, together.
#[inline]
fn looked_up(tables: &[[u64; 256]; 8], number: u64) -> u64 {
    let bytes = number.to_le_bytes();
    let rows = tables.iter().zip(bytes);
    rows.fold(0, |sum, (row, byte)| sum ^ row[byte as usize])
}

/// A checksum's rest after eight more bytes.
#[inline]
fn after_eight(rest: u64, bytes: &[u8]) -> u64 {
    let mut eight = [0; 8];
    eight.copy_from_slice(bytes);
    looked_up(&BACKWARDS, rest ^ u64::from_le_bytes(eight))
}

/// A checksum's rest after a block.
fn after_block(rest: u64, block: &[u8]) -> u64 {
    let mut rests = [rest, 0, 0, 0];
    for at in (0..LANE).step_by(8) {
        for (lane, rest) in rests.iter_mut().enumerate() {
            *rest = after_eight(*rest, &block[lane * LANE + at..][..8]);
        }
    }
    let joined = rests
        .into_iter()
        .reduce(|a, b| looked_up(&PAST_A_LANE, a) ^ b);
    joined.unwrap_or(rest)
}

/// A checksum of the bytes added so far, in whatever pieces they came.
pub struct Checksum(u64);

impl Checksum {
    pub fn new() -> Checksum {
        Checksum(!0)
    }

    pub fn add(&mut self, bytes: &[u8]) {
        let mut blocks = bytes.chunks_exact(BLOCK);
        self.0 = (&mut blocks).fold(self.0, after_block);
        let mut eights = blocks.remainder().chunks_exact(8);
        self.0 = (&mut eights).fold(self.0, after_eight);
        for byte in eights.remainder() {
            self.0 = (self.0 >> 8) ^ BACKWARDS[7][(self.0 as u8 ^ byte) as usize];
        }
    }

    pub fn value(&self) -> u64 {
        !self.0
    }
}

#[cfg(test)]
mod tests {
    use super::*;

    fn of(bytes: &[u8]) -> u64 {
        let mut sum = Checksum::new();
        sum.add(bytes);
        sum.value()
    }

    #[test]
    fn the_published_check_value() {
        assert_eq!(of(b"123456789"), 0x995d_c9bb_df19_39fa);
        assert_eq!(of(b""), 0);
    }

    /// A bit at a time, by the definition.
    #[test]
    fn blocks_and_bytes_are_taken_alike() {
        let bytes: Vec<u8> = (0..3 * BLOCK as u64 + 77)
            .map(|i| (i * i / 7) as u8)
            .collect();
        let mut rest = !0;
        for (at, byte) in bytes.iter().enumerate() {
            assert!(at % 997 != 0 || of(&bytes[..at]) == !rest, "{at} bytes");
            rest = (rest >> 8) ^ after_a_byte((rest ^ u64::from(*byte)) & 0xff);
        }
        assert_eq!(of(&bytes), !rest);
    }

    #[test]
    fn pieces_make_no_difference() {
        let bytes: Vec<u8> = (0..200u64).map(|i| (i * i) as u8).collect();
        for cut in 0..=bytes.len() {
            let mut sum = Checksum::new();
            sum.add(&bytes[..cut]);
            sum.add(&bytes[cut..]);
            assert_eq!(sum.value(), of(&bytes), "cut at {cut}");
        }
    }

    #[test]
    fn every_flipped_bit_and_every_pair_of_them_shows() {
        let bytes = [0x5a; 24];
        let mut seen = std::collections::HashSet::from([of(&bytes)]);
        for first in 0..8 * bytes.len() {
            for second in first..8 * bytes.len() {
                let mut damaged = bytes;
                damaged[first / 8] ^= 1 << (first % 8);
                if second > first {
                    damaged[second / 8] ^= 1 << (second % 8);
                }
                assert!(seen.insert(of(&damaged)), "bits {first} and {second}");
            }
        }
    }
}
