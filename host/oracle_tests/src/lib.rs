//! What the three entries' tests share: an answer between guard bytes, and the
//! numbers they are called with.

use ioncap::ffi::ANSWER_LENGTH;
use oracle::elementary::bits;
use oracle::splitmix::SplitMix64;
use std::env;

pub const SEED: u64 = 0x1983_0115;

/// Calls of each entry: the variable IONCAP_CALLS.
pub fn calls() -> usize {
    match env::var("IONCAP_CALLS") {
        Ok(text) => text.parse().expect("IONCAP_CALLS is a whole number"),
        Err(_) => 1_000_000,
    }
}

/// Lengths of an answer that are refused by 7.
pub const WRONG_LENGTHS: [usize; 6] = [0, 1, 5, 11, 13, 24];

/// The right length seven times of eight.
pub fn answer_length(random: &mut SplitMix64) -> usize {
    match random.next_u32() as usize % 48 {
        n if n < WRONG_LENGTHS.len() => WRONG_LENGTHS[n],
        _ => ANSWER_LENGTH,
    }
}

const GUARD: usize = 16;
const LONGEST: usize = 24;

/// An answer between bytes that must stay.
pub struct Guarded {
    bytes: [u8; GUARD + LONGEST + GUARD],
    before: [u8; GUARD + LONGEST + GUARD],
    length: usize,
}

impl Guarded {
    pub fn new(random: &mut SplitMix64, length: usize) -> Self {
        let bytes = [(); GUARD + LONGEST + GUARD].map(|_| random.next_u32() as u8);
        Guarded {
            bytes,
            before: bytes,
            length,
        }
    }

    pub fn answer(&mut self) -> &mut [u8] {
        &mut self.bytes[GUARD..GUARD + self.length]
    }

    /// An answer of 12 bytes holds these numbers, NaN as 7fc00000; nothing
    /// else has changed.
    pub fn check(&self, numbers: [f32; 3]) -> Result<(), String> {
        let mut expected = self.before;
        if self.length == ANSWER_LENGTH {
            for (n, x) in numbers.into_iter().enumerate() {
                let at = GUARD + 4 * n;
                expected[at..at + 4].copy_from_slice(&bits(x).to_le_bytes());
            }
        }
        if self.bytes == expected {
            return Ok(());
        }
        Err(format!("bytes {:02x?}, not {expected:02x?}", self.bytes))
    }
}

/// Any bit pattern, a number around the limits, or one of moderate size.
pub fn any_number(random: &mut SplitMix64) -> f32 {
    match random.next_u32() % 8 {
        0 => f32::from_bits(random.next_u32()),
        1 => nan(random),
        2 => ENDS[random.next_u32() as usize % ENDS.len()],
        3 | 4 => random.between(-1_100.0, 1_100.0),
        _ => random.between(-40.0, 40.0),
    }
}

/// A NaN of either sign and any payload, quiet or signalling.
pub fn nan(random: &mut SplitMix64) -> f32 {
    let payload = random.next_u32() % 0x7f_ffff + 1;
    f32::from_bits(random.next_u32() % 2 << 31 | 0x7f80_0000 | payload)
}

/// Ends of what is taken, zeros, infinities.
pub const ENDS: [f32; 14] = [
    1_000.0,
    1_000.000_06,
    -1_000.0,
    -1_000.000_06,
    1.0,
    0.999_999_94,
    30.0,
    30.000_002,
    0.0,
    -0.0,
    1.0e-45,
    f32::INFINITY,
    f32::NEG_INFINITY,
    f32::MAX,
];

/// Document 01's refusal 2.
pub fn outside(x: f32) -> bool {
    !x.is_finite() || x.abs() > 1_000.0
}
