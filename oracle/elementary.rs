//! The stand-ins by the numbers that the lists and sweeps call them by.

use crate::standins::StandIn;

/// How any NaN is written, argument or result.
pub const NAN_BITS: u32 = 0x7fc0_0000;

/// A function of one argument's value, answering the result's bits.
pub type Elementary = fn(f32) -> u32;

/// The functions in the order of their numbers.
pub const FUNCTIONS: [Elementary; 15] = [
    |x| bits(x.abs_()),
    |x| bits(x.max_(0.00001)),
    |x| x.cut_() as u32,
    |x| bits(x.powi2_()),
    |x| bits(x.powi4_()),
    |x| bits(x.sin_()),
    |x| bits(x.cos_()),
    |x| bits(x.sin_cos_().0),
    |x| bits(x.sin_cos_().1),
    |x| bits(x.tan_()),
    |x| bits(x.atan_()),
    |x| bits(x.asin_()),
    |x| bits(x.ln_()),
    |x| bits(x.log10_()),
    |x| bits(x.sqrt_()),
];

/// The bits of `x`, the same ones for every NaN.
pub fn bits(x: f32) -> u32 {
    if x.is_nan() {
        NAN_BITS
    } else {
        x.to_bits()
    }
}
