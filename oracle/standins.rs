//! The elementary functions of document 01, section 1, on `f32`.
//!
//! Every operation rounds once, in the order the document writes it, and
//! nothing here calls a mathematics library, so the bits are the same on
//! every machine. `make-oracle` puts these in the place of the library calls
//! in the upstream text: `.sin()` becomes `.sin_()` and so on.

// The decimals are the document's own; std's constants may differ from them.
#![allow(clippy::approx_constant, clippy::excessive_precision)]

/// Sine and cosine are NaN beyond this magnitude.
const TRIG_LIMIT: f32 = 1_048_576.0;

/// The document's stand-ins, named after the library calls they replace.
pub trait StandIn {
    fn abs_(self) -> f32;
    fn max_(self, least: f32) -> f32;
    fn cut_(self) -> i32;
    fn powi2_(self) -> f32;
    fn powi4_(self) -> f32;
    fn sqrt_(self) -> f32;
    fn sin_(self) -> f32;
    fn cos_(self) -> f32;
    fn sin_cos_(self) -> (f32, f32);
    fn tan_(self) -> f32;
    fn atan_(self) -> f32;
    fn asin_(self) -> f32;
    fn ln_(self) -> f32;
    fn log10_(self) -> f32;
}

impl StandIn for f32 {
    fn abs_(self) -> f32 {
        self.abs()
    }

    /// NaN answers `least`, since no comparison with it holds.
    fn max_(self, least: f32) -> f32 {
        if self > least {
            self
        } else {
            least
        }
    }

    fn cut_(self) -> i32 {
        self as i32
    }

    fn powi2_(self) -> f32 {
        self * self
    }

    fn powi4_(self) -> f32 {
        let square = self * self;
        square * square
    }

    /// `f32::sqrt` is IEEE 754's root, so it is its own stand-in.
    fn sqrt_(self) -> f32 {
        self.sqrt()
    }

    fn sin_(self) -> f32 {
        if !has_sine(self) {
            return f32::NAN;
        }
        match quarter_turns(self) {
            (0, r) => sine_of_rest(r),
            (1, r) => cosine_of_rest(r),
            (2, r) => -sine_of_rest(r),
            (_, r) => -cosine_of_rest(r),
        }
    }

    fn cos_(self) -> f32 {
        if !has_sine(self) {
            return f32::NAN;
        }
        match quarter_turns(self) {
            (0, r) => cosine_of_rest(r),
            (1, r) => -sine_of_rest(r),
            (2, r) => -cosine_of_rest(r),
            (_, r) => sine_of_rest(r),
        }
    }

    fn sin_cos_(self) -> (f32, f32) {
        if !has_sine(self) {
            return (f32::NAN, f32::NAN);
        }
        let (quadrant, r) = quarter_turns(self);
        let (s, c) = (sine_of_rest(r), cosine_of_rest(r));
        match quadrant {
            0 => (s, c),
            1 => (c, -s),
            2 => (-s, -c),
            _ => (-c, s),
        }
    }

    fn tan_(self) -> f32 {
        let (s, c) = self.sin_cos_();
        s / c
    }

    /// The sign is the argument's sign bit: the arctangent of -0 is -0.
    fn atan_(self) -> f32 {
        let v = atan_of_magnitude(self.abs());
        if self.is_sign_negative() {
            -v
        } else {
            v
        }
    }

    fn asin_(self) -> f32 {
        if self.abs() > 1.0 {
            return f32::NAN;
        }
        (self / (1.0 - self * self).sqrt()).atan_()
    }

    fn ln_(self) -> f32 {
        if self.is_nan() || self < 0.0 {
            f32::NAN
        } else if self == 0.0 {
            f32::NEG_INFINITY
        } else if self == f32::INFINITY {
            f32::INFINITY
        } else {
            ln_of_positive(self)
        }
    }

    fn log10_(self) -> f32 {
        self.ln_() * 0.4342945
    }
}

/// False for NaN and the infinities too.
fn has_sine(x: f32) -> bool {
    x.abs() <= TRIG_LIMIT
}

/// Takes the nearest whole number of quarter turns off `x`: the quadrant,
/// 0 to 3, and the rest.
fn quarter_turns(x: f32) -> (i32, f32) {
    let half = if x < 0.0 { -0.5 } else { 0.5 };
    let turns = (x * 0.63661975 + half) as i32;
    let n = turns as f32;
    // A quarter turn in three pieces, the largest off first.
    let r = x - n * 1.5703125 - n * 0.00048351288 - n * 3.138557e-7;
    (turns.rem_euclid(4), r)
}

fn sine_of_rest(r: f32) -> f32 {
    let z = r * r;
    r + r * z * (-1.6666654611e-1 + z * (8.3321608736e-3 + z * -1.9515295891e-4))
}

fn cosine_of_rest(r: f32) -> f32 {
    let z = r * r;
    1.0 - z / 2.0 + z * z * (4.1666645683e-2 + z * (-1.3887316255e-3 + z * 2.4433157118e-5))
}

/// The arctangent of `a`, not negative. A NaN falls through to the last range
/// and stays one.
fn atan_of_magnitude(a: f32) -> f32 {
    let (base, w) = if a > 2.4142135 {
        (1.5707964, -1.0 / a)
    } else if a > 0.41421357 {
        (0.7853982, (a - 1.0) / (a + 1.0))
    } else {
        (0.0, a)
    };
    let z = w * w;
    let series =
        ((8.05374449538e-2 * z - 1.38776856032e-1) * z + 1.99777106478e-1) * z - 3.33329491539e-1;
    base + (series * z * w + w)
}

fn ln_of_positive(y: f32) -> f32 {
    let (m, e) = mantissa_exponent(y);
    let t = (m - 1.0) / (m + 1.0);
    let w = t * t;
    let series = 1.0 + w * (1.0 / 3.0 + w * (1.0 / 5.0 + w * (1.0 / 7.0 + w * (1.0 / 9.0))));
    e as f32 * 0.6931472 + 2.0 * t * series
}

/// `m` and `e` with `y = m * 2^e` exactly and `0.70710677 <= m < 1.4142135`,
/// for a finite `y` above 0.
fn mantissa_exponent(y: f32) -> (f32, i32) {
    // A subnormal is made normal first; a power of two loses no bit.
    let (normal, lift) = if y < f32::MIN_POSITIVE {
        (y * 16_777_216.0, 24)
    } else {
        (y, 0)
    };
    let bits = normal.to_bits();
    let e = (bits >> 23) as i32 - 127 - lift;
    let m = f32::from_bits(bits & 0x007f_ffff | 0x3f80_0000);
    // Here 1 <= m < 2, and half of 1.4142135 is 0.70710677 as f32.
    if m < 1.4142135 {
        (m, e)
    } else {
        (m * 0.5, e + 1)
    }
}
