//! The list `integrals`: upstream's `cisi` within document 01's limits, and
//! arguments outside them.

use crate::elementary::bits;
use crate::ioncap::cisi;
use crate::splitmix::SplitMix64;
use std::io::{self, Write};

const SEED: u64 = 0x1983_0115;

/// Document 01's limit on the argument, and its refusal beyond.
const LIMIT: f32 = 1_048_576.0;
const OUTSIDE: u32 = 6;

/// Random arguments of each kind.
const RANDOM: usize = 500;

pub fn write(out: &mut impl Write) -> io::Result<()> {
    for x in arguments() {
        let (number, (ci, si)) = answer(x);
        writeln!(
            out,
            "{number:02} {:08x} {:08x} {:08x}",
            bits(x),
            bits(ci),
            bits(si)
        )?;
    }
    out.flush()
}

/// The refusal, 0 if accepted, and the integrals, zeros if refused.
fn answer(x: f32) -> (u32, (f32, f32)) {
    if (0.0..=LIMIT).contains(&x) {
        (0, cisi(x))
    } else {
        (OUTSIDE, (0.0, 0.0))
    }
}

fn arguments() -> Vec<f32> {
    let mut random = SplitMix64::new(SEED);
    let mut list = edges();
    for _ in 0..RANDOM {
        list.push(random.between(0.0, 1.0));
        list.push(random.between(1.0, 60.0));
        list.push(random.between(1.0, 25_133.0));
        list.push(f32::from_bits(random.next_u32()));
    }
    list
}

fn edges() -> Vec<f32> {
    let places = [
        0x0000_0001, // least subnormal
        0x0080_0000, // smallest normal
        0x3dc5_bb74, // the sine integral's series makes 2 turns from here
        0x3e86_c417, // the cosine integral's, 2
        0x3efd_eb1f, // the sine integral's, 3
        0x3f46_4bf8, // the cosine integral's, 3
        0x3f80_0000, // 1, where the rational form begins
        0x4695_50d3, // from here the answer is (0 or -0, 1.5708)
        0x4780_0000, // 65,536, from where it is NaN
        0x4980_0000, // the limit
        0x7f7f_ffff, // largest finite
    ];
    let mut list = vec![0.0, -0.0, f32::NAN, f32::NEG_INFINITY, -0.5, -1.0, -LIMIT];
    for place in places {
        list.extend([place - 1, place, place + 1].map(f32::from_bits));
    }
    list.push(-f32::from_bits(1));
    list
}
