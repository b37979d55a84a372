//! Monopole and log-periodic (types 2 and 5) and inverted L (type 8) above
//! the ground: calls for the list `gains`.

use crate::gain_calls::{
    around, length, number, station, within_limits, Call, DEGREE, EDGES, PIO2,
};
use crate::splitmix::SplitMix64;
use std::f32::consts::TAU;

const SEED: u64 = 0x1983_0115;

/// Random calls of each kind for each type.
const STATIONS: usize = 280;
const WITHIN_LIMITS: usize = 100;

pub fn calls() -> Vec<Call> {
    let mut random = SplitMix64::new(SEED);
    let mut list = Vec::new();
    for kop in [2, 5, 8] {
        list.extend((0..STATIONS).map(|_| vertical(&mut random, kop)));
        list.extend((0..WITHIN_LIMITS).map(|_| within_limits(&mut random, kop)));
        list.extend(edges(&mut random, kop));
        list.extend(lengths(&mut random, kop));
        list.extend(directions(&mut random, kop));
    }
    list.extend(short_masts(&mut random));
    list
}

/// Legs and heights down to those shorter than 0.2 wavelengths. The height is
/// type 2's gain, the first extra type 5's.
fn vertical(random: &mut SplitMix64, kop: i32) -> Call {
    let mut call = station(random, kop);
    call.p.anl = length(random, 60.0, 0.7);
    call.p.anh = match kop {
        2 => random.between(-5.0, 35.0),
        _ => length(random, 60.0, 0.7),
    };
    call.p.aex[0] = random.between(-5.0, 35.0);
    call
}

/// Azimuth, dielectric constant, leg, height and first extra at each edge.
fn edges(random: &mut SplitMix64, kop: i32) -> Vec<Call> {
    let mut list = Vec::new();
    for edge in EDGES {
        for place in [0, 2, 4, 5, 6] {
            let mut call = vertical(random, kop);
            *number(&mut call, place) = edge;
            list.push(call);
        }
    }
    list
}

/// 0.2 wavelengths, below which another resistance and another efficiency
/// hold, 0.35, and where the integrals take their rational form.
fn lengths(random: &mut SplitMix64, kop: i32) -> Vec<Call> {
    let mut list = Vec::new();
    let quarter = 1.0 / (4.0 * TAU);
    for size in [0.2, 0.35, quarter, 2.0 * quarter, 0.199_999_2, 0.200_002] {
        for v in around(-size) {
            let mut call = vertical(random, kop);
            call.p.anl = v;
            list.push(call);
            call.p.anh = v;
            list.push(call);
        }
    }
    list
}

/// Straight up, where types 2 and 5 have `denom` = 0 and type 8 without a leg
/// has a = 0; along the leg, where type 8 has `sphip` = 0.
fn directions(random: &mut SplitMix64, kop: i32) -> Vec<Call> {
    let mut list = Vec::new();
    for delta in [PIO2, 90.0 * DEGREE, 1.0e-4, 1.0e-20, 3.0, 4.0, 1_000.0] {
        for leg in [0.0, -0.0, -0.25, -0.5, -1.0, 30.0] {
            let mut call = vertical(random, kop);
            call.toaz = if call.p.aeps < 40.0 { 90.0 } else { call.toaz };
            call.p.anl = leg;
            list.push(Call { delta, ..call });
        }
    }
    list
}

/// Type 8's height 0, efficiency minus infinity, and its heights of radiation
/// resistance 0, gain infinity: metres and MHz.
fn short_masts(random: &mut SplitMix64) -> Vec<Call> {
    let mut list = Vec::new();
    for (height, fmc) in [
        (0.0, 7.0),
        (-0.0, 7.0),
        (0.0003, 1.0),
        (0.0005, 1.0),
        (0.0021, 1.0),
        (0.0022, 1.0),
        (0.0011, 2.0),
        (0.0001, 3.0),
        (0.0001, 5.0),
        (0.0001, 21.0),
        (0.0001, 22.0),
        (0.0007, 3.0),
        (0.0003, 7.0),
        (0.0002, 11.0),
    ] {
        for _ in 0..2 {
            let mut call = vertical(random, 8);
            call.p.anh = height;
            list.push(Call { fmc, ..call });
        }
    }
    list
}
