//! Types 3 and 4: calls for the list `gains`.

// The decimals are upstream's own.
#![allow(clippy::approx_constant, clippy::excessive_precision)]

use crate::gain_calls::{in_waves, one_of, station, within_limits, Call};
use crate::splitmix::SplitMix64;

const SEED: u64 = 0x1983_0115;

/// Random calls for each type, as a station may make them and of any numbers.
const STATIONS: usize = 260;
const ANY: usize = 40;

pub fn calls() -> Vec<Call> {
    let mut random = SplitMix64::new(SEED);
    let mut list = Vec::new();
    for kop in [3, 4] {
        list.extend((0..STATIONS).map(|_| antenna(&mut random, kop)));
        list.extend((0..ANY).map(|_| within_limits(&mut random, kop)));
        list.extend(at_edges(&mut random, kop));
        list.extend(along_the_wire(&mut random, kop));
    }
    list
}

/// Legs and heights in metres or in wavelengths, with dB added or not.
fn antenna(random: &mut SplitMix64, kop: i32) -> Call {
    let mut call = station(random, kop);
    call.p.anl = in_waves(random, 0.02, 2.0, call.fmc);
    call.p.anh = in_waves(random, 0.0, 1.5, call.fmc);
    call.p.aex[0] = one_of(random, &[0.0, 0.0, -0.0, 3.5, 40.0, -20.0]);
    call
}

/// Each leg as it is, with 100 dB added (a power that is no number is -50 dB,
/// which then stays off the floor), straight up, on the ground and below it.
fn at_edges(random: &mut SplitMix64, kop: i32) -> Vec<Call> {
    let mut list = Vec::new();
    for anl in legs() {
        let mut call = antenna(random, kop);
        call.p.anl = anl;
        let mut higher = call;
        higher.p.aex[0] = 100.0;
        let mut straight_up = call;
        (straight_up.toaz, straight_up.delta) = (0.0, 1.570796);
        list.extend([call, higher, straight_up]);
        list.extend([0.0, -0.0, -0.7].map(|delta| Call { delta, ..call }));
    }
    list
}

/// Legs at zeros, where the resistance is exactly 0, where an integral goes
/// from its series to its rational form, and short and long ones.
fn legs() -> Vec<f32> {
    let no_resistance = [0xbd62_991a, 0xbd62_9bbd, 0xbd62_9c43, 0xbd62_9d16];
    let mut list = vec![0.0, -0.0, 1.0e-45, -1.0e-45];
    list.extend(no_resistance.map(f32::from_bits));
    // fac * 4 and fac * 2 are 1 near these.
    for leg in [-0.079_577_29f32, -0.159_154_57] {
        list.extend([leg.next_down(), leg, leg.next_up()]);
    }
    list.extend([-1.0e-30, -1.0e-6, -0.001, -0.01, 0.05, 0.3, 1.5]);
    list.extend([-0.25, -0.5, -1.0, -2.0, -10.0, -999.5, -1_000.0, 1_000.0]);
    list
}

/// Here xb1 is 0.
fn along_the_wire(random: &mut SplitMix64, kop: i32) -> Vec<Call> {
    let mut list = Vec::new();
    for toaz in [90.0, -90.0, 270.0] {
        let mut call = antenna(random, kop);
        (call.toaz, call.delta) = (toaz, 0.0001);
        list.push(call);
    }
    list
}
