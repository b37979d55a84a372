//! Types 7 and 9 above the ground: calls for the list `gains`.

use crate::gain_calls::{in_waves, station, within_limits, Call};
use crate::splitmix::SplitMix64;

const SEED: u64 = 0x1983_0115;

/// Random calls for each type, as a station may make them and of any numbers.
const STATIONS: usize = 320;
const ANY: usize = 40;

pub fn calls() -> Vec<Call> {
    let mut random = SplitMix64::new(SEED);
    let mut list = Vec::new();
    for kop in [7, 9] {
        list.extend((0..STATIONS).map(|_| antenna(&mut random, kop)));
        list.extend((0..ANY).map(|_| within_limits(&mut random, kop)));
        list.extend(at_edges(&mut random, kop));
        list.push(half_turn(&mut random, kop));
    }
    list
}

/// Legs and heights in metres or in wavelengths.
fn antenna(random: &mut SplitMix64, kop: i32) -> Call {
    let mut call = station(random, kop);
    call.p.and = random.between(5.0, 60.0);
    call.p.anl = in_waves(random, 0.3, 8.0, call.fmc);
    call.p.anh = in_waves(random, 0.05, 1.5, call.fmc);
    call.p.aex[0] = in_waves(random, 0.01, 1.0, call.fmc);
    call
}

/// Each edge towards the middle, to the side and along the ground.
fn at_edges(random: &mut SplitMix64, kop: i32) -> Vec<Call> {
    let mut list = Vec::new();
    for (and, anl, anh, aex1) in edges() {
        for (toaz, delta) in [(0.0, 0.3), (-35.0, 1.1), (0.0, 0.0001)] {
            let mut call = station(random, kop);
            (call.toaz, call.delta) = (toaz, delta);
            (call.p.and, call.p.anl, call.p.anh, call.p.aex[0]) = (and, anl, anh, aex1);
            list.push(call);
        }
    }
    list
}

/// Angle, leg, height and end height at the edges of what has a value.
fn edges() -> Vec<(f32, f32, f32, f32)> {
    vec![
        (20.0, 0.0, 10.0, 5.0),     // no leg
        (20.0, -0.0, 10.0, 5.0),    // nor a negative zero's
        (20.0, 0.0, 0.0, 0.0),      // g is 0/0
        (20.0, 1.0e-45, 0.0, 0.0),  // the least leg
        (20.0, -1.0e-45, 0.0, 0.0), // in wavelengths
        (20.0, -4.0, -0.5, -0.5),   // level
        (0.0, -4.0, -0.5, -0.5),    // one wire; along it u1 is 0
        (90.0, -4.0, -0.5, -0.5),   // the arcsine of 1
        (90.0, -4.0, -0.5, -0.6),   // above 1
        (-20.0, -4.0, -0.5, -0.6),  // angle below 0
        (20.0, -1.0, -0.5, -1.5),   // 7: upright, pp is 0
        (0.0, -1.0, -0.5, -1.5),    // and 0/0
        (20.0, -1.0, -0.5, -1.6),   // 7: beyond the leg
        (20.0, -1.0, -1.6, -0.5),   // and the other way
        (20.0, -1.0, -0.5, -2.5),   // 9: upright
        (20.0, -1.0, -0.5, -2.6),   // 9: beyond two legs
        (70.0, -1.0, -0.5, -1.0),   // 7: the angle's sine above pp
        (61.0, -1.0, -0.5, -1.5),   // 9: above pp
        (60.0, -2.0, -0.5, -1.5),   // the sine next to pp
        (20.0, -2.0, -0.5, 0.0),    // end on the ground
        (20.0, -2.0, -0.5, -0.0),   // by either zero
        (20.0, -2.0, -0.0, -0.1),   // height by either zero
        (20.0, -2.0, 0.0, 0.1),
        (20.0, 1_000.0, 1_000.0, 1_000.0),
        (20.0, -1_000.0, -1_000.0, -999.0),
    ]
}

/// Here one step in the scalar PI shows in type 9: 3.1415926, not the nearest.
fn half_turn(random: &mut SplitMix64, kop: i32) -> Call {
    let mut call = station(random, kop);
    (call.toaz, call.delta, call.fmc) = (0.0, 0.25, 1.0);
    (call.p.asig, call.p.aeps) = (0.01, 4.0);
    (call.p.and, call.p.anl, call.p.anh, call.p.aex[0]) = (45.0, -2.0, -0.5, -0.5);
    call
}
