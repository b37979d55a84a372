//! Type 6 above the ground: calls for the list `gains`.

use crate::gain_calls::{
    around, length, number, station, within_limits, Call, DEGREE, EDGES, PIO2,
};
use crate::splitmix::SplitMix64;

const SEED: u64 = 0x1983_0115;

/// Random calls of each kind.
const STATIONS: usize = 400;
const WITHIN_LIMITS: usize = 150;

/// Fractional, odd, even, negative and no bays, up to the limit.
const BAYS: [f32; 21] = [
    -1_000.0, 0.5, 1.5, 2.5, -1.0, -3.0, 0.0, -0.0, -2.0, 63.5, 64.0, 63.0, 62.0, 1.0e-45,
    -1.0e-45, 1.0, 2.0, 3.0, 4.0, 5.0, -0.5,
];

/// Negative counts as ten, unless the cut gives 0.
const ELEMENTS: [f32; 16] = [
    8.0, -2.0, -1.0, -0.5, 0.5, 12.0, 1_000.0, 0.0, -0.0, 10.0, 11.0, 9.9, -1_000.0, 1.0, 2.0, 4.0,
];

pub fn calls() -> Vec<Call> {
    let mut random = SplitMix64::new(SEED);
    let mut list = Vec::new();
    list.extend((0..STATIONS).map(|_| curtain(&mut random)));
    list.extend((0..WITHIN_LIMITS).map(|_| any_curtain(&mut random)));
    list.extend(counts(&mut random));
    list.extend(thresholds(&mut random));
    list.extend(spacings(&mut random));
    list.extend(not_a_number(&mut random));
    list.extend(edges(&mut random));
    list
}

/// Mostly below the threshold of the model 0, else of any.
fn curtain(random: &mut SplitMix64) -> Call {
    let mut call = station(random, 6);
    call.model = (random.next_u32() % 4) as usize;
    if call.model == 0 {
        call.delta = random.between(0.01, 0.6);
    }
    call.p.and = (1 + random.next_u32() % 8) as f32;
    call.p.anl = length(random, 20.0, 1.0);
    call.p.anh = length(random, 30.0, 1.0);
    call.p.aex = [
        (1 + random.next_u32() % 10) as f32,
        length(random, 20.0, 1.0),
        length(random, 20.0, 1.0),
        length(random, 10.0, 0.5),
    ];
    call
}

/// Up to 64 bays, any model.
fn any_curtain(random: &mut SplitMix64) -> Call {
    let mut call = within_limits(random, 6);
    call.model = (random.next_u32() % 4) as usize;
    call
}

/// Both in the pattern, at 0.5 rad, and on the floor, at 1.0.
fn counts(random: &mut SplitMix64) -> Vec<Call> {
    let mut list = Vec::new();
    for delta in [0.5, 1.0] {
        for bays in BAYS {
            let mut call = curtain(random);
            call.p.and = bays;
            list.push(Call {
                model: 0,
                delta,
                ..call
            });
        }
        for elements in ELEMENTS {
            let mut call = curtain(random);
            call.p.aex[0] = elements;
            list.push(Call {
                model: 0,
                delta,
                ..call
            });
        }
    }
    list
}

/// 1.0 and 0.0001 from the vertical on both sides, where 1.0 is reached
/// exactly.
fn thresholds(random: &mut SplitMix64) -> Vec<Call> {
    let mut list = Vec::new();
    for from_vertical in [0.0, 1.0, -1.0, 0.0001, -0.0001, 1.5, 3.0, 900.0] {
        for delta in around(PIO2 + from_vertical) {
            for model in 0..4 {
                let call = curtain(random);
                list.push(Call {
                    model,
                    delta,
                    ..call
                });
            }
        }
    }
    list
}

/// Not above 0 in wavelengths.
fn spacings(random: &mut SplitMix64) -> Vec<Call> {
    let mut list = Vec::new();
    for place in 1..4 {
        for spacing in [0.0, -0.0, -0.5, 15.0, 1.0e-45, -1.0e-45] {
            let mut call = curtain(random);
            call.p.aex[place] = spacing;
            list.push(call);
        }
    }
    list
}

/// `denom` = 0 along the curtain; a root of a negative number at the Brewster
/// angle; an x * x that is 0 over almost no ground.
fn not_a_number(random: &mut SplitMix64) -> Vec<Call> {
    let mut list = Vec::new();
    for _ in 0..4 {
        let mut call = curtain(random);
        call.model = 0;
        call.toaz = 90.0;
        call.delta = 1.0e-4;
        list.push(call);
        call.toaz = 10.0;
        call.p.aeps = 820.0051;
        call.p.asig = 0.0001;
        call.delta = 2.0 * DEGREE;
        call.fmc = 10.0;
        list.push(call);
        call.p.aeps = 0.0;
        call.p.asig = 1.0e-23;
        call.delta = 0.3;
        list.push(call);
    }
    list
}

/// Azimuth, leg, height and extras at each edge.
fn edges(random: &mut SplitMix64) -> Vec<Call> {
    let mut list = Vec::new();
    for edge in EDGES {
        for place in [0, 4, 5, 6, 7, 8, 9] {
            let mut call = curtain(random);
            *number(&mut call, place) = edge;
            list.push(call);
        }
    }
    list
}
