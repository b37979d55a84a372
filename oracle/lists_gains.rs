//! The list `gains`: gain calls of all types, accepted and refused. The
//! patterns' own calls come from their modules, with carried heights and
//! models added; those at the ground and the refused ones are made here. No
//! line occurs twice.

// The second call of types 3 and 4 looks up at 1.570796, upstream's own digits.
#![allow(clippy::approx_constant)]

use crate::gain_calls::{around, line, number, Call, DEGREE, NUMBERS, PIO2};
use crate::ioncap::IoncapParams;
use crate::splitmix::SplitMix64;
use crate::{lists_curtain, lists_dipoles, lists_rhombics, lists_slopes, lists_verticals};
use std::collections::HashSet;
use std::f32::consts::PI;
use std::io::{self, Write};

const SEED: u64 = 0x1983_0115;

/// Calls with random bit patterns among their numbers.
const RANDOM_PATTERNS: usize = 300;

const LEAST: f32 = f32::from_bits(1);

/// Carried heights: zeros, 0.35 with its neighbours, very large, very small.
const HEIGHTS: [f32; 15] = [
    0.0,
    -0.0,
    0.35,
    0.35f32.next_down(),
    0.35f32.next_up(),
    0.1,
    0.25,
    1.0,
    -3.0,
    -1.0e10,
    1.0e30,
    f32::MAX,
    f32::MIN,
    LEAST,
    -1.0e-40,
];

const NOT_FINITE: [f32; 3] = [f32::NAN, f32::INFINITY, f32::NEG_INFINITY];

pub fn write(out: &mut impl Write) -> io::Result<()> {
    let mut list = varied(patterns());
    list.extend(degrees());
    list.extend(elevations());
    list.extend(heights());
    list.extend(curtains());
    list.extend(types());
    list.extend(limits());
    list.extend(conductivities());
    list.extend(frequencies());
    list.extend(bays());
    list.extend(faults_together());
    list.extend(two_faults_in_one());
    list.extend(random_patterns());
    let mut seen = HashSet::new();
    for line in list.iter().map(line) {
        if seen.insert(line.clone()) {
            writeln!(out, "{line}")?;
        }
    }
    out.flush()
}

fn patterns() -> Vec<Call> {
    let mut list = lists_rhombics::calls();
    list.extend(lists_verticals::calls());
    list.extend(lists_dipoles::calls());
    list.extend(lists_curtain::calls());
    list.extend(lists_slopes::calls());
    list
}

/// With carried heights, which above the ground count for nothing, and with
/// models, of which the curtain has its own.
fn varied(list: Vec<Call>) -> Vec<Call> {
    let vary = |(place, call): (usize, Call)| Call {
        height: HEIGHTS[place % HEIGHTS.len()],
        model: if call.kop == 6 { call.model } else { place % 4 },
        ..call
    };
    list.into_iter().enumerate().map(vary).collect()
}

/// An antenna of each type with a gain above the floor at most elevations.
fn antenna(kop: i32) -> Call {
    let (and, anl, anh, aex) = match kop {
        1 => (70.0, 100.0, 20.0, [6.0, 0.0, 0.0, 0.0]),
        2 => (0.0, -0.25, 3.0, [0.0; 4]),
        3 => (0.0, 20.0, 12.0, [0.0; 4]),
        4 => (0.0, -0.5, -0.4, [5.0, 0.0, 0.0, 0.0]),
        5 => (0.0, -0.25, 0.0, [4.5, 0.0, 0.0, 0.0]),
        6 => (4.0, -0.5, -0.5, [4.0, -0.5, -0.5, -0.25]),
        7 => (25.0, 120.0, 25.0, [5.0, 0.0, 0.0, 0.0]),
        8 => (0.0, 15.0, 12.0, [0.0; 4]),
        9 => (30.0, -3.0, -0.6, [-0.2, 0.0, 0.0, 0.0]),
        _ => (65.0, 90.0, 18.0, [8.0, 12.0, 0.0, 0.0]),
    };
    Call {
        kop,
        model: 0,
        height: 0.3,
        toaz: 12.0,
        p: IoncapParams {
            asig: 0.01,
            aeps: 4.0,
            and,
            anl,
            anh,
            aex,
        },
        delta: 0.4,
        fmc: 7.0,
    }
}

fn antennas() -> Vec<Call> {
    (1..=10).map(antenna).collect()
}

/// A row of the table for each type.
fn degrees() -> Vec<Call> {
    let row = |call: Call| {
        (0..=90).map(move |degree| Call {
            delta: degree as f32 * DEGREE,
            ..call
        })
    };
    antennas().into_iter().flat_map(row).collect()
}

/// The ground and below it, just above it, straight up and beyond.
fn elevations() -> Vec<Call> {
    let mut list = vec![
        0.0, -0.0, LEAST, -LEAST, 1.0e-10, -1.0e-10, 1.0e-4, -0.4, -PIO2, -2.0, -1_000.0,
    ];
    list.extend(around(PIO2));
    list.extend(around(1.570796));
    list.extend([0.5, 1.0, 2.0, 3.0, PI, 4.0, 5.0, 2.0 * PI, 50.0]);
    list.extend([314.15927, 999.99994, 1_000.0]);
    let mut calls = Vec::new();
    for call in antennas() {
        for (place, delta) in list.iter().copied().enumerate() {
            let model = place % 4;
            calls.push(Call {
                delta,
                model,
                ..call
            });
            calls.push(Call {
                delta,
                height: 0.0,
                ..call
            });
        }
    }
    calls
}

/// Each carried height on the ground, below it and above it; those not finite
/// are refused by 9.
fn heights() -> Vec<Call> {
    let mut list = Vec::new();
    for call in antennas() {
        for height in HEIGHTS.into_iter().chain(NOT_FINITE) {
            for delta in [0.0, -0.6, 0.4] {
                list.push(Call {
                    height,
                    delta,
                    ..call
                });
            }
        }
    }
    list
}

/// Elements per bay in the pattern, on the floor and at the ground, by model.
fn curtains() -> Vec<Call> {
    let mut list = Vec::new();
    for elements in [8.0, 10.0, 12.0, -1.0, -0.5, -2.0, 4.0, 0.0, 1.0, 3.7] {
        for delta in [0.5, 1.0, 0.0, PIO2] {
            for model in 0..4 {
                let mut call = antenna(6);
                call.p.aex[0] = elements;
                list.push(Call {
                    delta,
                    model,
                    ..call
                });
            }
        }
    }
    list
}

/// Refusal 1.
fn types() -> Vec<Call> {
    let others = [0, 11, -1, -5, 16, 48, 1_000, i32::MAX, i32::MIN];
    let mut list = Vec::new();
    for kop in others {
        for delta in [0.0, 0.4] {
            list.push(Call {
                kop,
                delta,
                ..antenna(6)
            });
        }
    }
    list
}

/// Refusal 2: each number of each type's call at 1,000, beyond it, and not
/// finite, used by the type or not.
fn limits() -> Vec<Call> {
    let most = 1_000f32;
    let beyond = most.next_up();
    let mut values = vec![most, -most, beyond, -beyond, f32::MAX, f32::MIN];
    values.extend(NOT_FINITE);
    let mut list = Vec::new();
    for call in antennas() {
        for place in 0..NUMBERS {
            for value in &values {
                let mut changed = call;
                *number(&mut changed, place) = *value;
                list.push(changed);
            }
        }
    }
    list
}

/// Refusal 3, on the ground too, and the least that pass.
fn conductivities() -> Vec<Call> {
    let mut list = Vec::new();
    for call in antennas() {
        for asig in [
            0.0,
            -0.0,
            LEAST,
            -LEAST,
            f32::MIN_POSITIVE,
            -f32::MIN_POSITIVE,
            -0.01,
        ] {
            for delta in [0.0, 0.4] {
                let mut changed = Call { delta, ..call };
                changed.p.asig = asig;
                list.push(changed);
            }
        }
    }
    list
}

/// Refusal 4, and the ends that pass.
fn frequencies() -> Vec<Call> {
    let mut list = Vec::new();
    for call in antennas() {
        for fmc in around(1.0).into_iter().chain(around(30.0)) {
            list.push(Call { fmc, ..call });
            list.push(Call {
                fmc,
                delta: 0.0,
                ..call
            });
        }
        for fmc in [0.0, -0.0, -7.0, 0.5, 31.0, 999.0] {
            list.push(Call { fmc, ..call });
        }
    }
    list
}

/// Refusal 5, of type 6 alone and also where it has no bays to add.
fn bays() -> Vec<Call> {
    let mut list = Vec::new();
    for call in antennas() {
        for and in [64.0, 64f32.next_up(), 64.5, 65.0, 999.0, 63.0, -65.0] {
            for delta in [0.5, 1.0, 0.0] {
                let mut changed = Call { delta, ..call };
                changed.p.and = and;
                list.push(changed);
            }
        }
    }
    list
}

/// Every subset of the faults 9, 1, 2, 3, 4, 5, on the ground and above it.
/// Without fault 1 the type is 6, which alone has fault 5.
fn faults_together() -> Vec<Call> {
    let mut list = Vec::new();
    for subset in 0..64 {
        for delta in [0.0, 0.4] {
            for (place, value) in [(0, f32::NAN), (9, 1_000.5)] {
                let mut call = Call {
                    delta,
                    ..antenna(6)
                };
                let has = |fault: usize| subset >> fault & 1 == 1;
                call.height = if has(0) { f32::INFINITY } else { 0.2 };
                call.kop = if has(1) { 11 } else { 6 };
                call.p.asig = if has(3) { 0.0 } else { 0.01 };
                call.fmc = if has(4) { 31.0 } else { 7.0 };
                call.p.and = if has(5) { 65.0 } else { 4.0 };
                if has(2) {
                    *number(&mut call, place) = value;
                }
                list.push(call);
            }
        }
    }
    list
}

/// A single number at fault by 2 and by 3, 4 or 5: always 2.
fn two_faults_in_one() -> Vec<Call> {
    let mut list = Vec::new();
    for (place, values) in [
        (1, [f32::NAN, f32::NEG_INFINITY, -1_000.5]),
        (11, [f32::NAN, f32::INFINITY, 1_000.5]),
        (3, [f32::NAN, f32::INFINITY, 1_000.5]),
    ] {
        for value in values {
            let mut call = antenna(6);
            *number(&mut call, place) = value;
            list.push(call);
        }
    }
    list
}

/// One of a call's numbers, or its carried height, any f32 at all.
fn random_patterns() -> Vec<Call> {
    let mut random = SplitMix64::new(SEED);
    let mut list = Vec::new();
    for turn in 0..RANDOM_PATTERNS {
        let mut call = antenna(1 + (turn % 10) as i32);
        let pattern = f32::from_bits(random.next_u32());
        match random.next_u32() as usize % (NUMBERS + 1) {
            NUMBERS => call.height = pattern,
            place => *number(&mut call, place) = pattern,
        }
        list.push(call);
    }
    list
}
