//! `ioncap_gain` against document 01's refusals and upstream's `iongain`.

use ioncap::ffi::{self, ANSWER_LENGTH};
use oracle::gain_calls::{
    answer, around, in_waves, number, one_of, station, within_limits, Call, DEGREE, EDGES, NUMBERS,
    PIO2,
};
use oracle::splitmix::SplitMix64;
use oracle_tests::{answer_length, any_number, calls, nan, Guarded, ENDS, SEED, WRONG_LENGTHS};

/// The entry itself.
fn ioncap_gain(call: &Call, model: i32, answer: &mut [u8]) -> u32 {
    let p = &call.p;
    let [aex1, aex2, aex3, aex4] = p.aex;
    unsafe {
        ffi::ioncap_gain(
            call.height,
            call.kop,
            call.toaz,
            p.asig,
            p.aeps,
            p.and,
            p.anl,
            p.anh,
            aex1,
            aex2,
            aex3,
            aex4,
            call.delta,
            call.fmc,
            model,
            answer.as_mut_ptr(),
            answer.len(),
        )
    }
}

/// The model is a number of the entry's: upstream's list of models begins with
/// 0 and 1.
fn check(random: &mut SplitMix64, call: &Call, model: i32, length: usize) {
    let mut guarded = Guarded::new(random, length);
    let result = ioncap_gain(call, model, guarded.answer());
    let text = || {
        format!(
            "type {}, height {:?}, azimuth {:?}, {:?}, elevation {:?}, MHz {:?}, model {model}, {length} bytes",
            call.kop, call.height, call.toaz, call.p, call.delta, call.fmc
        )
    };
    // Upstream's series have no limit: it may not be asked about this.
    assert_ne!(result, 11, "{}", text());
    let expected = answer(&Call {
        model: usize::from(model != 0),
        ..*call
    });
    let refusal = match expected.number {
        9 => 9,
        _ if length != ANSWER_LENGTH => 7,
        n => n,
    };
    assert_eq!(result, refusal, "{}", text());
    let numbers = [expected.gain, expected.efficiency, expected.height];
    guarded
        .check(numbers)
        .unwrap_or_else(|bytes| panic!("{}: {bytes}", text()));
}

/// 0 half of the time.
fn any_model(random: &mut SplitMix64) -> i32 {
    match random.next_u32() % 8 {
        0 => -1,
        1 => random.next_u32() as i32,
        2 => 1 << (random.next_u32() % 32),
        3 => 1,
        _ => 0,
    }
}

/// Mostly finite; around 0.35, where the quartic ends.
fn any_height(random: &mut SplitMix64) -> f32 {
    match random.next_u32() % 16 {
        0 => f32::from_bits(random.next_u32()),
        1 => one_of(random, &[f32::NAN, f32::INFINITY, f32::NEG_INFINITY]),
        2 => nan(random),
        3..=5 => one_of(random, &around(0.35)),
        6..=8 => random.between(-2.0, 2.0),
        _ => one_of(random, &[0.0, -0.0, 1.0, 0.25, 0.5]),
    }
}

/// An antenna as a station may have it.
fn antenna(random: &mut SplitMix64, kop: i32) -> Call {
    let mut call = station(random, kop);
    call.p.anl = in_waves(random, 0.0, 4.0, call.fmc);
    call.p.anh = in_waves(random, 0.0, 2.0, call.fmc);
    call.p.and = random.between(0.0, 180.0);
    for extra in &mut call.p.aex {
        *extra = random.between(0.0, 30.0);
    }
    match kop {
        2 => call.p.anh = random.between(-10.0, 10.0),
        5 => call.p.anl = -0.25,
        6 => {
            call.p.and = (random.next_u32() % 17) as f32;
            call.p.aex[0] = (random.next_u32() % 13) as f32 - 1.0;
        }
        _ => {}
    }
    call.delta = match random.next_u32() % 8 {
        0 => 0.0,
        1 => -random.between(0.0, 2.0),
        2 => PIO2,
        3 => (random.next_u32() % 91) as f32 * DEGREE,
        _ => call.delta,
    };
    call
}

fn any_call(random: &mut SplitMix64) -> Call {
    let kop = match random.next_u32() % 32 {
        0 => random.next_u32() as i32,
        1 => (random.next_u32() % 14) as i32 - 2,
        n => (n % 10) as i32 + 1,
    };
    let mut call = match random.next_u32() % 4 {
        0 => within_limits(random, kop),
        _ => antenna(random, kop),
    };
    call.height = any_height(random);
    let changed = [0, 0, 0, 0, 0, 1, 1, 2][random.next_u32() as usize % 8];
    for _ in 0..changed {
        let value = match random.next_u32() % 2 {
            0 => any_number(random),
            _ => one_of(random, &EDGES),
        };
        *number(&mut call, random.next_u32() as usize % NUMBERS) = value;
    }
    call
}

#[test]
fn random() {
    let mut random = SplitMix64::new(SEED);
    let mut accepted = 0;
    for _ in 0..calls() {
        let call = any_call(&mut random);
        let model = any_model(&mut random);
        let length = answer_length(&mut random);
        check(&mut random, &call, model, length);
        accepted += usize::from(answer(&call).number == 0);
    }
    // The calls are not mostly refused ones.
    assert!(2 * accepted >= calls(), "{accepted} accepted");
}

/// Each number of a call at the ends, on each type.
#[test]
fn ends() {
    let mut random = SplitMix64::new(SEED);
    for kop in -1..=12 {
        let call = antenna(&mut random, kop);
        for place in 0..NUMBERS {
            for value in ENDS.into_iter().chain([nan(&mut random)]) {
                let mut changed = call;
                *number(&mut changed, place) = value;
                for length in WRONG_LENGTHS.into_iter().chain([ANSWER_LENGTH]) {
                    check(&mut random, &changed, 0, length);
                }
            }
        }
    }
}

/// Legs of types 3 and 4 whose resistance is exactly 0: straight up the gain is
/// infinite, at the ground it is NaN.
#[test]
fn no_resistance() {
    const LEGS: [u32; 4] = [0xbd62_991a, 0xbd62_9bbd, 0xbd62_9c43, 0xbd62_9d16];
    let mut random = SplitMix64::new(SEED);
    let mut nans = 0;
    for kop in [3, 4] {
        for leg in LEGS {
            for delta in [0.0, -0.5, 0.5, PIO2] {
                let mut call = antenna(&mut random, kop);
                call.p.anl = f32::from_bits(leg);
                call.delta = delta;
                check(&mut random, &call, 0, ANSWER_LENGTH);
                nans += usize::from(answer(&call).gain.is_nan());
            }
        }
    }
    assert!(nans > 0);
}

/// Every set of causes: the answer is the first in document 01's order.
#[test]
fn order() {
    const ORDER: [u32; 7] = [9, 7, 1, 2, 3, 4, 5];
    let mut random = SplitMix64::new(SEED);
    for set in 0..1 << ORDER.len() {
        let holds = |n: u32| set >> ORDER.iter().position(|m| *m == n).unwrap() & 1 == 1;
        let mut call = antenna(&mut random, if holds(1) { 11 } else { 6 });
        call.height = if holds(9) { f32::INFINITY } else { 0.5 };
        call.toaz = if holds(2) { 1_000.1 } else { 10.0 };
        call.p.asig = if holds(3) { -0.0 } else { 0.01 };
        call.fmc = if holds(4) { 0.999 } else { 14.0 };
        call.p.and = if holds(5) { 65.0 } else { 64.0 };
        let length = if holds(7) { 11 } else { ANSWER_LENGTH };
        let mut guarded = Guarded::new(&mut random, length);
        let result = ioncap_gain(&call, 0, guarded.answer());
        let first = ORDER.into_iter().find(|n| holds(*n)).unwrap_or(0);
        assert_eq!(result, first, "set {set:07b}");
        if first != 0 {
            guarded.check([0.0, 0.0, call.height]).unwrap();
        }
    }
}
