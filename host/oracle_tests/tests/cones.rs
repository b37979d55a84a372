//! `ioncap_cone` against upstream's `invcon`.

use ioncap::ffi;
use oracle::antenna::invcon;
use oracle::splitmix::SplitMix64;
use oracle_tests::{answer_length, any_number, calls, outside, Guarded, ENDS, SEED, WRONG_LENGTHS};

fn check(random: &mut SplitMix64, freq: f32, elev: f32, length: usize) {
    let mut guarded = Guarded::new(random, length);
    let answer = guarded.answer();
    let number = unsafe { ffi::ioncap_cone(freq, elev, answer.as_mut_ptr(), answer.len()) };
    let (expected, gain) = if length != ffi::ANSWER_LENGTH {
        (7, 0.0)
    } else if outside(freq) || outside(elev) {
        (2, 0.0)
    } else {
        (0, invcon(freq, elev))
    };
    let call = || format!("cone {freq:?} {elev:?}, {length} bytes");
    assert_eq!(number, expected, "{}", call());
    let numbers = [gain, 0.0, 0.0];
    guarded
        .check(numbers)
        .unwrap_or_else(|bytes| panic!("{}: {bytes}", call()));
}

#[test]
fn random() {
    let mut random = SplitMix64::new(SEED);
    for _ in 0..calls() {
        let (freq, elev) = match random.next_u32() % 4 {
            0 => (any_number(&mut random), any_number(&mut random)),
            1 => (
                (random.next_u32() % 32) as f32,
                (random.next_u32() % 20 * 5) as f32,
            ),
            _ => (random.between(-5.0, 40.0), random.between(-10.0, 100.0)),
        };
        let length = answer_length(&mut random);
        check(&mut random, freq, elev, length);
    }
}

#[test]
fn ends() {
    let mut random = SplitMix64::new(SEED);
    for freq in ENDS {
        for elev in ENDS {
            for length in WRONG_LENGTHS.into_iter().chain([ffi::ANSWER_LENGTH]) {
                check(&mut random, freq, elev, length);
            }
        }
    }
}
