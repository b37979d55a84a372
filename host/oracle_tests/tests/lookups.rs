//! `ioncap_lookup` against upstream's `gain_lookup`.

use ioncap::ffi::{self, ANSWER_LENGTH, TABLE_LENGTH};
use oracle::antenna::{gain_lookup, GainTable, ELEVS, FREQS};
use oracle::splitmix::SplitMix64;
use oracle_tests::{
    answer_length, any_number, calls, nan, outside, Guarded, ENDS, SEED, WRONG_LENGTHS,
};

/// Lookups in one table.
const EACH: usize = 2_000;

/// A table for upstream, and its bytes.
struct Both {
    upstream: GainTable,
    bytes: Vec<u8>,
}

fn both(cells: &[f32]) -> Both {
    let mut upstream = GainTable::default();
    let (gains, eff) = cells.split_at(FREQS * ELEVS);
    for (row, cells) in upstream.gains.iter_mut().zip(gains.chunks(ELEVS)) {
        row.copy_from_slice(cells);
    }
    upstream.eff.copy_from_slice(eff);
    let bytes: Vec<u8> = cells.iter().flat_map(|x| x.to_le_bytes()).collect();
    assert_eq!(bytes.len(), TABLE_LENGTH);
    Both { upstream, bytes }
}

/// Gains, and now and then NaN, an infinity or any bit pattern.
fn any_table(random: &mut SplitMix64) -> Both {
    let mut cell = || match random.next_u32() % 64 {
        0 => nan(random),
        1 => f32::INFINITY,
        2 => f32::NEG_INFINITY,
        3 => -0.0,
        4 => f32::from_bits(random.next_u32()),
        _ => random.between(-60.0, 30.0),
    };
    let cells: Vec<f32> = (0..FREQS * (ELEVS + 1)).map(|_| cell()).collect();
    both(&cells)
}

fn check(random: &mut SplitMix64, t: &Both, bytes: &[u8], fmc: f32, delta: f32, length: usize) {
    let mut guarded = Guarded::new(random, length);
    let answer = guarded.answer();
    let number = unsafe {
        ffi::ioncap_lookup(
            bytes.as_ptr(),
            bytes.len(),
            fmc,
            delta,
            answer.as_mut_ptr(),
            answer.len(),
        )
    };
    let (expected, (gain, efficiency)) = if length != ANSWER_LENGTH || bytes.len() != TABLE_LENGTH {
        (7, (0.0, 0.0))
    } else if outside(fmc) || outside(delta) {
        (2, (0.0, 0.0))
    } else {
        (0, gain_lookup(&t.upstream, fmc, delta))
    };
    let call = || {
        let table = bytes.len();
        format!("lookup {fmc:?} {delta:?}, {table} and {length} bytes")
    };
    assert_eq!(number, expected, "{}", call());
    let numbers = [gain, efficiency, 0.0];
    guarded
        .check(numbers)
        .unwrap_or_else(|bytes| panic!("{}: {bytes}", call()));
}

#[test]
fn random() {
    let mut random = SplitMix64::new(SEED);
    let mut table = any_table(&mut random);
    for n in 1..=calls() {
        if n % EACH == 0 {
            table = any_table(&mut random);
        }
        let (fmc, delta) = match random.next_u32() % 4 {
            0 => (any_number(&mut random), any_number(&mut random)),
            1 => (
                (random.next_u32() % 32) as f32,
                (random.next_u32() % 92) as f32 * 0.017453293,
            ),
            _ => (random.between(0.0, 32.0), random.between(0.0, 1.6)),
        };
        let length = answer_length(&mut random);
        check(&mut random, &table, &table.bytes, fmc, delta, length);
    }
}

#[test]
fn lengths_and_ends() {
    let mut random = SplitMix64::new(SEED);
    let table = any_table(&mut random);
    let mut longer = table.bytes.clone();
    longer.push(0);
    let tables = [
        &table.bytes[..],
        &longer,
        &table.bytes[1..],
        &table.bytes[..12],
        &[],
    ];
    for bytes in tables {
        for length in WRONG_LENGTHS.into_iter().chain([ANSWER_LENGTH]) {
            for fmc in ENDS {
                for delta in ENDS {
                    check(&mut random, &table, bytes, fmc, delta, length);
                }
            }
        }
    }
}
