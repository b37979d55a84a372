//! The list `antenna`: lookups in tables and the inverted cone, by the derived
//! upstream `gain_lookup` and `invcon`. README.md gives the form of a line.

use crate::antenna::{gain_lookup, invcon, GainTable, ELEVS, FREQS};
use crate::con::R2D;
use crate::elementary::bits;
use crate::splitmix::SplitMix64;
use std::io::{self, Write};

const SEED: u64 = 0x1983_0115;
const LENGTH: u32 = (FREQS * (ELEVS + 1)) as u32;
const DEGREE: f32 = 0.017453293;

const RANDOM_LOOKUPS: usize = 400;
const RANDOM_CARDS: usize = 400;
const RANDOM_CONES: usize = 200;

/// MHz around the rows' ends, and far beyond.
const MHZ: [f32; 24] = [
    0.5, 1.0, 1.5, 2.0, 15.25, 29.0, 29.5, 29.99, 30.0, 30.5, 31.0, 31.5, 0.0, -0.0, 0.999, -0.5,
    -1.0, -1.5, -30.25, 1000.0, -1000.0, 999.75, 1.0e-40, -1.0e-40,
];

/// Radians around the columns' ends, and far beyond.
const RADIANS: [f32; 16] = [
    0.0, -0.0, 0.01, 0.5, 1.0, 1.55, 1.5707963, 1.58, 2.0, 3.2, -0.01, -0.5, 1000.0, -1000.0,
    1.0e-40, 0.78539816,
];

/// Outside the limits.
const OUTSIDE: [f32; 6] = [
    f32::NAN,
    f32::INFINITY,
    f32::NEG_INFINITY,
    1000.0001,
    -1000.0001,
    3.0e38,
];

/// A call: what a kind does not use is 0.
#[derive(Clone, Copy)]
struct Call {
    kind: char,
    seed: u32,
    length: u32,
    first: i32,
    last: i32,
    verdict: u32,
    mhz: f32,
    elevation: f32,
}

fn lookup(seed: u32, mhz: f32, elevation: f32) -> Call {
    Call {
        kind: 'l',
        seed,
        length: LENGTH,
        first: 0,
        last: 0,
        verdict: 0,
        mhz,
        elevation,
    }
}

fn card(first: i32, last: i32, verdict: u32, call: Call) -> Call {
    Call {
        kind: 'c',
        first,
        last,
        verdict,
        ..call
    }
}

fn cone(freq: f32, elev_deg: f32) -> Call {
    Call {
        kind: 'i',
        length: 0,
        ..lookup(0, freq, elev_deg)
    }
}

pub fn write(out: &mut impl Write) -> io::Result<()> {
    let mut random = SplitMix64::new(SEED);
    let mut calls = lookups(&mut random);
    calls.extend(cards(&mut random));
    calls.extend(refused());
    calls.extend(cones(&mut random));
    for call in &calls {
        line(out, call)?;
    }
    out.flush()
}

fn line(out: &mut impl Write, c: &Call) -> io::Result<()> {
    let (number, gain, efficiency) = answer(c);
    writeln!(
        out,
        "{} {:08x} {:08x} {:08x} {:08x} {:08x} {:08x} {:08x} {:08x} {:08x} {:08x}",
        c.kind,
        c.seed,
        c.length,
        c.first,
        c.last,
        c.verdict,
        bits(c.mhz),
        bits(c.elevation),
        number,
        bits(gain),
        bits(efficiency)
    )
}

/// Document 01's refusals, then upstream's answer; outside a card's range
/// document 02's (C-11), which upstream has not.
fn answer(c: &Call) -> (u32, f32, f32) {
    if c.kind != 'i' && c.length != LENGTH {
        return (7, 0.0, 0.0);
    }
    if !within(c.mhz) || !within(c.elevation) {
        return (2, 0.0, 0.0);
    }
    if c.kind == 'i' {
        return (0, invcon(c.mhz, c.elevation), 0.0);
    }
    let table = table(c.seed);
    if c.kind == 'c' {
        if c.verdict != 0 {
            return (0, 0.0, 0.0);
        }
        if c.first < 1 || c.last > FREQS as i32 || c.first > c.last {
            return (4, 0.0, 0.0);
        }
        if let Some(mhz) = row_alone(c) {
            return lookup_in_row(&table, mhz, c.elevation);
        }
    }
    let (gain, efficiency) = gain_lookup(&table, c.mhz, c.elevation);
    (0, gain, efficiency)
}

/// The MHz of the row that a card's lookup takes alone: the first below it, the
/// last from it up.
fn row_alone(c: &Call) -> Option<i32> {
    if c.mhz < c.first as f32 {
        return Some(c.first);
    }
    if c.mhz >= c.last as f32 {
        return Some(c.last);
    }
    None
}

/// One row between its columns. Nothing is done in MHz, where a -0 or an infinity
/// would be lost.
fn lookup_in_row(table: &GainTable, mhz: i32, elevation: f32) -> (u32, f32, f32) {
    let row = (mhz - 1) as usize;
    let degrees = elevation * R2D;
    let column = ((degrees + 1.0) as i32).clamp(1, ELEVS as i32) as usize - 1;
    let low = table.gains[row][column];
    let high = table.gains[row][(column + 1).min(ELEVS - 1)];
    let gain = low + (degrees - column as f32) * (high - low);
    (0, gain, table.eff[row])
}

fn within(x: f32) -> bool {
    x.is_finite() && x.abs() <= 1000.0
}

/// The table of a seed, all rows filled.
fn table(seed: u32) -> GainTable {
    let mut table = GainTable::default();
    for row in 0..FREQS {
        for d in 0..ELEVS {
            table.gains[row][d] = cell(seed, row * ELEVS + d);
        }
        table.eff[row] = cell(seed, FREQS * ELEVS + row);
    }
    table
}

/// Cell `k` of a seed's table. Seed 0 has −30 and −20 on the ground in rows 1
/// and 2 and zeros elsewhere. Another has a NaN, infinities, zeros and any bit
/// pattern now and then, else numbers from -100 to 28 and a little more.
fn cell(seed: u32, k: usize) -> f32 {
    if seed == 0 {
        return match k {
            0 => -30.0,
            ELEVS => -20.0,
            _ => 0.0,
        };
    }
    let a = mixed(u64::from(seed) + k as u64 * 2_654_435_761);
    let b = mixed(a);
    match b % 64 {
        0 => f32::NAN,
        1 => f32::INFINITY,
        2 => f32::NEG_INFINITY,
        3 => -0.0,
        4 => 0.0,
        5 => f32::from_bits(a as u32),
        _ => (b / 64 % 65536) as f32 / 512.0 - 100.0 + (a % 65536) as f32 / 7919.0,
    }
}

/// The halves of `n` modulo 2^32 changed over, times a prime, modulo 2^32.
fn mixed(n: u64) -> u64 {
    let low = n % (1 << 32);
    (low % 65536 * 65536 + low / 65536) * 2_246_822_519 % (1 << 32)
}

fn lookups(random: &mut SplitMix64) -> Vec<Call> {
    let mut list = vec![lookup(0, 0.5, 0.0)];
    for mhz in MHZ {
        for elevation in RADIANS {
            list.push(lookup(random.next_u32(), mhz, elevation));
        }
    }
    for k in 0..ELEVS {
        let at = k as f32 * DEGREE;
        for elevation in [at, at.next_up(), at.next_down()] {
            list.push(lookup(random.next_u32(), 7.0, elevation));
        }
    }
    for m in 1..=FREQS {
        let at = m as f32;
        for mhz in [at, at.next_up(), at.next_down()] {
            list.push(lookup(random.next_u32(), mhz, 0.3));
        }
    }
    list.extend((0..RANDOM_LOOKUPS).map(|_| any_lookup(random)));
    list
}

/// Mostly within the table.
fn any_lookup(random: &mut SplitMix64) -> Call {
    let far = random.next_u32() % 8 == 0;
    let (mhz, elevation) = if far { (1000.0, 1000.0) } else { (32.0, 1.6) };
    let low = if far { -1.0 } else { 0.0 };
    let mhz = random.between(low * mhz, mhz);
    let elevation = random.between(low * elevation, elevation);
    lookup(random.next_u32(), mhz, elevation)
}

fn cards(random: &mut SplitMix64) -> Vec<Call> {
    let mut list = Vec::new();
    for (first, last) in [(1, 30), (2, 30), (1, 29), (7, 7), (30, 30), (1, 1), (5, 9)] {
        for mhz in [0.5, 1.5, 4.0, 4.5, 5.5, 6.9, 7.0, 7.5, 8.5, 9.5, 10.0, 29.5, 30.0, 31.5] {
            list.push(card(first, last, 0, lookup(random.next_u32(), mhz, 0.4)));
        }
    }
    for _ in 0..RANDOM_CARDS {
        let ends = [random.next_u32(), random.next_u32()].map(|n| (n % 30 + 1) as i32);
        let first = ends[0].min(ends[1]);
        let last = ends[0].max(ends[1]);
        list.push(card(first, last, 0, any_lookup(random)));
    }
    for (first, last) in [(0, 30), (1, 31), (9, 6), (-1, 5), (i32::MIN, i32::MAX), (31, 31)] {
        for verdict in [0, 2, 7, u32::MAX] {
            list.push(card(first, last, verdict, lookup(5, 7.5, 0.4)));
        }
    }
    list.push(card(5, 9, 11, lookup(5, 7.5, 0.4)));
    list.extend(cards_at_range_ends());
    list
}

/// Cards at and beyond both ends of their ranges: one row alone, or two blended.
fn cards_at_range_ends() -> Vec<Call> {
    let mut list = Vec::new();
    for (first, last) in [(2, 12), (5, 5), (1, 30)] {
        let (low, high) = (first as f32, last as f32);
        let ends = [low.next_down(), low, high.next_down(), high, high + 0.5];
        for (seed, elevation) in special_tables(first, last) {
            list.extend(ends.map(|mhz| card(first, last, 0, lookup(seed, mhz, elevation))));
        }
        for mhz in [low.next_up(), high.next_up(), -5.0, 0.0, -0.0, 1000.0, -1000.0] {
            list.push(card(first, last, 0, lookup(9, mhz, BETWEEN)));
        }
        for elevation in [0.0, -0.0, -0.5, 1.5707963, 1.58, 1000.0] {
            list.push(card(first, last, 0, lookup(9, high + 0.5, elevation)));
            list.push(card(first, last, 0, lookup(9, low - 0.5, elevation)));
        }
    }
    list.sort_by_key(place);
    list.dedup_by_key(|call| place(call));
    list
}

/// What tells the calls of `cards_at_range_ends` apart.
fn place(call: &Call) -> (i32, u32, u32, u32) {
    (call.first, call.seed, bits(call.mhz), bits(call.elevation))
}

/// An elevation between two columns, and the column below it.
const BETWEEN: f32 = 0.4;
const COLUMN: usize = 22;

/// Seeds, with an elevation, whose tables hold an infinity, a NaN or a -0 in the
/// range's end rows or in those next to them: in a gain, or in the efficiency.
fn special_tables(first: i32, last: i32) -> Vec<(u32, f32)> {
    let mut found = Vec::new();
    for m in [first - 1, first, first + 1, last - 1, last, last + 1] {
        if m < 1 || m > FREQS as i32 {
            continue;
        }
        let row = (m - 1) as usize;
        let efficiency = FREQS * ELEVS + row;
        for special in [f32::INFINITY, f32::NEG_INFINITY, f32::NAN] {
            found.push((seed_with(special, row * ELEVS + COLUMN), BETWEEN));
            found.push((seed_with(special, efficiency), BETWEEN));
        }
        found.push((seed_with(-0.0, efficiency), BETWEEN));
        found.push((seed_with_minus_zero_on_ground(row), 0.0));
    }
    found
}

/// The least seed whose table has this number at a place.
fn seed_with(number: f32, k: usize) -> u32 {
    (1..).find(|&seed| bits(cell(seed, k)) == bits(number)).unwrap()
}

/// The same of -0 on the ground, with a gain below 0 at the next column: there the
/// blend of the columns keeps the sign.
fn seed_with_minus_zero_on_ground(row: usize) -> u32 {
    let ground = row * ELEVS;
    let found = |&seed: &u32| bits(cell(seed, ground)) == bits(-0.0) && cell(seed, ground + 1) < 0.0;
    (1..).find(found).unwrap()
}

/// 7, 2 and 4, each with the others.
fn refused() -> Vec<Call> {
    let mut list = Vec::new();
    for length in [0, 1, LENGTH - 1, LENGTH, LENGTH + 1] {
        for mhz in [7.5].into_iter().chain(OUTSIDE) {
            for elevation in [0.4].into_iter().chain(OUTSIDE) {
                let call = Call {
                    length,
                    ..lookup(5, mhz, elevation)
                };
                list.push(call);
            }
            let call = Call {
                length,
                ..lookup(5, mhz, 0.4)
            };
            list.push(card(9, 5, 0, call));
            list.push(card(9, 5, 3, call));
        }
    }
    list
}

const CONE_MHZ: [f32; 22] = [
    2.0, 4.0, 5.0, 6.0, 7.0, 8.0, 9.0, 10.0, 11.0, 12.0, 13.0, 14.0, 15.0, 16.0, 17.0, 18.0, 20.0,
    22.0, 24.0, 26.0, 28.0, 30.0,
];
const CONE_DEGREES: [f32; 13] = [
    0.0, 5.0, 10.0, 15.0, 20.0, 25.0, 30.0, 35.0, 40.0, 45.0, 50.0, 55.0, 90.0,
];

/// All points of the table, points between, around the axes and beyond both
/// ends, and what is refused.
fn cones(random: &mut SplitMix64) -> Vec<Call> {
    let mut list = Vec::new();
    for freq in CONE_MHZ {
        for elev in CONE_DEGREES {
            list.push(cone(freq, elev));
            list.push(cone(freq + random.between(0.0, 2.0), elev + random.between(0.0, 5.0)));
        }
        list.push(cone(freq.next_up(), 22.5));
        list.push(cone(freq.next_down(), 22.5));
    }
    for elev in CONE_DEGREES {
        list.push(cone(9.5, elev.next_up()));
        list.push(cone(9.5, elev.next_down()));
    }
    for freq in [-1000.0, -1.0, -0.0, 1.0, 1.999, 30.001, 31.0, 100.0, 1000.0, 11.5] {
        for elev in [-1000.0, -5.0, -0.0, 2.5, 45.0, 72.5, 90.001, 100.0, 1000.0] {
            list.push(cone(freq, elev));
        }
    }
    for _ in 0..RANDOM_CONES {
        let freq = random.between(-5.0, 40.0);
        list.push(cone(freq, random.between(-10.0, 100.0)));
    }
    for x in OUTSIDE {
        list.push(cone(x, 10.0));
        list.push(cone(10.0, x));
        list.push(cone(x, f32::NAN));
    }
    list
}
