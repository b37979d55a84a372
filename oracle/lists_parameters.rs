//! The list `parameters`: `ioninit`, a length's two roles, the curtain's
//! threshold. `ioninit` and the model are the derived upstream functions.
//! The lengths stand inline in upstream's `iongain2`, so their formulas are
//! repeated here as it writes them.

// The decimals are upstream's own.
#![allow(clippy::approx_constant, clippy::excessive_precision)]

use crate::elementary::bits;
use crate::ioncap::ioninit;
use crate::model::{Fixes, Model};
use crate::splitmix::SplitMix64;
use crate::standins::StandIn;
use std::io::{self, Write};

const SEED: u64 = 0x1983_0115;

/// Of a line: a type, 20 slots and the nine numbers of `ioninit`'s answer.
const NUMBERS: usize = 30;

/// Random cards for each type; random numbers of each sign at each wave.
const RANDOM_CARDS: usize = 12;
const RANDOM_LENGTHS: usize = 5;

pub fn write(out: &mut impl Write) -> io::Result<()> {
    let mut random = SplitMix64::new(SEED);
    for kop in types() {
        for parm in cards(&mut random) {
            ioninit_line(out, kop, &parm)?;
        }
    }
    for wave in waves() {
        for number in numbers(&mut random) {
            length_line(out, number, wave)?;
        }
    }
    for (number, model) in models().into_iter().enumerate() {
        let threshold = near_vertical(model);
        write_line(out, 't', &[number as u32, bits(threshold)])?;
    }
    out.flush()
}

/// The numbers, with zeros after them.
fn write_line(out: &mut impl Write, kind: char, numbers: &[u32]) -> io::Result<()> {
    write!(out, "{kind}")?;
    for k in 0..NUMBERS {
        write!(out, " {:08x}", numbers.get(k).unwrap_or(&0))?;
    }
    writeln!(out)
}

/// The ten types, and others.
fn types() -> Vec<i32> {
    let others = [0, 11, -1, -5, 48, 1_000, i32::MAX, i32::MIN, i32::MIN + 1];
    (1..=10).chain(others).collect()
}

/// Slots all different, edges in each slot in turn, then random slots.
fn cards(random: &mut SplitMix64) -> Vec<[f32; 20]> {
    let edges = edges();
    let mut list = vec![std::array::from_fn(|slot| (slot + 1) as f32)];
    for first in 0..3 {
        list.push(std::array::from_fn(|slot| {
            edges[(slot * 7 + first * 5) % edges.len()]
        }));
    }
    for _ in 0..RANDOM_CARDS / 2 {
        list.push(std::array::from_fn(|_| f32::from_bits(random.next_u32())));
        list.push(std::array::from_fn(|_| random.between(-1_000.0, 1_000.0)));
    }
    list
}

fn edges() -> Vec<f32> {
    let patterns = [
        0x0000_0000, // zero
        0x8000_0000, // minus zero
        0x0000_0001, // least subnormal
        0x8000_0001,
        0x007f_ffff, // largest subnormal
        0x0080_0000, // smallest normal
        0x8080_0000,
        0x3e80_0000, // a quarter
        0xbe80_0000,
        0x3f80_0000, // one
        0xbf80_0000,
        0x447a_0000, // 1000
        0xc47a_0000,
        0x7f7f_ffff, // largest finite
        0xff7f_ffff,
        0x7f80_0000, // infinities
        0xff80_0000,
        0x7fc0_0000, // NaN
    ];
    patterns.map(f32::from_bits).to_vec()
}

fn ioninit_line(out: &mut impl Write, kop: i32, parm: &[f32; 20]) -> io::Result<()> {
    let p = ioninit(kop, parm);
    let answer = [p.asig, p.aeps, p.and, p.anl, p.anh];
    let mut numbers = vec![kop as u32];
    numbers.extend(parm.iter().chain(&answer).chain(&p.aex).map(|x| bits(*x)));
    write_line(out, 'i', &numbers)
}

/// The waves of whole and other MHz in the range of a call.
fn waves() -> Vec<f32> {
    let whole = (1..=30).map(|mhz| 299.7925 / mhz as f32);
    let other = [1.5, 2.25, 3.7, 7.1, 14.2, 21.3, 28.9, 29.999998];
    whole.chain(other.map(|mhz: f32| 299.7925 / mhz)).collect()
}

/// Edges, lengths on which dividing first shows, and random ones.
fn numbers(random: &mut SplitMix64) -> Vec<f32> {
    let mut list = vec![0.0, -0.0, 2.5, -0.25, 100.0];
    list.push(edges()[(random.next_u32() % 18) as usize]);
    list.push(f32::from_bits(random.next_u32()));
    for _ in 0..RANDOM_LENGTHS {
        list.push(random.between(0.0, 1_000.0));
        list.push(random.between(-10.0, 0.0));
    }
    list
}

fn length_line(out: &mut impl Write, number: f32, wave: f32) -> io::Result<()> {
    let (fac, el1) = leg(number, wave);
    let (hwave, h1) = height(number, wave);
    let (a, x) = monopole(number, wave);
    write_line(
        out,
        'l',
        &[number, wave, fac, el1, hwave, h1, a, x].map(bits),
    )
}

/// `iongain2`'s `fac` and `el1`.
fn leg(el: f32, wave: f32) -> (f32, f32) {
    if el < 0.0 {
        let el1 = el.abs_();
        (3.1416 * el1, el1)
    } else {
        (3.1416 * el / wave, el / wave)
    }
}

/// `iongain2`'s `hwave` and `h1`.
fn height(h: f32, wave: f32) -> (f32, f32) {
    if h > 0.0 {
        (6.2832 * h / wave, h / wave)
    } else {
        let h1 = h.abs_();
        (6.2832 * h1, h1)
    }
}

/// The `a` and `x` of its types 2 and 5.
fn monopole(h: f32, wave: f32) -> (f32, f32) {
    if h > 0.0 {
        (6.283_185 * h / wave, h / wave)
    } else {
        let h1 = h.abs_();
        (h1 * 6.283_185, h1)
    }
}

/// By number: compatible, corrected, measuring without and with the fix.
pub fn models() -> [Model; 4] {
    let measuring = |curtain_elevation| {
        Model::Measuring(Fixes {
            curtain_elevation,
            ..Fixes::default()
        })
    };
    [
        Model::Compatible,
        Model::Corrected,
        measuring(false),
        measuring(true),
    ]
}

/// `iongain2`'s threshold for the curtain.
fn near_vertical(model: Model) -> f32 {
    if model.curtain_elevation_threshold() {
        0.0001
    } else {
        1.0
    }
}
