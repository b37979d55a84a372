//! `lists NAME`: prints a fixed list, the same on every run. README.md names
//! the lists and gives the form of a line.

use oracle::deck::COLUMNS;
use oracle::elementary::{bits, FUNCTIONS};
use oracle::gain_calls::DEGREE;
use oracle::gainlist_decks;
use oracle::lists_antenna;
use oracle::lists_deck;
use oracle::lists_gains;
use oracle::lists_integrals;
use oracle::lists_output;
use oracle::lists_parameters;
use oracle::lists_wrong;
use oracle::splitmix::SplitMix64;
use oracle::standins::StandIn;
use std::f64::consts::FRAC_PI_2;
use std::io::{self, BufWriter, Write};
use std::process::exit;

const SEED: u64 = 0x1983_0115;

/// Random arguments for each function: bit patterns, then moderate sizes.
const RANDOM_PATTERNS: usize = 40;
const RANDOM_MODERATE: usize = 40;

fn main() {
    let words: Vec<String> = std::env::args().skip(1).collect();
    let [name] = words.as_slice() else {
        stop("usage: lists NAME");
    };
    let out = &mut BufWriter::new(io::stdout().lock());
    let written = match name.strip_prefix("wrong_") {
        None => write(out, name),
        Some(list) => {
            let mut lines = Vec::new();
            write(&mut lines, list).and_then(|()| lists_wrong::write(out, list, &lines))
        }
    };
    if let Err(error) = written {
        stop(&format!("lists: {error}"));
    }
}

fn write(out: &mut impl Write, name: &str) -> io::Result<()> {
    match name {
        "elementary" => elementary(out),
        "antenna" => lists_antenna::write(out),
        "column_sines" => column_sines(out),
        "deck" => lists_deck::write(out),
        "gainlist" => gainlist_decks::write_list(out),
        "gains" => lists_gains::write(out),
        "integrals" => lists_integrals::write(out),
        "output" => lists_output::write(out),
        "parameters" => lists_parameters::write(out),
        _ => stop("lists: README.md names the lists"),
    }
}

fn stop(message: &str) -> ! {
    eprintln!("{message}");
    exit(2);
}

fn elementary(out: &mut impl Write) -> io::Result<()> {
    let mut random = SplitMix64::new(SEED);
    for (number, function) in FUNCTIONS.iter().enumerate() {
        for x in arguments(number, &mut random) {
            writeln!(out, "{number:02} {:08x} {:08x}", bits(x), function(x))?;
        }
    }
    out.flush()
}

/// The sines of a table's columns, in the fewest decimals that give their bits.
fn column_sines(out: &mut impl Write) -> io::Result<()> {
    for degrees in 0..COLUMNS {
        writeln!(out, "{:?}", (degrees as f32 * DEGREE).sin_())?;
    }
    out.flush()
}

/// A function's arguments: common edges, its own edges, random ones.
fn arguments(number: usize, random: &mut SplitMix64) -> Vec<f32> {
    let mut list = common_edges();
    list.extend(own_edges(number));
    for _ in 0..RANDOM_PATTERNS {
        list.push(f32::from_bits(random.next_u32()));
    }
    for _ in 0..RANDOM_MODERATE {
        list.push(moderate(number, random));
    }
    without_repeats(list)
}

/// Each bit pattern once, where it first stood.
fn without_repeats(list: Vec<f32>) -> Vec<f32> {
    let mut seen = std::collections::HashSet::new();
    list.into_iter().filter(|x| seen.insert(bits(*x))).collect()
}

/// Zeros, the ends of the subnormal and normal ranges, infinities and NaN.
fn common_edges() -> Vec<f32> {
    let positive = [
        0x0000_0000, // zero
        0x0000_0001, // least subnormal
        0x0000_0002,
        0x007f_fffe,
        0x007f_ffff, // largest subnormal
        0x0080_0000, // smallest normal
        0x0080_0001,
        0x3f7f_ffff, // around 1
        0x3f80_0000,
        0x3f80_0001,
        0x7f7f_fffe,
        0x7f7f_ffff, // largest finite
        0x7f80_0000, // infinity
    ];
    let mut list = both_signs(positive.map(f32::from_bits).to_vec());
    list.push(f32::NAN);
    list
}

fn own_edges(number: usize) -> Vec<f32> {
    match number {
        1 => both_signs(around(&[0.00001])),
        2 => cut_edges(),
        3 => both_signs(around(&powers_of_two(&[64, -63, -74, -75]))),
        4 => both_signs(around(&powers_of_two(&[32, -31, -32, -37, -38]))),
        5..=9 => turn_edges(),
        10 => atan_edges(),
        11 => both_signs(asin_edges()),
        12 => ln_edges(),
        13 => log10_edges(),
        14 => root_edges(),
        _ => Vec::new(),
    }
}

/// A random argument of the size the function meets in gain calls.
fn moderate(number: usize, random: &mut SplitMix64) -> f32 {
    let reach = [10.0, 1_000.0, 200_000.0][(random.next_u32() % 3) as usize];
    match number {
        11 => random.between(-1.0, 1.0),
        12..=14 => random.between(0.0, reach),
        _ => random.between(-reach, reach),
    }
}

/// Each value with its predecessor and successor.
fn around(values: &[f32]) -> Vec<f32> {
    values
        .iter()
        .flat_map(|x| [x.next_down(), *x, x.next_up()])
        .collect()
}

fn both_signs(list: Vec<f32>) -> Vec<f32> {
    list.into_iter().flat_map(|x| [x, -x]).collect()
}

fn powers_of_two(exponents: &[i32]) -> Vec<f32> {
    exponents.iter().map(|e| scaled(1.0, *e)).collect()
}

/// `x * 2^e`, to the nearest f32.
fn scaled(x: f32, e: i32) -> f32 {
    (f64::from(x) * 2f64.powi(e)) as f32
}

fn cut_edges() -> Vec<f32> {
    let mut places = vec![0.5, 1.5, 2.0, 10.0, 11.0];
    places.extend(powers_of_two(&[22, 23, 24, 30, 31, 32]));
    both_signs(around(&places))
}

/// Sine and cosine: quarter turns, the places where the number of quarter
/// turns changes, and the limit.
fn turn_edges() -> Vec<f32> {
    const LARGE: [i32; 6] = [101, 4_096, 65_535, 262_142, 524_289, 667_543];
    let mut places = vec![1_048_576.0];
    for n in (1..=12).chain(LARGE) {
        places.push((f64::from(n) * FRAC_PI_2) as f32);
        places.push(first_with_turns(n));
    }
    let mut list = both_signs(around(&places));
    // Here the cosine shows a product not taken from left to right.
    list.extend([0x3d32_1ffb, 0x3e21_7057, 0x3e6c_87ef, 0x3e96_43ea].map(f32::from_bits));
    list
}

/// The least argument taken to be `n` quarter turns or more.
fn first_with_turns(n: i32) -> f32 {
    let reaches = |pattern: u32| (f32::from_bits(pattern) * 0.63661975 + 0.5) as i32 >= n;
    let (mut below, mut at) = (0, 1_048_576f32.to_bits());
    while at - below > 1 {
        let middle = below + (at - below) / 2;
        if reaches(middle) {
            at = middle;
        } else {
            below = middle;
        }
    }
    f32::from_bits(at)
}

fn atan_edges() -> Vec<f32> {
    let mut list = around(&[0.41421357, 2.4142135, 0.5, 2.0, 16_777_216.0]);
    // Here a product not taken from left to right shows.
    list.extend([0x3c06_28e2, 0x3e91_0481, 0x3ef1_bc20, 0x3fd6_9c9b].map(f32::from_bits));
    both_signs(list)
}

/// The arguments whose tangents lie at the arctangent's thresholds, and 1.
fn asin_edges() -> Vec<f32> {
    let mut list = around(&[0.5, 0.70710677, 0.99]);
    for threshold in [0.38268343f32, 0.9238795] {
        let nearby = threshold.to_bits() - 4..=threshold.to_bits() + 4;
        list.extend(nearby.map(f32::from_bits));
    }
    list.extend((1..=6).map(|step| f32::from_bits(1f32.to_bits() - step)));
    list
}

/// Where the exponent changes, at many powers of two and among subnormals.
fn ln_edges() -> Vec<f32> {
    let exponents = [
        -148, -140, -127, -126, -125, -60, -23, -2, -1, 0, 1, 2, 24, 60, 126, 127,
    ];
    let places: Vec<f32> = exponents
        .iter()
        .flat_map(|e| [scaled(0.70710677, *e), scaled(1.0, *e)])
        .collect();
    around(&places)
}

fn log10_edges() -> Vec<f32> {
    let mut list = ln_edges();
    list.extend(around(&[0.00001, 0.001, 0.1, 10.0, 100.0, 1.0e10]));
    list
}

fn root_edges() -> Vec<f32> {
    let roots = [2.0f32, 3.0, 5.0, 7.0, 10.0, 1_000.0, 4_095.0, 0.75, 0.0625];
    let mut list = around(&roots.map(|root| root * root));
    list.extend(around(&powers_of_two(&[-147, -126, -75, 1, 63, 127])));
    for d in [-12, -10, -8, -6, -4, -2, 2, 4, 6, 8, 10, 12] {
        list.extend(near_ties(d));
    }
    list
}

/// Arguments whose exact root lies as near as can be to the middle of two f32.
///
/// The middle is `k + 1/2` for a 24-bit `k`, its square `k*(k+1) + 1/4`. An
/// argument `y * 2^s` is near it where `k*(k+1) = y * 2^s + d` for a small `d`.
fn near_ties(d: i64) -> Vec<f32> {
    let mut list = Vec::new();
    for s in [23, 24] {
        for lowest_bit in [0, 1] {
            // Bit 23 of k is free where s is 23, and k needs it.
            let k = lifted(lowest_bit, d, s) + (1 << 24) - (1 << s);
            let y = (k * (k + 1) - d) >> s;
            if (1 << 23..1 << 24).contains(&y) {
                list.push(scaled(y as f32, s - 48));
            }
        }
    }
    list
}

/// The `k` below `2^s` of the given lowest bit for which `2^s` divides
/// `k*(k+1) - d`, `d` even: each further bit of `k` settles one more bit.
fn lifted(lowest_bit: i64, d: i64, s: i32) -> i64 {
    let mut k = lowest_bit;
    for place in 1..s {
        if (k * (k + 1) - d) >> place & 1 == 1 {
            k |= 1 << place;
        }
    }
    k
}
