//! Each elementary function of the port beside the oracle's, in one run.
//!
//! Both fill a slice with the bits of their answers; the forms alternate and
//! the best of many fills counts. Built and run by `oracle/bench/run`.

use oracle::elementary::{Elementary, FUNCTIONS};
use oracle::splitmix::SplitMix64;
use std::hint::black_box;
use std::time::Instant;

extern "C" {
    fn elementary_map(
        function: u32,
        xs: *const f32,
        xs_len: usize,
        out: *mut u32,
        out_len: usize,
    ) -> u32;
}

const COUNT: usize = 20_000;
const ROUNDS: usize = 300;

const NAMES: [&str; 15] = [
    "abs",
    "max(0.00001)",
    "cut",
    "powi(2)",
    "powi(4)",
    "sin",
    "cos",
    "both.sin",
    "both.cos",
    "tan",
    "atan",
    "asin",
    "ln",
    "log10",
    "sqrt",
];

fn port(function: u32, xs: &[f32], out: &mut [u32]) {
    // Sound: the slices' own pointers and lengths.
    let answer =
        unsafe { elementary_map(function, xs.as_ptr(), xs.len(), out.as_mut_ptr(), out.len()) };
    assert_eq!(answer, 0);
}

/// Not inlined, and so no more able to see the arguments than the port is.
#[inline(never)]
fn rust(function: Elementary, xs: &[f32], out: &mut [u32]) {
    for (x, slot) in xs.iter().zip(out) {
        *slot = function(*x);
    }
}

fn nanoseconds(mut fill: impl FnMut()) -> f64 {
    let start = Instant::now();
    fill();
    start.elapsed().as_nanos() as f64 / COUNT as f64
}

/// The best time of each form, and how many answers differ.
fn compare(function: usize, xs: &[f32]) -> (f64, f64, usize) {
    let mut ours = vec![0; COUNT];
    let mut theirs = vec![0; COUNT];
    let mut best = (f64::MAX, f64::MAX);
    for _ in 0..ROUNDS {
        let a = nanoseconds(|| {
            port(
                black_box(function as u32),
                black_box(xs),
                black_box(&mut ours),
            )
        });
        let b = nanoseconds(|| {
            rust(
                black_box(FUNCTIONS[function]),
                black_box(xs),
                black_box(&mut theirs),
            )
        });
        best = (best.0.min(a), best.1.min(b));
    }
    let differ = ours.iter().zip(&theirs).filter(|(a, b)| a != b).count();
    (best.0, best.1, differ)
}

/// The arguments of a function, named.
fn arguments(function: usize) -> Vec<(&'static str, Vec<f32>)> {
    let mut random = SplitMix64::new(1);
    let mut unit = || random.next_u32() as f32 / 4294967296.0;
    let mut make =
        |f: &dyn Fn(f32, usize) -> f32| (0..COUNT).map(|i| f(unit(), i)).collect::<Vec<f32>>();
    match function {
        11 => vec![("-1 to 1", make(&|u, _| 2.0 * u - 1.0))],
        12..=14 => vec![
            ("0 to 1000", make(&|u, _| 1000.0 * u)),
            (
                "all exponents",
                make(&|u, i| f32::from_bits((u * 2139095040.0) as u32 ^ i as u32)),
            ),
        ],
        _ => vec![
            ("-20 to 20", make(&|u, _| 40.0 * u - 20.0)),
            ("a row", make(&|_, i| (i % 91) as f32 * 0.017453293 * 6.0)),
        ],
    }
}

fn main() {
    println!("| function | arguments | port ns | Rust ns | ratio | differ |");
    println!("|---|---|---|---|---|---|");
    for function in 0..FUNCTIONS.len() {
        for (name, xs) in arguments(function) {
            let (ours, theirs, differ) = compare(function, &xs);
            println!(
                "| {} | {name} | {ours:.2} | {theirs:.2} | {:.2} | {differ} |",
                NAMES[function],
                ours / theirs
            );
        }
    }
}
