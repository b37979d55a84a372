//! `sweep FIRST_FUNCTION LAST_FUNCTION FIRST_BLOCK BLOCKS GROUP`: one number
//! over all the results of a function on blocks of 65,536 consecutive bit
//! patterns, for each of the functions.
//!
//! Each printed line covers GROUP blocks: function, first block, number of
//! blocks, fold.

use oracle::elementary::{Elementary, FUNCTIONS};
use std::process::exit;

const BLOCKS_IN_ALL: u32 = 65_536;

/// A prime, so that no multiple of a power of two is lost.
const MODULUS: u64 = 4_294_967_291;

struct Request {
    first_function: usize,
    last_function: usize,
    first: u32,
    blocks: u32,
    group: u32,
}

fn main() {
    let words: Vec<String> = std::env::args().skip(1).collect();
    let Some(request) = read_request(&words) else {
        eprintln!("usage: sweep FIRST_FUNCTION LAST_FUNCTION FIRST_BLOCK BLOCKS GROUP");
        exit(2);
    };
    print_folds(&request);
}

/// `None` unless the words name functions and blocks that exist.
fn read_request(words: &[String]) -> Option<Request> {
    let numbers: Vec<u32> = words
        .iter()
        .map(|word| word.parse().ok())
        .collect::<Option<_>>()?;
    let [first_function, last_function, first, blocks, group] = numbers[..] else {
        return None;
    };
    let fits = last_function < FUNCTIONS.len() as u32
        && first < BLOCKS_IN_ALL
        && (1..=BLOCKS_IN_ALL - first).contains(&blocks)
        && group > 0;
    fits.then_some(Request {
        first_function: first_function as usize,
        last_function: last_function as usize,
        first,
        blocks,
        group,
    })
}

fn print_folds(request: &Request) {
    for function in request.first_function..=request.last_function {
        let end = request.first + request.blocks;
        let mut first = request.first;
        while first < end {
            let blocks = request.group.min(end - first);
            let h = fold(FUNCTIONS[function], first, blocks);
            println!("{function:02} {first:05} {blocks:05} {h:08x}");
            first += blocks;
        }
    }
}

/// Folds the results on `blocks` blocks from `first` on, in rising order.
fn fold(function: Elementary, first: u32, blocks: u32) -> u64 {
    let mut h: u64 = 0;
    for block in first..first + blocks {
        for place in 0..=u16::MAX {
            let pattern = block << 16 | u32::from(place);
            h = (h * 65_599 + u64::from(function(f32::from_bits(pattern)))) % MODULUS;
        }
    }
    h
}
