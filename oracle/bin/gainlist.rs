//! `gainlist`: cards from standard input, their listing to standard output, as
//! document 01, section 10, says.

use oracle::gainlist::list;
use std::io::{self, BufWriter};
use std::process::exit;

fn main() {
    let mut input = io::stdin().lock();
    let mut out = BufWriter::new(io::stdout().lock());
    if let Err(error) = list(&mut input, &mut out) {
        eprintln!("gainlist: {error}");
        exit(2);
    }
}
