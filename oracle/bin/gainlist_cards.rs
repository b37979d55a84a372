//! `gainlist_cards N [damaged]`: N random lines for `gainlist`, the same on
//! every run.

use oracle::gainlist_decks::{write_cards, write_damaged};
use std::io::{self, BufWriter};
use std::process::exit;

fn main() {
    let words: Vec<String> = std::env::args().skip(1).collect();
    let words: Vec<&str> = words.iter().map(String::as_str).collect();
    let (count, damaged) = match words[..] {
        [count] => (count, false),
        [count, "damaged"] => (count, true),
        _ => stop("usage: gainlist_cards N [damaged]"),
    };
    let Ok(count) = count.parse() else {
        stop("gainlist_cards: N is a whole number");
    };
    let mut out = BufWriter::new(io::stdout().lock());
    let written = match damaged {
        true => write_damaged(&mut out, count),
        false => write_cards(&mut out, count),
    };
    if let Err(error) = written {
        stop(&format!("gainlist_cards: {error}"));
    }
}

fn stop(message: &str) -> ! {
    eprintln!("{message}");
    exit(2);
}
