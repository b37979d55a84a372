//! A card's table filled by the port beside the same cells by the oracle's
//! `iongain`, in one run. The forms alternate and the best of many fills
//! counts. Built and run by `oracle/bench/run deck`.

use oracle::deck::{fill, Card, COLUMNS, ROWS, TABLE_LENGTH};
use oracle::ioncap::IoncapState;
use std::hint::black_box;
use std::time::Instant;

extern "C" {
    fn deck_fill(
        kop: i32,
        first: i32,
        last: i32,
        toaz: f32,
        slots: *const f32,
        slots_len: usize,
        model: i32,
        height: f32,
        table: *mut f32,
        table_len: usize,
    ) -> u32;
}

/// Fills of all rows; cards with fewer are filled as much more often.
const ROUNDS: usize = 400;

/// First and last MHz: all rows, and one, where the work of a card shows.
const RANGES: [(i32, i32); 2] = [(1, ROWS as i32), (7, 7)];

fn port(card: &Card, table: &mut [f32]) {
    // Sound: the slices' own pointers and lengths.
    let verdict = unsafe {
        deck_fill(
            card.kop,
            card.first,
            card.last,
            card.toaz,
            card.slots.as_ptr(),
            card.slots.len(),
            card.model as i32,
            0.0,
            table.as_mut_ptr(),
            table.len(),
        )
    };
    assert_eq!(verdict, 0);
}

#[inline(never)]
fn rust(card: &Card, table: &mut [f32]) {
    table.fill(0.0);
    fill(&mut IoncapState::default(), card, table);
}

fn nanoseconds(mut work: impl FnMut()) -> f64 {
    let start = Instant::now();
    work();
    start.elapsed().as_nanos() as f64
}

/// Stations of each type: dielectric 4, conductivity 0.01.
fn cards(model: usize, (first, last): (i32, i32)) -> Vec<Card> {
    let card = |kop, values: &[f32]| {
        let mut slots = [0.0; 20];
        slots[2] = 4.0;
        slots[3] = 0.01;
        slots[5..5 + values.len()].copy_from_slice(values);
        Card {
            kop,
            first,
            last,
            model,
            toaz: 12.5,
            slots,
        }
    };
    vec![
        card(1, &[70.0, 115.0, 18.0]),
        card(2, &[-0.25, 2.0]),
        card(3, &[-0.5, 12.0, 0.0]),
        card(4, &[-0.48, 15.0, 5.0]),
        card(5, &[3.0]),
        card(6, &[4.0, -0.5, 10.0, 4.0, -0.5, -0.5, -0.25]),
        card(7, &[20.0, 120.0, 18.0, 4.0]),
        card(8, &[15.0, 12.0]),
        card(9, &[20.0, 120.0, 18.0, 4.0]),
        card(10, &[70.0, 115.0, 18.0, 3.0, 15.0]),
    ]
}

fn differ(a: &[f32], b: &[f32]) -> usize {
    let same = |x: f32, y: f32| x.to_bits() == y.to_bits() || x.is_nan() && y.is_nan();
    a.iter().zip(b).filter(|(x, y)| !same(**x, **y)).count()
}

/// Times a card and prints its line.
fn measure(card: &Card, model: &str) {
    let rows = (card.last - card.first + 1) as usize;
    let cells = (rows * COLUMNS) as f64;
    let mut ours = vec![1.0; TABLE_LENGTH];
    let mut theirs = vec![1.0; TABLE_LENGTH];
    let mut best = (f64::MAX, f64::MAX);
    for _ in 0..ROUNDS * ROWS / rows {
        let a = nanoseconds(|| port(black_box(card), black_box(&mut ours)));
        let b = nanoseconds(|| rust(black_box(card), black_box(&mut theirs)));
        best = (best.0.min(a), best.1.min(b));
    }
    println!(
        "| {} | {model} | {rows} | {:.1} | {:.1} | {:.2} | {} |",
        card.kop,
        best.0 / cells,
        best.1 / cells,
        best.0 / best.1,
        differ(&ours, &theirs)
    );
}

fn main() {
    println!(
        "| type | model | rows | port ns a cell | Rust ns a cell | ratio | numbers that differ |"
    );
    println!("|---|---|---|---|---|---|---|");
    for range in RANGES {
        for (model, name) in ["Compatible", "Corrected"].into_iter().enumerate() {
            for card in cards(model, range) {
                measure(&card, name);
            }
        }
    }
}
