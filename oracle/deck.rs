//! Cards run on a deck: the refusals are judged here, an accepted card's cells
//! are the derived upstream `ioninit` and `iongain`, called in document 01
//! section 8's order.

use crate::gain_calls::{input_refusal, outside, DEGREE};
use crate::ioncap::{iongain, ioninit, IoncapState};
use crate::lists_parameters::models;

pub const ROWS: usize = 30;
pub const COLUMNS: usize = 91;
pub const TABLE_LENGTH: usize = ROWS * COLUMNS + ROWS;

/// The model is its number in the list `parameters`.
#[derive(Clone, Copy)]
pub struct Card {
    pub kop: i32,
    pub first: i32,
    pub last: i32,
    pub model: usize,
    pub toaz: f32,
    pub slots: [f32; 20],
}

/// Upstream's state is the carried height.
#[derive(Default)]
pub struct Deck {
    pub state: IoncapState,
    pub accepted: u32,
    pub refused: u32,
}

/// Runs a card, or a malformed line, with its table. The answer is the verdict.
pub fn run(deck: &mut Deck, card: Option<&Card>, table: &mut [f32]) -> u32 {
    let verdict = refusal(deck, card, table.len());
    if table.len() == TABLE_LENGTH {
        table.fill(0.0);
    }
    match card {
        Some(card) if verdict == 0 => {
            fill(&mut deck.state, card, table);
            deck.accepted += 1;
        }
        _ if verdict != 10 => deck.refused += 1,
        _ => (),
    }
    verdict
}

/// The rows of an accepted card, by rising MHz, each with its efficiency: the
/// one of the 90-degree call, the row's last.
pub fn fill(state: &mut IoncapState, card: &Card, table: &mut [f32]) {
    let p = ioninit(card.kop, &card.slots);
    let model = models()[card.model];
    for mhz in card.first..=card.last {
        let row = mhz as usize - 1;
        let fmc = mhz as f32;
        for degrees in 0..COLUMNS {
            let delta = degrees as f32 * DEGREE;
            let (gain, efficiency) = iongain(state, card.kop, card.toaz, &p, delta, fmc, model);
            table[row * COLUMNS + degrees] = gain;
            table[ROWS * COLUMNS + row] = efficiency;
        }
    }
}

/// A row's gains, by rising degrees, and its efficiency.
pub fn row(table: &[f32], mhz: i32) -> (&[f32], f32) {
    let row = mhz as usize - 1;
    let gains = &table[row * COLUMNS..][..COLUMNS];
    (gains, table[ROWS * COLUMNS + row])
}

/// Document 01's refusals in their order: 10, 9, 7, 8, then 1 to 5.
fn refusal(deck: &Deck, card: Option<&Card>, table_length: usize) -> u32 {
    if deck.accepted + deck.refused >= 1_000_000 {
        10
    } else if !deck.state.x.is_finite() {
        9
    } else if table_length != TABLE_LENGTH {
        7
    } else {
        card.map_or(8, card_refusal)
    }
}

fn card_refusal(card: &Card) -> u32 {
    let Card {
        kop,
        first,
        last,
        toaz,
        slots,
        ..
    } = *card;
    let p = ioninit(kop, &slots);
    let whole = |n: i32| n.unsigned_abs() > 1_000;
    let any = outside(&toaz) || slots.iter().any(outside) || whole(first) || whole(last);
    let mhz_outside = first < 1 || last > 30 || first > last;
    input_refusal(kop, any, p.asig, mhz_outside, p.and)
}
