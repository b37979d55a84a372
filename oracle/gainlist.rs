//! The program `gainlist` of document 01, section 10, over the derived upstream
//! functions.

use crate::deck::{row, run, Card, Deck, TABLE_LENGTH};
use crate::fields::{hundredths_text, read_decimal, read_integer};
use crate::output::i;
use std::io::{self, BufRead, Read, Write};

/// A card's line, without its line feed.
pub const LINE: usize = 119;

/// The slots that the last nine of the ten decimals are.
const SLOTS: [usize; 9] = [3, 4, 6, 7, 8, 9, 10, 11, 12];

pub fn list(input: &mut impl BufRead, out: &mut impl Write) -> io::Result<()> {
    let mut deck = Deck::default();
    let mut table = [0.0; TABLE_LENGTH];
    let mut line = Vec::new();
    let mut place = 0;
    while next_line(input, &mut line)? {
        place += 1;
        list_card(out, &mut deck, place, read_card(&line), &mut table)?;
    }
    let [accepted, refused] = [deck.accepted, deck.refused].map(|n| i(n.into(), 7));
    writeln!(out, "{accepted}{refused}")?;
    out.flush()
}

/// The next line without its line feed, of a long one the first bytes only.
/// False where there is none.
fn next_line(input: &mut impl BufRead, line: &mut Vec<u8>) -> io::Result<bool> {
    line.clear();
    let most = LINE as u64 + 1;
    let read = input.by_ref().take(most).read_until(b'\n', line)?;
    if line.last() == Some(&b'\n') {
        line.pop();
    } else if line.len() > LINE {
        input.skip_until(b'\n')?;
    }
    Ok(read > 0)
}

/// `None` where the line is malformed.
fn read_card(line: &[u8]) -> Option<Card> {
    if line.len() != LINE {
        return None;
    }
    let integer = |k: usize| read_integer(&line[3 * k..][..3]).map(|n| n as i32);
    let decimal = |k: usize| read_decimal(&line[9 + 11 * k..][..11]);
    let mut slots = [0.0; 20];
    for (k, slot) in SLOTS.into_iter().enumerate() {
        slots[slot - 1] = decimal(k + 1)?;
    }
    Some(Card {
        kop: integer(0)?,
        first: integer(1)?,
        last: integer(2)?,
        model: 0,
        toaz: decimal(0)?,
        slots,
    })
}

/// A card's line, and its rows if it is accepted.
fn list_card(
    out: &mut impl Write,
    deck: &mut Deck,
    place: i64,
    card: Option<Card>,
    table: &mut [f32],
) -> io::Result<()> {
    let verdict = run(deck, card.as_ref(), table);
    let kop = card.map_or(0, |card| card.kop);
    let [kop, number] = [kop.into(), verdict.into()].map(|n| i(n, 3));
    writeln!(out, "{}{kop}{number}", i(place, 7))?;
    if let (0, Some(card)) = (verdict, card) {
        for mhz in card.first..=card.last {
            let (gains, efficiency) = row(table, mhz);
            let [efficiency, ground] = [efficiency, gains[0]].map(|x| hundredths_text(x, 7));
            writeln!(out, "{}{efficiency}{ground}", i(mhz.into(), 3))?;
        }
    }
    Ok(())
}
