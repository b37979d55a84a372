//! The list `deck`: entries run in turn on one deck. README.md gives the form
//! of a line.

use crate::deck::{row, run, Card, Deck, COLUMNS, TABLE_LENGTH};
use crate::elementary::bits;
use crate::gain_calls::one_of;
use crate::lists_parameters::models;
use crate::splitmix::SplitMix64;
use std::io::{self, Write};

const SEED: u64 = 0x1983_0115;

/// Numbers on a line: a row and its efficiency.
const NUMBERS: usize = COLUMNS + 1;

/// Random cards of each type.
const RANDOM_CARDS: usize = 3;

/// A card, or a malformed line, and the length of the table it brings.
#[derive(Clone, Copy)]
struct Entry {
    card: Option<Card>,
    length: usize,
}

pub fn write(out: &mut impl Write) -> io::Result<()> {
    let mut deck = Deck::default();
    for entry in entries() {
        write_entry(out, &mut deck, &entry)?;
    }
    out.flush()
}

fn write_entry(out: &mut impl Write, deck: &mut Deck, entry: &Entry) -> io::Result<()> {
    let mut table = vec![0.0; entry.length];
    let verdict = run(deck, entry.card.as_ref(), &mut table);
    writeln!(out, "{}", entry_line(deck, entry, verdict))?;
    if let (0, Some(card)) = (verdict, &entry.card) {
        for mhz in card.first..=card.last {
            writeln!(out, "{}", row_line(&table, mhz))?;
        }
    }
    Ok(())
}

/// `c` and the card, or `m`; then the table's length, the verdict and the deck
/// that is left.
fn entry_line(deck: &Deck, entry: &Entry, verdict: u32) -> String {
    let mut words = [0; NUMBERS];
    if let Some(card) = &entry.card {
        let whole = [card.kop, card.first, card.last, card.model as i32];
        words[..4].copy_from_slice(&whole.map(|n| n as u32));
        words[4] = bits(card.toaz);
        words[5..25].copy_from_slice(&card.slots.map(bits));
    }
    words[25] = entry.length as u32;
    words[26] = verdict;
    words[27] = bits(deck.state.x);
    words[28] = deck.accepted;
    words[29] = deck.refused;
    line(if entry.card.is_some() { 'c' } else { 'm' }, &words)
}

/// `r`, the row's gains and its efficiency.
fn row_line(table: &[f32], mhz: i32) -> String {
    let (gains, efficiency) = row(table, mhz);
    let mut words = [bits(efficiency); NUMBERS];
    for (word, gain) in words.iter_mut().zip(gains) {
        *word = bits(*gain);
    }
    line('r', &words)
}

fn line(kind: char, words: &[u32; NUMBERS]) -> String {
    let numbers: String = words.iter().map(|word| format!(" {word:08x}")).collect();
    format!("{kind}{numbers}")
}

fn entries() -> Vec<Entry> {
    let mut list = listing();
    list.extend(whole_ranges());
    list.extend(types_and_monopoles());
    list.extend(refusals());
    list.extend(curtains());
    list.extend(edges());
    list.extend(random_cards());
    list
}

/// An entry with this card, dielectric 4, conductivity 0.01, `Compatible`; the
/// values are slots 6 on.
fn card(kop: i32, first: i32, last: i32, toaz: f32, values: &[f32]) -> Entry {
    let mut slots = [0.0; 20];
    slots[2] = 4.0;
    slots[3] = 0.01;
    slots[5..5 + values.len()].copy_from_slice(values);
    whole_table(Some(Card {
        kop,
        first,
        last,
        model: 0,
        toaz,
        slots,
    }))
}

fn whole_table(card: Option<Card>) -> Entry {
    Entry {
        card,
        length: TABLE_LENGTH,
    }
}

/// The entry with its card changed.
fn with(entry: Entry, change: impl Fn(&mut Card)) -> Entry {
    let mut card = entry.card;
    card.iter_mut().for_each(change);
    Entry { card, ..entry }
}

/// An antenna of each type, over some rows.
fn of_type(kop: i32, first: i32, last: i32) -> Entry {
    let values: &[f32] = match kop {
        1 => &[70.0, 115.0, 18.0],
        2 => &[-0.25, 2.0],
        3 => &[-0.5, 12.0, 0.0],
        4 => &[-0.48, 15.0, 5.0],
        5 => &[3.0],
        6 => &[4.0, -0.5, 10.0, 4.0, -0.5, -0.5, -0.25],
        8 => &[15.0, 12.0],
        10 => &[70.0, 115.0, 18.0, 3.0, 15.0],
        _ => &[20.0, 120.0, 18.0, 4.0],
    };
    card(kop, first, last, 12.5, values)
}

/// Document 01's two cards, then both again: the monopole comes after another
/// type.
fn listing() -> Vec<Entry> {
    let cards = [
        card(2, 2, 3, 0.0, &[-0.5]),
        card(1, 2, 3, 0.0, &[0.0, 100.0, 20.0]),
    ];
    [cards, cards].concat()
}

/// 1 to 30 MHz and its ends, each followed by one row or two.
fn whole_ranges() -> Vec<Entry> {
    vec![
        of_type(5, 1, 30),
        of_type(2, 29, 30),
        of_type(1, 1, 30),
        of_type(5, 30, 30),
        with(of_type(6, 1, 30), |card| card.model = 1),
        of_type(2, 1, 1),
        of_type(2, 1, 30),
        of_type(3, 1, 30),
        of_type(5, 29, 30),
        of_type(8, 1, 30),
        of_type(2, 30, 30),
    ]
}

/// Each type before a monopole and after one, of either kind of height.
fn types_and_monopoles() -> Vec<Entry> {
    let mut list = Vec::new();
    for kop in 1..=10 {
        list.push(card(2, kop, kop + 1, 0.0, &[10.0]));
        list.push(of_type(kop, 2 * kop + 3, 2 * kop + 5));
        list.push(card(2, 31 - kop, 31 - kop, 0.0, &[-0.03 * kop as f32, 1.0]));
    }
    list
}

/// Each fault next to what passes, faults at once in the order of the
/// refusals, and monopoles in between.
fn refusals() -> Vec<Entry> {
    let good = of_type(6, 7, 8);
    let malformed = whole_table(None);
    let set = |change: fn(&mut Card)| with(good, change);
    let cut = |entry, length| Entry { length, ..entry };
    let groups = [
        vec![malformed, malformed],
        vec![
            cut(good, 0),
            cut(malformed, TABLE_LENGTH - 1),
            cut(set(|c| c.kop = 0), TABLE_LENGTH - 1),
        ],
        vec![
            set(|c| c.kop = 0),
            set(|c| c.kop = 11),
            set(|c| c.kop = i32::MIN),
        ],
        vec![
            set(|c| c.slots[0] = 1_000.0),
            set(|c| c.slots[0] = 1_000f32.next_up()),
            set(|c| c.slots[19] = f32::NAN),
            set(|c| c.slots[6] = f32::NEG_INFINITY),
            set(|c| c.toaz = -1_000f32.next_up()),
            set(|c| c.first = -1_001),
            set(|c| c.last = 1_001),
            set(|c| c.last = i32::MAX),
        ],
        vec![
            set(|c| c.slots[3] = 0.0),
            set(|c| c.slots[3] = -0.0),
            set(|c| c.slots[3] = -5.0),
            set(|c| c.slots[3] = 1.0e-45),
        ],
        vec![
            set(|c| c.first = 0),
            set(|c| c.last = 31),
            set(|c| c.last = 6),
            set(|c| c.first = -1_000),
            set(|c| c.last = 1_000),
        ],
        vec![
            set(|c| c.slots[5] = 64.0),
            set(|c| c.slots[5] = 64f32.next_up()),
            with(of_type(1, 7, 8), |c| c.slots[5] = 65.0),
        ],
        at_once(good),
    ];
    let mut list = Vec::new();
    for (place, group) in groups.into_iter().enumerate() {
        list.push(card(2, 3, 4, 0.0, &[4.0 + place as f32]));
        list.extend(group);
        list.push(card(5, 5, 6, 0.0, &[-0.2]));
    }
    list
}

/// All faults that one card can have, then without the first of them, and so
/// on.
fn at_once(good: Entry) -> Vec<Entry> {
    let faults: [fn(&mut Card); 5] = [
        |c| c.kop = 11,
        |c| c.slots[19] = f32::INFINITY,
        |c| c.slots[3] = 0.0,
        |c| c.last = 31,
        |c| c.slots[5] = 65.0,
    ];
    (0..faults.len())
        .map(|from| with(good, |card| faults[from..].iter().for_each(|set| set(card))))
        .collect()
}

/// 8, 10 and 12 elements per bay with each model.
fn curtains() -> Vec<Entry> {
    let mut list = Vec::new();
    for model in 0..models().len() {
        for elements in [8.0, 10.0, 12.0] {
            list.push(with(of_type(6, 14, 14), |card| {
                card.model = model;
                card.slots[8] = elements;
            }));
        }
    }
    list
}

/// Numbers that upstream answers oddly to, each before a card whose ground line
/// takes the height left (type 5: its slot 6 is a gain).
fn edges() -> Vec<Entry> {
    let no_resistance = f32::from_bits(0xbd62_991a);
    let bays = &[4.0, -0.5, 10.0, 4.0, -0.5, -0.5, -0.25];
    let ground = |entry, aeps, asig| {
        with(entry, |card| {
            (card.slots[2], card.slots[3], card.model) = (aeps, asig, 1);
        })
    };
    let cards = [
        // The gain is infinite, and on the ground NaN.
        card(3, 9, 10, 30.0, &[no_resistance, 12.0]),
        card(4, 9, 10, 30.0, &[no_resistance, 12.0, 5.0]),
        card(3, 9, 10, 30.0, &[0.0, 12.0]),
        card(4, 9, 10, 30.0, &[-0.0, 12.0, 100.0]),
        // The efficiency is minus infinity; a gain is infinite.
        card(8, 9, 10, 30.0, &[15.0, 0.0]),
        card(8, 1, 1, 30.0, &[15.0, 0.0003]),
        // No height, and around 0.35 wavelengths.
        card(2, 9, 10, 0.0, &[0.0, -40.0]),
        card(2, 9, 10, 0.0, &[-0.35]),
        card(2, 9, 10, 0.0, &[-0.35f32.next_down()]),
        card(2, 9, 10, 0.0, &[-0.35f32.next_up()]),
        // Negative elements, and gains that are NaN: at 2 degrees and anywhere.
        card(6, 9, 10, 30.0, &[4.0, -0.5, 10.0, -2.0, -0.5, -0.5, -0.25]),
        ground(card(6, 10, 10, 10.0, bays), 820.0051, 0.0001),
        ground(card(6, 10, 10, 10.0, bays), 0.0, 1.0e-23),
    ];
    let log_periodic = card(5, 12, 12, 0.0, &[2.0]);
    cards
        .into_iter()
        .flat_map(|edge| [edge, log_periodic])
        .collect()
}

/// A few rows of each type with lengths of either kind, any model.
fn random_cards() -> Vec<Entry> {
    let mut random = SplitMix64::new(SEED);
    let mut list = Vec::new();
    for place in 0..10 * RANDOM_CARDS {
        let kop = 1 + (place * 7 % 10) as i32;
        let first = 1 + (random.next_u32() % 30) as i32;
        let last = (first + (random.next_u32() % 4) as i32).min(30);
        let toaz = random.between(-180.0, 180.0);
        let values: Vec<f32> = (0..7)
            .map(|_| match random.next_u32() % 3 {
                0 => -random.between(0.0, 1.5),
                _ => random.between(0.0, 60.0),
            })
            .collect();
        let asig = one_of(&mut random, &[0.001, 0.01, 5.0]);
        let aeps = random.between(1.0, 81.0);
        let model = random.next_u32() as usize % models().len();
        list.push(with(card(kop, first, last, toaz, &values), |card| {
            card.slots[2] = aeps;
            card.slots[3] = asig;
            card.model = model;
        }));
    }
    list
}
