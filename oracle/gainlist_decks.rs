//! Decks for `gainlist`: random cards, damaged lines, and the list `gainlist`.
//! README.md says what stands in them.

use crate::gainlist::LINE;
use crate::splitmix::SplitMix64;
use std::io::{self, Write};

const SEED: u64 = 0x1983_0115;

/// As its line has it: type, first and last MHz; off-azimuth, slots 3, 4 and 6
/// to 12.
#[derive(Clone, Copy)]
struct Card {
    whole: [i32; 3],
    decimals: [f64; 10],
}

const KOP: usize = 0;
const FIRST: usize = 1;
const LAST: usize = 2;

const AZIMUTH: usize = 0;
const CONDUCTIVITY: usize = 2;
const SLOT_6: usize = 3;
const SLOT_9: usize = 6;
const SLOT_12: usize = 9;

/// The fields of a line, whole numbers first.
const FIELDS: usize = 13;

/// Dielectric 4, conductivity 0.01; the values are slots 6 on.
fn card(kop: i32, first: i32, last: i32, azimuth: f64, values: &[f64]) -> Card {
    let mut decimals = [0.0; 10];
    decimals[..SLOT_6].copy_from_slice(&[azimuth, 4.0, 0.01]);
    decimals[SLOT_6..][..values.len()].copy_from_slice(values);
    Card {
        whole: [kop, first, last],
        decimals,
    }
}

/// The card's line without a line feed.
fn line(card: &Card) -> Vec<u8> {
    let whole = card.whole.map(|n| format!("{n:>3}")).concat();
    let decimals = card.decimals.map(|x| format!("{x:>11.4}")).concat();
    (whole + &decimals).into_bytes()
}

/// The card's line with another text in one of its fields.
fn with_text(card: &Card, field: usize, text: &[u8]) -> Vec<u8> {
    let (at, width) = match field {
        0..=2 => (3 * field, 3),
        _ => (9 + 11 * (field - 3), 11),
    };
    let mut line = line(card);
    let columns = &mut line[at..at + width];
    columns.fill(b' ');
    columns[width - text.len()..].copy_from_slice(text);
    line
}

fn with(card: Card, change: impl Fn(&mut Card)) -> Card {
    let mut changed = card;
    change(&mut changed);
    changed
}

// ---- random decks

/// Cards of all types, one line of 16 refused.
pub fn write_cards(out: &mut impl Write, count: usize) -> io::Result<()> {
    let mut random = SplitMix64::new(SEED);
    for _ in 0..count {
        let card = random_card(&mut random);
        let line = match below(&mut random, 16) {
            0 => refused_line(&mut random, card),
            _ => line(&card),
        };
        write_line(out, &line)?;
    }
    out.flush()
}

/// Lines of random cards, most of them with damage. The last has no line feed.
pub fn write_damaged(out: &mut impl Write, count: usize) -> io::Result<()> {
    let mut random = SplitMix64::new(SEED);
    for _ in 1..count {
        write_line(out, &damaged_line(&mut random))?;
    }
    out.write_all(&damaged_line(&mut random))?;
    out.flush()
}

fn write_line(out: &mut impl Write, line: &[u8]) -> io::Result<()> {
    out.write_all(line)?;
    out.write_all(b"\n")
}

fn below(random: &mut SplitMix64, end: usize) -> usize {
    random.next_u32() as usize % end
}

/// With four decimals.
fn between(random: &mut SplitMix64, low: f64, high: f64) -> f64 {
    let steps = ((high - low) * 10_000.0) as usize;
    low + below(random, steps + 1) as f64 / 10_000.0
}

fn one_of<T: Copy>(random: &mut SplitMix64, list: &[T]) -> T {
    list[below(random, list.len())]
}

/// As a station may have it, or with any numbers within the limits. It is
/// accepted.
fn random_card(random: &mut SplitMix64) -> Card {
    let kop = 1 + below(random, 10) as i32;
    let first = 1 + below(random, 30);
    let last = first + below(random, 31 - first);
    let mut card = card(kop, first as i32, last as i32, 0.0, &[]);
    card.decimals = match below(random, 16) {
        0 => [0.0; 10].map(|_| between(random, -1000.0, 1000.0)),
        _ => station(random),
    };
    let conductivity = &mut card.decimals[CONDUCTIVITY];
    *conductivity = conductivity.abs().max(0.0001);
    if kop == 6 {
        card.decimals[SLOT_6] = below(random, 65) as f64;
        card.decimals[SLOT_9] = below(random, 13) as f64;
    }
    card
}

fn station(random: &mut SplitMix64) -> [f64; 10] {
    let mut decimals = [0.0; 10].map(|_| match below(random, 8) {
        0 => 0.0,
        1..=3 => -between(random, 0.0, 1.5),
        _ => between(random, 0.0, 60.0),
    });
    decimals[AZIMUTH] = between(random, -180.0, 180.0);
    decimals[1] = between(random, 1.0, 81.0);
    decimals[CONDUCTIVITY] = one_of(random, &[0.001, 0.003, 0.01, 0.03, 5.0]);
    decimals
}

/// By each of 1 to 5 and 8.
fn refused_line(random: &mut SplitMix64, mut card: Card) -> Vec<u8> {
    match below(random, 6) {
        0 => card.whole[KOP] = one_of(random, &[-99, -1, 0, 11, 48, 999]),
        1 => {
            let size = between(random, 1000.0001, 9999.9999);
            card.decimals[below(random, 10)] = one_of(random, &[size, -size]);
        }
        2 => card.decimals[CONDUCTIVITY] = -between(random, 0.0, 5.0),
        3 => match below(random, 3) {
            0 => card.whole[FIRST] = -(below(random, 100) as i32),
            1 => card.whole[LAST] = 31 + below(random, 969) as i32,
            _ => card.whole[FIRST] = card.whole[LAST] + 1,
        },
        4 => {
            card.whole[KOP] = 6;
            card.decimals[SLOT_6] = between(random, 64.0001, 1000.0);
        }
        _ => return with_text(&card, below(random, FIELDS), b"x"),
    }
    line(&card)
}

fn damaged_line(random: &mut SplitMix64) -> Vec<u8> {
    const LIKELY: &[u8] = b"0123456789    ---...+,\t\r\n\0";
    let mut line = line(&random_card(random));
    let at = below(random, line.len());
    match below(random, 9) {
        0 => (),
        1 => line[at] = random.next_u32() as u8,
        2 => line[at] = one_of(random, LIKELY),
        // It may stay well formed.
        3..=5 => change_digits(random, &mut line),
        6 => line.truncate(at),
        7 => match below(random, 2) {
            0 => drop(line.remove(at)),
            _ => line.insert(at, one_of(random, LIKELY)),
        },
        _ => line = line.repeat(2 + below(random, 100)),
    }
    line
}

/// Some digits to others, now and then to a minus sign.
fn change_digits(random: &mut SplitMix64, line: &mut [u8]) {
    for _ in 0..1 + below(random, 40) {
        let byte = &mut line[below(random, 119)];
        if byte.is_ascii_digit() {
            *byte = one_of(random, b"00123456789");
        }
    }
    let at = below(random, 118);
    if line[at] == b' ' && line[at + 1].is_ascii_digit() {
        line[at] = b'-';
    }
}

// ---- the list

/// The two cards of document 01, section 10.
pub fn document_lines() -> [Vec<u8>; 2] {
    [
        card(2, 2, 3, 0.0, &[-0.5]),
        card(1, 2, 3, 0.0, &[0.0, 100.0, 20.0]),
    ]
    .map(|card| line(&card))
}

/// The last line has no line feed.
pub fn write_list(out: &mut impl Write) -> io::Result<()> {
    out.write_all(&list().join(&b'\n'))?;
    out.flush()
}

fn list() -> Vec<Vec<u8>> {
    let [monopole, rhombic] = document_lines();
    let swapped = [rhombic.clone(), monopole.clone()];
    let mut list = vec![monopole, rhombic];
    list.extend(swapped);
    list.extend(types().iter().map(line));
    list.extend(forms());
    list.extend(refusals());
    list.extend(lengths());
    list.extend(all_rows(list.iter().map(|line| line.len() + 1).sum()));
    list.extend(malformed());
    // The height is carried past the malformed lines, then is 1.
    list.push(line(&short_monopole(7)));
    list.push(line(&card(8, 20, 20, 30.0, &[15.0, 4.0])));
    list.push(line(&short_monopole(8)));
    list
}

/// Of 10 metres.
fn short_monopole(mhz: i32) -> Card {
    card(2, mhz, mhz + 1, 0.0, &[10.0, 3.0])
}

fn curtain(bays: f64) -> Card {
    let values = [bays, -0.5, 10.0, 4.0, -0.5, -0.5, -0.25];
    card(6, 14, 14, 12.5, &values)
}

/// An antenna of each type, monopoles among them, and all rows.
fn types() -> Vec<Card> {
    vec![
        card(5, 1, 30, 0.0, &[10.0]),
        card(2, 4, 8, 0.0, &[10.0, 2.0]),
        card(2, 9, 10, 0.0, &[-0.2, 2.0]),
        card(5, 29, 30, 0.0, &[3.0]),
        card(1, 30, 30, 12.5, &[70.0, 115.0, 18.0]),
        card(5, 1, 2, 0.0, &[3.0]),
        card(3, 6, 7, 12.5, &[-0.5, 12.0]),
        card(4, 6, 7, 12.5, &[-0.48, 15.0, 5.0]),
        card(7, 6, 7, 12.5, &[20.0, 120.0, 18.0, 4.0]),
        // The efficiency is minus infinity, then much below 0.
        card(8, 6, 7, 12.5, &[15.0, 0.0]),
        card(8, 1, 3, 12.5, &[15.0, 0.0003]),
        card(8, 6, 7, 12.5, &[15.0, 12.0]),
        card(9, 6, 7, 12.5, &[20.0, 120.0, 18.0, 4.0]),
        card(10, 6, 7, 12.5, &[70.0, 115.0, 18.0, 3.0, 15.0]),
        curtain(64.0),
        // No height: nothing is carried on.
        card(2, 1, 1, 0.0, &[0.0, -40.0]),
        short_monopole(3),
    ]
}

/// Numbers written otherwise than most.
fn forms() -> Vec<Vec<u8>> {
    let monopole = short_monopole(5);
    vec![
        with_text(&monopole, 0, b"002"),
        with_text(&monopole, 1, b" 05"),
        with_text(&monopole, 3 + SLOT_6, b"0010.0000"),
        with_text(&monopole, 3 + SLOT_6, b"-0000.2000"),
        with_text(&monopole, 3 + SLOT_6, b"-0.0000"),
        with_text(&monopole, 3 + AZIMUTH, b"-0.0000"),
        line(&short_monopole(6)),
        // A type and MHz of zero.
        with_text(&monopole, 0, b"-0"),
        with_text(&monopole, 1, b"-00"),
        with_text(&monopole, 2, b"000"),
    ]
}

/// Each next to what passes, faults at once in their order, and monopoles
/// between them: a refused card leaves the height.
fn refusals() -> Vec<Vec<u8>> {
    let good = curtain(4.0);
    let decimal = |place: usize, x: f64| with(good, |card| card.decimals[place] = x);
    let whole = |whole: [i32; 3]| with(good, |card| card.whole = whole);
    let groups = [
        [0, 11, 999, -99].map(|kop| whole([kop, 14, 14])).to_vec(),
        vec![
            decimal(AZIMUTH, -1000.0),
            decimal(AZIMUTH, -1000.0001),
            decimal(1, 1000.0001),
            decimal(CONDUCTIVITY, 1000.0),
            decimal(CONDUCTIVITY, -9999.9999),
            // Unused by a monopole.
            with(short_monopole(5), |card| card.decimals[SLOT_12] = 1000.0),
            with(short_monopole(5), |card| card.decimals[SLOT_12] = 9999.9999),
        ],
        [0.0001, 0.0, -0.0, -0.0001]
            .map(|x| decimal(CONDUCTIVITY, x))
            .to_vec(),
        [
            [6, 30, 30],
            [6, 0, 14],
            [6, -1, 1],
            [6, 30, 31],
            [6, 15, 14],
            [6, -99, 999],
        ]
        .map(whole)
        .to_vec(),
        [64.0, -65.0, 65.0, 64.0001].map(curtain).to_vec(),
        at_once(good),
    ];
    let mut list = Vec::new();
    for (place, group) in groups.iter().enumerate() {
        list.push(line(&short_monopole(4 + place as i32)));
        list.extend(group.iter().map(line));
    }
    list
}

/// All faults that one card can have, then without the first of them, and so
/// on; last a card that is at fault only for a curtain.
fn at_once(good: Card) -> Vec<Card> {
    let faults: [fn(&mut Card); 5] = [
        |card| card.whole[KOP] = 11,
        |card| card.decimals[SLOT_12] = 1000.0001,
        |card| card.decimals[CONDUCTIVITY] = 0.0,
        |card| card.whole[LAST] = 31,
        |card| card.decimals[SLOT_6] = 65.0,
    ];
    let mut list: Vec<Card> = (0..faults.len())
        .map(|from| with(good, |card| faults[from..].iter().for_each(|set| set(card))))
        .collect();
    list.push(card(1, 7, 7, 0.0, &[65.0, 100.0, 20.0]));
    list
}

/// Lines that aren't of 119 bytes, around a card that is.
fn lengths() -> Vec<Vec<u8>> {
    let card = line(&short_monopole(5));
    let after = |text: &[u8]| [&card, text].concat();
    vec![
        Vec::new(),
        Vec::new(),
        b"x".to_vec(),
        card[..118].to_vec(),
        card[1..].to_vec(),
        [b" ", &card[..]].concat(),
        after(b" "),
        after(b"0"),
        after(b"\r"),
        // Of 119 bytes with the carriage return.
        [&card[1..], b"\r"].concat(),
        after(&card),
        card.iter().copied().cycle().take(5_000).collect(),
        vec![b' '; 119],
        card,
    ]
}

/// Random cards with all rows, the last of them across the end of the port's
/// first read; `before` bytes come before them. Their text fills what the port
/// writes at once several times.
fn all_rows(before: usize) -> Vec<Vec<u8>> {
    const READ: usize = 65_536;
    let mut random = SplitMix64::new(SEED);
    let mut list = Vec::new();
    let mut bytes = before;
    while bytes < READ {
        let mut card = random_card(&mut random);
        (card.whole[FIRST], card.whole[LAST]) = (1, 30);
        list.push(line(&card));
        bytes += LINE + 1;
    }
    let in_next_read = bytes - READ;
    assert!((1..LINE).contains(&in_next_read), "no card's line lies across");
    list
}

/// A damage in each field, of a type that would be refused too, then each kind
/// of damage.
fn malformed() -> Vec<Vec<u8>> {
    const WHOLE: [&[u8]; 9] = [
        b"", b"-", b"2 ", b"- 2", b"2-", b"+2", b"\t2", b"\x002", b"\xb2",
    ];
    const DECIMAL: [&[u8]; 18] = [
        b"",
        b"-",
        b"10",
        b".5000",
        b"5.",
        b"5.000",
        b"5.00000",
        b"12345.0000",
        b"-12345.0000",
        b"5,0000",
        b"+5.0000",
        b"- 5.0000",
        b"5.0000 ",
        b"5 .0000",
        b"5.00 00",
        b"\t5.0000",
        b"5.000\0",
        b"5.00\xb90",
    ];
    let card = short_monopole(5);
    let outside = with(card, |card| card.whole[KOP] = 11);
    let mut list: Vec<Vec<u8>> = (0..FIELDS)
        .map(|field| with_text(&outside, field, b"x"))
        .collect();
    list.extend(WHOLE.map(|text| with_text(&card, 0, text)));
    list.extend(DECIMAL.map(|text| with_text(&card, 3 + SLOT_6, text)));
    list
}
