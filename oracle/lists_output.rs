//! The list `output`: fields of a line, written and read. README.md gives the
//! form of a line.

use crate::fields::{
    decimal_text, hundredths, hundredths_text, read_decimal, read_integer, Hundredths, LIMIT,
};
use crate::output::i;
use crate::splitmix::SplitMix64;
use std::collections::HashSet;
use std::io::{self, Write};

const SEED: u64 = 0x1983_0115;

/// The text's columns in a line, and the widest field.
const COLUMNS: usize = 24;

pub fn write(out: &mut impl Write) -> io::Result<()> {
    let mut seen = HashSet::new();
    for line in lines() {
        if seen.insert(line.clone()) {
            out.write_all(line.as_bytes())?;
        }
    }
    out.flush()
}

fn lines() -> Vec<String> {
    let mut random = SplitMix64::new(SEED);
    let mut list = integer_fields(&mut random);
    let values = values(&mut random);
    list.extend(values.iter().map(|x| hundredths_line(*x)));
    list.extend(hundredths_fields(&values));
    list.extend(integer_texts(&mut random).iter().map(|t| integer_line(t)));
    list.extend(decimal_texts(&mut random).iter().map(|t| decimal_line(t)));
    list
}

fn line(head: &str, width: usize, x: u32, n: i64, text: &str) -> String {
    assert!(text.len() <= COLUMNS && text.is_ascii());
    format!("{head} {width:02x} {x:08x} {n:016x} {text:<COLUMNS$}\n")
}

// ---- the integer field

fn integer_fields(random: &mut SplitMix64) -> Vec<String> {
    let mut fields = Vec::new();
    for v in [0, -1, 12345, -5565, i64::MIN, i64::MAX] {
        fields.extend((0..=COLUMNS).map(|width| (v, width)));
    }
    for v in integers() {
        let digits = v.to_string().len();
        fields.extend((digits - 1..=digits + 1).map(|width| (v, width)));
    }
    for _ in 0..60 {
        let v = some_integer(random);
        fields.push((v, random.next_u64() as usize % (COLUMNS + 1)));
    }
    fields
        .into_iter()
        .map(|(v, width)| line("i-", width, 0, v, &i(v, width)))
        .collect()
}

/// Powers of ten and their neighbours, both signs, and the ends.
fn integers() -> Vec<i64> {
    let mut list = vec![i64::MIN, i64::MIN + 1, i64::MAX - 1, i64::MAX];
    for power in 1..=18 {
        let ten = 10i64.pow(power);
        for n in [ten - 1, ten, ten + 1] {
            list.extend([n, -n]);
        }
    }
    list
}

/// Of any number of digits.
fn some_integer(random: &mut SplitMix64) -> i64 {
    let shift = random.next_u64() % 64;
    (random.next_u64() as i64) >> shift
}

// ---- hundredths

fn hundredths_line(x: f32) -> String {
    let (head, n) = match hundredths(x) {
        Hundredths::NotANumber => ("hn", 0),
        Hundredths::Over => ("ho", 0),
        Hundredths::Whole(n) => ("hw", n),
    };
    line(head, 0, x.to_bits(), n, "")
}

fn hundredths_fields(values: &[f32]) -> Vec<String> {
    let mut fields: Vec<(f32, usize)> = values.iter().step_by(2).map(|x| (*x, 7)).collect();
    let limit = LIMIT as f32;
    let tie = 0.125;
    for x in [
        f32::NAN,
        f32::NEG_INFINITY,
        -55.646202,
        limit.next_down(),
        limit,
        tie,
    ] {
        fields.extend((0..=COLUMNS).map(|width| (x, width)));
    }
    fields
        .into_iter()
        .map(|(x, width)| line("f-", width, x.to_bits(), 0, &hundredths_text(x, width)))
        .collect()
}

fn values(random: &mut SplitMix64) -> Vec<f32> {
    let mut list = edges();
    list.extend(both_signs(around(&ties())));
    for _ in 0..60 {
        list.push(f32::from_bits(random.next_u32()));
        list.push(random.between(-100.0, 100.0));
        list.push(random.between(-100_000.0, 100_000.0));
        // Near a whole hundredth.
        list.push((random.next_u32() % 20_000) as f32 / 100.0 - 100.0);
    }
    list
}

/// The ends of the subnormal and normal ranges, powers of two and of ten,
/// infinities, NaNs of several patterns.
fn edges() -> Vec<f32> {
    let patterns = [
        0,
        1,
        2,
        0x7f_ffff,
        0x80_0000,
        0x80_0001,
        0x7f7f_ffff,
        0x7f80_0000,
        0x7f80_0001,
        0x7fc0_0000,
        0x7fff_ffff,
    ];
    let mut list = both_signs(patterns.map(f32::from_bits).to_vec());
    let small = [
        0.005, 0.01, 0.015, 0.1, 1.0, 9.99, 10_000.0, 99_999.99, 100_000.0,
    ];
    list.extend(both_signs(around(&small)));
    list.extend(both_signs(around(&[
        LIMIT as f32,
        92_233_720_368_547_758.0,
        1e16,
    ])));
    let powers: Vec<f32> = [
        20, 21, 23, 24, 25, 31, 32, 52, 53, 54, 55, 57, 62, 63, 64, 100, 127,
    ]
    .map(|e| 2f32.powi(e))
    .to_vec();
    list.extend(both_signs(around(&powers)));
    list
}

/// Values whose hundredths lie in the middle: the odd multiples of 1/8.
fn ties() -> Vec<f32> {
    let mut eighths: Vec<u32> = (1..40).step_by(2).collect();
    eighths.extend([
        8_001, 79_999, 131_077, 800_003, 8_388_607, 16_777_213, 16_777_215,
    ]);
    eighths.into_iter().map(|n| n as f32 / 8.0).collect()
}

fn around(values: &[f32]) -> Vec<f32> {
    values
        .iter()
        .flat_map(|x| [x.next_down(), *x, x.next_up()])
        .collect()
}

fn both_signs(list: Vec<f32>) -> Vec<f32> {
    list.into_iter().flat_map(|x| [x, -x]).collect()
}

// ---- reading

fn integer_line(text: &str) -> String {
    match read_integer(text.as_bytes()) {
        Some(n) => line("nw", text.len(), 0, n, text),
        None => line("nm", text.len(), 0, 0, text),
    }
}

fn decimal_line(text: &str) -> String {
    match read_decimal(text.as_bytes()) {
        Some(x) => line("dw", text.len(), x.to_bits(), 0, text),
        None => line("dm", text.len(), 0, 0, text),
    }
}

fn integer_texts(random: &mut SplitMix64) -> Vec<String> {
    let mut list: Vec<String> = [
        "",
        " ",
        "   ",
        "-",
        "  -",
        "0",
        "-0",
        "  0",
        "-00",
        "000",
        "002",
        "007",
        "  9",
        "-9",
        "-99",
        "999",
        " 48",
        "-2 ",
        "1 ",
        " 1 ",
        "- 1",
        "--1",
        "1-",
        "-1-",
        "+1",
        " +1",
        "1.",
        ".1",
        "1.0",
        "1,0",
        "1e1",
        "0x1",
        "\t1",
        "1\t",
        " \t1",
        "/",
        ":",
        " /1",
        "1:",
        "a",
        "1a2",
        "1 2",
        "-1 2",
        "*",
        "***",
        "NaN",
        "0.5",
        "999999999999999999",
        "-999999999999999999",
        "1000000000000000000",
        "0000000000000000000",
        "000000000000000001",
        "     -000000000000000012",
        "9223372036854775807",
        "-9223372036854775808",
        "     1000000",
        "    -1000000",
        " -100000",
        "99999999",
        "-9999999",
    ]
    .map(String::from)
    .to_vec();
    for _ in 0..150 {
        let n = some_integer(random) / 1000;
        let width = n.to_string().len().max(random.next_u64() as usize % 20);
        let text = format!("{n:>width$}");
        list.push(text.clone());
        list.push(damaged(random, text));
    }
    list
}

fn decimal_texts(random: &mut SplitMix64) -> Vec<String> {
    let mut list: Vec<String> = [
        "",
        " ",
        "           ",
        "1",
        "    10.0000",
        "     0.0000",
        "    -0.0000",
        "     -.5000",
        "     0.5000",
        "    -0.5000",
        "      .5000",
        "     5.",
        "     5.000",
        "     5.00000",
        "     5.000 ",
        "    5.0000 ",
        " 12345.0000",
        "-12345.0000",
        " -9999.9999",
        "  9999.9999",
        "  1000.0001",
        " -1000.0001",
        "  1000.0000",
        "0001.5000",
        " -0001.5000",
        "   - 1.0000",
        "    +1.0000",
        "   --1.0000",
        "   1 .0000",
        "   1. 0000",
        "   1.00 00",
        "  1..0000",
        " 1.0000.0000",
        "    1,0000",
        "    1e0000",
        "    1.0e00",
        "   1.-000",
        "    1.00a0",
        "\t   1.0000",
        "   a1.0000",
        "  1/0.0000",
        "  1:0.0000",
        "    10000",
        "          .",
        "       NaN",
        "       inf",
        "1.0000",
        "-1.0000",
        ".0000",
        "00000.0000",
        "0000.0000",
        "-0000.0000",
        "   1.0000 ",
        "                  1.0000",
    ]
    .map(String::from)
    .to_vec();
    let ends = [
        0, 1, 2, 5, 10, 99, 9_999, 10_000, 10_001, 1_234_567, 9_999_999, 10_000_000, 10_000_001,
        16_777_215, 16_777_216, 16_777_217, 16_777_219, 33_554_431, 33_554_433, 67_108_863,
        67_108_865, 99_999_998, 99_999_999,
    ];
    for n in ends {
        list.extend([decimal_text(n, false, 11), decimal_text(n, true, 11)]);
    }
    for k in 0..360 {
        let most = [100_000_000, 10_000_000, 100_000][k % 3];
        let n = random.next_u32() % most;
        let width = if k % 6 == 0 { 6 + k % 18 } else { 11 };
        let text = decimal_text(n, random.next_u64() % 2 == 0, width);
        if k % 3 == 0 {
            list.push(damaged(random, text.clone()));
        }
        list.push(text);
    }
    list
}

/// One column changed to another byte, which may leave a number.
fn damaged(random: &mut SplitMix64, text: String) -> String {
    const BYTES: &[u8] = b" -.0/9:+,aE\t";
    let mut bytes = text.into_bytes();
    let at = random.next_u64() as usize % bytes.len();
    bytes[at] = BYTES[random.next_u64() as usize % BYTES.len()];
    String::from_utf8(bytes).expect("ASCII")
}
