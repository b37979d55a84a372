//! Fields of a line, written and read, beside upstream's own integer field.

use crate::output::i;

/// From here on, 2^56, the hundredths of an f32 are not given.
pub const LIMIT: f64 = 72_057_594_037_927_936.0;

pub enum Hundredths {
    NotANumber,
    Over,
    Whole(i64),
}

/// From the exact value, in whole numbers.
pub fn hundredths(x: f32) -> Hundredths {
    if x.is_nan() {
        return Hundredths::NotANumber;
    }
    if f64::from(x).abs() >= LIMIT {
        return Hundredths::Over;
    }
    let bits = x.to_bits() & 0x7fff_ffff;
    let exponent = (bits >> 23) as i32;
    let fraction = bits & 0x7f_ffff;
    // |x| is digits * 2^power.
    let (digits, power) = match exponent {
        0 => (fraction, -149),
        _ => (fraction | 0x80_0000, exponent - 150),
    };
    let product = 100 * u128::from(digits);
    let size = if power >= 0 {
        product << power
    } else if power < -64 {
        0
    } else {
        let whole = product >> -power;
        let twice_rest = (product - (whole << -power)) * 2;
        whole + u128::from(twice_rest >= 1 << -power)
    };
    let size = i64::try_from(size).expect("below the limit the hundredths fit");
    Hundredths::Whole(if x.is_sign_negative() { -size } else { size })
}

pub fn hundredths_text(x: f32, width: usize) -> String {
    match hundredths(x) {
        Hundredths::NotANumber if width >= 3 => format!("{:>width$}", "NaN"),
        Hundredths::NotANumber | Hundredths::Over => "*".repeat(width),
        Hundredths::Whole(n) => i(n, width),
    }
}

/// A number of ten-thousandths in at least `width` columns.
pub fn decimal_text(n: u32, negative: bool, width: usize) -> String {
    let sign = if negative { "-" } else { "" };
    format!(
        "{:>width$}",
        format!("{sign}{}.{:04}", n / 10_000, n % 10_000)
    )
}

/// A whole number of at most 18 digits. `None` where the text is malformed.
pub fn read_integer(text: &[u8]) -> Option<i64> {
    let (negative, digits) = unsigned(text);
    if !is_digits(digits, 1, 18) {
        return None;
    }
    let n: i64 = as_text(digits).parse().expect("18 digits fit");
    Some(if negative { -n } else { n })
}

/// A decimal as the nearest f32. `None` where the text is malformed.
pub fn read_decimal(text: &[u8]) -> Option<f32> {
    let (negative, number) = unsigned(text);
    let point = number.iter().position(|b| *b == b'.')?;
    if !is_digits(&number[..point], 1, 4) || !is_digits(&number[point + 1..], 4, 4) {
        return None;
    }
    let x: f32 = as_text(number).parse().expect("a decimal");
    // Minus zero is zero.
    Some(if negative { 0.0 - x } else { x })
}

/// The sign and the rest of a number that stands after spaces.
fn unsigned(text: &[u8]) -> (bool, &[u8]) {
    let spaces = text.iter().take_while(|b| **b == b' ').count();
    let number = &text[spaces..];
    match number.strip_prefix(b"-") {
        Some(rest) => (true, rest),
        None => (false, number),
    }
}

/// `least` to `most` digits and nothing else.
fn is_digits(text: &[u8], least: usize, most: usize) -> bool {
    (least..=most).contains(&text.len()) && text.iter().all(u8::is_ascii_digit)
}

fn as_text(number: &[u8]) -> &str {
    std::str::from_utf8(number).expect("digits and a point")
}
