//! `selfcheck`: document 01's examples, and values where natural code gives other
//! bits, on the oracle.

// The decimals are the document's own.
#![allow(clippy::approx_constant, clippy::excessive_precision)]

use oracle::antenna::{gain_lookup, invcon, GainTable};
use oracle::con;
use oracle::elementary::{bits, NAN_BITS};
use oracle::gain_calls::{answer, Call};
use oracle::gainlist::list;
use oracle::gainlist_decks::document_lines;
use oracle::ioncap::{cisi, IoncapParams};
use oracle::output::i;
use oracle::standins::StandIn;
use std::fmt::Debug;
use std::process::exit;

/// Counts the checks and names those that fail.
#[derive(Default)]
struct Checks {
    passed: u32,
    failed: u32,
}

impl Checks {
    fn same<T: PartialEq + Debug>(&mut self, what: &str, got: T, want: T) {
        if got == want {
            self.passed += 1;
        } else {
            self.failed += 1;
            println!("FAILED {what}: got {got:?}, not {want:?}");
        }
    }

    /// Compares bits, every NaN alike.
    fn bits(&mut self, what: &str, got: f32, want: u32) {
        let written = |b: u32| format!("{b:08x}");
        self.same(what, written(bits(got)), written(want));
    }

    fn value(&mut self, what: &str, got: f32, want: f32) {
        self.bits(what, got, bits(want));
    }
}

fn main() {
    let mut checks = Checks::default();
    constants(&mut checks);
    ground_gains(&mut checks);
    curtain(&mut checks);
    refusals(&mut checks);
    cone_and_lookup(&mut checks);
    fields(&mut checks);
    zeros(&mut checks);
    special_values(&mut checks);
    integrals(&mut checks);
    gain_bits(&mut checks);
    listing(&mut checks);
    println!("{} passed, {} failed", checks.passed, checks.failed);
    exit(i32::from(checks.failed > 0));
}

/// Conductivity 0.01 over dielectric constant 4, at 7 MHz, no antenna yet and
/// nothing carried.
fn over_ground(kop: i32, delta: f32) -> Call {
    Call {
        kop,
        model: 0,
        height: 0.0,
        toaz: 0.0,
        p: IoncapParams {
            asig: 0.01,
            aeps: 4.0,
            and: 0.0,
            anl: 0.0,
            anh: 0.0,
            aex: [0.0; 4],
        },
        delta,
        fmc: 7.0,
    }
}

/// The constants whose bits differ from those a reader expects.
fn constants(checks: &mut Checks) {
    checks.bits("PI", con::PI, 0x40490fda);
    checks.bits("PIO2", con::PIO2, 0x3fc90fdb);
    checks.bits("R2D", con::R2D, 0x42652ee1);
    checks.value("half of ln's upper bound", 1.4142135 / 2.0, 0.70710677);
}

fn ground_gains(checks: &mut Checks) {
    let gain = |kop, height| {
        answer(&Call {
            height,
            ..over_ground(kop, 0.0)
        })
        .gain
    };
    checks.value("type 5, fresh", gain(5, 0.0), -30.0 + -25.64620146);
    checks.value("type 2, height 0.35", gain(2, 0.35), -30.0);
    checks.value("type 1 on the ground", gain(1, 0.0), -30.0 + -1.7);
}

/// Four bays.
fn curtain_call(elements: f32, elevation: f32) -> Call {
    let mut call = over_ground(6, elevation);
    call.p.and = 4.0;
    (call.p.anl, call.p.anh) = (-0.5, -0.5);
    call.p.aex = [elements, -0.5, -0.5, -0.25];
    call
}

fn curtain(checks: &mut Checks) {
    let gain = |elements, elevation| answer(&curtain_call(elements, elevation)).gain;
    checks.value("curtain, 4 elements", gain(4.0, 1.0), -26.0);
    checks.value("curtain, -2 elements", gain(-2.0, 1.0), -30.0);
    let off_the_floor = ![-30.0, -26.0].contains(&gain(4.0, 0.5));
    checks.same("0.5 reaches the curtain's pattern", off_the_floor, true);
    checks.value("12 elements act as 10", gain(12.0, 0.5), gain(10.0, 0.5));
    checks.value("-1 elements act as 10", gain(-1.0, 0.5), gain(10.0, 0.5));
    checks.value("-0.5 elements act as none", gain(-0.5, 0.5), -30.0);
}

/// Each refusal of a gain call, next to what passes.
fn refusals(checks: &mut Checks) {
    let call = curtain_call(4.0, 0.0);
    let with = |change: fn(&mut Call)| {
        let mut changed = call;
        change(&mut changed);
        answer(&changed).number
    };
    checks.same("accepted", with(|_| ()), 0);
    checks.same("height NaN", with(|c| c.height = f32::NAN), 9);
    checks.same("type 11", with(|c| c.kop = 11), 1);
    checks.same("1,000 degrees", with(|c| c.toaz = -1_000.0), 0);
    checks.same("beyond", with(|c| c.toaz = -1_000f32.next_up()), 2);
    checks.same("conductivity 0", with(|c| c.p.asig = 0.0), 3);
    checks.same("the least", with(|c| c.p.asig = f32::from_bits(1)), 0);
    checks.same("30 MHz", with(|c| c.fmc = 30.0), 0);
    checks.same("the next f32", with(|c| c.fmc = 30f32.next_up()), 4);
    checks.same("64 bays", with(|c| c.p.and = 64.0), 0);
    checks.same("65 bays", with(|c| c.p.and = 65.0), 5);
    let refused = answer(&Call {
        kop: 0,
        height: -3.0,
        ..call
    });
    let left = [refused.gain, refused.efficiency, refused.height];
    checks.same("a refusal's answer", left, [0.0, 0.0, -3.0]);
}

fn cone_and_lookup(checks: &mut Checks) {
    checks.value("cone (2, 0)", invcon(2.0, 0.0), -20.0);
    checks.value("cone (3, 5)", invcon(3.0, 5.0), -8.0);
    checks.value("cone (4, 5)", invcon(4.0, 5.0), -7.0);
    checks.value("cone (30, 90)", invcon(30.0, 90.0), -40.0);
    let mut table = GainTable::default();
    table.gains[0][0] = -30.0;
    table.gains[1][0] = -20.0;
    checks.value("lookup 0.5 MHz", gain_lookup(&table, 0.5, 0.0).0, -25.0);
}

fn fields(checks: &mut Checks) {
    checks.same("i(12345, 4)", i(12345, 4).as_str(), "****");
    checks.same("i(-5565, 7)", i(-5565, 7).as_str(), "  -5565");
}

/// Signs of zero, by document 01's formulas.
fn zeros(checks: &mut Checks) {
    let minus = 0x8000_0000;
    checks.bits("sin(-0)", (-0.0f32).sin_(), 0);
    checks.bits("tan(-0)", (-0.0f32).tan_(), 0);
    checks.bits("atan(-0)", (-0.0f32).atan_(), minus);
    checks.bits("asin(-0)", (-0.0f32).asin_(), minus);
    checks.bits("sqrt(-0)", (-0.0f32).sqrt_(), minus);
    checks.bits("abs(-0)", (-0.0f32).abs_(), 0);
    checks.bits("ln(-0)", (-0.0f32).ln_(), 0xff80_0000);
}

fn special_values(checks: &mut Checks) {
    let tiny = f32::NAN.max_(0.00001);
    checks.value("max of NaN", tiny, 0.00001);
    checks.bits("10 log10 0.00001", 10.0 * tiny.log10_(), 0xc248_0001);
    checks.value("atan(infinity)", f32::INFINITY.atan_(), 1.5707964);
    checks.value("asin(-1)", (-1.0f32).asin_(), -1.5707964);
    checks.bits("asin above 1", 1f32.next_up().asin_(), NAN_BITS);
    let limit = 1_048_576f32;
    checks.same("sin at its limit", limit.sin_().is_nan(), false);
    checks.bits("sin beyond", limit.next_up().sin_(), NAN_BITS);
    checks.bits("cos of infinity", f32::INFINITY.cos_(), NAN_BITS);
    checks.bits("ln(-1)", (-1.0f32).ln_(), NAN_BITS);
    checks.bits("ln(1)", 1f32.ln_(), 0);
}

/// At zero, and where the rational form gives a zero and 1.5708, and NaN.
fn integrals(checks: &mut Checks) {
    for zero in [0.0, -0.0] {
        let (ci, si) = cisi(zero);
        checks.value("ci(0)", ci, f32::NEG_INFINITY);
        checks.bits("si(0)", si, 0);
    }
    let (ci, si) = cisi(f32::from_bits(0x4695_50d3));
    checks.value("ci(19112.412), sign apart", ci.abs_(), 0.0);
    checks.value("si(19112.412)", si, 1.5708);
    let (ci, si) = cisi(65_536.0);
    checks.bits("ci(65536)", ci, NAN_BITS);
    checks.bits("si(65536)", si, NAN_BITS);
}

/// Gain calls where natural code gives other bits: their words in, gain,
/// efficiency and height left out.
fn gain_bits(checks: &mut Checks) {
    let lines = [
        (
            "type 9, PI is 40490fda",
            "9 00000000 3c23d70a 40800000 42340000 c0000000 bf000000 bf000000 00000000 \
             00000000 00000000 3e800000 3f800000 00000000",
            [0x413d50a7, 0xbfd9999a, 0x3f800000],
        ),
        (
            "type 2, a height of -0",
            "2 00000000 3c23d70a 40800000 00000000 80000000 00000000 00000000 00000000 \
             00000000 00000000 3f000000 40e00000 3dcccccd",
            [0xc2974adc, 0xc1cd2b6c, 0x00000000],
        ),
        (
            "the curtain's NaN",
            "6 42b40000 3c23d70a 40800000 40000000 bf000000 bf000000 40400000 bf000000 \
             bf000000 be800000 38d1b717 40e00000 00000000",
            [NAN_BITS, 0x00000000, 0x3f800000],
        ),
    ];
    for (what, line, want) in lines {
        checks.same(what, gain_line(line), want);
    }
    checks.bits(
        "type 2 straight up",
        monopole(-0.5, 3.0, con::PIO2),
        0xc23c_0001,
    );
    checks.bits("type 2 with leg 0", monopole(0.0, 3.0, 0.5), 0xc291_4adc);
}

/// A call in hexadecimal words: type, azimuth, the nine parameters,
/// elevation, MHz, carried height.
fn gain_line(line: &str) -> [u32; 3] {
    let (kop, rest) = line.split_once(' ').expect("a type and more");
    let words: Vec<f32> = rest
        .split_whitespace()
        .map(|word| f32::from_bits(u32::from_str_radix(word, 16).expect("hexadecimal")))
        .collect();
    let [toaz, asig, aeps, and, anl, anh, a, b, c, d, delta, fmc, height] = words[..] else {
        panic!("13 numbers in {line}");
    };
    let answer = answer(&Call {
        kop: kop.parse().expect("a type"),
        model: 0,
        height,
        toaz,
        p: IoncapParams {
            asig,
            aeps,
            and,
            anl,
            anh,
            aex: [a, b, c, d],
        },
        delta,
        fmc,
    });
    [answer.gain, answer.efficiency, answer.height].map(bits)
}

fn monopole(leg: f32, gain: f32, elevation: f32) -> f32 {
    let mut call = over_ground(2, elevation);
    (call.p.anl, call.p.anh) = (leg, gain);
    answer(&call).gain
}

/// The two cards of document 01, section 10, and the same swapped.
fn listing(checks: &mut Checks) {
    let [monopole, rhombic] = document_lines();
    let listed = |first: &[u8], second: &[u8]| {
        let mut out = Vec::new();
        let deck = [first, second].join(&b'\n');
        list(&mut &deck[..], &mut out).expect("memory is read and written");
        String::from_utf8(out).expect("ASCII")
    };
    checks.same(
        "the listing",
        listed(&monopole, &rhombic).as_str(),
        "      1  2  0
  2      0  -5565
  3      0  -3000
      2  1  0
  2   -170  -3170
  3   -170  -3170
      2      0
",
    );
    checks.same(
        "swapped",
        listed(&rhombic, &monopole).as_str(),
        "      1  1  0
  2   -170  -3170
  3   -170  -3170
      2  2  0
  2      0  -3000
  3      0  -3000
      2      0
",
    );
}
