//! Gain calls and what document 01 answers to them: the refusals are judged
//! here, an accepted call is answered by the derived upstream `iongain` whole.

use crate::elementary::bits;
use crate::ioncap::{iongain, IoncapParams, IoncapState};
use crate::lists_parameters::models;
use crate::splitmix::SplitMix64;

/// A degree in radians, as the table's columns have it.
pub const DEGREE: f32 = 0.017453293;
/// The f32 nearest to half of pi: upstream's PIO2.
pub const PIO2: f32 = std::f32::consts::FRAC_PI_2;

/// The model is its number in the list `parameters`, the height the carried
/// one.
#[derive(Clone, Copy)]
pub struct Call {
    pub kop: i32,
    pub model: usize,
    pub height: f32,
    pub toaz: f32,
    pub p: IoncapParams,
    pub delta: f32,
    pub fmc: f32,
}

/// The refusal number, 0 if accepted, and the height left.
pub struct Answer {
    pub number: u32,
    pub gain: f32,
    pub efficiency: f32,
    pub height: f32,
}

/// Refusal 11 is not among the answers: upstream's series have no limit of
/// turns.
pub fn answer(call: &Call) -> Answer {
    let number = refusal(call);
    if number != 0 {
        return Answer {
            number,
            gain: 0.0,
            efficiency: 0.0,
            height: call.height,
        };
    }
    let mut state = IoncapState { x: call.height };
    let model = models()[call.model];
    let Call {
        kop,
        toaz,
        p,
        delta,
        fmc,
        ..
    } = *call;
    let (gain, efficiency) = iongain(&mut state, kop, toaz, &p, delta, fmc, model);
    Answer {
        number,
        gain,
        efficiency,
        height: state.x,
    }
}

/// Document 01's refusals of a gain call in their order: 9, then 1 to 5.
pub fn refusal(call: &Call) -> u32 {
    if !call.height.is_finite() {
        return 9;
    }
    let any = numbers(call).iter().any(outside);
    let mhz_outside = call.fmc < 1.0 || call.fmc > 30.0;
    input_refusal(call.kop, any, call.p.asig, mhz_outside, call.p.and)
}

/// Whether refusal 2 is due to this number.
pub fn outside(x: &f32) -> bool {
    !x.is_finite() || x.abs() > 1_000.0
}

/// Refusals 1 to 5 of a gain call or a card, whose own numbers and MHz these
/// are.
pub fn input_refusal(kop: i32, any_outside: bool, asig: f32, mhz_outside: bool, bays: f32) -> u32 {
    if !(1..=10).contains(&kop) {
        1
    } else if any_outside {
        2
    } else if asig <= 0.0 {
        3
    } else if mhz_outside {
        4
    } else if kop == 6 && bays > 64.0 {
        5
    } else {
        0
    }
}

/// How many numbers refusal 2 looks at.
pub const NUMBERS: usize = 12;

/// Azimuth, parameters, elevation and MHz.
fn numbers(call: &Call) -> [f32; NUMBERS] {
    let p = &call.p;
    let [ex1, ex2, ex3, ex4] = p.aex;
    [
        call.toaz, p.asig, p.aeps, p.and, p.anl, p.anh, ex1, ex2, ex3, ex4, call.delta, call.fmc,
    ]
}

/// One of these numbers, by its place there.
pub fn number(call: &mut Call, place: usize) -> &mut f32 {
    let p = &mut call.p;
    match place {
        0 => &mut call.toaz,
        1 => &mut p.asig,
        2 => &mut p.aeps,
        3 => &mut p.and,
        4 => &mut p.anl,
        5 => &mut p.anh,
        6..=9 => &mut p.aex[place - 6],
        10 => &mut call.delta,
        _ => &mut call.fmc,
    }
}

/// A line: model, type, height and the numbers, then the answer.
pub fn line(call: &Call) -> String {
    let Answer {
        number,
        gain,
        efficiency,
        height,
    } = answer(call);
    let mut text = format!("{:x} {:08x}", call.model, call.kop);
    text += &words(&[call.height]);
    text += &words(&numbers(call));
    text += &format!(" {number:02x}");
    text + &words(&[gain, efficiency, height])
}

fn words(list: &[f32]) -> String {
    list.iter().map(|x| format!(" {:08x}", bits(*x))).collect()
}

/// One of the list's values.
pub fn one_of(random: &mut SplitMix64, list: &[f32]) -> f32 {
    list[random.next_u32() as usize % list.len()]
}

/// A length in metres, or in wavelengths, which are negative.
pub fn length(random: &mut SplitMix64, metres: f32, wavelengths: f32) -> f32 {
    match random.next_u32() % 2 {
        0 => random.between(0.0, metres),
        _ => -random.between(0.0, wavelengths),
    }
}

/// A length of some wavelengths, in metres up to the limit or in wavelengths.
pub fn in_waves(random: &mut SplitMix64, least: f32, most: f32, fmc: f32) -> f32 {
    let waves = random.between(least, most);
    match random.next_u32() % 2 {
        0 => (waves * 299.7925 / fmc).min(1_000.0),
        _ => -waves,
    }
}

/// Azimuth, ground, elevation and MHz as a station may have them, no antenna
/// yet and nothing carried.
pub fn station(random: &mut SplitMix64, kop: i32) -> Call {
    Call {
        kop,
        model: 0,
        height: 0.0,
        toaz: match random.next_u32() % 4 {
            0 => one_of(random, &[0.0, 90.0, -90.0, 180.0]),
            _ => random.between(-180.0, 180.0),
        },
        p: IoncapParams {
            asig: one_of(random, &[0.001, 0.003, 0.01, 0.03, 5.0]),
            aeps: random.between(1.0, 81.0),
            and: 0.0,
            anl: 0.0,
            anh: 0.0,
            aex: [0.0; 4],
        },
        delta: match random.next_u32() % 2 {
            0 => (1 + random.next_u32() % 90) as f32 * DEGREE,
            _ => random.between(0.001, PIO2),
        },
        fmc: match random.next_u32() % 2 {
            0 => (1 + random.next_u32() % 30) as f32,
            _ => random.between(1.0, 30.0),
        },
    }
}

/// Any numbers within document 01's limits, and an elevation above 0.
pub fn within_limits(random: &mut SplitMix64, kop: i32) -> Call {
    let mut call = station(random, kop);
    for place in 0..NUMBERS {
        *number(&mut call, place) = random.between(-1_000.0, 1_000.0);
    }
    call.p.asig = call.p.asig.abs() + 0.000_001;
    if kop == 6 {
        call.p.and = call.p.and.min(64.0);
    }
    call.delta = call.delta.abs() + 0.000_001;
    call.fmc = random.between(1.0, 30.0);
    call
}

/// The number with its neighbours.
pub fn around(x: f32) -> [f32; 3] {
    [x.next_down(), x, x.next_up()]
}

/// The ends of what is within the limits, zeros, the least subnormals.
pub const EDGES: [f32; 6] = [1_000.0, -1_000.0, 0.0, -0.0, 1.0e-45, -1.0e-45];
