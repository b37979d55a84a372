//! Types 1 and 10 above the ground: calls for the list `gains`.

use crate::gain_calls::{number, within_limits, Call, EDGES};
use crate::ioncap::IoncapParams;
use crate::splitmix::SplitMix64;
use crate::standins::StandIn;
use std::f32::consts::{FRAC_PI_2, PI};

const SEED: u64 = 0x1983_0115;

/// Random calls of each kind for each type.
const ORDINARY: usize = 250;
const WITHIN_LIMITS: usize = 100;

/// The same calls for both types.
pub fn calls() -> Vec<Call> {
    let list = rhombics();
    let interlaced = list.iter().map(|call| Call { kop: 10, ..*call });
    list.iter().copied().chain(interlaced).collect()
}

fn rhombics() -> Vec<Call> {
    let mut random = SplitMix64::new(SEED);
    let mut list = Vec::new();
    list.extend((0..ORDINARY).map(|_| ordinary(&mut random)));
    list.extend((0..WITHIN_LIMITS).map(|_| within_limits(&mut random, 1)));
    list.extend(zero_divisors());
    list.extend(little_ground());
    list.extend(brewster());
    list.extend(psiv_without_b());
    list.extend(directions());
    list.extend(ends());
    list
}

/// A rhombic of 100 m legs, 20 m high, over average ground. Type 1 adds `ex1`
/// to the gain, which lifts weak gains off the floor.
fn rhombic() -> Call {
    Call {
        kop: 1,
        model: 0,
        height: 0.0,
        toaz: 3.0,
        p: IoncapParams {
            asig: 0.01,
            aeps: 4.0,
            and: 70.0,
            anl: 100.0,
            anh: 20.0,
            aex: [25.0, 12.0, 0.0, 0.0],
        },
        delta: 0.3,
        fmc: 14.0,
    }
}

/// Over another ground, twice: along the rhombic, and across a straight one,
/// where the horizontal part is as good as 0.
fn over(aeps: f32, asig: f32, delta: f32, fmc: f32) -> [Call; 2] {
    let mut along = rhombic();
    along.p.aeps = aeps;
    along.p.asig = asig;
    along.delta = delta;
    along.fmc = fmc;
    let mut across = along;
    across.toaz = 90.0;
    across.p.and = 0.0;
    [along, across]
}

/// What a station has: a gain mostly above the floor.
fn ordinary(random: &mut SplitMix64) -> Call {
    let sign = [1.0, 1.0, -0.02][(random.next_u32() % 3) as usize];
    let size = [5.0, 0.1, 0.01, 0.001][(random.next_u32() % 4) as usize];
    let mut call = rhombic();
    call.toaz = random.between(-25.0, 25.0);
    call.p.asig = random.between(0.1, 1.0) * size;
    call.p.aeps = random.between(1.0, 81.0);
    call.p.and = random.between(40.0, 80.0);
    call.p.anl = random.between(20.0, 150.0) * sign;
    call.p.anh = random.between(5.0, 60.0) * sign;
    call.p.aex[0] = random.between(0.0, 30.0);
    call.p.aex[1] = random.between(0.0, 30.0);
    call.delta = random.between(0.01, FRAC_PI_2);
    call.fmc = random.between(1.0, 30.0);
    call
}

/// Type 10 without an offset, d = 0; and u1 or u2 = 0, where the cosine of
/// the elevation and a sine are both 1.
fn zero_divisors() -> Vec<Call> {
    let mut list = Vec::new();
    for aex in [
        [0.0, 0.0],
        [-0.0, 0.0],
        [0.0, 12.0],
        [12.0, 0.0],
        [1.0e-30, 1.0e-30],
    ] {
        for delta in [0.1, 0.8] {
            let mut call = rhombic();
            call.p.aex = [aex[0], aex[1], 0.0, 0.0];
            list.push(Call { delta, ..call });
        }
    }
    for (and, toaz) in [
        (90.0, 0.0),
        (60.0, 30.0),
        (60.0, -30.0),
        (45.0, 45.0),
        (-90.0, 0.0),
    ] {
        for delta in [1.0e-30, 1.0e-5, 2.0e-4, 4.0e-4, 0.01] {
            let mut call = rhombic();
            call.p.and = and;
            list.push(Call {
                toaz,
                delta,
                ..call
            });
        }
    }
    list
}

/// Almost no ground: x * x, u or rho underflow, and x / v isn't a number.
fn little_ground() -> Vec<Call> {
    let mut list = Vec::new();
    let least = f32::from_bits(1);
    for asig in [1.0e-6, 1.0e-14, 1.0e-18, 1.0e-22, 1.0e-23, least] {
        for aeps in [0.0, 1.0e-20, 0.5, 1.0, -1.0] {
            for delta in [1.0e-3, 0.3, 1.3, FRAC_PI_2] {
                list.extend(over(aeps, asig, delta, 10.0));
            }
        }
    }
    // The square of the cosine is the dielectric constant: ert is 0.
    for delta in [0.2f32, 0.7, 1.4] {
        let t = delta.cos_();
        list.extend(over(t * t, 0.001, delta, 10.0));
        list.extend(over(t * t, 1.0e-20, delta, 10.0));
    }
    list
}

/// Where cv is smallest, and its radicand may be below 0.
fn brewster() -> Vec<Call> {
    let mut list = over(820.0051, 0.0001, 2.0 * 0.017453293, 10.0).to_vec();
    for aeps in [0.3, 2.0, 4.0, 10.0, 20.0, 81.0, 820.0051, 1_000.0] {
        for asig in [1.0e-8, 1.0e-4, 0.001] {
            let angle = (1.0 / (aeps + 1.0f32)).sqrt_().asin_();
            for step in [0, 5, 200] {
                let delta = f32::from_bits(angle.to_bits() + step);
                list.extend(over(aeps, asig, delta, 10.0));
            }
        }
    }
    list
}

/// b = 0, with a above, below and equal to 0. Half a turn on the sine, and so
/// a, is below 0.
fn psiv_without_b() -> Vec<Call> {
    // The call that is known to have a = 0.
    let known = [0x3f80_00c7, 0x0da2_4260, 0x3f49_0f14].map(f32::from_bits);
    let mut list = over(known[0], known[1], known[2], 18.0).to_vec();
    for aeps in [0.5, 0.9, 1.5, 2.0, 4.0, 10.0, 30.0, 81.0, 400.0] {
        for (asig, fmc) in [(0.0001, 3.0), (0.001, 14.0), (0.01, 29.0)] {
            list.extend(without_b(aeps, asig, fmc, 0.0));
            list.extend(without_b(aeps, asig, fmc, PI));
        }
    }
    list
}

/// The calls with b = 0 near the elevation, that much further on, where b
/// changes its sign.
fn without_b(aeps: f32, asig: f32, fmc: f32, further: f32) -> Vec<Call> {
    let b = |delta: f32| a_and_b(aeps, asig, delta, fmc).1;
    let (mut low, mut high) = (0.001f32.to_bits(), 1.57f32.to_bits());
    while high - low > 1 {
        let middle = low + (high - low) / 2;
        if b(f32::from_bits(middle) + further) > 0.0 {
            low = middle;
        } else {
            high = middle;
        }
    }
    (low - 400..low + 400)
        .map(|pattern| f32::from_bits(pattern) + further)
        .find(|delta| b(*delta) == 0.0)
        .map(|delta| over(aeps, asig, delta, fmc).to_vec())
        .unwrap_or_default()
}

/// psiv's a and b, as upstream writes them: they choose calls, no value is
/// taken from here.
fn a_and_b(er: f32, sigma: f32, delta: f32, fmc: f32) -> (f32, f32) {
    let x = 18000.0 * sigma / fmc;
    let (t, q) = (delta.cos_(), delta.sin_());
    let ert = er - t * t;
    let rho = (ert * ert + x * x).sqrt_();
    let alpha = -(x / ert).atan_();
    let u = er * er + x * x;
    let v = u.sqrt_();
    let asxv = (x / v).asin_();
    let a = 2.0 * rho.sqrt_() * q * v * (alpha * 0.5 + asxv).sin_();
    (a, rho - u * (q * q))
}

/// Elevations beyond the zenith and up to 1,000 rad, where the sine may be
/// below 0, and those where cv and ch are 0.001 apart.
fn directions() -> Vec<Call> {
    let mut list = Vec::new();
    let beyond = [
        1.0e-45,
        1.0e-20,
        FRAC_PI_2,
        2.0,
        PI,
        3.2,
        4.0,
        4.712389,
        5.5,
        2.0 * PI,
        6.5,
    ];
    let far = [50.0, 99.9, 314.15927, 500.0, 999.0, 999.99994, 1_000.0];
    for delta in beyond.into_iter().chain(far) {
        list.push(Call { delta, ..rhombic() });
        list.extend(over(30.0, 5.0, delta, 2.0));
        list.extend(over(-3.0, 0.02, delta, 7.0));
    }
    for step in 0..40 {
        let near = FRAC_PI_2 - step as f32 * 0.005;
        list.extend(over(4.0, 0.001, near, 10.0));
    }
    list
}

/// Each number at the edges, and the greatest and least ground.
fn ends() -> Vec<Call> {
    let mut list = Vec::new();
    for end in EDGES {
        for place in [0, 2, 3, 4, 5, 6, 7] {
            let mut call = rhombic();
            *number(&mut call, place) = end;
            list.push(call);
        }
    }
    for fmc in [1.0, 30.0] {
        for asig in [1_000.0, f32::from_bits(1)] {
            list.extend(over(1_000.0, asig, 0.3, fmc));
        }
    }
    list
}
