//! The three C entries beside the upstream functions that they stand for, in
//! one run: upstream alone, and behind document 01's refusals with its answer
//! written as bytes, as an entry has it. Upstream's table holds f32s, the
//! entry's holds bytes.
//!
//! All answer the same list of calls; the forms alternate and the best of many
//! rounds counts. Built and run by `oracle/bench/run calls`.

#[path = "../../host/src/ffi.rs"]
mod ffi;

use ffi::{numbers, ANSWER_LENGTH, TABLE_LENGTH};
use oracle::antenna::{gain_lookup, invcon, GainTable, ELEVS, FREQS};
use oracle::elementary::bits;
use oracle::gain_calls::{in_waves, outside, refusal, station, Call, DEGREE};
use oracle::ioncap::{iongain, IoncapParams, IoncapState};
use oracle::lists_parameters::models;
use oracle::splitmix::SplitMix64;
use std::hint::black_box;
use std::time::Instant;

const ROUNDS: usize = 100;
const COUNT: usize = 5_000;

/// MHz and an elevation, in the entry's unit.
type Place = (f32, f32);
/// Gain, efficiency and the height left, as the port writes them and as numbers.
type Answer = [u8; ANSWER_LENGTH];
type Numbers = [f32; 3];

/// The best times of a call in nanoseconds, and how many answers differ.
struct Times {
    port: f64,
    upstream: f64,
    guarded: f64,
    differ: usize,
}

/// `guarded` is upstream behind the entry's refusals, its answer written as bytes.
fn compare<C>(
    calls: &[C],
    port: impl Fn(&C, &mut Answer),
    refusal: impl Fn(&C) -> u32,
    upstream: impl Fn(&C) -> Numbers,
) -> Times {
    let mut ours = vec![[1; ANSWER_LENGTH]; calls.len()];
    let mut theirs = vec![[1.0; 3]; calls.len()];
    let mut bytes = vec![[1; ANSWER_LENGTH]; calls.len()];
    let mut best = [f64::MAX; 3];
    for _ in 0..ROUNDS {
        let times = [
            nanoseconds(calls, black_box(&mut ours), &port),
            nanoseconds(calls, black_box(&mut theirs), |c, slot| *slot = upstream(c)),
            nanoseconds(calls, black_box(&mut bytes), |c, slot| {
                let accepted = refusal(c) == 0;
                write(slot, if accepted { upstream(c) } else { [0.0; 3] });
            }),
        ];
        best = [0, 1, 2].map(|n| best[n].min(times[n]));
    }
    let differs =
        |n: &usize| ours[*n] != bytes[*n] || numbers(&ours[*n]).map(bits) != theirs[*n].map(bits);
    let differ = (0..calls.len()).filter(differs).count();
    let [port, upstream, guarded] = best;
    Times {
        port,
        upstream,
        guarded,
        differ,
    }
}

fn write(slot: &mut Answer, numbers: Numbers) {
    for (bytes, x) in slot.chunks_mut(4).zip(numbers) {
        bytes.copy_from_slice(&bits(x).to_le_bytes());
    }
}

fn nanoseconds<C, A>(calls: &[C], out: &mut [A], answer: impl Fn(&C, &mut A)) -> f64 {
    let start = Instant::now();
    for (call, slot) in black_box(calls).iter().zip(out) {
        answer(call, slot);
    }
    start.elapsed().as_nanos() as f64 / calls.len() as f64
}

fn line(name: &str, arguments: &str, t: Times) {
    println!(
        "| {name} | {arguments} | {:.1} | {:.1} | {:.2} | {:.1} | {:.2} | {} |",
        t.port,
        t.upstream,
        t.port / t.upstream,
        t.guarded,
        t.port / t.guarded,
        t.differ
    );
}

/// The type, and the angle or bays, leg, height and the further numbers.
type Antenna = (i32, [f32; 7]);

/// One antenna of each type: the deck benchmark's.
const ANTENNAS: [Antenna; 10] = [
    (1, [70.0, 115.0, 18.0, 0.0, 0.0, 0.0, 0.0]),
    (2, [0.0, -0.25, 2.0, 0.0, 0.0, 0.0, 0.0]),
    (3, [0.0, -0.5, 12.0, 0.0, 0.0, 0.0, 0.0]),
    (4, [0.0, -0.48, 15.0, 5.0, 0.0, 0.0, 0.0]),
    (5, [0.0, -0.25, 0.0, 3.0, 0.0, 0.0, 0.0]),
    (6, [4.0, -0.5, 10.0, 4.0, -0.5, -0.5, -0.25]),
    (7, [20.0, 120.0, 18.0, 4.0, 0.0, 0.0, 0.0]),
    (8, [0.0, 15.0, 12.0, 0.0, 0.0, 0.0, 0.0]),
    (9, [20.0, 120.0, 18.0, 4.0, 0.0, 0.0, 0.0]),
    (10, [70.0, 115.0, 18.0, 3.0, 15.0, 0.0, 0.0]),
];

/// The calls of one antenna at places in radians.
fn calls_of((kop, values): Antenna, model: usize, places: &[Place]) -> Vec<Call> {
    let [and, anl, anh, aex1, aex2, aex3, aex4] = values;
    let p = IoncapParams {
        asig: 0.01,
        aeps: 4.0,
        and,
        anl,
        anh,
        aex: [aex1, aex2, aex3, aex4],
    };
    let call = |&(fmc, delta): &Place| Call {
        kop,
        model,
        height: 0.0,
        toaz: 12.5,
        p,
        delta,
        fmc,
    };
    places.iter().map(call).collect()
}

/// The calls, each of an antenna and a station of its own.
fn any_calls(random: &mut SplitMix64, kop: i32, model: usize) -> Vec<Call> {
    let call = |_| {
        let mut call = station(random, kop);
        call.model = model;
        call.p.anl = in_waves(random, 0.1, 4.0, call.fmc);
        call.p.anh = in_waves(random, 0.1, 2.0, call.fmc);
        call.p.and = random.between(0.0, 180.0);
        call.p.aex = [(); 4].map(|_| random.between(0.0, 30.0));
        match kop {
            2 => call.p.anh = random.between(-10.0, 10.0),
            5 => call.p.anl = -0.25,
            6 => {
                call.p.and = (1 + random.next_u32() % 8) as f32;
                call.p.aex[0] = (1 + random.next_u32() % 8) as f32;
            }
            _ => {}
        }
        call
    };
    (0..COUNT).map(call).collect()
}

fn gains(calls: &[Call]) -> Times {
    let port = |c: &Call, answer: &mut Answer| {
        let [aex1, aex2, aex3, aex4] = c.p.aex;
        // Sound: the answer's own pointer and length.
        let number = unsafe {
            ffi::ioncap_gain(
                c.height,
                c.kop,
                c.toaz,
                c.p.asig,
                c.p.aeps,
                c.p.and,
                c.p.anl,
                c.p.anh,
                aex1,
                aex2,
                aex3,
                aex4,
                c.delta,
                c.fmc,
                c.model as i32,
                answer.as_mut_ptr(),
                answer.len(),
            )
        };
        assert_eq!(number, 0);
    };
    let models = models();
    let upstream = |c: &Call| {
        let mut state = IoncapState { x: c.height };
        let model = models[c.model];
        let (gain, efficiency) = iongain(&mut state, c.kop, c.toaz, &c.p, c.delta, c.fmc, model);
        [gain, efficiency, state.x]
    };
    compare(calls, port, refusal, upstream)
}

fn lookups(table: &GainTable, places: &[Place]) -> Times {
    let cells = table.gains.iter().flatten().chain(&table.eff);
    let bytes: Vec<u8> = cells.flat_map(|x| x.to_le_bytes()).collect();
    assert_eq!(bytes.len(), TABLE_LENGTH);
    let port = |&(fmc, delta): &Place, answer: &mut Answer| {
        // Sound: the slices' own pointers and lengths.
        let number = unsafe {
            ffi::ioncap_lookup(
                bytes.as_ptr(),
                bytes.len(),
                fmc,
                delta,
                answer.as_mut_ptr(),
                answer.len(),
            )
        };
        assert_eq!(number, 0);
    };
    let gain_lookup = black_box(gain_lookup as fn(&GainTable, f32, f32) -> (f32, f32));
    let upstream = |&(fmc, delta): &Place| {
        let (gain, efficiency) = gain_lookup(table, fmc, delta);
        [gain, efficiency, 0.0]
    };
    compare(places, port, place_refusal, upstream)
}

fn cones(places: &[Place]) -> Times {
    let port = |&(freq, elev_deg): &Place, answer: &mut Answer| {
        // Sound: the answer's own pointer and length.
        let number = unsafe { ffi::ioncap_cone(freq, elev_deg, answer.as_mut_ptr(), answer.len()) };
        assert_eq!(number, 0);
    };
    let invcon = black_box(invcon as fn(f32, f32) -> f32);
    let upstream = |&(freq, elev_deg): &Place| [invcon(freq, elev_deg), 0.0, 0.0];
    compare(places, port, place_refusal, upstream)
}

fn place_refusal((mhz, elevation): &Place) -> u32 {
    if outside(mhz) || outside(elevation) {
        2
    } else {
        0
    }
}

/// Rows of a table between its points, one after the other, again and again.
fn in_turn() -> Vec<Place> {
    let place = |n: usize| {
        (
            1.3 + (n / ELEVS % (FREQS - 1)) as f32,
            (n % ELEVS) as f32 + 0.4,
        )
    };
    (0..COUNT).map(place).collect()
}

fn radians(degrees: &[Place]) -> Vec<Place> {
    degrees.iter().map(|(mhz, d)| (*mhz, d * DEGREE)).collect()
}

fn at_random(random: &mut SplitMix64) -> Vec<Place> {
    (0..COUNT)
        .map(|_| (random.between(1.0, 30.0), random.between(0.0, 90.0)))
        .collect()
}

/// Only the lines whose name holds the first argument, where there is one.
fn main() {
    let wanted = std::env::args().nth(1).unwrap_or_default();
    let mut random = SplitMix64::new(1);
    let mut table = GainTable::default();
    let cells = table.gains.iter_mut().flatten().chain(&mut table.eff);
    cells.for_each(|cell| *cell = random.between(-60.0, 30.0));
    let in_turn = in_turn();
    let at_random = at_random(&mut random);
    println!("| call | arguments | port ns | Rust ns | ratio | guarded Rust ns | ratio | differ |");
    println!("|---|---|---|---|---|---|---|---|");
    for (name, degrees) in [("in turn", &in_turn), ("at random", &at_random)] {
        if "lookup".contains(&wanted) {
            line("lookup", name, lookups(&table, &radians(degrees)));
        }
        if "cone".contains(&wanted) {
            line("cone", name, cones(degrees));
        }
    }
    for antenna in ANTENNAS {
        for (model, model_name) in ["Compatible", "Corrected"].into_iter().enumerate() {
            let name = format!("gain, type {} {model_name}", antenna.0);
            if name.contains(&wanted) {
                let turn = calls_of(antenna, model, &radians(&in_turn));
                line(&name, "one antenna, in turn", gains(&turn));
                let places = calls_of(antenna, model, &radians(&at_random));
                line(&name, "one antenna, at random", gains(&places));
                let any = any_calls(&mut random, antenna.0, model);
                line(&name, "any antenna", gains(&any));
            }
        }
    }
}
