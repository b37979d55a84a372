//! Document 01's examples and refusals through the safe functions.

use ioncap::{cone, gain, lookup, Call, IoncapParams, Model, Refusal, Table, CELLS};

/// A call of the type at the ground, with nothing but the ground set.
fn at_ground(kop: i32) -> Call {
    Call {
        kop,
        toaz: 0.0,
        params: IoncapParams {
            asig: 0.01,
            aeps: 4.0,
            and: 0.0,
            anl: 0.0,
            anh: 0.0,
            aex: [0.0; 4],
        },
        delta: 0.0,
        fmc: 7.0,
        model: Model::Compatible,
    }
}

fn curtain(elements: f32, delta: f32, model: Model) -> Call {
    let mut call = at_ground(6);
    call.params.and = 4.0;
    call.params.anl = 10.0;
    call.params.aex[0] = elements;
    call.delta = delta;
    call.model = model;
    call
}

#[test]
#[allow(clippy::excessive_precision)]
fn ground() {
    assert_eq!(
        gain(0.0, &at_ground(5)).unwrap().gain,
        -30.0 + -25.64620146_f32
    );
    assert_eq!(gain(0.35, &at_ground(2)).unwrap().gain, -30.0);
    let rhombic = gain(0.25, &at_ground(1)).unwrap();
    assert_eq!(rhombic.gain, -30.0 + -1.7_f32);
    assert_eq!(rhombic.efficiency, -1.7);
    assert_eq!(rhombic.height, 0.25);
}

#[test]
fn curtains() {
    let at = |elements, delta, model| gain(0.0, &curtain(elements, delta, model)).unwrap();
    assert_eq!(at(4.0, 1.0, Model::Compatible).gain, -26.0);
    assert_eq!(at(-2.0, 1.0, Model::Compatible).gain, -30.0);
    // The other model has the pattern there, and both have it at 0.5.
    assert_ne!(at(4.0, 1.0, Model::Corrected).gain, -26.0);
    let low = at(4.0, 0.5, Model::Compatible);
    assert_eq!(low, at(4.0, 0.5, Model::Corrected));
    assert_ne!(low.gain, -26.0);
}

#[test]
fn cones_and_lookups() {
    assert_eq!(cone(2.0, 0.0), Ok(-20.0));
    assert_eq!(cone(3.0, 5.0), Ok(-8.0));
    assert_eq!(cone(4.0, 5.0), Ok(-7.0));
    assert_eq!(cone(30.0, 90.0), Ok(-40.0));
    assert_eq!(cone(f32::NAN, 5.0), Err(Refusal::Number));
    let mut cells = vec![0.0; CELLS];
    cells[0] = -30.0;
    cells[91] = -20.0;
    let table = Table::new(&cells).unwrap();
    assert_eq!(lookup(&table, 0.5, 0.0).unwrap().gain, -25.0);
    assert_eq!(lookup(&table, 1001.0, 0.0), Err(Refusal::Number));
    assert_eq!(Table::new(&cells[1..]).err(), Some(Refusal::Length));
}

#[test]
fn refusals() {
    let refused = |height: f32, change: fn(&mut Call)| {
        let mut call = at_ground(6);
        change(&mut call);
        gain(height, &call).err()
    };
    assert_eq!(refused(0.0, |c| c.kop = 11), Some(Refusal::Type));
    assert_eq!(refused(0.0, |c| c.toaz = 1000.1), Some(Refusal::Number));
    assert_eq!(
        refused(0.0, |c| c.params.asig = 0.0),
        Some(Refusal::Conductivity)
    );
    assert_eq!(refused(0.0, |c| c.fmc = 30.0), None);
    assert_eq!(
        refused(0.0, |c| c.fmc = 30.0_f32.next_up()),
        Some(Refusal::Frequency)
    );
    assert_eq!(refused(0.0, |c| c.params.and = 64.0), None);
    assert_eq!(refused(0.0, |c| c.params.and = 65.0), Some(Refusal::Bays));
    assert_eq!(refused(f32::NAN, |_| ()), Some(Refusal::Height));
}

#[test]
fn numbers() {
    for number in 0..=u8::MAX.into() {
        if let Some(refusal) = Refusal::of_number(number) {
            assert_eq!(refusal.number(), number);
            assert!(!refusal.to_string().is_empty());
        }
    }
    assert_eq!(Refusal::of_number(0), None);
}
