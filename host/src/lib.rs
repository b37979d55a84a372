//! Gains of the ten IONCAP antennas for a Rust program: safe functions over
//! the proved library's three C entries (document 01 section 9).
//!
//! ```
//! use ioncap::{gain, Call, IoncapParams, Model, Refusal};
//!
//! // A monopole of half a wavelength over average ground at 2 MHz.
//! let call = Call {
//!     kop: 2,
//!     toaz: 0.0,
//!     params: IoncapParams {
//!         asig: 0.01,
//!         aeps: 4.0,
//!         and: 0.0,
//!         anl: -0.5,
//!         anh: 0.0,
//!         aex: [0.0; 4],
//!     },
//!     delta: 0.5,
//!     fmc: 2.0,
//!     model: Model::Compatible,
//! };
//! // A fresh height is 0; each call takes the height that the one before left.
//! let high = gain(0.0, &call)?;
//! assert_eq!(high.height, 0.5);
//! let ground = gain(high.height, &Call { delta: 0.0, ..call })?;
//! assert_eq!(ground.gain, -30.0);
//!
//! let call = Call { fmc: 31.0, ..call };
//! assert_eq!(gain(0.0, &call), Err(Refusal::Frequency));
//! # Ok::<(), Refusal>(())
//! ```

pub mod ffi;
mod refusal;
mod table;

pub use refusal::Refusal;
pub use table::{Table, CELLS};

use ffi::ANSWER_LENGTH;

/// What an antenna is built of, in the order of the Rust's `IoncapParams`.
#[derive(Clone, Copy, Debug, PartialEq)]
pub struct IoncapParams {
    /// Ground conductivity, mhos/metre.
    pub asig: f32,
    /// Ground relative dielectric constant.
    pub aeps: f32,
    /// An angle in degrees; the curtain's number of bays.
    pub and: f32,
    /// Leg: metres, or, if negative, wavelengths.
    pub anl: f32,
    /// Height: metres, or, if negative, wavelengths. The monopole's gain in dB.
    pub anh: f32,
    /// What else the type takes.
    pub aex: [f32; 4],
}

/// Which curtain: as the Fortran has it, or with its elevation corrected.
#[derive(Clone, Copy, Debug, PartialEq, Eq)]
pub enum Model {
    Compatible,
    Corrected,
}

impl Model {
    fn number(self) -> i32 {
        match self {
            Model::Compatible => 0,
            Model::Corrected => 1,
        }
    }
}

/// One antenna looked at from one direction, at one frequency.
#[derive(Clone, Copy, Debug, PartialEq)]
pub struct Call {
    /// The type, 1 to 10.
    pub kop: i32,
    /// Off-azimuth, degrees.
    pub toaz: f32,
    pub params: IoncapParams,
    /// Elevation, radians.
    pub delta: f32,
    /// MHz.
    pub fmc: f32,
    pub model: Model,
}

/// An accepted call's answer, in dB, and the height left for the next call.
#[derive(Clone, Copy, Debug, PartialEq)]
pub struct Gain {
    pub gain: f32,
    pub efficiency: f32,
    pub height: f32,
}

/// A lookup's answer, in dB.
#[derive(Clone, Copy, Debug, PartialEq)]
pub struct GainEfficiency {
    pub gain: f32,
    pub efficiency: f32,
}

/// The gain of a call at the carried height. A refused call leaves the height
/// as it is.
pub fn gain(height: f32, call: &Call) -> Result<Gain, Refusal> {
    let p = &call.params;
    let [aex1, aex2, aex3, aex4] = p.aex;
    let mut answer = [0; ANSWER_LENGTH];
    // Sound: the answer is its own pointer and length, and nothing keeps them.
    let number = unsafe {
        ffi::ioncap_gain(
            height,
            call.kop,
            call.toaz,
            p.asig,
            p.aeps,
            p.and,
            p.anl,
            p.anh,
            aex1,
            aex2,
            aex3,
            aex4,
            call.delta,
            call.fmc,
            call.model.number(),
            answer.as_mut_ptr(),
            answer.len(),
        )
    };
    let [gain, efficiency, height] = accepted(number, &answer)?;
    Ok(Gain {
        gain,
        efficiency,
        height,
    })
}

/// The gain and efficiency of a table at `fmc` MHz and `delta` radians,
/// between its rows and columns and beyond them.
///
/// ```
/// let mut cells = vec![0.0; ioncap::CELLS];
/// cells[0] = -30.0; // 1 MHz, 0 degrees
/// cells[91] = -20.0; // 2 MHz, 0 degrees
/// let table = ioncap::Table::new(&cells)?;
/// assert_eq!(ioncap::lookup(&table, 0.5, 0.0)?.gain, -25.0);
/// # Ok::<(), ioncap::Refusal>(())
/// ```
pub fn lookup(table: &Table, fmc: f32, delta: f32) -> Result<GainEfficiency, Refusal> {
    let bytes = table.bytes();
    let mut answer = [0; ANSWER_LENGTH];
    // Sound: each slice is its own pointer and length, and nothing keeps them.
    let number = unsafe {
        ffi::ioncap_lookup(
            bytes.as_ptr(),
            bytes.len(),
            fmc,
            delta,
            answer.as_mut_ptr(),
            answer.len(),
        )
    };
    let [gain, efficiency, _] = accepted(number, &answer)?;
    Ok(GainEfficiency { gain, efficiency })
}

/// The inverted cone's gain in dB at `freq` MHz and `elev_deg` degrees.
///
/// ```
/// assert_eq!(ioncap::cone(4.0, 5.0), Ok(-7.0));
/// ```
pub fn cone(freq: f32, elev_deg: f32) -> Result<f32, Refusal> {
    let mut answer = [0; ANSWER_LENGTH];
    // Sound: the answer is its own pointer and length, and nothing keeps them.
    let number = unsafe { ffi::ioncap_cone(freq, elev_deg, answer.as_mut_ptr(), answer.len()) };
    let [gain, _, _] = accepted(number, &answer)?;
    Ok(gain)
}

/// The answer's three numbers, or the refusal.
fn accepted(number: u32, answer: &[u8; ANSWER_LENGTH]) -> Result<[f32; 3], Refusal> {
    match number {
        0 => Ok(ffi::numbers(answer)),
        _ => Err(Refusal::of_number(number).expect("one of document 01's numbers")),
    }
}
