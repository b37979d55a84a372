//! A table of gains, as the C entry takes it.

use crate::ffi::TABLE_LENGTH;
use crate::Refusal;

/// The cells of a table.
pub const CELLS: usize = TABLE_LENGTH / 4;

/// 30 rows (1 to 30 MHz) of 91 gains (0 to 90 degrees), then 30 efficiencies,
/// all in dB.
#[derive(Clone, Debug)]
pub struct Table {
    bytes: Vec<u8>,
}

impl Table {
    /// The table of these cells; refused unless they are [`CELLS`].
    pub fn new(cells: &[f32]) -> Result<Table, Refusal> {
        if cells.len() != CELLS {
            return Err(Refusal::Length);
        }
        let bytes = cells.iter().flat_map(|cell| cell.to_le_bytes()).collect();
        Ok(Table { bytes })
    }

    pub(crate) fn bytes(&self) -> &[u8] {
        &self.bytes
    }
}
