//! The C entries, as include/ioncap.h has them. A slice is a pointer, then a
//! length. Each answers the refusal number, 0 if it accepts.

/// The bytes of an answer: gain, efficiency and the height left.
pub const ANSWER_LENGTH: usize = 12;
/// The bytes of a table.
pub const TABLE_LENGTH: usize = 11_040;

extern "C" {
    /// # Safety
    ///
    /// `answer` is valid for reads and writes of `answer_length` bytes.
    pub fn ioncap_gain(
        height: f32,
        kop: i32,
        toaz: f32,
        asig: f32,
        aeps: f32,
        and: f32,
        anl: f32,
        anh: f32,
        aex1: f32,
        aex2: f32,
        aex3: f32,
        aex4: f32,
        delta: f32,
        fmc: f32,
        model: i32,
        answer: *mut u8,
        answer_length: usize,
    ) -> u32;

    /// # Safety
    ///
    /// `table` is valid for reads of `table_length` bytes, `answer` for reads
    /// and writes of `answer_length` bytes, and they do not overlap.
    pub fn ioncap_lookup(
        table: *const u8,
        table_length: usize,
        fmc: f32,
        delta: f32,
        answer: *mut u8,
        answer_length: usize,
    ) -> u32;

    /// # Safety
    ///
    /// `answer` is valid for reads and writes of `answer_length` bytes.
    pub fn ioncap_cone(freq: f32, elev_deg: f32, answer: *mut u8, answer_length: usize) -> u32;
}

/// The three numbers of an answer.
pub fn numbers(answer: &[u8; ANSWER_LENGTH]) -> [f32; 3] {
    let [a, b, c, d, e, f, g, h, i, j, k, l] = *answer;
    [[a, b, c, d], [e, f, g, h], [i, j, k, l]].map(f32::from_le_bytes)
}
