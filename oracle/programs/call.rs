//! One call of a function on rows, on either side of a comparison.

use crate::bits::bits;

/// What a call is handed: words and numbers to read, then lent storage, which it may write. A
/// function that has no use for one of them gets it empty.
#[derive(Clone)]
pub struct Call<F> {
    pub function: F,
    pub words: Vec<u32>,
    pub numbers: Vec<f32>,
    /// Rows, a row, a joint's numbers or a leaf's results.
    pub lent: Vec<f32>,
    pub vels: Vec<f32>,
    pub ids: Vec<u32>,
    /// What the call returns; 0 where it returns nothing.
    pub count: usize,
    /// Whether something was written outside the lent storage.
    pub outside: bool,
}

impl<F> Call<F> {
    pub fn new(function: F, words: &[u32], numbers: &[f32], lent: &[f32]) -> Call<F> {
        Call {
            function,
            words: words.to_vec(),
            numbers: numbers.to_vec(),
            lent: lent.to_vec(),
            vels: Vec::new(),
            ids: Vec::new(),
            count: 0,
            outside: false,
        }
    }

    /// Whether both left the same: in bits with all NaNs as one, written or not.
    pub fn agrees(&self, other: &Call<F>) -> bool {
        let same = |a: &[f32], b: &[f32]| a.iter().map(|x| bits(*x)).eq(b.iter().map(|x| bits(*x)));
        same(&self.lent, &other.lent)
            && same(&self.vels, &other.vels)
            && self.ids == other.ids
            && self.count == other.count
            && self.outside == other.outside
    }
}
