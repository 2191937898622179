//! Two elements of one slice at a time.

/// Row i to write and row j to read.
pub trait IndexMut2<I>: core::ops::IndexMut<I> {
    fn index_mut_const(&mut self, i: usize, j: usize) -> (&mut Self::Output, &Self::Output);
}

impl<T> IndexMut2<usize> for [T] {
    fn index_mut_const(&mut self, i: usize, j: usize) -> (&mut T, &T) {
        assert!(i != j);
        if i < j {
            let (left, right) = self.split_at_mut(j);
            (&mut left[i], &right[0])
        } else {
            let (left, right) = self.split_at_mut(i);
            (&mut right[0], &left[j])
        }
    }
}
