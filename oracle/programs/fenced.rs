//! Storage lent to the Rattle library.

/// Storage with places before and after it that nobody may write.
pub struct Fenced<T> {
    all: Vec<T>,
    fence: T,
}

const WIDTH: usize = 32;

impl<T: Copy + PartialEq> Fenced<T> {
    pub fn new(inside: &[T], fence: T) -> Fenced<T> {
        let side = [fence; WIDTH];
        Fenced {
            all: [&side, inside, &side].concat(),
            fence,
        }
    }

    pub fn place(&mut self) -> (*mut T, usize) {
        let length = self.all.len() - 2 * WIDTH;
        (self.all[WIDTH..].as_mut_ptr(), length)
    }

    /// Gives the storage back; whether something was written outside it.
    pub fn taken_back(&self, inside: &mut [T]) -> bool {
        let end = self.all.len() - WIDTH;
        inside.copy_from_slice(&self.all[WIDTH..end]);
        let mut sides = self.all[..WIDTH].iter().chain(&self.all[end..]);
        sides.any(|x| *x != self.fence)
    }
}
