//! Exact sums of binary32 numbers, and the spacing at one.

use std::cmp::Ordering;

/// A whole number of 384 bits, two's complement, the least word first. A finite number has less than 2^278 units of 2^-149.
#[derive(Copy, Clone, PartialEq, Eq)]
pub struct Wide([u64; 6]);

impl Wide {
    pub fn shifted(n: u64, by: u32) -> Wide {
        let mut words = [0; 6];
        let (word, bit) = ((by / 64) as usize, by % 64);
        words[word] = n << bit;
        if bit > 0 && word < 5 {
            words[word + 1] = n >> (64 - bit);
        }
        Wide(words)
    }

    /// A finite number in units of 2^-149.
    pub fn of(x: f32) -> Wide {
        let (field, digits) = (x.to_bits() >> 23 & 0xFF, (x.to_bits() & 0x7F_FFFF) as u64);
        let size = match field {
            0 => Wide::shifted(digits, 0),
            _ => Wide::shifted(digits | 0x80_0000, field - 1),
        };
        if x.is_sign_negative() { size.negated() } else { size }
    }

    pub fn plus(self, other: Wide) -> Wide {
        let mut carry = false;
        let mut words = [0; 6];
        for i in 0..6 {
            let (a, over) = self.0[i].overflowing_add(other.0[i]);
            let (b, again) = a.overflowing_add(carry as u64);
            words[i] = b;
            carry = over | again;
        }
        Wide(words)
    }

    pub fn negated(self) -> Wide {
        Wide(self.0.map(|w| !w)).plus(Wide::shifted(1, 0))
    }

    pub fn minus(self, other: Wide) -> Wide {
        self.plus(other.negated())
    }

    pub fn is_negative(self) -> bool {
        self.0[5] >> 63 == 1
    }

    pub fn size(self) -> Wide {
        if self.is_negative() { self.negated() } else { self }
    }

    pub fn times(self, by: u64) -> Wide {
        let mut words = [0; 6];
        let mut carry = 0;
        for (word, of) in words.iter_mut().zip(self.size().0) {
            let product = of as u128 * by as u128 + carry;
            *word = product as u64;
            carry = product >> 64;
        }
        if self.is_negative() { Wide(words).negated() } else { Wide(words) }
    }

    /// Of two that are not negative.
    pub fn compared(self, other: Wide) -> Ordering {
        self.0.iter().rev().cmp(other.0.iter().rev())
    }

    /// One that is not negative, as the host has it.
    pub fn about(self) -> f64 {
        self.0.iter().rev().fold(0.0, |sum, w| sum * 2f64.powi(64) + *w as f64)
    }

    pub fn is_zero(self) -> bool {
        self == Wide([0; 6])
    }
}

/// The spacing at a finite number away from zero, and that towards zero where `narrow`; by the field of its exponent.
pub fn spacing(x: f32, narrow: bool) -> Wide {
    let field = x.to_bits() >> 23 & 0xFF;
    let half = narrow && field > 1 && x.to_bits() & 0x7F_FFFF == 0;
    Wide::shifted(1, field.max(1) - 1 - half as u32)
}

/// 2^k, for a k from -149 to 127.
pub fn power(k: i32) -> f32 {
    if k < -126 { f32::from_bits(1 << (k + 149)) } else { f32::from_bits(((k + 127) as u32) << 23) }
}
