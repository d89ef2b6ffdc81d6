//! Whole numbers of any size, with just what the witness finder needs.

use std::cmp::Ordering;

/// A number, in 32-bit digits, the least first, without zeros at the end.
#[derive(Clone, Debug, PartialEq, Eq)]
pub struct Big(Vec<u32>);

impl Big {
    pub fn of(mut number: u128) -> Self {
        let mut digits = Vec::new();
        while number > 0 {
            digits.push(number as u32);
            number >>= 32;
        }
        Big(digits)
    }

    pub fn times(&self, other: &Big) -> Big {
        let mut digits = vec![0u32; self.0.len() + other.0.len()];
        for (i, &a) in self.0.iter().enumerate() {
            let mut carry = 0u64;
            for (j, &b) in other.0.iter().enumerate() {
                let sum = u64::from(a) * u64::from(b) + u64::from(digits[i + j]) + carry;
                digits[i + j] = sum as u32;
                carry = sum >> 32;
            }
            digits[i + other.0.len()] = carry as u32;
        }
        while digits.last() == Some(&0) {
            digits.pop();
        }
        Big(digits)
    }

    pub fn plus(&self, other: &Big) -> Big {
        let digit = |number: &Big, place: usize| u64::from(number.0.get(place).copied().unwrap_or(0));
        let (mut digits, mut carry) = (Vec::new(), 0);
        for place in 0..self.0.len().max(other.0.len()) {
            let sum = digit(self, place) + digit(other, place) + carry;
            digits.push(sum as u32);
            carry = sum >> 32;
        }
        digits.extend((carry > 0).then_some(carry as u32));
        Big(digits)
    }

    pub fn times_small(&self, other: u128) -> Big {
        self.times(&Big::of(other))
    }
}

impl PartialOrd for Big {
    fn partial_cmp(&self, other: &Big) -> Option<Ordering> {
        Some(self.cmp(other))
    }
}

impl Ord for Big {
    fn cmp(&self, other: &Big) -> Ordering {
        let by_length = self.0.len().cmp(&other.0.len());
        by_length.then_with(|| self.0.iter().rev().cmp(other.0.iter().rev()))
    }
}

#[test]
fn products_sums_and_order() {
    let samples = [0, 1, 7, 0xFFFF_FFFF, 0x1_0000_0000, 0xFFFF_FFFF_FFFF_FFFFu128];
    for a in samples {
        for b in samples {
            assert_eq!(Big::of(a).times(&Big::of(b)), Big::of(a.wrapping_mul(b)));
            assert_eq!(Big::of(a).cmp(&Big::of(b)), a.cmp(&b));
            assert_eq!(Big::of(a).plus(&Big::of(b)), Big::of(a + b));
        }
    }
    let large = Big::of(u128::MAX).times(&Big::of(u128::MAX));
    assert!(large > Big::of(u128::MAX));
    assert_eq!(Big::of(u128::MAX).plus(&Big::of(u128::MAX)), Big::of(u128::MAX).times_small(2));
    assert!(large < Big::of(u128::MAX).times_small(u128::MAX).times_small(2));
}
