//! Natural numbers of any size, just enough to state the sine polynomial exactly.

use std::cmp::Ordering;

/// A natural number: limbs of 32 bits, least significant first, no zero limb on top.
#[derive(Clone, Debug, PartialEq, Eq)]
pub struct Natural {
    limbs: Vec<u32>,
}

impl Natural {
    /// The number zero.
    pub fn zero() -> Self {
        Natural { limbs: Vec::new() }
    }

    /// A number of 64 bits.
    pub fn from_u64(value: u64) -> Self {
        Self::from_limbs(vec![value as u32, (value >> 32) as u32])
    }

    /// A number of 128 bits.
    pub fn from_u128(value: u128) -> Self {
        Self::from_limbs((0..4).map(|i| (value >> (32 * i)) as u32).collect())
    }

    /// A number from its limbs, zero limbs on top taken off.
    fn from_limbs(mut limbs: Vec<u32>) -> Self {
        while limbs.last() == Some(&0) {
            limbs.pop();
        }
        Natural { limbs }
    }

    /// The sum.
    pub fn add(&self, other: &Self) -> Self {
        let length = self.limbs.len().max(other.limbs.len());
        let mut limbs = Vec::with_capacity(length + 1);
        let mut carry = 0_u64;
        for i in 0..length {
            let sum = carry + self.limb(i) + other.limb(i);
            limbs.push(sum as u32);
            carry = sum >> 32;
        }
        limbs.push(carry as u32);
        Self::from_limbs(limbs)
    }

    /// The difference; `other` is at most `self`.
    pub fn subtract(&self, other: &Self) -> Self {
        assert!(self.compare(other) != Ordering::Less);
        let mut limbs = Vec::with_capacity(self.limbs.len());
        let mut borrow = 0_u64;
        for i in 0..self.limbs.len() {
            let difference = (1 << 32) + self.limb(i) - other.limb(i) - borrow;
            limbs.push(difference as u32);
            borrow = 1 - (difference >> 32);
        }
        Self::from_limbs(limbs)
    }

    /// The product.
    pub fn multiply(&self, other: &Self) -> Self {
        let mut limbs = vec![0_u32; self.limbs.len() + other.limbs.len()];
        for (i, &a) in self.limbs.iter().enumerate() {
            let mut carry = 0_u64;
            for (j, &b) in other.limbs.iter().enumerate() {
                let sum = u64::from(limbs[i + j]) + u64::from(a) * u64::from(b) + carry;
                limbs[i + j] = sum as u32;
                carry = sum >> 32;
            }
            limbs[i + other.limbs.len()] = carry as u32;
        }
        Self::from_limbs(limbs)
    }

    /// Which of two numbers is larger.
    pub fn compare(&self, other: &Self) -> Ordering {
        let length = self.limbs.len().max(other.limbs.len());
        let differing = (0..length).rev().find(|&i| self.limb(i) != other.limb(i));
        differing.map_or(Ordering::Equal, |i| self.limb(i).cmp(&other.limb(i)))
    }

    /// Floor of the quotient, which must be below 2^62: by trial of its bits from the top.
    pub fn floor_quotient(&self, divisor: &Self) -> i64 {
        let mut quotient = 0_u64;
        for bit in (0..62).rev() {
            let trial = quotient | 1 << bit;
            if divisor.multiply(&Self::from_u64(trial)).compare(self) != Ordering::Greater {
                quotient = trial;
            }
        }
        quotient as i64
    }

    /// A limb, 0 above the top.
    fn limb(&self, place: usize) -> u64 {
        self.limbs.get(place).copied().map_or(0, u64::from)
    }
}

#[cfg(test)]
mod tests {
    use super::*;

    #[test]
    fn agrees_with_128_bit_arithmetic() {
        let (a, b) = (0xffff_ffff_0000_0001_u64, 0xfedc_ba98_7654_3210_u64);
        let (large_a, large_b) = (Natural::from_u64(a), Natural::from_u64(b));
        let product = u128::from(a) * u128::from(b);
        assert_eq!(large_a.multiply(&large_b), Natural::from_u128(product));
        let sum = u128::from(a) + u128::from(b);
        assert_eq!(large_a.add(&large_b), Natural::from_u128(sum));
        assert_eq!(large_a.subtract(&large_b), Natural::from_u64(a - b));
        let quotient = Natural::from_u128(product).floor_quotient(&Natural::from_u128(8 * sum));
        assert_eq!(quotient, (product / (8 * sum)) as i64);
        assert_eq!(Natural::zero(), Natural::from_u64(0));
    }
}
