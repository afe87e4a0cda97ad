//! Whole numbers below 2^320.

use std::array;

const WORDS: usize = 5;

/// Its words, the highest first: the order of the numbers is theirs.
#[derive(Clone, Copy, PartialEq, Eq, PartialOrd, Ord)]
pub struct Wide([u64; WORDS]);

impl Wide {
    pub fn product(a: u128, b: u64) -> Wide {
        let low = u128::from(a as u64) * u128::from(b);
        let high = (a >> 64) * u128::from(b) + (low >> 64);
        Wide([0, 0, (high >> 64) as u64, high as u64, low as u64])
    }

    /// The number times 2^n.
    pub fn shifted(self, n: i32) -> Wide {
        let n = u32::try_from(n).expect("no bit below the units");
        assert!(n <= self.leading_zeros(), "a bit above 2^320");
        let words = (n / 64) as usize;
        let word = |place| u128::from(self.0.get(place).copied().unwrap_or(0));
        Wide(array::from_fn(|place| {
            let both = word(place + words) << 64 | word(place + words + 1);
            (both << (n % 64) >> 64) as u64
        }))
    }

    fn leading_zeros(self) -> u32 {
        let zeros = self.0.iter().take_while(|word| **word == 0).count();
        64 * zeros as u32 + self.0.get(zeros).map_or(0, |word| word.leading_zeros())
    }

    /// The number plus, or with the sign -1 minus, the other.
    pub fn plus(self, sign: i128, other: Wide) -> Wide {
        let mut words = [0; WORDS];
        let mut carry = 0;
        for place in (0..WORDS).rev() {
            let sum = i128::from(self.0[place]) + sign * i128::from(other.0[place]) + carry;
            words[place] = sum as u64;
            carry = sum >> 64;
        }
        assert!(carry == 0, "a sum below 0 or above 2^320");
        Wide(words)
    }

    pub fn apart(self, other: Wide) -> Wide {
        self.max(other).plus(-1, self.min(other))
    }

    /// The logarithm, for print.
    pub fn log2(self) -> f64 {
        let add = |n, word: &u64| n * 2f64.powi(64) + *word as f64;
        self.0.iter().fold(0.0, add).log2()
    }

    /// The digits, without leading zeros.
    pub fn hexadecimal(self) -> String {
        let digits = self.0.map(|word| format!("{word:016x}")).concat();
        digits.trim_start_matches('0').to_string()
    }
}
