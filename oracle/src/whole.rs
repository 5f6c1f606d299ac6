//! Whole numbers of any size: just enough to test a 256th power against a power of two.

/// Words of 64 bits, least significant first.
pub struct Whole(Vec<u64>);

impl Whole {
    pub fn from(number: u64) -> Self {
        Whole(vec![number])
    }

    /// The square, word by word as on paper.
    pub fn squared(&self) -> Self {
        let mut square = vec![0; 2 * self.0.len()];
        for (i, &a) in self.0.iter().enumerate() {
            let mut carry = 0;
            for (j, &b) in self.0.iter().enumerate() {
                let sum = u128::from(a) * u128::from(b) + u128::from(square[i + j]) + carry;
                square[i + j] = sum as u64;
                carry = sum >> 64;
            }
            square[i + self.0.len()] = carry as u64;
        }
        while square.len() > 1 && square.last() == Some(&0) {
            square.pop();
        }
        Whole(square)
    }

    /// Whether the number is at most 2^exponent.
    pub fn at_most_power_of_two(&self, exponent: usize) -> bool {
        let (word, bit) = (exponent / 64, exponent % 64);
        let high_words = self.0.iter().skip(word + 1);
        if high_words.clone().any(|&high| high != 0) {
            return false;
        }
        let top = self.0.get(word).copied().unwrap_or(0);
        let below_is_zero = self.0.iter().take(word).all(|&low| low == 0);
        top < 1 << bit || (top == 1 << bit && below_is_zero)
    }
}
