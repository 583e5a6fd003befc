//! Mean and standard deviation of whole numbers.

/// Mean and standard deviation.
pub type Figures = [f64; 2];

/// The count of some numbers, their sum and the sum of their squares.
#[derive(Debug, Default, PartialEq, Eq)]
pub struct Sums {
    pub count: u64,
    sum: u64,
    squares: u64,
}

impl Sums {
    /// Adds a number.
    pub fn add(&mut self, number: u32) {
        let number = u64::from(number);
        self.count += 1;
        self.sum += number;
        self.squares += number * number;
    }

    /// Mean and standard deviation of the numbers added.
    pub fn figures(&self) -> Figures {
        let [sum, squares] = [self.sum, self.squares].map(|sum| sum as f64 / self.count as f64);
        [sum, (squares - sum * sum).sqrt()]
    }

    /// The mean of the numbers added.
    pub fn mean(&self) -> f64 {
        self.figures()[0]
    }
}

#[cfg(test)]
mod tests {
    use super::*;

    #[test]
    fn mean_and_deviation_are_those_of_the_numbers_added() {
        let mut sums = Sums::default();
        for number in [2, 4, 4, 4, 5, 5, 7, 9] {
            sums.add(number);
        }
        assert_eq!(sums.figures(), [5.0, 2.0]);
        assert_eq!(sums.mean(), 5.0);
    }
}
