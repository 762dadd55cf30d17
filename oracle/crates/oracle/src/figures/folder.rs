//! One figure over a folder.

use std::fmt;

#[derive(Clone, Copy, Debug, PartialEq, Eq)]
pub struct Summary {
    pub sum: u128,
    pub largest: u128,
    /// The first file that has the largest, counted from 1; 0 if there is no file.
    pub file: usize,
    /// Numerator and denominator, in lowest terms.
    pub mean: (u128, u128),
}

/// Of a figure's values, one for each file.
pub fn summary(values: &[u128]) -> Summary {
    let sum = values.iter().sum();
    let largest = values.iter().copied().max().unwrap_or(0);
    let file = values.iter().position(|value| *value == largest).map_or(0, |index| index + 1);
    // Over no files the mean is 0/1, as it is over one file of 0.
    Summary { sum, largest, file, mean: lowest_terms(sum, values.len().max(1) as u128) }
}

/// By the greatest number that divides both. There are few files, so all candidates can be tried.
fn lowest_terms(sum: u128, files: u128) -> (u128, u128) {
    let divides = |number: &u128| sum.is_multiple_of(*number) && files.is_multiple_of(*number);
    let greatest = (1..=files).rev().find(divides).expect("1 divides both");
    (sum / greatest, files / greatest)
}

impl fmt::Display for Summary {
    fn fmt(&self, out: &mut fmt::Formatter) -> fmt::Result {
        let Summary { sum, largest, file, mean: (over, under) } = self;
        write!(out, "{sum} {largest} {file} {over}/{under}")
    }
}
