//! Refusal numbers, and which of several is given.

/// A refusal: its number and where.
#[derive(Clone, Copy, Debug, PartialEq, Eq)]
pub struct Refusal {
    pub number: u8,
    pub volume: usize,
    pub line: usize,
}

/// The numbers that one line has earned: "on one line the smallest number".
#[derive(Clone, Copy, Default)]
pub struct Faults(u32);

impl Faults {
    pub fn add(&mut self, number: u8) {
        self.0 |= 1 << number;
    }

    pub fn add_if(&mut self, broken: bool, number: u8) {
        if broken {
            self.add(number);
        }
    }

    pub fn smallest(self) -> Option<u8> {
        if self.0 == 0 {
            return None;
        }
        Some(self.0.trailing_zeros() as u8)
    }
}
