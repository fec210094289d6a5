//! Stands in for itoa: the digits of a number.

/// Room for the digits of a number.
pub struct Buffer([u8; 20]);

impl Buffer {
    pub fn new() -> Self {
        Buffer([0; 20])
    }

    /// The decimal digits, with no leading zero.
    pub fn format<N: Into<u64>>(&mut self, number: N) -> &str {
        let mut left = number.into();
        let mut at = self.0.len();
        loop {
            at -= 1;
            self.0[at] = b'0' + (left % 10) as u8;
            left /= 10;
            if left == 0 {
                break;
            }
        }
        str::from_utf8(&self.0[at..]).unwrap()
    }
}

#[cfg(test)]
mod tests {
    use super::*;

    #[test]
    fn digits_are_those_of_the_standard_library() {
        for number in [0, 7, 10, 12_345, u64::MAX] {
            assert_eq!(Buffer::new().format(number), number.to_string());
        }
    }
}
