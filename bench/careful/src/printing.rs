//! What is printed, one field a line.

pub struct Printer {
    out: Vec<u8>,
}

impl Printer {
    pub fn new() -> Self {
        Self {
            out: Vec::with_capacity(65_536),
        }
    }

    /// A key with its equals sign, a figure in decimal and a line feed.
    pub fn field(&mut self, key: &[u8], figure: u64) {
        // The line feed stands last, and the digits before it.
        let mut digits = [b'\n'; 21];
        let mut first = 20;
        let mut rest = figure;
        loop {
            first -= 1;
            digits[first] = b'0' + (rest % 10) as u8;
            rest /= 10;
            if rest == 0 {
                break;
            }
        }
        self.out.extend_from_slice(key);
        self.out.extend_from_slice(&digits[first..]);
    }

    pub fn bytes(self) -> Vec<u8> {
        self.out
    }
}
