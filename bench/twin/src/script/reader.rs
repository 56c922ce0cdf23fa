//! The script read line by line, in one pass over its bytes.

use super::number::{self, Found};

/// A decline of the script itself.
#[derive(Clone, Copy)]
pub struct Fault {
    pub row: u32,
    pub column: usize,
}

pub struct Reader<'a> {
    input: &'a [u8],
    /// Where the present line starts.
    start: usize,
    /// How far the present line has been read.
    at: usize,
}

impl<'a> Reader<'a> {
    pub fn new(input: &'a [u8]) -> Reader<'a> {
        Reader { input, start: 0, at: 0 }
    }

    /// Whether there is a present line; if not, the script has ended.
    #[inline]
    pub fn has_line(&self) -> bool {
        self.start < self.input.len()
    }

    /// Goes to the next line, over whatever is left of the present one.
    #[inline]
    pub fn next_line(&mut self) {
        self.skip_rest();
        // Over the end of the line, or past the input where the last line lacks it.
        self.at += 1;
        self.start = self.at;
    }

    /// The whole of the present line.
    pub fn line(&mut self) -> &'a [u8] {
        self.skip_rest();
        &self.input[self.start..self.at]
    }

    /// The first byte of the line, if it is not empty.
    #[inline]
    pub fn letter(&mut self) -> Option<u8> {
        let letter = self.here();
        self.at += usize::from(letter.is_some());
        letter
    }

    /// The rest of the line, which has to be exactly these numbers.
    #[inline]
    pub fn numbers<const N: usize>(&mut self) -> Result<[u32; N], Fault> {
        let mut numbers = [0; N];
        for number in &mut numbers {
            *number = self.number()?;
        }
        match self.here() {
            None => Ok(numbers),
            Some(_) => Err(self.fault()),
        }
    }

    #[inline]
    fn number(&mut self) -> Result<u32, Fault> {
        if self.here() != Some(b' ') {
            return Err(self.fault());
        }
        self.at += 1;
        match number::read(&self.input[self.at..]) {
            Found::Number(number, digits) => {
                self.at += digits;
                Ok(number)
            }
            Found::NoDigit | Found::OverLimit => Err(self.fault()),
        }
    }

    /// The next byte of the line, none at its end.
    #[inline]
    fn here(&self) -> Option<u8> {
        self.input.get(self.at).copied().filter(|&byte| byte != b'\n')
    }

    #[inline]
    fn skip_rest(&mut self) {
        while self.here().is_some() {
            self.at += 1;
        }
    }

    /// A malformed line, at fault right here.
    fn fault(&self) -> Fault {
        Fault { row: 32, column: self.at - self.start + 1 }
    }
}
