//! The lines that a script writes.

use super::reader::Fault;
use crate::Answer;

pub struct Output<'a> {
    written: &'a mut Vec<u8>,
}

impl<'a> Output<'a> {
    pub fn new(written: &'a mut Vec<u8>) -> Output<'a> {
        Output { written }
    }

    #[inline]
    pub fn ok(&mut self) {
        self.written.extend_from_slice(b"ok\n");
    }

    #[inline]
    pub fn report(&mut self, answer: &Answer) {
        // Status and value have one digit each.
        let Answer { status, value, action, mask, .. } = *answer;
        self.written.extend_from_slice(&[
            b'T',
            b' ',
            b'0' + status as u8,
            b' ',
            b'0' + value as u8,
        ]);
        self.number(action.into());
        self.number(mask);
        self.end();
    }

    #[inline]
    pub fn note(&mut self, line: &[u8]) {
        self.written.extend_from_slice(line);
        self.end();
    }

    pub fn decline(&mut self, line: u64, row: u32) {
        self.written.extend_from_slice(b"line");
        self.number(line);
        self.written.extend_from_slice(b" nub");
        self.number(row.into());
        self.end();
    }

    pub fn fault(&mut self, line: u64, fault: Fault) {
        self.written.extend_from_slice(b"line");
        self.number(line);
        self.written.extend_from_slice(b" script");
        self.number(fault.row.into());
        self.written.extend_from_slice(b" column");
        self.number(fault.column as u64);
        self.end();
    }

    #[inline]
    fn end(&mut self) {
        self.written.push(b'\n');
    }

    /// A space and the number in decimal.
    #[inline]
    fn number(&mut self, number: u64) {
        if number < 10 {
            self.written.extend_from_slice(&[b' ', b'0' + number as u8]);
            return;
        }
        // 64 bits have at most 20 digits.
        let mut digits = [b' '; 21];
        let mut at = digits.len();
        let mut left = number;
        while left != 0 {
            at -= 1;
            digits[at] = b'0' + (left % 10) as u8;
            left /= 10;
        }
        self.written.extend_from_slice(&digits[at - 1..]);
    }
}
