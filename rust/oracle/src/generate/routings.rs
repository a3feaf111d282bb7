//! Routings: mostly of a number of the table that is the node's own, asked for with
//! its code or without.

use super::{digits, Call, Generator};

/// Characters that are no digits: the neighbours of digits, and digits with the high
/// bit set, among them.
const NO_DIGITS: &[u8; 12] = b"/: *#+aA\0\xB0\xB9\xFF";

/// Counts of digits around the limits, with the code put in front or not.
const COUNTS: [usize; 16] = [0, 1, 2, 3, 4, 5, 6, 11, 12, 13, 14, 15, 16, 17, 160, 300];

/// The digits of an international code.
const CODE: usize = 3;

impl Generator {
    pub fn routing(&mut self) -> Call {
        let (table, _, number) = self.table_and_number();
        self.routing_on(table, number)
    }

    /// A routing of `number` on this table: mostly so that it is found; now and then
    /// its digits are marked as having no code though they begin with it.
    pub(super) fn routing_on(&mut self, table: Vec<u64>, number: u64) -> Call {
        let whole = digits(number).into_bytes();
        let (code, rest) = whole.split_at(CODE.min(whole.len()));
        let coded = self.random.once_in(2);
        let digits = if coded || self.random.once_in(12) {
            &whole
        } else {
            rest
        };
        let (mut code, mut digits) = (code.to_vec(), digits.to_vec());
        match self.random.below(16) {
            0 | 1 => self.change_digit(&mut code),
            2 => self.break_code(&mut code),
            3 | 4 => self.resize(&mut digits),
            5 => self.put_no_digit(&mut digits),
            6 => self.change_digit(&mut digits),
            _ => {}
        }
        Call::Routing {
            table,
            code,
            digits,
            coded,
        }
    }

    /// Makes one digit another, if there are any.
    fn change_digit(&mut self, digits: &mut [u8]) {
        if !digits.is_empty() {
            let place = self.random.index(digits.len());
            digits[place] = b'0' + (digits[place] - b'0' + 1 + self.random.below(9) as u8) % 10;
        }
    }

    /// Makes the node's code one of another length, or one with a character that
    /// is no digit.
    fn break_code(&mut self, code: &mut Vec<u8>) {
        match self.random.below(3) {
            0 => self.put_no_digit(code),
            1 => code.truncate(self.random.index(CODE)),
            _ => code.resize(CODE + 1 + self.random.index(CODE), b'0'),
        }
    }

    fn put_no_digit(&mut self, digits: &mut Vec<u8>) {
        let character = self.random.pick(NO_DIGITS);
        if digits.is_empty() {
            return digits.push(character);
        }
        let place = self.random.index(digits.len());
        digits[place] = character;
    }

    /// Cuts digits, or puts others behind them, to one of the counts.
    fn resize(&mut self, digits: &mut Vec<u8>) {
        let count = self.random.pick(&COUNTS);
        let digit = b'0' + self.random.below(10) as u8;
        digits.resize(count, digit);
    }
}
