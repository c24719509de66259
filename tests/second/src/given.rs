//! Reading what a case line gives: numbers, words and lists, exactly one space between two.

use std::str::FromStr;

/// A word or a list has at most so many entries.
pub const LONGEST: usize = 128;

/// What is still to be read of a line. Every step answers none where the line is no case.
pub struct Given<'a> {
    rest: &'a str,
}

impl<'a> Given<'a> {
    pub fn of(rest: &'a str) -> Given<'a> {
        Given { rest }
    }

    /// h and m, each with the space behind it.
    pub fn shape(&mut self) -> Option<(u32, u32)> {
        let h = self.number()?;
        self.space()?;
        let m = self.number()?;
        self.space()?;
        Some((h, m))
    }

    pub fn shape_and_word(&mut self) -> Option<(u32, u32, Vec<u8>)> {
        let (h, m) = self.shape()?;
        let word = self.word()?;
        self.end()?;
        Some((h, m, word))
    }

    /// m and both areas.
    pub fn areas(&mut self) -> Option<(u32, Vec<i32>, Vec<i32>)> {
        let m = self.number()?;
        self.space()?;
        let first = self.list()?;
        self.space()?;
        let second = self.list()?;
        self.end()?;
        Some((m, first, second))
    }

    fn take(&mut self, sign: char) -> Option<()> {
        self.rest = self.rest.strip_prefix(sign)?;
        Some(())
    }

    pub fn space(&mut self) -> Option<()> {
        self.take(' ')
    }

    pub fn end(&self) -> Option<()> {
        self.rest.is_empty().then_some(())
    }

    /// A number in the range of its type: digits, and a minus only where it is below zero.
    pub fn number<T: FromStr>(&mut self) -> Option<T> {
        let unsigned = self.rest.strip_prefix('-').unwrap_or(self.rest);
        let digits = unsigned.find(|sign: char| !sign.is_ascii_digit()).unwrap_or(unsigned.len());
        let length = self.rest.len() - unsigned.len() + digits;
        let (number, rest) = self.rest.split_at(length);
        if number.starts_with('-') && unsigned[..digits].chars().all(|digit| digit == '0') {
            return None;
        }
        self.rest = rest;
        number.parse().ok()
    }

    pub fn word(&mut self) -> Option<Vec<u8>> {
        self.take('[')?;
        let mut word = Vec::new();
        while self.take(']').is_none() {
            word.push(self.symbol()?);
        }
        (word.len() <= LONGEST).then_some(word)
    }

    /// A digit, or a number of two digits and more in parentheses.
    fn symbol(&mut self) -> Option<u8> {
        if self.take('(').is_some() {
            let symbol = self.number().filter(|&symbol| symbol >= 10)?;
            self.take(')')?;
            return Some(symbol);
        }
        let digit = self.rest.chars().next()?.to_digit(10)?;
        self.rest = &self.rest[1..];
        Some(digit as u8)
    }

    pub fn list<T: FromStr>(&mut self) -> Option<Vec<T>> {
        self.take('[')?;
        let mut list = Vec::new();
        if self.take(']').is_some() {
            return Some(list);
        }
        list.push(self.number()?);
        while self.take(']').is_none() {
            self.space()?;
            list.push(self.number()?);
        }
        (list.len() <= LONGEST).then_some(list)
    }
}
