//! A text that is read word by word. What isn't as it has to be is told in one line on standard error,
//! and the mirror ends with status 2.

use std::ops::RangeInclusive;

pub struct Reader<'t> {
    text: &'t [u8],
    from: usize,
}

impl<'t> Reader<'t> {
    pub fn of(text: &'t [u8]) -> Reader<'t> {
        Reader { text, from: 0 }
    }

    /// Ends the mirror: this is wanted in the line that is being read.
    #[cold]
    pub fn refuse(&self, wanted: &str) -> ! {
        let line = self.text[..self.from].iter().filter(|byte| **byte == b'\n').count() + 1;
        crate::refuse(&format!("line {line}: {wanted}"))
    }

    pub fn does_begin(&self, word: &str) -> bool {
        self.text[self.from..].starts_with(word.as_bytes())
    }

    /// Takes these bytes.
    #[inline(always)]
    pub fn take(&mut self, word: &str) {
        if !self.does_begin(word) {
            self.refuse(&format!("{word:?} is wanted"));
        }
        self.from += word.len();
    }

    /// Takes a number in this range, and the byte after it.
    #[inline(always)]
    pub fn number(&mut self, range: RangeInclusive<u32>, end: u8) -> u32 {
        let first = self.from;
        let mut number = 0;
        while let Some(digit) = self.digit() && self.from - first < 10 {
            number = number * 10 + u64::from(digit);
            self.from += 1;
        }
        let digits = self.from - first;
        let is_plain = digits == 1 || digits > 1 && self.text[first] != b'0';
        let is_in_range = u32::try_from(number).is_ok_and(|number| range.contains(&number));
        if !is_plain || !is_in_range || self.text.get(self.from) != Some(&end) {
            let (least, most) = range.into_inner();
            self.refuse(&format!("a number from {least} to {most} and {:?} are wanted", end as char));
        }
        self.from += 1;
        number as u32
    }

    fn digit(&self) -> Option<u8> {
        self.text.get(self.from).map(|byte| byte.wrapping_sub(b'0')).filter(|digit| *digit < 10)
    }

    /// Takes this many numbers of at most this much, with spaces between them, and the byte after the last.
    #[inline(always)]
    pub fn numbers(&mut self, numbers: &mut [u32], most: u32, end: u8) {
        let last = numbers.len() - 1;
        for (place, number) in numbers.iter_mut().enumerate() {
            *number = self.number(0..=most, if place == last { end } else { b' ' });
        }
    }

    /// Ends the mirror unless all is read.
    pub fn end(&self) {
        if self.from != self.text.len() {
            self.refuse("no more is wanted");
        }
    }
}
