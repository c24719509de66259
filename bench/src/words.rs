//! Shapes and words by document 01's formula; the paths are the second program's (tests/second). Digit x_1 of a place
//! is the most significant; message numbers hold the path number highest, then c_1 to c_m, and c lowest.

#[derive(Clone, Copy, Debug)]
pub struct Shape {
    pub h: usize,
    pub m: usize,
}

/// An order of 1..m whose first number is below its last.
pub type Path = Vec<usize>;

impl Shape {
    pub fn phases(self) -> usize {
        1 << self.h
    }

    pub fn places(self) -> usize {
        1 << self.m
    }

    pub fn messages(self) -> usize {
        second::messages(self.h as u32, self.m as u32) as usize
    }

    /// The paths in use, in dictionary order.
    pub fn paths(self) -> Vec<Path> {
        let used = 1 << second::path_bits(self.m as u32);
        let numbers = |path: &second::Path| path.iter().map(|k| *k as usize).collect();
        second::paths(self.m as u32)[..used].iter().map(numbers).collect()
    }

    /// The words of all messages, one after the other.
    pub fn words(self) -> Vec<Vec<u8>> {
        let paths = self.paths();
        (0..self.messages())
            .map(|message| {
                let mut word = vec![0; self.places()];
                self.encode(&paths[self.path_number(message)], message, &mut word);
                word
            })
            .collect()
    }

    pub fn path_number(self, message: usize) -> usize {
        message >> (self.h * (self.m + 1))
    }

    /// Writes the word of a message, whose path is given beside it.
    #[inline(always)]
    pub fn encode(self, path: &[usize], message: usize, word: &mut [u8]) {
        let (h, m, q) = (self.h, self.m, self.phases());
        for (place, symbol) in word.iter_mut().enumerate() {
            let x = |k: usize| (place >> (m - k)) & 1;
            let mut sum = message % q;
            for k in 1..=m {
                sum += (message >> (h * (m + 1 - k))) % q * x(k);
            }
            for k in 1..m {
                sum += q / 2 * x(path[k - 1]) * x(path[k]);
            }
            *symbol = (sum % q) as u8;
        }
    }
}
