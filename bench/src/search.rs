//! What a search through all words keeps. A score is what is to be great: the correlation, or the distance negated.

#[derive(Clone, Copy, Debug, PartialEq, Eq)]
pub struct Answer {
    pub message: usize,
    pub score: i32,
    pub tied: bool,
}

impl Answer {
    /// No answer: what a search begins with, and what a refusal counts as. It is no word's.
    pub const NONE: Answer = Answer { message: usize::MAX, score: i32::MIN, tied: false };

    /// Takes in one word. Words come in the order of their messages, so a later one must be greater to win.
    #[inline(always)]
    pub fn hear(&mut self, message: usize, score: i32) {
        if score >= self.score {
            self.take(message, score);
        }
    }

    /// A word that is as good as the best, or better: few are.
    #[cold]
    fn take(&mut self, message: usize, score: i32) {
        if score == self.score {
            self.tied = true;
        } else {
            *self = Answer { message, score, tied: false };
        }
    }
}

/// What a symbol gains at each place of the received soft values, `q` numbers a place: 01's correlation.
#[inline]
pub fn soft_gains<const Q: usize>(values: &[i16], gains: &mut [[i32; Q]]) {
    if Q == 2 {
        for (gain, value) in gains.iter_mut().zip(values) {
            let value = *value as i32;
            gain.copy_from_slice(&[value, -value]);
        }
    } else {
        for (gain, value) in gains.iter_mut().zip(values.chunks_exact(2)) {
            let (re, im) = (value[0] as i32, value[1] as i32);
            gain.copy_from_slice(&[re, im, -re, -im]);
        }
    }
}

/// The same of received symbols: 01's distance, negated.
#[inline]
pub fn hard_gains<const Q: usize>(symbols: &[u8], gains: &mut [[i32; Q]]) {
    for (gain, received) in gains.iter_mut().zip(symbols) {
        for (symbol, gain) in gain.iter_mut().enumerate() {
            let apart = (symbol + Q - *received as usize) % Q;
            *gain = -(apart.min(Q - apart) as i32);
        }
    }
}
