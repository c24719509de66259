//! Turns message numbers into carrier words and received words back into message numbers: a safe wrapper of the library
//! Sharqudel, all of whose functions are proved to meet their contracts. The wrapper itself is tested, not proved. No
//! call panics if the archive was built from the same sources as the wrapper.
//!
//! A shape is two numbers: `h`, 1 to 3, with 2^h phases, and `m`, 2 to 5, with N = 2^m places in a word. A symbol is a
//! number below 2^h. The file include/sharqudel.h in the library's sources says what the word and the partner of a
//! message are. A call that refuses says why in a [`Refusal`] and leaves every slice as it was.
//!
//! ```
//! use sharqudel::{encode, hard, Message};
//!
//! let mut word = [0u8; 16];
//! encode(2, 4, Message(5120), &mut word)?; // four phases, sixteen carriers
//! word[3] = 3; // one symbol damaged
//! let nearest = hard(2, 4, &word)?;
//! assert_eq!((nearest.message, nearest.distance, nearest.tied), (Message(5120), 1, false));
//! # Ok::<(), sharqudel::Refusal>(())
//! ```

mod boundary;
mod refusal;

pub use refusal::{PairRefusal, Refusal, Which};
use std::fmt;

/// README's own lines, run as a test.
#[cfg(doctest)]
#[doc = include_str!("../../README.md")]
struct Readme;

/// A message number: `w + h(m+1)` bits, w = 0, 1, 3, 5 for m = 2, 3, 4, 5. The path number is highest, then come
/// c_1 to c_m, and c is lowest.
#[derive(Clone, Copy, Debug, PartialEq, Eq, PartialOrd, Ord, Hash)]
pub struct Message(pub u64);

impl fmt::Display for Message {
    fn fmt(&self, f: &mut fmt::Formatter<'_>) -> fmt::Result {
        self.0.fmt(f)
    }
}

/// The message whose word has the greatest correlation, that correlation, and whether another message's word has the
/// same.
#[derive(Clone, Copy, Debug, PartialEq, Eq, Hash)]
pub struct Loudest {
    pub message: Message,
    pub correlation: i32,
    pub tied: bool,
}

/// The message whose word is nearest, its distance, and whether another message's word is as near.
#[derive(Clone, Copy, Debug, PartialEq, Eq, Hash)]
pub struct Closest {
    pub message: Message,
    pub distance: u32,
    pub tied: bool,
}

/// Writes the N symbols of the message's word to `out`.
///
/// Refuses a shape out of range, an `out` that is not N long, and a message number that is too large for the shape, in
/// this order; `out` then stays as it was.
pub fn encode(h: u32, m: u32, message: Message, out: &mut [u8]) -> Result<(), Refusal> {
    // SAFETY: the pointer and the length are those of a slice that is borrowed for the whole call.
    let kind = unsafe { boundary::sharqudel_encode(h, m, message.0, out.as_mut_ptr(), out.len()) };
    refusal::answer(kind, 0, ())
}

/// Writes the N symbols of the partner of the message's word to `out`. Refuses as [`encode`] does.
pub fn partner(h: u32, m: u32, message: Message, out: &mut [u8]) -> Result<(), Refusal> {
    // SAFETY: as in `encode`.
    let kind = unsafe { boundary::sharqudel_partner(h, m, message.0, out.as_mut_ptr(), out.len()) };
    refusal::answer(kind, 0, ())
}

/// Whether two words are a Golay pair.
///
/// Refuses a shape out of range, a word that is not N long, and a symbol that is 2^h or more, in this order. With a bad
/// symbol comes the first bad place of the first word, or of the second if the first word has none, and which word it
/// is.
pub fn check(h: u32, m: u32, first: &[u8], second: &[u8]) -> Result<bool, PairRefusal> {
    let (mut pair, mut place, mut which) = (false, 0, 0);
    // SAFETY: pointers and lengths are those of borrowed slices; the last pointers are to variables of this function.
    let kind = unsafe {
        boundary::sharqudel_check(
            h,
            m,
            first.as_ptr(),
            first.len(),
            second.as_ptr(),
            second.len(),
            &mut pair,
            &mut place,
            &mut which,
        )
    };
    refusal::answer(kind, place, pair).map_err(|refusal| PairRefusal { refusal, word: Which::numbered(which) })
}

/// The message whose word is exactly these symbols.
///
/// Refuses a shape out of range, a word that is not N long, a symbol that is 2^h or more, with the first such place,
/// and symbols that are not the word of any message, in this order.
pub fn read(h: u32, m: u32, word: &[u8]) -> Result<Message, Refusal> {
    let (mut message, mut place) = (0, 0);
    // SAFETY: as in `check`.
    let kind = unsafe { boundary::sharqudel_read(h, m, word.as_ptr(), word.len(), &mut message, &mut place) };
    refusal::answer(kind, place, Message(message))
}

/// Soft decoding for two and four phases: the message whose word has the greatest correlation with the values. Among
/// equals the earliest label wins: path number, then c_1 to c_m, then c.
///
/// For h = 1 there are N values, symbol 0 positive and symbol 1 negative. For h = 2 there are 2N, the real and then the
/// imaginary part of each place, with symbols 0, 1, 2, 3 at 1, j, -1, -j. All values are allowed.
/// Refuses a shape out of range, eight phases, and a wrong number of values, in this order.
pub fn soft(h: u32, m: u32, values: &[i16]) -> Result<Loudest, Refusal> {
    let (mut message, mut correlation, mut tied) = (0, 0, false);
    // SAFETY: as in `check`.
    let kind = unsafe {
        boundary::sharqudel_soft(h, m, values.as_ptr(), values.len(), &mut message, &mut correlation, &mut tied)
    };
    refusal::answer(kind, 0, Loudest { message: Message(message), correlation, tied })
}

/// Hard decoding for two and four phases: the message whose word is nearest to the symbols. Among equals the earliest
/// label wins: path number, then c_1 to c_m, then c.
///
/// The distance is the number of places that differ for h = 1, and the Lee distance for h = 2.
/// Refuses a shape out of range, eight phases, a word that is not N long, and a symbol that is 2^h or more, with the
/// first such place, in this order.
pub fn hard(h: u32, m: u32, word: &[u8]) -> Result<Closest, Refusal> {
    let (mut message, mut distance, mut tied, mut place) = (0, 0, false, 0);
    // SAFETY: as in `check`.
    let kind = unsafe {
        let (symbols, length) = (word.as_ptr(), word.len());
        boundary::sharqudel_hard(h, m, symbols, length, &mut message, &mut distance, &mut tied, &mut place)
    };
    refusal::answer(kind, place, Closest { message: Message(message), distance, tied })
}

/// The spectrum of the first N entries of the first area. It is not copied: the answer borrows the front of the area
/// that holds it, the first for even m and the second for odd m. The other area then holds what there was before the
/// last stage, and entries from N on stay as they were in both.
///
/// Refuses an m out of range, an area shorter than N, and an input outside -32,768..32,767 among those N entries, with
/// the first such place, in this order; both areas then stay as they were.
pub fn transform<'a>(m: u32, first: &'a mut [i32], second: &'a mut [i32]) -> Result<&'a [i32], Refusal> {
    let (mut area, mut place) = (0, 0);
    // SAFETY: as in `check`; what is written does not overlap, since each is a `&mut` of its own.
    let kind = unsafe {
        let (first_length, second_length) = (first.len(), second.len());
        let (one, two) = (first.as_mut_ptr(), second.as_mut_ptr());
        boundary::sharqudel_transform(m, one, first_length, two, second_length, &mut area, &mut place)
    };
    refusal::answer(kind, place, ())?;
    let holder = if area == 1 { first } else { second };
    Ok(&holder[..1 << m])
}

/// The refusal that [`transform`] would give for these areas as they are, if any.
pub fn refusal(m: u32, first: &[i32], second: &[i32]) -> Option<Refusal> {
    let mut place = 0;
    // SAFETY: as in `check`.
    let kind = unsafe {
        boundary::sharqudel_refusal(m, first.as_ptr(), first.len(), second.as_ptr(), second.len(), &mut place)
    };
    refusal::answer(kind, place, ()).err()
}
