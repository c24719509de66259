//! Document 01 by brute force: an independent second program to hold beside the library.
//!
//! Nothing here is clever: every call follows 01's own sentence, by counting or by going through everything.
//! x_1 is the most significant digit of a place; equals go to the earliest label; only paths in use are searched.

pub mod cases;
mod decoding;
mod given;
#[cfg(test)]
mod larger;
mod lines;
mod messages;
mod pairs;
mod paths;
mod random;
pub mod refusal;
mod search;
mod shape;
mod spectrum;
mod text;
mod words;

pub use decoding::{hard, read, soft, Found};
pub use lines::answer;
pub use messages::{Label, Message};
pub use pairs::pair;
pub use paths::{paths, Path};
pub use random::Random;
pub use refusal::No;
pub use shape::{digit, messages, path_bits, Shape, GREATEST_H, GREATEST_M};
pub use spectrum::{transform, Areas};
pub use text::{list_text, word_text};
pub use words::{encode, partner, word};
