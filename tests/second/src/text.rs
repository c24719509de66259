//! How a case file writes words and lists.

use std::fmt::Display;

/// Symbols in brackets: one below 10 is a digit, another stands in parentheses.
pub fn word_text(word: &[u8]) -> String {
    let symbol = |&symbol: &u8| if symbol < 10 { symbol.to_string() } else { format!("({symbol})") };
    format!("[{}]", word.iter().map(symbol).collect::<String>())
}

/// Numbers in brackets, one space between two.
pub fn list_text<T: Display>(list: &[T]) -> String {
    format!("[{}]", list.iter().map(T::to_string).collect::<Vec<_>>().join(" "))
}
