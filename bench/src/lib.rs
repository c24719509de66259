//! What the benchmark and the two pictures are made of. The library is measured and called through its safe wrapper;
//! what it is compared with follows document 01 by itself and shares no code with the crates.

pub mod bits;
pub mod cases;
pub mod channel;
pub mod draw;
pub mod look_ups;
pub mod plain;
pub mod products;
pub mod ratios;
pub mod results;
pub mod search;
pub mod svg;
pub mod timing;
pub mod words;
