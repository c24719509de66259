//! Encode and partner over every shape, with what stays in the slice where they are refused.

use super::{in_turn, Cases};
use crate::messages::Message;
use crate::shape::Shape;

pub fn add(cases: &mut Cases) {
    cases.family("encode and partner: edges of the message range, powers of two, every path in use");
    for shape in Shape::all() {
        let count = shape.messages();
        let mut messages = [0, 1, count - 1, count, count + 1, 1 << 63, u64::MAX].map(Message).to_vec();
        messages.extend((0..shape.bits()).map(|bit| Message(1 << bit)));
        messages.extend(in_turn(shape, 8).map(|path| cases.message_of_path(shape, path)));
        for call in ["encode", "partner"] {
            for (number, &message) in messages.iter().enumerate() {
                let slice = before(cases, shape, number);
                cases.write(call, shape.h(), shape.m(), message, &slice);
            }
        }
    }
}

/// What the slice holds before: all 9, all 255, or symbols of the shape.
fn before(cases: &mut Cases, shape: Shape, number: usize) -> Vec<u8> {
    match number % 3 {
        0 => vec![9; shape.carriers()],
        1 => vec![255; shape.carriers()],
        _ => cases.random.word(shape.phases(), shape.carriers()),
    }
}
