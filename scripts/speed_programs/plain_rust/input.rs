//! What is read and written, and how often, and what came of it.

use crate::message::DynamicMessage;
use crate::schema::{MessageType, Pool};
use std::rc::Rc;

pub struct Input<'a> {
    pub runs: usize,
    pub steps: &'a str,
    pub message_type: MessageType,
    pub message: &'a [u8],
    pub part: &'a [u8],
}

/// How long all turns took, for each sort of them, what was written last, and a sum over what was seen.
pub struct Outcome {
    pub times: Vec<u128>,
    pub written: Vec<u8>,
    pub sum: u64,
}

/// The number in the first four bytes, and the bytes behind them.
fn number(input: &[u8]) -> (usize, &[u8]) {
    let (number, rest) = input.split_first_chunk::<4>().expect("a number");
    (u32::from_le_bytes(*number) as usize, rest)
}

/// The bytes that a number in front of them counts, and those behind them.
fn part(input: &[u8]) -> (&[u8], &[u8]) {
    let (len, rest) = number(input);
    rest.split_at(len)
}

/// The text of such bytes.
fn text(input: &[u8]) -> (&str, &[u8]) {
    let (bytes, rest) = part(input);
    (std::str::from_utf8(bytes).expect("a text"), rest)
}

impl<'a> Input<'a> {
    pub fn of(bytes: &'a [u8]) -> Input<'a> {
        let (runs, rest) = number(bytes);
        let (_, rest) = part(rest);
        let (steps, rest) = text(rest);
        let (name, rest) = text(rest);
        let (message, part) = part(rest);
        let pool = Rc::new(Pool::of_workloads());
        Input {
            runs,
            steps,
            message_type: MessageType::named(pool, name),
            message,
            part,
        }
    }

    pub fn read(&self) -> DynamicMessage {
        let message_type = self.message_type.clone();
        DynamicMessage::decode(message_type, self.message).expect("a message of the type")
    }
}
