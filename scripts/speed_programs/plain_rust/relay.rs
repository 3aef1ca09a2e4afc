//! Bytes are read by a message type and written again: as they are, or with a value set at a path.

use crate::input::{Input, Outcome};
use crate::message::{DynamicMessage, Value};
use crate::schema::MessageType;
use crate::wire::DecodeError;
use std::time::Instant;

const PATH: [u32; 3] = [2, 2, 2];

fn relay(older: &MessageType, bytes: &[u8]) -> Result<Vec<u8>, DecodeError> {
    Ok(DynamicMessage::decode(older.clone(), bytes)?.encode_to_vec())
}

fn relay_with(
    older: &MessageType,
    bytes: &[u8],
    path: &[u32],
    value: Value,
) -> Result<Vec<u8>, DecodeError> {
    assert!(older.takes_at_path(path, &value) && !value.holds_message());
    let mut message = DynamicMessage::decode(older.clone(), bytes)?;
    message.set_at_path(path, value);
    Ok(message.encode_to_vec())
}

fn measured(input: &Input, written_by: impl Fn(usize) -> Result<Vec<u8>, DecodeError>) -> Outcome {
    let mut written = Vec::new();
    let mut sum = 0u64;
    let start = Instant::now();
    for run in 0..input.runs {
        written = written_by(run).expect("bytes of the type");
        sum = sum.wrapping_add(written.len() as u64);
    }
    Outcome {
        times: vec![start.elapsed().as_nanos()],
        written,
        sum,
    }
}

pub fn passed(input: &Input) -> Outcome {
    measured(input, |_| relay(&input.message_type, input.message))
}

pub fn edited(input: &Input) -> Outcome {
    measured(input, |run| {
        let value = Value::I32((run % 1000) as i32 + 1);
        relay_with(&input.message_type, input.message, &PATH, value)
    })
}
