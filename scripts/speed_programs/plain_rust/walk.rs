//! Every field of a message is visited, at every depth.

use crate::input::{Input, Outcome};
use crate::message::{DynamicMessage, ScalarRef, Value};
use std::time::Instant;

/// A number that a scalar has: its own, its bits, or its length.
pub fn weight(scalar: ScalarRef) -> u64 {
    match scalar {
        ScalarRef::Bool(value) => u64::from(value),
        ScalarRef::I32(value) | ScalarRef::EnumNumber(value) => i64::from(value) as u64,
        ScalarRef::I64(value) => value as u64,
        ScalarRef::U32(value) | ScalarRef::F32(value) => u64::from(value),
        ScalarRef::U64(value) | ScalarRef::F64(value) => value,
        ScalarRef::String(text) => text.len() as u64,
        ScalarRef::Bytes(bytes) => bytes.len() as u64,
    }
}

/// A sum over the numbers of all fields that the message has, and their values, at every depth.
fn of_message(message: &DynamicMessage) -> u64 {
    let mut sum = 0u64;
    for (field, value) in message.fields() {
        sum = sum.wrapping_add(u64::from(field.number()));
        sum = sum.wrapping_add(of_value(value));
    }
    sum
}

fn of_value(value: &Value) -> u64 {
    let mut sum = 0u64;
    match value {
        Value::Message(message) => sum = of_message(message),
        Value::List(values) => {
            for value in values {
                sum = sum.wrapping_add(of_value(value));
            }
        }
        Value::Map(entries) => {
            for (key, value) in entries {
                sum = sum.wrapping_add(weight(key.as_scalar()));
                sum = sum.wrapping_add(of_value(value));
            }
        }
        _ => sum = weight(value.scalar()),
    }
    sum
}

pub fn measured(input: &Input) -> Outcome {
    let message = input.read();
    let mut sum = 0u64;
    let start = Instant::now();
    for _ in 0..input.runs {
        sum = sum.wrapping_add(of_message(&message));
    }
    Outcome {
        times: vec![start.elapsed().as_nanos()],
        written: Vec::new(),
        sum,
    }
}
