//! The loop of a service: a message that is kept is cleared and read anew, looked at, changed, and written into a buffer that is
//! kept.

use crate::descriptor::FieldDescriptor;
use crate::input::{Input, Outcome};
use crate::message::{DynamicMessage, Value};
use crate::walk::weight;
use std::time::Instant;

/// The fields that are got, and those that are set to a number and to a text.
struct Fields {
    got: Vec<FieldDescriptor>,
    number: FieldDescriptor,
    text: FieldDescriptor,
}

/// A number that a value of a field has: its own, its bits, or its length.
fn shown(value: &Value) -> u64 {
    match value {
        Value::List(values) => values.len() as u64,
        _ => weight(value.scalar()),
    }
}

/// One turn of the loop, which gives a sum over what was got.
fn turn(
    message: &mut DynamicMessage,
    fields: &Fields,
    bytes: &[u8],
    run: usize,
    out: &mut Vec<u8>,
) -> u64 {
    message.clear();
    message.merge(bytes).expect("bytes of the type");
    let mut sum = 0u64;
    for field in &fields.got {
        assert!(message.owns_field(field));
        sum = sum.wrapping_add(shown(&message.get_field(field)));
    }
    assert!(message.owns_field(&fields.number) && message.owns_field(&fields.text));
    let number = Value::I32((run % 1000) as i32 + 1);
    let text = Value::String(String::from("seen, and sent on from here"));
    assert!(message.try_set_field(&fields.number, number));
    assert!(message.try_set_field(&fields.text, text));
    out.clear();
    message.encode(out);
    sum
}

pub fn measured(input: &Input) -> Outcome {
    let field = |number| input.message_type.get_field(number).expect("a field");
    let fields = Fields {
        got: [1, 2, 6, 7, 10].map(field).into(),
        number: field(6),
        text: field(19),
    };
    let mut message = DynamicMessage::new(input.message_type.clone());
    let mut written = Vec::new();
    let mut sum = 0u64;
    let start = Instant::now();
    for run in 0..input.runs {
        let seen = turn(&mut message, &fields, input.message, run, &mut written);
        sum = sum.wrapping_add(seen).wrapping_add(written.len() as u64);
    }
    Outcome {
        times: vec![start.elapsed().as_nanos()],
        written,
        sum,
    }
}
