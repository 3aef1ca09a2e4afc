//! A few bytes are merged into a message of many slots.

use crate::input::{Input, Outcome};
use std::time::Instant;

pub fn measured(input: &Input) -> Outcome {
    let mut message = input.read();
    let start = Instant::now();
    for _ in 0..input.runs {
        message.merge(input.part).expect("bytes of the type");
    }
    Outcome {
        times: vec![start.elapsed().as_nanos()],
        written: message.encode_to_vec(),
        sum: 0,
    }
}
