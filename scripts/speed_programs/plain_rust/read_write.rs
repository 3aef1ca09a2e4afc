//! A message is read, and written.

use crate::input::{Input, Outcome};
use std::time::Instant;

pub fn measured(input: &Input) -> Outcome {
    let message = input.read();
    let written = message.encode_to_vec();

    let start = Instant::now();
    for _ in 0..input.runs {
        input.read();
    }
    let to_read = start.elapsed().as_nanos();

    let start = Instant::now();
    let mut len = 0;
    for _ in 0..input.runs {
        len |= message.encode_to_vec().len();
    }
    let to_write = start.elapsed().as_nanos();
    assert!(input.runs == 0 || len == written.len());
    Outcome {
        times: vec![to_read, to_write],
        written,
        sum: 0,
    }
}
