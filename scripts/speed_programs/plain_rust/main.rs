//! Reads, changes and writes a message as often as standard input says, by plain Rust of the types and algorithms of this
//! library, and prints how long that took.

// Tables and values have all that the library's have, so that they are as wide.
#![allow(dead_code)]

mod access;
mod buffer;
mod build;
mod decode;
mod descriptor;
mod encodable;
mod encode;
mod input;
mod joining;
mod memory;
mod merge;
mod message;
mod read_write;
mod relay;
mod schema;
mod serve;
mod unknown;
mod walk;
mod wire;

use input::{Input, Outcome};
use std::io::Read;

fn taken(input: &Input) -> Outcome {
    match input.steps {
        "read_write" => read_write::measured(input),
        "serve" => serve::measured(input),
        "edit" => relay::edited(input),
        "pass" => relay::passed(input),
        "merge" => merge::measured(input),
        "walk" => walk::measured(input),
        "build" => build::measured(input),
        "memory" => memory::measured(input),
        steps => panic!("no steps {steps}"),
    }
}

fn main() {
    let mut bytes = Vec::new();
    std::io::stdin()
        .read_to_end(&mut bytes)
        .expect("standard input");
    let outcome = taken(&Input::of(&bytes));
    let sum = outcome
        .written
        .iter()
        .fold(outcome.sum, |sum, byte| sum.wrapping_add(u64::from(*byte)));
    for time in &outcome.times {
        print!("{time} ");
    }
    println!("{} {sum}", outcome.written.len());
}
