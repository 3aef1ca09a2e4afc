//! Bytes that are merged into a message, which stays as it was where they are refused.

use crate::decode::RECURSION_LIMIT;
use crate::message::DynamicMessage;
use crate::schema::MessageType;
use crate::unknown::skip_value;
use crate::wire::{DecodeError, decode_key};
use std::collections::BTreeSet;

/// The number of the record that the bytes begin with, and what follows it.
fn first_number(bytes: &[u8]) -> Option<(u32, &[u8])> {
    let (number, wire_type, after) = decode_key(bytes).ok()?;
    let rest = skip_value(number, wire_type, after, RECURSION_LIMIT).ok()?;
    Some((number, rest))
}

/// The numbers of the records that the bytes begin with, and the other members of their fields' oneofs.
fn numbers_in(message_type: &MessageType, bytes: &[u8]) -> BTreeSet<u32> {
    let mut numbers = BTreeSet::new();
    let mut rest = bytes;
    while let Some((number, after)) = first_number(rest) {
        if numbers.insert(number) {
            numbers.extend(message_type.siblings(number));
        }
        rest = after;
    }
    numbers
}

impl DynamicMessage {
    pub fn merge(&mut self, bytes: &[u8]) -> Result<(), DecodeError> {
        if self.slots.is_empty() {
            let read = self.merge_records(bytes, RECURSION_LIMIT);
            if read.is_err() {
                self.slots.clear();
            }
            return read;
        }
        let numbers = numbers_in(&self.message_type, bytes);
        let mut part = self.clone_at(&numbers);
        part.merge_records(bytes, RECURSION_LIMIT)?;
        self.replace_at(&numbers, part);
        Ok(())
    }

    /// A message of the same type, with copies of what stands at the numbers.
    fn clone_at(&self, numbers: &BTreeSet<u32>) -> DynamicMessage {
        let mut part = DynamicMessage::new(self.message_type.clone());
        for number in numbers {
            if let Ok(index) = self.place(*number) {
                part.slots.push(self.slots[index].clone());
            }
        }
        part
    }

    /// Puts what the other message has at the numbers in place of what is there.
    fn replace_at(&mut self, numbers: &BTreeSet<u32>, part: DynamicMessage) {
        let mut slots = part.slots.into_iter().peekable();
        for number in numbers {
            let slot = slots.next_if(|slot| slot.0 == *number);
            match (self.place(*number), slot) {
                (Ok(index), Some(slot)) => self.slots[index] = slot,
                (Err(index), Some(slot)) => self.slots.insert(index, slot),
                (Ok(index), None) => drop(self.slots.remove(index)),
                (Err(_), None) => {}
            }
        }
    }
}
