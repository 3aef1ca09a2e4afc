//! Fields as they are handed out, and those that a message has.

use crate::access::is_field_default;
use crate::message::{DynamicMessage, FieldSlot, Value};
use crate::schema::{FieldTable, MessageType};
use std::slice::Iter;

/// A field of a message type, which shares the pool.
pub struct FieldDescriptor {
    pub message_type: MessageType,
    place: usize,
}

impl MessageType {
    pub fn get_field(&self, number: u32) -> Option<FieldDescriptor> {
        let place = self.field_place(number)?;
        if self.table().fields[place].is_extension {
            return None;
        }
        Some(FieldDescriptor {
            message_type: self.clone(),
            place,
        })
    }
}

impl FieldDescriptor {
    pub fn table(&self) -> &FieldTable {
        &self.message_type.table().fields[self.place]
    }

    pub fn number(&self) -> u32 {
        self.table().number
    }
}

/// The fields that a message has, in ascending number, each with its value.
pub struct Fields<'a> {
    message_type: &'a MessageType,
    slots: Iter<'a, (u32, FieldSlot)>,
}

impl<'a> Iterator for Fields<'a> {
    type Item = (FieldDescriptor, &'a Value);

    fn next(&mut self) -> Option<(FieldDescriptor, &'a Value)> {
        for (number, slot) in self.slots.by_ref() {
            let (Some(value), Some(place)) = (slot.value(), self.message_type.field_place(*number))
            else {
                continue;
            };
            let field = &self.message_type.table().fields[place];
            if !field.is_extension && !is_field_default(self.message_type, field, value) {
                let message_type = self.message_type.clone();
                return Some((
                    FieldDescriptor {
                        message_type,
                        place,
                    },
                    value,
                ));
            }
        }
        None
    }
}

impl DynamicMessage {
    pub fn fields(&self) -> Fields<'_> {
        Fields {
            message_type: &self.message_type,
            slots: self.slots.iter(),
        }
    }
}
