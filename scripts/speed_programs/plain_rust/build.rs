//! A message is made by sets alone, and written.

use crate::descriptor::FieldDescriptor;
use crate::input::{Input, Outcome};
use crate::message::{DynamicMessage, Value};
use crate::schema::MessageType;
use std::time::Instant;

const ITEMS: u32 = 834;

/// The message types and the fields that are set.
struct Types {
    items: MessageType,
    item: MessageType,
    label: MessageType,
    of_items: Vec<FieldDescriptor>,
    of_item: Vec<FieldDescriptor>,
    of_label: Vec<FieldDescriptor>,
}

fn set(message: &mut DynamicMessage, field: &FieldDescriptor, value: Value) {
    assert!(message.owns_field(field));
    assert!(message.try_set_field(field, value));
}

fn label(types: &Types, place: u32) -> DynamicMessage {
    let [text, delta] = types.of_label.as_slice() else {
        unreachable!();
    };
    let mut label = DynamicMessage::new(types.label.clone());
    set(&mut label, text, Value::String(String::from("label")));
    set(&mut label, delta, Value::I64(i64::from(place) + 1));
    label
}

fn item(types: &Types, place: u32) -> DynamicMessage {
    let [id, name, value, tags, inside, flag] = types.of_item.as_slice() else {
        unreachable!();
    };
    let mut item = DynamicMessage::new(types.item.clone());
    set(&mut item, id, Value::I32(place as i32 + 1));
    set(&mut item, name, Value::String(String::from("item number")));
    let bits = 0x3ff0_0000_0000_0000 + u64::from(place);
    set(&mut item, value, Value::F64(bits));
    let numbers = [place, place + 1, place + 2].map(Value::U32);
    set(&mut item, tags, Value::List(Vec::from(numbers)));
    set(&mut item, inside, Value::Message(label(types, place)));
    set(&mut item, flag, Value::Bool(true));
    item
}

fn built(types: &Types) -> DynamicMessage {
    let [list] = types.of_items.as_slice() else {
        unreachable!();
    };
    let mut items = Vec::new();
    for place in 0..ITEMS {
        items.push(Value::Message(item(types, place)));
    }
    let mut message = DynamicMessage::new(types.items.clone());
    set(&mut message, list, Value::List(items));
    message
}

fn fields_of(message_type: &MessageType) -> Vec<FieldDescriptor> {
    let fields = message_type.table().fields.iter();
    fields
        .filter_map(|field| message_type.get_field(field.number))
        .collect()
}

pub fn measured(input: &Input) -> Outcome {
    let named = |name| MessageType::named(input.message_type.pool.clone(), name);
    let (item, label) = (named("speed.Item"), named("speed.Label"));
    let types = Types {
        of_items: fields_of(&input.message_type),
        of_item: fields_of(&item),
        of_label: fields_of(&label),
        items: input.message_type.clone(),
        item,
        label,
    };
    let mut written = Vec::new();
    let mut sum = 0u64;
    let start = Instant::now();
    for _ in 0..input.runs {
        let message = built(&types);
        assert!(message.is_encodable());
        written = message.encode_to_vec();
        sum = sum.wrapping_add(written.len() as u64);
    }
    Outcome {
        times: vec![start.elapsed().as_nanos()],
        written,
        sum,
    }
}
