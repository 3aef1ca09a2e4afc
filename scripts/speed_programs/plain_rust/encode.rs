//! Writing messages, the last byte first.

use crate::buffer::Blocks;
use crate::decode::{kind_default, wire_type_of};
use crate::message::{DynamicMessage, FieldSlot, ScalarRef, Value};
use crate::schema::{Cardinality, FieldTable, Kind, MessageType};
use crate::unknown::{UnknownField, UnknownFieldSet, UnknownFieldValue};
use crate::wire::{WireType, zigzag32, zigzag64};

impl DynamicMessage {
    /// Appends the encoding.
    pub fn encode(&self, out: &mut Vec<u8>) {
        let mut sink = Blocks::default();
        write_body(&mut sink, self);
        sink.append_to(out);
    }

    pub fn encode_to_vec(&self) -> Vec<u8> {
        let mut out = Vec::new();
        self.encode(&mut out);
        out
    }
}

fn write_body(sink: &mut Blocks, message: &DynamicMessage) {
    for (number, slot) in message.slots.iter().rev() {
        if let FieldSlot::Unknown(unknown) | FieldSlot::Both(_, unknown) = slot {
            write_fields(sink, unknown);
        }
        if let FieldSlot::Value(value) | FieldSlot::Both(value, _) = slot {
            write_value(sink, &message.message_type, *number, value);
        }
    }
}

fn write_fields(sink: &mut Blocks, set: &UnknownFieldSet) {
    for field in set.fields.iter().rev() {
        write_field(sink, field);
    }
}

fn write_field(sink: &mut Blocks, field: &UnknownField) {
    let wire_type = match &field.value {
        UnknownFieldValue::Varint(value) => {
            sink.prepend_varint(*value);
            WireType::Varint
        }
        UnknownFieldValue::SixtyFourBit(payload) => {
            sink.prepend(payload);
            WireType::SixtyFourBit
        }
        UnknownFieldValue::LengthDelimited(payload) => {
            write_delimited(sink, payload);
            WireType::LengthDelimited
        }
        UnknownFieldValue::Group(set) => {
            sink.prepend_key(field.number, WireType::EndGroup);
            write_fields(sink, set);
            WireType::StartGroup
        }
        UnknownFieldValue::ThirtyTwoBit(payload) => {
            sink.prepend(payload);
            WireType::ThirtyTwoBit
        }
    };
    sink.prepend_key(field.number, wire_type);
}

fn write_delimited(sink: &mut Blocks, body: &[u8]) {
    sink.prepend(body);
    sink.prepend_varint(body.len() as u64);
}

fn write_value(sink: &mut Blocks, message_type: &MessageType, number: u32, value: &Value) {
    let Some(field) = message_type.field_table(number) else {
        unreachable!();
    };
    if field.cardinality == Cardinality::Repeated {
        write_repeated(sink, message_type, number, field, value);
        return;
    }
    match value {
        Value::Message(message) => write_message(sink, number, field.is_group, message),
        _ => write_kept_scalar(sink, message_type, number, field, value.scalar()),
    }
}

fn write_message(sink: &mut Blocks, number: u32, is_group: bool, message: &DynamicMessage) {
    if is_group {
        sink.prepend_key(number, WireType::EndGroup);
        write_body(sink, message);
        sink.prepend_key(number, WireType::StartGroup);
        return;
    }
    let before = sink.len();
    write_body(sink, message);
    sink.prepend_len_since(before);
    sink.prepend_key(number, WireType::LengthDelimited);
}

fn write_repeated(
    sink: &mut Blocks,
    message_type: &MessageType,
    number: u32,
    field: &FieldTable,
    value: &Value,
) {
    match (value, message_type.map_parts(field)) {
        (Value::Map(pairs), Some((key_field, value_field))) => {
            for (key, value) in pairs.iter().rev() {
                let before = sink.len();
                match value {
                    Value::Message(message) => write_message(sink, 2, false, message),
                    _ => write_kept_scalar(sink, message_type, 2, value_field, value.scalar()),
                }
                write_kept_scalar(sink, message_type, 1, key_field, key.as_scalar());
                sink.prepend_len_since(before);
                sink.prepend_key(number, WireType::LengthDelimited);
            }
        }
        (Value::List(values), None) => match field.kind {
            Kind::Message(_) => {
                for value in values.iter().rev() {
                    match value {
                        Value::Message(message) => {
                            write_message(sink, number, field.is_group, message);
                        }
                        _ => unreachable!(),
                    }
                }
            }
            _ => write_list(sink, number, field, values),
        },
        _ => unreachable!(),
    }
}

fn write_list(sink: &mut Blocks, number: u32, field: &FieldTable, values: &[Value]) {
    if values.is_empty() {
        return;
    }
    if field.is_packed {
        let before = sink.len();
        for value in values.iter().rev() {
            write_scalar(sink, field.kind, value.scalar());
        }
        sink.prepend_len_since(before);
        sink.prepend_key(number, WireType::LengthDelimited);
    } else {
        for value in values.iter().rev() {
            write_scalar_record(sink, number, field.kind, value.scalar());
        }
    }
}

fn write_kept_scalar(
    sink: &mut Blocks,
    message_type: &MessageType,
    number: u32,
    field: &FieldTable,
    scalar: ScalarRef<'_>,
) {
    if !field.supports_presence {
        let default = match &field.default {
            Some(default) => ScalarRef::written(default),
            None => kind_default(message_type, field.kind),
        };
        if scalar == default {
            return;
        }
    }
    write_scalar_record(sink, number, field.kind, scalar);
}

fn write_scalar_record(sink: &mut Blocks, number: u32, kind: Kind, scalar: ScalarRef<'_>) {
    write_scalar(sink, kind, scalar);
    sink.prepend_key(number, wire_type_of(kind));
}

fn write_scalar(sink: &mut Blocks, kind: Kind, scalar: ScalarRef<'_>) {
    match (kind, scalar) {
        (Kind::Int32, ScalarRef::I32(value)) | (Kind::Enum(_), ScalarRef::EnumNumber(value)) => {
            sink.prepend_varint(i64::from(value) as u64);
        }
        (Kind::Int64, ScalarRef::I64(value)) => sink.prepend_varint(value as u64),
        (Kind::Uint32, ScalarRef::U32(value)) => sink.prepend_varint(u64::from(value)),
        (Kind::Uint64, ScalarRef::U64(value)) => sink.prepend_varint(value),
        (Kind::Sint32, ScalarRef::I32(value)) => sink.prepend_varint(u64::from(zigzag32(value))),
        (Kind::Sint64, ScalarRef::I64(value)) => sink.prepend_varint(zigzag64(value)),
        (Kind::Bool, ScalarRef::Bool(value)) => sink.prepend_varint(u64::from(value)),
        (Kind::Double, ScalarRef::F64(value)) | (Kind::Fixed64, ScalarRef::U64(value)) => {
            sink.prepend(&value.to_le_bytes());
        }
        (Kind::Float, ScalarRef::F32(value)) | (Kind::Fixed32, ScalarRef::U32(value)) => {
            sink.prepend(&value.to_le_bytes());
        }
        (Kind::Sfixed32, ScalarRef::I32(value)) => sink.prepend(&value.to_le_bytes()),
        (Kind::Sfixed64, ScalarRef::I64(value)) => sink.prepend(&value.to_le_bytes()),
        (Kind::String, ScalarRef::String(text)) => write_delimited(sink, text.as_bytes()),
        (Kind::Bytes, ScalarRef::Bytes(bytes)) => write_delimited(sink, bytes),
        _ => unreachable!(),
    }
}
