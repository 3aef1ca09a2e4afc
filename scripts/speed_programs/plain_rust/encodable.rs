//! Which values fields take, and whether each value in a message fits its field.

use crate::message::{DynamicMessage, FieldSlot, MapKey, ScalarRef, Value};
use crate::schema::{Cardinality, FieldTable, Kind, MessageType};

/// Whether a field takes a value, by its form and its kind. No message is looked into.
pub fn value_valid(message_type: &MessageType, field: &FieldTable, value: &Value) -> bool {
    if field.cardinality != Cardinality::Repeated {
        return element_valid(message_type, field.kind, value);
    }
    match (message_type.map_parts(field), value) {
        (Some((key, part)), Value::Map(pairs)) => pairs.iter().all(|(own, value)| {
            key_valid(message_type, key.kind, own) && element_valid(message_type, part.kind, value)
        }),
        (None, Value::List(values)) => values
            .iter()
            .all(|value| element_valid(message_type, field.kind, value)),
        _ => false,
    }
}

fn key_valid(message_type: &MessageType, kind: Kind, key: &MapKey) -> bool {
    scalar_valid(message_type, kind, key.as_scalar())
}

fn element_valid(message_type: &MessageType, kind: Kind, value: &Value) -> bool {
    match value {
        Value::Message(_) => matches!(kind, Kind::Message(_)),
        Value::List(_) | Value::Map(_) => false,
        _ => scalar_valid(message_type, kind, value.scalar()),
    }
}

fn scalar_valid(message_type: &MessageType, kind: Kind, scalar: ScalarRef) -> bool {
    match (kind, scalar) {
        (Kind::Double, ScalarRef::F64(_))
        | (Kind::Float, ScalarRef::F32(_))
        | (Kind::Int32 | Kind::Sint32 | Kind::Sfixed32, ScalarRef::I32(_))
        | (Kind::Int64 | Kind::Sint64 | Kind::Sfixed64, ScalarRef::I64(_))
        | (Kind::Uint32 | Kind::Fixed32, ScalarRef::U32(_))
        | (Kind::Uint64 | Kind::Fixed64, ScalarRef::U64(_))
        | (Kind::Bool, ScalarRef::Bool(_))
        | (Kind::String, ScalarRef::String(_))
        | (Kind::Bytes, ScalarRef::Bytes(_)) => true,
        (Kind::Enum(_), ScalarRef::EnumNumber(number)) => !message_type.is_stray(kind, number),
        _ => false,
    }
}

/// Whether each message in a value is encodable.
fn inside_fits(value: &Value) -> bool {
    match value {
        Value::Message(message) => message.is_encodable(),
        Value::List(values) => values.iter().all(inside_fits),
        Value::Map(pairs) => pairs.values().all(inside_fits),
        _ => true,
    }
}

impl DynamicMessage {
    pub fn is_encodable(&self) -> bool {
        self.slots.iter().all(|(number, slot)| match slot {
            FieldSlot::Value(value) | FieldSlot::Both(value, _) => {
                let field = self.message_type.field_table(*number);
                field.is_some_and(|field| value_valid(&self.message_type, field, value))
                    && inside_fits(value)
            }
            FieldSlot::Unknown(_) => true,
        })
    }
}
