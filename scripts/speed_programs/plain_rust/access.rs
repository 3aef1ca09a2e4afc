//! Reading and setting fields, and setting a value at a path.

use crate::decode::kind_default;
use crate::descriptor::FieldDescriptor;
use crate::encodable::value_valid;
use crate::message::{DynamicMessage, ScalarRef, Value};
use crate::schema::{Cardinality, FieldTable, Kind, MessageType};
use std::borrow::Cow;
use std::collections::BTreeMap;
use std::rc::Rc;

fn scalar_default<'a>(message_type: &MessageType, field: &'a FieldTable) -> ScalarRef<'a> {
    match &field.default {
        Some(default) => ScalarRef::written(default),
        None => kind_default(message_type, field.kind),
    }
}

/// Whether a value is what its field has where nothing is stored.
pub fn is_field_default(message_type: &MessageType, field: &FieldTable, value: &Value) -> bool {
    let is_repeated = field.cardinality == Cardinality::Repeated;
    match value {
        Value::Message(_) => false,
        Value::List(values) => {
            values.is_empty() && is_repeated && message_type.map_parts(field).is_none()
        }
        Value::Map(pairs) => pairs.is_empty() && message_type.map_parts(field).is_some(),
        _ => {
            !is_repeated
                && !field.supports_presence
                && value.scalar() == scalar_default(message_type, field)
        }
    }
}

/// What a field has where nothing is stored.
fn default_value(message_type: &MessageType, field: &FieldTable) -> Value {
    if field.cardinality == Cardinality::Repeated {
        return match message_type.map_parts(field) {
            Some(_) => Value::Map(BTreeMap::new()),
            None => Value::List(Vec::new()),
        };
    }
    match field.kind {
        Kind::Message(place) => Value::Message(DynamicMessage::new(message_type.at(place))),
        _ => scalar_default(message_type, field).to_value(),
    }
}

impl MessageType {
    fn is_same(&self, other: &MessageType) -> bool {
        self.index == other.index && Rc::ptr_eq(&self.pool, &other.pool)
    }

    /// Whether a path of numbers leads from the type to a field that takes the value.
    pub fn takes_at_path(&self, path: &[u32], value: &Value) -> bool {
        let mut index = self.index;
        let mut rest = path;
        while let Some((number, behind)) = rest.split_first() {
            let fields = &self.pool.messages[index].fields;
            let Ok(place) = fields.binary_search_by_key(number, |field| field.number) else {
                return false;
            };
            let field = &fields[place];
            if behind.is_empty() {
                return value_valid(self, field, value);
            }
            let Kind::Message(inside) = field.kind else {
                return false;
            };
            if field.cardinality == Cardinality::Repeated {
                return false;
            }
            index = inside;
            rest = behind;
        }
        false
    }
}

impl Value {
    /// Whether the value is a message, or a list or a map with one.
    pub fn holds_message(&self) -> bool {
        let is_message = |value: &Value| matches!(value, Value::Message(_));
        match self {
            Value::List(values) => values.iter().any(is_message),
            Value::Map(pairs) => pairs.values().any(is_message),
            _ => is_message(self),
        }
    }
}

impl DynamicMessage {
    pub fn owns_field(&self, field: &FieldDescriptor) -> bool {
        field.message_type.is_same(&self.message_type)
    }

    /// The value of a field of the message's own type: the stored one, borrowed, or else the default.
    pub fn get_field(&self, field: &FieldDescriptor) -> Cow<'_, Value> {
        match self.stored_value(field.number()) {
            Some(value) => Cow::Borrowed(value),
            None => Cow::Owned(default_value(&self.message_type, field.table())),
        }
    }

    /// Sets a field of the message's own type to the value, if that fits it, and answers whether it does.
    pub fn try_set_field(&mut self, field: &FieldDescriptor, value: Value) -> bool {
        let fits = value_valid(&field.message_type, field.table(), &value);
        if fits {
            self.set_value(field.number(), value);
        }
        fits
    }

    pub fn clear(&mut self) {
        self.slots.clear();
    }

    /// The value at a number of the type, for writing; where there is none, it is first set to the default.
    fn value_or_default_mut(&mut self, number: u32) -> &mut Value {
        let default = match self.stored_value(number) {
            Some(_) => Value::Bool(false),
            None => {
                let field = self.message_type.field_table(number).expect("a field");
                default_value(&self.message_type, field)
            }
        };
        self.value_mut_or(number, default)
    }

    /// Sets the value at a path that leads to a field which takes it.
    pub fn set_at_path(&mut self, path: &[u32], value: Value) {
        let (number, rest) = path.split_first().expect("a number");
        if rest.is_empty() {
            self.set_value(*number, value);
            return;
        }
        match self.value_or_default_mut(*number) {
            Value::Message(message) => message.set_at_path(rest, value),
            _ => unreachable!(),
        }
    }
}
