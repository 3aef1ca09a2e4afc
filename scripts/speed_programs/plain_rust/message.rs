//! Values, and messages as values and unknown fields by number.

use crate::schema::{MessageType, WrittenDefault};
use crate::unknown::{UnknownField, UnknownFieldSet};
use std::collections::BTreeMap;
use std::mem;

#[derive(Clone, PartialEq, Eq, PartialOrd, Ord)]
pub enum MapKey {
    Bool(bool),
    I32(i32),
    I64(i64),
    U32(u32),
    U64(u64),
    String(String),
}

#[derive(Clone)]
pub enum Value {
    Bool(bool),
    I32(i32),
    I64(i64),
    U32(u32),
    U64(u64),
    F32(u32),
    F64(u64),
    String(String),
    Bytes(Vec<u8>),
    EnumNumber(i32),
    Message(DynamicMessage),
    List(Vec<Value>),
    Map(BTreeMap<MapKey, Value>),
}

/// A scalar, borrowed from a value, a key of a map or a written default.
#[derive(Clone, Copy, PartialEq)]
pub enum ScalarRef<'a> {
    Bool(bool),
    I32(i32),
    I64(i64),
    U32(u32),
    U64(u64),
    F32(u32),
    F64(u64),
    String(&'a str),
    Bytes(&'a [u8]),
    EnumNumber(i32),
}

/// What a message keeps at one number.
#[derive(Clone)]
pub enum FieldSlot {
    Value(Value),
    Unknown(UnknownFieldSet),
    Both(Value, UnknownFieldSet),
}

#[derive(Clone)]
pub struct DynamicMessage {
    pub message_type: MessageType,
    pub slots: Vec<(u32, FieldSlot)>,
}

impl MapKey {
    pub fn as_scalar(&self) -> ScalarRef<'_> {
        match self {
            MapKey::Bool(value) => ScalarRef::Bool(*value),
            MapKey::I32(value) => ScalarRef::I32(*value),
            MapKey::I64(value) => ScalarRef::I64(*value),
            MapKey::U32(value) => ScalarRef::U32(*value),
            MapKey::U64(value) => ScalarRef::U64(*value),
            MapKey::String(text) => ScalarRef::String(text),
        }
    }
}

impl Value {
    pub fn scalar(&self) -> ScalarRef<'_> {
        match self {
            Value::Bool(value) => ScalarRef::Bool(*value),
            Value::I32(value) => ScalarRef::I32(*value),
            Value::I64(value) => ScalarRef::I64(*value),
            Value::U32(value) => ScalarRef::U32(*value),
            Value::U64(value) => ScalarRef::U64(*value),
            Value::F32(bits) => ScalarRef::F32(*bits),
            Value::F64(bits) => ScalarRef::F64(*bits),
            Value::String(text) => ScalarRef::String(text),
            Value::Bytes(bytes) => ScalarRef::Bytes(bytes),
            Value::EnumNumber(number) => ScalarRef::EnumNumber(*number),
            Value::Message(_) | Value::List(_) | Value::Map(_) => unreachable!(),
        }
    }

    pub fn into_map_key(self) -> MapKey {
        match self {
            Value::Bool(value) => MapKey::Bool(value),
            Value::I32(value) => MapKey::I32(value),
            Value::I64(value) => MapKey::I64(value),
            Value::U32(value) => MapKey::U32(value),
            Value::U64(value) => MapKey::U64(value),
            Value::String(text) => MapKey::String(text),
            _ => unreachable!(),
        }
    }
}

impl<'a> ScalarRef<'a> {
    pub fn written(default: &'a WrittenDefault) -> ScalarRef<'a> {
        match default {
            WrittenDefault::Bool(value) => ScalarRef::Bool(*value),
            WrittenDefault::I32(value) => ScalarRef::I32(*value),
            WrittenDefault::I64(value) => ScalarRef::I64(*value),
            WrittenDefault::U32(value) => ScalarRef::U32(*value),
            WrittenDefault::U64(value) => ScalarRef::U64(*value),
            WrittenDefault::F32(bits) => ScalarRef::F32(*bits),
            WrittenDefault::F64(bits) => ScalarRef::F64(*bits),
            WrittenDefault::String(text) => ScalarRef::String(text),
            WrittenDefault::Bytes(bytes) => ScalarRef::Bytes(bytes),
            WrittenDefault::EnumNumber(number) => ScalarRef::EnumNumber(*number),
        }
    }

    pub fn to_value(self) -> Value {
        match self {
            ScalarRef::String(text) => Value::String(String::from(text)),
            ScalarRef::Bytes(bytes) => Value::Bytes(bytes.to_vec()),
            _ => self.blank_value(),
        }
    }

    pub fn blank_value(self) -> Value {
        match self {
            ScalarRef::Bool(value) => Value::Bool(value),
            ScalarRef::I32(value) => Value::I32(value),
            ScalarRef::I64(value) => Value::I64(value),
            ScalarRef::U32(value) => Value::U32(value),
            ScalarRef::U64(value) => Value::U64(value),
            ScalarRef::F32(bits) => Value::F32(bits),
            ScalarRef::F64(bits) => Value::F64(bits),
            ScalarRef::String(_) => Value::String(String::new()),
            ScalarRef::Bytes(_) => Value::Bytes(Vec::new()),
            ScalarRef::EnumNumber(number) => Value::EnumNumber(number),
        }
    }
}

impl FieldSlot {
    pub fn value(&self) -> Option<&Value> {
        match self {
            FieldSlot::Value(value) | FieldSlot::Both(value, _) => Some(value),
            FieldSlot::Unknown(_) => None,
        }
    }

    fn value_mut(&mut self) -> Option<&mut Value> {
        match self {
            FieldSlot::Value(value) | FieldSlot::Both(value, _) => Some(value),
            FieldSlot::Unknown(_) => None,
        }
    }

    /// Puts a value beside the unknown fields, in place of one that is there.
    fn put(&mut self, value: Value) {
        *self = match mem::replace(self, FieldSlot::Unknown(UnknownFieldSet::default())) {
            FieldSlot::Value(_) => FieldSlot::Value(value),
            FieldSlot::Unknown(unknown) | FieldSlot::Both(_, unknown) => {
                FieldSlot::Both(value, unknown)
            }
        };
    }
}

impl DynamicMessage {
    pub fn new(message_type: MessageType) -> DynamicMessage {
        DynamicMessage {
            message_type,
            slots: Vec::new(),
        }
    }

    /// Where the number stands, or where it would go.
    pub fn place(&self, number: u32) -> Result<usize, usize> {
        self.slots.binary_search_by_key(&number, |slot| slot.0)
    }

    /// The value that is stored at the number.
    pub fn stored_value(&self, number: u32) -> Option<&Value> {
        match self.place(number) {
            Ok(index) => self.slots[index].1.value(),
            Err(_) => None,
        }
    }

    /// Sets the value at the number, and removes those of the other members of its field's oneof.
    pub fn set_value(&mut self, number: u32, value: Value) {
        match self.place(number) {
            Ok(index) => self.slots[index].1.put(value),
            Err(index) => self.slots.insert(index, (number, FieldSlot::Value(value))),
        }
        self.clear_siblings(number);
    }

    fn clear_siblings(&mut self, number: u32) {
        let message_type = &self.message_type;
        let Some(oneof) = message_type.field_table(number).and_then(|it| it.oneof) else {
            return;
        };
        for member in 0..message_type.table().oneofs[oneof].fields.len() {
            let table = self.message_type.table();
            let sibling = table.fields[table.oneofs[oneof].fields[member]].number;
            if sibling != number {
                self.take_value(sibling);
            }
        }
    }

    fn take_value(&mut self, number: u32) {
        let Ok(index) = self.place(number) else {
            return;
        };
        match &mut self.slots[index].1 {
            FieldSlot::Value(_) => {
                self.slots.remove(index);
            }
            FieldSlot::Both(_, unknown) => {
                self.slots[index].1 = FieldSlot::Unknown(mem::take(unknown));
            }
            FieldSlot::Unknown(_) => {}
        }
    }

    /// The value at the number, which is first set to `default` where there is none.
    pub fn value_mut_or(&mut self, number: u32, default: Value) -> &mut Value {
        let is_there = match self.place(number) {
            Ok(index) => self.slots[index].1.value_mut().is_some(),
            Err(_) => false,
        };
        if !is_there {
            self.set_value(number, default);
        }
        match self.place(number) {
            Ok(index) => self.slots[index].1.value_mut().expect("a value"),
            Err(_) => unreachable!(),
        }
    }

    pub fn add_unknown(&mut self, number: u32, field: UnknownField) {
        let index = match self.place(number) {
            Ok(index) => index,
            Err(index) => {
                let slot = FieldSlot::Unknown(UnknownFieldSet::default());
                self.slots.insert(index, (number, slot));
                index
            }
        };
        let slot = &mut self.slots[index].1;
        match slot {
            FieldSlot::Unknown(unknown) | FieldSlot::Both(_, unknown) => unknown.fields.push(field),
            FieldSlot::Value(_) => {
                let beside = UnknownFieldSet {
                    fields: vec![field],
                };
                let whole = mem::replace(slot, FieldSlot::Unknown(UnknownFieldSet::default()));
                if let FieldSlot::Value(value) = whole {
                    *slot = FieldSlot::Both(value, beside);
                }
            }
        }
    }
}
