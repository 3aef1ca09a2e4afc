//! Reading messages.

use crate::message::{DynamicMessage, ScalarRef, Value};
use crate::schema::{Cardinality, FieldTable, Kind, MessageType};
use crate::unknown::{UnknownField, UnknownFieldValue, decode_value, skip_value};
use crate::wire::{
    DecodeError, WireType, decode_delimited, decode_fixed32, decode_fixed64, decode_key,
    decode_varint, unzigzag32, unzigzag64,
};
use std::collections::BTreeMap;

pub const RECURSION_LIMIT: u32 = 100;

/// Which messages a field has.
#[derive(Clone, Copy)]
struct MessageKind {
    place: usize,
    is_group: bool,
}

/// What the record behind a key is read as.
#[derive(Clone, Copy)]
enum Target {
    Unknown,
    Scalar(Kind),
    List(Kind),
    Numbers(Kind),
    Map(Kind, Kind),
    Message(MessageKind),
    Element(MessageKind),
    MessageEntry(Kind, usize),
}

fn target_at(message_type: &MessageType, number: u32) -> Target {
    match message_type.field_table(number) {
        Some(field) if field.cardinality == Cardinality::Repeated => {
            repeated_target(message_type, field)
        }
        Some(field) => match field.kind {
            Kind::Message(place) => Target::Message(MessageKind {
                place,
                is_group: field.is_group,
            }),
            kind => Target::Scalar(kind),
        },
        None => Target::Unknown,
    }
}

fn repeated_target(message_type: &MessageType, field: &FieldTable) -> Target {
    match message_type.map_parts(field) {
        Some((key, value)) => match value.kind {
            Kind::Message(place) => Target::MessageEntry(key.kind, place),
            kind => Target::Map(key.kind, kind),
        },
        None => match field.kind {
            Kind::Message(place) => Target::Element(MessageKind {
                place,
                is_group: field.is_group,
            }),
            Kind::Enum(_) => Target::Numbers(field.kind),
            kind => Target::List(kind),
        },
    }
}

pub fn wire_type_of(kind: Kind) -> WireType {
    match kind {
        Kind::Double | Kind::Fixed64 | Kind::Sfixed64 => WireType::SixtyFourBit,
        Kind::Float | Kind::Fixed32 | Kind::Sfixed32 => WireType::ThirtyTwoBit,
        Kind::String | Kind::Bytes => WireType::LengthDelimited,
        _ => WireType::Varint,
    }
}

fn varint_value(kind: Kind, value: u64) -> Value {
    match kind {
        Kind::Int32 => Value::I32(value as i32),
        Kind::Int64 => Value::I64(value as i64),
        Kind::Uint32 => Value::U32(value as u32),
        Kind::Uint64 => Value::U64(value),
        Kind::Sint32 => Value::I32(unzigzag32(value as u32)),
        Kind::Sint64 => Value::I64(unzigzag64(value)),
        Kind::Bool => Value::Bool(value != 0),
        Kind::Enum(_) => Value::EnumNumber(value as i32),
        _ => unreachable!(),
    }
}

fn fixed64_value(kind: Kind, bytes: [u8; 8]) -> Value {
    let value = u64::from_le_bytes(bytes);
    match kind {
        Kind::Double => Value::F64(value),
        Kind::Fixed64 => Value::U64(value),
        Kind::Sfixed64 => Value::I64(value as i64),
        _ => unreachable!(),
    }
}

fn fixed32_value(kind: Kind, bytes: [u8; 4]) -> Value {
    let value = u32::from_le_bytes(bytes);
    match kind {
        Kind::Float => Value::F32(value),
        Kind::Fixed32 => Value::U32(value),
        Kind::Sfixed32 => Value::I32(value as i32),
        _ => unreachable!(),
    }
}

fn delimited_value(kind: Kind, bytes: &[u8]) -> Result<Value, DecodeError> {
    match kind {
        Kind::Bytes => Ok(Value::Bytes(bytes.to_vec())),
        Kind::String => match std::str::from_utf8(bytes) {
            Ok(text) => Ok(Value::String(String::from(text))),
            Err(_) => Err(DecodeError::Utf8),
        },
        _ => unreachable!(),
    }
}

fn scalar_at(kind: Kind, wire_type: WireType, bytes: &[u8]) -> Result<(Value, &[u8]), DecodeError> {
    if wire_type == WireType::EndGroup {
        return Err(DecodeError::EndGroup);
    }
    if wire_type != wire_type_of(kind) {
        return Err(DecodeError::WireType);
    }
    match wire_type {
        WireType::Varint => {
            let (value, rest) = decode_varint(bytes)?;
            Ok((varint_value(kind, value), rest))
        }
        WireType::SixtyFourBit => {
            let (payload, rest) = decode_fixed64(bytes)?;
            Ok((fixed64_value(kind, payload), rest))
        }
        WireType::LengthDelimited => {
            let (payload, rest) = decode_delimited(bytes)?;
            Ok((delimited_value(kind, payload)?, rest))
        }
        WireType::ThirtyTwoBit => {
            let (payload, rest) = decode_fixed32(bytes)?;
            Ok((fixed32_value(kind, payload), rest))
        }
        WireType::StartGroup | WireType::EndGroup => unreachable!(),
    }
}

/// Adds the elements of a list's record behind its key, packed or single, and gives the bytes behind them.
fn push_elements<'a>(
    values: &mut Vec<Value>,
    kind: Kind,
    wire_type: WireType,
    bytes: &'a [u8],
) -> Result<&'a [u8], DecodeError> {
    if wire_type == WireType::LengthDelimited && !matches!(kind, Kind::String | Kind::Bytes) {
        let (body, rest) = decode_delimited(bytes)?;
        push_packed(values, kind, body)?;
        return Ok(rest);
    }
    let (value, rest) = scalar_at(kind, wire_type, bytes)?;
    values.push(value);
    Ok(rest)
}

fn push_packed(values: &mut Vec<Value>, kind: Kind, body: &[u8]) -> Result<(), DecodeError> {
    let wire_type = wire_type_of(kind);
    let mut rest = body;
    while !rest.is_empty() {
        let (element, after) = scalar_at(kind, wire_type, rest)?;
        values.push(element);
        rest = after;
    }
    Ok(())
}

fn zero(kind: Kind) -> ScalarRef<'static> {
    match kind {
        Kind::Double => ScalarRef::F64(0),
        Kind::Float => ScalarRef::F32(0),
        Kind::Int32 | Kind::Sint32 | Kind::Sfixed32 => ScalarRef::I32(0),
        Kind::Int64 | Kind::Sint64 | Kind::Sfixed64 => ScalarRef::I64(0),
        Kind::Uint32 | Kind::Fixed32 => ScalarRef::U32(0),
        Kind::Uint64 | Kind::Fixed64 => ScalarRef::U64(0),
        Kind::Bool => ScalarRef::Bool(false),
        Kind::String => ScalarRef::String(""),
        Kind::Bytes => ScalarRef::Bytes(&[]),
        Kind::Enum(_) => ScalarRef::EnumNumber(0),
        Kind::Message(_) => unreachable!(),
    }
}

/// The default of a scalar kind: the first number of an enum, else zero, false or empty.
pub fn kind_default(message_type: &MessageType, kind: Kind) -> ScalarRef<'static> {
    match kind {
        Kind::Enum(place) => ScalarRef::EnumNumber(message_type.pool.enums[place].first),
        _ => zero(kind),
    }
}

fn entry_at(
    message_type: &MessageType,
    key_kind: Kind,
    value_kind: Kind,
    body: &[u8],
    levels: u32,
) -> Result<(Value, Value), DecodeError> {
    let mut key = zero(key_kind).blank_value();
    let mut value = kind_default(message_type, value_kind).blank_value();
    let mut rest = body;
    while !rest.is_empty() {
        let (number, wire_type, after) = decode_key(rest)?;
        rest = match number {
            1 => {
                let (read, end) = scalar_at(key_kind, wire_type, after)?;
                key = read;
                end
            }
            2 => {
                let (read, end) = scalar_at(value_kind, wire_type, after)?;
                value = read;
                end
            }
            _ => skip_value(number, wire_type, after, levels)?,
        };
    }
    Ok((key, value))
}

fn entry_body(wire_type: WireType, bytes: &[u8]) -> Result<(&[u8], &[u8]), DecodeError> {
    match wire_type {
        WireType::LengthDelimited => decode_delimited(bytes),
        WireType::EndGroup => Err(DecodeError::EndGroup),
        _ => Err(DecodeError::WireType),
    }
}

fn check_nested(is_group: bool, wire_type: WireType, levels: u32) -> Result<(), DecodeError> {
    let wanted = if is_group {
        WireType::StartGroup
    } else {
        WireType::LengthDelimited
    };
    if wire_type == WireType::EndGroup {
        return Err(DecodeError::EndGroup);
    }
    if wire_type != wanted {
        return Err(DecodeError::WireType);
    }
    if levels == 0 {
        return Err(DecodeError::Depth);
    }
    Ok(())
}

impl DynamicMessage {
    pub fn decode(message_type: MessageType, bytes: &[u8]) -> Result<DynamicMessage, DecodeError> {
        let mut message = DynamicMessage::new(message_type);
        message.merge_records(bytes, RECURSION_LIMIT)?;
        Ok(message)
    }

    fn empty(&self, place: usize) -> DynamicMessage {
        DynamicMessage::new(self.message_type.at(place))
    }

    pub fn merge_records(&mut self, bytes: &[u8], levels: u32) -> Result<(), DecodeError> {
        let mut rest = bytes;
        while !rest.is_empty() {
            let (number, wire_type, after) = decode_key(rest)?;
            rest = self.merge_record(number, wire_type, after, levels)?;
        }
        Ok(())
    }

    fn merge_record<'a>(
        &mut self,
        number: u32,
        wire_type: WireType,
        bytes: &'a [u8],
        levels: u32,
    ) -> Result<&'a [u8], DecodeError> {
        match target_at(&self.message_type, number) {
            Target::Scalar(kind) => self.merge_scalar(number, kind, wire_type, bytes, levels),
            Target::List(kind) => self.merge_list(number, kind, wire_type, bytes),
            Target::Numbers(kind) => self.merge_numbers(number, kind, wire_type, bytes),
            Target::Map(key, kind) => self.merge_map(number, (key, kind), wire_type, bytes, levels),
            Target::Message(kind) => self.merge_message(number, kind, wire_type, bytes, levels),
            Target::Element(kind) => self.merge_element(number, kind, wire_type, bytes, levels),
            Target::MessageEntry(key, place) => {
                self.merge_entry(number, key, place, wire_type, bytes, levels)
            }
            Target::Unknown => self.merge_unknown(number, wire_type, bytes, levels),
        }
    }

    fn merge_scalar<'a>(
        &mut self,
        number: u32,
        kind: Kind,
        wire_type: WireType,
        bytes: &'a [u8],
        levels: u32,
    ) -> Result<&'a [u8], DecodeError> {
        let (value, rest) = scalar_at(kind, wire_type, bytes)?;
        if self.is_stray(kind, &value) {
            return self.merge_unknown(number, wire_type, bytes, levels);
        }
        self.set_value(number, value);
        Ok(rest)
    }

    fn is_stray(&self, kind: Kind, value: &Value) -> bool {
        match value {
            Value::EnumNumber(number) => self.message_type.is_stray(kind, *number),
            _ => false,
        }
    }

    fn merge_unknown<'a>(
        &mut self,
        number: u32,
        wire_type: WireType,
        bytes: &'a [u8],
        levels: u32,
    ) -> Result<&'a [u8], DecodeError> {
        let (value, rest) = decode_value(number, wire_type, bytes, levels)?;
        self.add_unknown(number, UnknownField { number, value });
        Ok(rest)
    }

    fn list_mut(&mut self, number: u32) -> &mut Vec<Value> {
        match self.value_mut_or(number, Value::List(Vec::new())) {
            Value::List(values) => values,
            _ => unreachable!(),
        }
    }

    fn merge_list<'a>(
        &mut self,
        number: u32,
        kind: Kind,
        wire_type: WireType,
        bytes: &'a [u8],
    ) -> Result<&'a [u8], DecodeError> {
        push_elements(self.list_mut(number), kind, wire_type, bytes)
    }

    fn merge_numbers<'a>(
        &mut self,
        number: u32,
        kind: Kind,
        wire_type: WireType,
        bytes: &'a [u8],
    ) -> Result<&'a [u8], DecodeError> {
        match wire_type {
            WireType::LengthDelimited => {
                let (body, rest) = decode_delimited(bytes)?;
                self.list_mut(number);
                let mut left = body;
                while !left.is_empty() {
                    let (value, after) = decode_varint(left)?;
                    self.push_number(number, kind, value);
                    left = after;
                }
                Ok(rest)
            }
            WireType::Varint => {
                let (value, rest) = decode_varint(bytes)?;
                self.list_mut(number);
                self.push_number(number, kind, value);
                Ok(rest)
            }
            WireType::EndGroup => Err(DecodeError::EndGroup),
            _ => Err(DecodeError::WireType),
        }
    }

    fn push_number(&mut self, number: u32, kind: Kind, value: u64) {
        if self.message_type.is_stray(kind, value as i32) {
            let value = UnknownFieldValue::Varint(value);
            self.add_unknown(number, UnknownField { number, value });
        } else {
            self.list_mut(number).push(Value::EnumNumber(value as i32));
        }
    }

    fn merge_map<'a>(
        &mut self,
        number: u32,
        kinds: (Kind, Kind),
        wire_type: WireType,
        bytes: &'a [u8],
        levels: u32,
    ) -> Result<&'a [u8], DecodeError> {
        let (body, rest) = entry_body(wire_type, bytes)?;
        let (key, value) = entry_at(&self.message_type, kinds.0, kinds.1, body, levels)?;
        if self.is_stray(kinds.1, &value) {
            return self.merge_unknown(number, wire_type, bytes, levels);
        }
        self.put_entry(number, key, value);
        Ok(rest)
    }

    fn put_entry(&mut self, number: u32, key: Value, value: Value) {
        match self.value_mut_or(number, Value::Map(BTreeMap::new())) {
            Value::Map(pairs) => pairs.insert(key.into_map_key(), value),
            _ => unreachable!(),
        };
    }

    fn merge_entry<'a>(
        &mut self,
        number: u32,
        key_kind: Kind,
        place: usize,
        wire_type: WireType,
        bytes: &'a [u8],
        levels: u32,
    ) -> Result<&'a [u8], DecodeError> {
        let (body, rest) = entry_body(wire_type, bytes)?;
        if levels == 0 {
            return Err(DecodeError::Depth);
        }
        let mut value = self.empty(place);
        let mut key = zero(key_kind).blank_value();
        let mut left = body;
        while !left.is_empty() {
            let (part, wire_type, after) = decode_key(left)?;
            left = match part {
                1 => {
                    let (read, end) = scalar_at(key_kind, wire_type, after)?;
                    key = read;
                    end
                }
                2 => value.merge_nested(part, false, wire_type, after, levels)?,
                _ => skip_value(part, wire_type, after, levels)?,
            };
        }
        self.put_entry(number, key, Value::Message(value));
        Ok(rest)
    }

    fn merge_message<'a>(
        &mut self,
        number: u32,
        kind: MessageKind,
        wire_type: WireType,
        bytes: &'a [u8],
        levels: u32,
    ) -> Result<&'a [u8], DecodeError> {
        let default = Value::Message(self.empty(kind.place));
        match self.value_mut_or(number, default) {
            Value::Message(message) => {
                message.merge_nested(number, kind.is_group, wire_type, bytes, levels)
            }
            _ => unreachable!(),
        }
    }

    fn merge_element<'a>(
        &mut self,
        number: u32,
        kind: MessageKind,
        wire_type: WireType,
        bytes: &'a [u8],
        levels: u32,
    ) -> Result<&'a [u8], DecodeError> {
        let mut element = self.empty(kind.place);
        let rest = element.merge_nested(number, kind.is_group, wire_type, bytes, levels)?;
        self.list_mut(number).push(Value::Message(element));
        Ok(rest)
    }

    fn merge_nested<'a>(
        &mut self,
        number: u32,
        is_group: bool,
        wire_type: WireType,
        bytes: &'a [u8],
        levels: u32,
    ) -> Result<&'a [u8], DecodeError> {
        check_nested(is_group, wire_type, levels)?;
        if is_group {
            return self.merge_to_end(number, bytes, levels - 1);
        }
        let (body, rest) = decode_delimited(bytes)?;
        self.merge_records(body, levels - 1)?;
        Ok(rest)
    }

    fn merge_to_end<'a>(
        &mut self,
        number: u32,
        bytes: &'a [u8],
        levels: u32,
    ) -> Result<&'a [u8], DecodeError> {
        let mut rest = bytes;
        loop {
            let (key, wire_type, after) = decode_key(rest)?;
            match wire_type {
                WireType::EndGroup if key == number => return Ok(after),
                WireType::EndGroup => return Err(DecodeError::EndGroup),
                _ => {}
            }
            rest = self.merge_record(key, wire_type, after, levels)?;
        }
    }
}
