//! The fields that no descriptor knows.

use crate::wire::{
    DecodeError, WireType, decode_delimited, decode_fixed32, decode_fixed64, decode_key,
    decode_varint,
};

#[derive(Clone)]
pub struct UnknownField {
    pub number: u32,
    pub value: UnknownFieldValue,
}

#[derive(Clone)]
pub enum UnknownFieldValue {
    Varint(u64),
    SixtyFourBit([u8; 8]),
    LengthDelimited(Vec<u8>),
    Group(UnknownFieldSet),
    ThirtyTwoBit([u8; 4]),
}

#[derive(Clone, Default)]
pub struct UnknownFieldSet {
    pub fields: Vec<UnknownField>,
}

/// Reads what stands behind the key of a field, with at most `depth` groups open at once.
pub fn decode_value(
    number: u32,
    wire_type: WireType,
    bytes: &[u8],
    depth: u32,
) -> Result<(UnknownFieldValue, &[u8]), DecodeError> {
    match wire_type {
        WireType::Varint => {
            let (value, rest) = decode_varint(bytes)?;
            Ok((UnknownFieldValue::Varint(value), rest))
        }
        WireType::SixtyFourBit => {
            let (payload, rest) = decode_fixed64(bytes)?;
            Ok((UnknownFieldValue::SixtyFourBit(payload), rest))
        }
        WireType::LengthDelimited => {
            let (payload, rest) = decode_delimited(bytes)?;
            Ok((UnknownFieldValue::LengthDelimited(payload.to_vec()), rest))
        }
        WireType::StartGroup => {
            let (fields, rest) = decode_group(number, bytes, depth)?;
            Ok((UnknownFieldValue::Group(fields), rest))
        }
        WireType::EndGroup => Err(DecodeError::EndGroup),
        WireType::ThirtyTwoBit => {
            let (payload, rest) = decode_fixed32(bytes)?;
            Ok((UnknownFieldValue::ThirtyTwoBit(payload), rest))
        }
    }
}

fn decode_group(
    number: u32,
    bytes: &[u8],
    depth: u32,
) -> Result<(UnknownFieldSet, &[u8]), DecodeError> {
    if depth == 0 {
        return Err(DecodeError::Depth);
    }
    let mut set = UnknownFieldSet::default();
    let mut rest = bytes;
    loop {
        let (key, wire_type, after) = decode_key(rest)?;
        match wire_type {
            WireType::EndGroup if key == number => return Ok((set, after)),
            WireType::EndGroup => return Err(DecodeError::EndGroup),
            _ => {}
        }
        let (value, after) = decode_value(key, wire_type, after, depth - 1)?;
        set.fields.push(UnknownField { number: key, value });
        rest = after;
    }
}

/// Passes over what stands behind the key of a field.
pub fn skip_value(
    number: u32,
    wire_type: WireType,
    bytes: &[u8],
    depth: u32,
) -> Result<&[u8], DecodeError> {
    match wire_type {
        WireType::Varint => Ok(decode_varint(bytes)?.1),
        WireType::SixtyFourBit => Ok(decode_fixed64(bytes)?.1),
        WireType::LengthDelimited => Ok(decode_delimited(bytes)?.1),
        WireType::StartGroup => skip_group(number, bytes, depth),
        WireType::EndGroup => Err(DecodeError::EndGroup),
        WireType::ThirtyTwoBit => Ok(decode_fixed32(bytes)?.1),
    }
}

fn skip_group(number: u32, bytes: &[u8], depth: u32) -> Result<&[u8], DecodeError> {
    if depth == 0 {
        return Err(DecodeError::Depth);
    }
    let mut rest = bytes;
    loop {
        let (key, wire_type, after) = decode_key(rest)?;
        match wire_type {
            WireType::EndGroup if key == number => return Ok(after),
            WireType::EndGroup => return Err(DecodeError::EndGroup),
            _ => {}
        }
        rest = skip_value(key, wire_type, after, depth - 1)?;
    }
}
