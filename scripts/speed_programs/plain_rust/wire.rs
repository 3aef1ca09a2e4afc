//! Varints, keys and payloads.

#[derive(Clone, Copy, Debug, PartialEq, Eq)]
pub enum DecodeError {
    Truncated,
    Varint,
    Key,
    WireType,
    EndGroup,
    Utf8,
    Depth,
}

#[derive(Clone, Copy, Debug, PartialEq, Eq)]
pub enum WireType {
    Varint = 0,
    SixtyFourBit = 1,
    LengthDelimited = 2,
    StartGroup = 3,
    EndGroup = 4,
    ThirtyTwoBit = 5,
}

pub fn decode_varint(bytes: &[u8]) -> Result<(u64, &[u8]), DecodeError> {
    match bytes.split_first() {
        Some((byte, rest)) if *byte < 0x80 => Ok((u64::from(*byte), rest)),
        _ => decode_steps(bytes),
    }
}

fn decode_steps(bytes: &[u8]) -> Result<(u64, &[u8]), DecodeError> {
    let mut value = 0;
    for index in 0..10 {
        let Some(&byte) = bytes.get(index) else {
            return Err(DecodeError::Truncated);
        };
        if index == 9 && byte > 1 {
            return Err(DecodeError::Varint);
        }
        value |= u64::from(byte & 0x7f) << (7 * index);
        if byte < 0x80 {
            return Ok((value, &bytes[index + 1..]));
        }
    }
    Err(DecodeError::Varint)
}

pub fn decode_key(bytes: &[u8]) -> Result<(u32, WireType, &[u8]), DecodeError> {
    let (value, rest) = decode_varint(bytes)?;
    let Ok(key) = u32::try_from(value) else {
        return Err(DecodeError::Key);
    };
    let wire_type = match key % 8 {
        0 => WireType::Varint,
        1 => WireType::SixtyFourBit,
        2 => WireType::LengthDelimited,
        3 => WireType::StartGroup,
        4 => WireType::EndGroup,
        5 => WireType::ThirtyTwoBit,
        _ => return Err(DecodeError::Key),
    };
    match key / 8 {
        0 => Err(DecodeError::Key),
        number => Ok((number, wire_type, rest)),
    }
}

pub fn decode_fixed64(bytes: &[u8]) -> Result<([u8; 8], &[u8]), DecodeError> {
    match bytes.split_first_chunk() {
        Some((eight, rest)) => Ok((*eight, rest)),
        None => Err(DecodeError::Truncated),
    }
}

pub fn decode_fixed32(bytes: &[u8]) -> Result<([u8; 4], &[u8]), DecodeError> {
    match bytes.split_first_chunk() {
        Some((four, rest)) => Ok((*four, rest)),
        None => Err(DecodeError::Truncated),
    }
}

pub fn decode_delimited(bytes: &[u8]) -> Result<(&[u8], &[u8]), DecodeError> {
    let (len, rest) = decode_varint(bytes)?;
    if (rest.len() as u64) < len {
        return Err(DecodeError::Truncated);
    }
    Ok(rest.split_at(len as usize))
}

pub fn zigzag32(value: i32) -> u32 {
    ((value << 1) ^ (value >> 31)) as u32
}

pub fn unzigzag32(value: u32) -> i32 {
    (value >> 1) as i32 ^ -((value & 1) as i32)
}

pub fn zigzag64(value: i64) -> u64 {
    ((value << 1) ^ (value >> 63)) as u64
}

pub fn unzigzag64(value: u64) -> i64 {
    (value >> 1) as i64 ^ -((value & 1) as i64)
}
