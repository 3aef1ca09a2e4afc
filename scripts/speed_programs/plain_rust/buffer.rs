//! Buffers that are filled from their back, in front of one another.

use crate::wire::WireType;
use std::mem;

const LEAST_ROOM: usize = 64;
const MOST_ROOM: usize = 65_536;
const LARGE: usize = 4_096;
const LONGEST_VARINT: usize = 10;

/// Bytes to which more are added in front while there is room.
#[derive(Default)]
struct BackBuffer {
    bytes: Vec<u8>,
    start: usize,
}

impl BackBuffer {
    fn with_capacity(capacity: usize) -> BackBuffer {
        BackBuffer {
            bytes: vec![0; capacity],
            start: capacity,
        }
    }

    fn as_slice(&self) -> &[u8] {
        &self.bytes[self.start..]
    }

    fn len(&self) -> usize {
        self.bytes.len() - self.start
    }

    #[inline]
    fn prepend(&mut self, front: &[u8]) {
        let start = self.start - front.len();
        self.bytes[start..self.start].copy_from_slice(front);
        self.start = start;
    }

    #[inline]
    fn prepend_varint(&mut self, value: u64) {
        if value < 0x80 {
            self.prepend(&[value as u8]);
        } else if value < 0x4000 {
            self.prepend(&[value as u8 | 0x80, (value >> 7) as u8]);
        } else {
            self.prepend_digits(value);
        }
    }

    fn prepend_digits(&mut self, value: u64) {
        let mut digits = [0; 10];
        let mut len = 0;
        let mut rest = value;
        while rest >= 0x80 {
            digits[len] = rest as u8 | 0x80;
            rest >>= 7;
            len += 1;
        }
        digits[len] = rest as u8;
        self.prepend(&digits[..=len]);
    }
}

/// Bytes to which more are added in front. A full buffer stays as it is, and a further one begins in front of it.
#[derive(Default)]
pub struct Blocks {
    front: BackBuffer,
    behind: Vec<BackBuffer>,
    len_behind: usize,
}

impl Blocks {
    #[inline]
    pub fn len(&self) -> usize {
        self.len_behind + self.front.len()
    }

    fn put(&mut self, next: BackBuffer) {
        let len = self.len();
        let full = mem::replace(&mut self.front, next);
        if full.len() > 0 {
            self.behind.push(full);
            self.len_behind = len;
        }
    }

    #[cold]
    #[inline(never)]
    fn begin(&mut self, additional: usize) {
        let room = self.len().clamp(LEAST_ROOM, MOST_ROOM).max(additional);
        self.put(BackBuffer::with_capacity(room));
    }

    #[cold]
    #[inline(never)]
    fn prepend_apart(&mut self, front: &[u8]) {
        if front.len() < LARGE {
            self.begin(front.len());
            self.front.prepend(front);
        } else {
            self.put(BackBuffer {
                bytes: front.to_vec(),
                start: 0,
            });
        }
    }

    #[inline]
    pub fn prepend(&mut self, front: &[u8]) {
        if self.front.start < front.len() {
            self.prepend_apart(front);
        } else {
            self.front.prepend(front);
        }
    }

    #[inline]
    pub fn prepend_varint(&mut self, value: u64) {
        if self.front.start < LONGEST_VARINT {
            self.begin(LONGEST_VARINT);
        }
        self.front.prepend_varint(value);
    }

    pub fn prepend_key(&mut self, number: u32, wire_type: WireType) {
        self.prepend_varint(8 * u64::from(number) + wire_type as u64);
    }

    pub fn prepend_len_since(&mut self, before: usize) {
        self.prepend_varint((self.len() - before) as u64);
    }

    /// Appends the bytes end to end.
    pub fn append_to(&self, out: &mut Vec<u8>) {
        out.reserve(self.len());
        out.extend_from_slice(self.front.as_slice());
        for buffer in self.behind.iter().rev() {
            out.extend_from_slice(buffer.as_slice());
        }
    }
}
