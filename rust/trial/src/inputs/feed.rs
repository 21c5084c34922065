//! Choices out of bytes.

use crate::keys::{Key, NRT_IT, STARTS};
use crate::sections::{self, Fields};
use khumsafil::shelf::LARGEST_SECTION;

/// Bytes that are taken from the front. Where they are used up, zeros follow.
pub struct Feed<'a>(&'a [u8]);

impl<'a> Feed<'a> {
    pub fn new(bytes: &'a [u8]) -> Feed<'a> {
        Feed(bytes)
    }

    pub fn over(&self) -> bool {
        self.0.is_empty()
    }

    pub fn byte(&mut self) -> u8 {
        match self.0.split_first() {
            Some((first, rest)) => {
                self.0 = rest;
                *first
            }
            None => 0,
        }
    }

    pub fn half(&mut self) -> u16 {
        u16::from_be_bytes([self.byte(), self.byte()])
    }

    pub fn word(&mut self) -> u32 {
        u32::from(self.half()) << 16 | u32::from(self.half())
    }

    /// The next bytes, fewer where fewer are left, in a buffer with no room beyond them.
    pub fn part(&mut self, length: usize) -> Vec<u8> {
        let (part, rest) = self.0.split_at(length.min(self.0.len()));
        self.0 = rest;
        part.to_vec()
    }

    pub fn rest(&mut self) -> Vec<u8> {
        self.part(usize::MAX)
    }

    /// One of few keys: of tables that share a table id or an extension, of NRT-ITs that share all but one field, of the same
    /// tables with added numbers that mean nothing; or any four numbers.
    pub fn key(&mut self) -> Key {
        let how = self.byte();
        let few = usize::from(how % 8);
        let start = STARTS[usize::from(how >> 2 & 7) % STARTS.len()];
        let (service_id, time_span_start) = match how >> 6 {
            3 => ([0, 7, 8, 65_535][usize::from(how >> 4 & 3)], start),
            _ => (0, 0),
        };
        let (table_id, extension) = match few {
            _ if how >> 6 == 2 => {
                let (extension, service) = (how & 1, how >> 1 & 1);
                return Key::new(
                    NRT_IT,
                    4_096 + u16::from(extension),
                    7 + u16::from(service),
                    start,
                );
            }
            0..=5 => (
                [201, 201, 7, 7, 0, 255][few],
                [4_660, 52, 4_660, 52, 0, 65_535][few],
            ),
            6 => (201, 4_661),
            _ => return self.any(),
        };
        Key {
            table_id,
            extension,
            service_id,
            time_span_start,
        }
    }

    /// Any key. An NRT-IT's has its four numbers, another table's two.
    fn any(&mut self) -> Key {
        let (table_id, extension) = (self.byte(), self.half());
        match table_id {
            NRT_IT => Key::new(NRT_IT, extension, self.half(), self.word()),
            _ => Key::new(table_id, extension, 0, 0),
        }
    }

    /// A table's fields, the number and the last in four bits each.
    pub fn fields(&mut self) -> Fields {
        let key = self.key();
        let version = self.byte();
        let numbers = self.byte();
        Fields {
            key,
            version: match version % 8 {
                7 => version >> 3,
                few => few / 2,
            },
            number: numbers >> 4,
            last: numbers & 0x0F,
        }
    }

    /// The bytes of a section with these fields: its size and what stands in it by one byte, or by two or three. The smallest
    /// hold their key; by two or three bytes some do not.
    pub fn section(&mut self, fields: Fields) -> Vec<u8> {
        let how = self.byte();
        let size = match how % 8 {
            0..=2 => fields.least(),
            3 => fields.least() + 1,
            4 => 20,
            5 => 8 + usize::from(self.byte()),
            6 => LARGEST_SECTION - usize::from(how >> 7),
            _ => usize::from(self.half()) % 1_100,
        };
        let mut bytes = vec![how >> 3 & 3; size];
        // Reserved bits have no meaning, and yet are bytes that a repeat has to have.
        let reserved = if how & 0x60 == 0x60 { how } else { 0xFF };
        sections::put_header(&mut bytes, fields, reserved);
        bytes
    }
}

/// Puts a payload's size in its length field.
pub fn put_length(payload: &mut [u8]) {
    if payload.len() >= 3 {
        let length = (payload.len() - 3) as u16;
        payload[1] = payload[1] & 0xF0 | (length >> 8) as u8 & 0x0F;
        payload[2] = length as u8;
    }
}
