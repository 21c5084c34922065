//! Small helpers shared by the tests.

/// A sound section with reserved bits 1.
pub fn section(
    table_id: u8,
    extension: u16,
    version: u8,
    number: u8,
    last: u8,
    body: &[u8],
) -> Vec<u8> {
    let section_length = (body.len() + 5) as u16;
    let mut bytes = vec![
        table_id,
        0x70 | (section_length >> 8) as u8,
        section_length as u8,
        (extension >> 8) as u8,
        extension as u8,
        0xC1 | (version << 1),
        number,
        last,
    ];
    bytes.extend_from_slice(body);
    bytes
}

/// A sound NRT-IT section: its key, then what follows the key.
pub fn nrt_it(
    (extension, service_id, time_span_start): (u16, u16, u32),
    version: u8,
    number: u8,
    last: u8,
    rest: &[u8],
) -> Vec<u8> {
    let mut body = service_id.to_be_bytes().to_vec();
    body.extend(time_span_start.to_be_bytes());
    body.extend_from_slice(rest);
    section(0xDF, extension, version, number, last, &body)
}

/// A plain source of repeatable numbers (xorshift).
pub struct Dice(pub u64);

impl Dice {
    pub fn next(&mut self) -> u64 {
        self.0 ^= self.0 << 13;
        self.0 ^= self.0 >> 7;
        self.0 ^= self.0 << 17;
        self.0
    }

    /// A number from 0 to `below` less one.
    pub fn below(&mut self, below: usize) -> usize {
        (self.next() % below as u64) as usize
    }

    pub fn bytes(&mut self, count: usize) -> Vec<u8> {
        (0..count).map(|_| self.next() as u8).collect()
    }
}
