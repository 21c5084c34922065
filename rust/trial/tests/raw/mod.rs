//! What the wrapper does not ask of every table, as the boundary answers it.

extern "C" {
    fn khumsafil_raw_section_key(payload: *const u8, payload_length: usize) -> u64;
}

/// The rest of the key of the section that a payload is, service_id and time_span_start, or its number of refusal.
pub fn section_key(payload: &[u8]) -> Result<(u16, u32), u8> {
    // SAFETY: the pointer and the length are those of a slice, and the library only reads.
    let word = unsafe { khumsafil_raw_section_key(payload.as_ptr(), payload.len()) };
    assert_eq!(word >> 56, 0, "bits that mean nothing");
    match word as u8 {
        0 => Ok(((word >> 8) as u16, (word >> 24) as u32)),
        number => Err(number),
    }
}
