//! The key of a table: what tells it from every other (document 02, request 4).

/// The table id of the NRT-IT.
pub const NRT_IT: u8 = 0xDF;
/// Bytes of an NRT-IT up to the end of its key: the header (8), service_id (2) and
/// time_span_start (4).
pub const NRT_IT_KEY_END: usize = 14;

/// A table's key. An NRT-IT has all four fields; every other table has its table
/// id and extension alone, and the two added fields are then 0.
#[derive(Clone, Copy, Debug, PartialEq, Eq)]
pub struct Key {
    pub table_id: u8,
    pub extension: u16,
    pub service_id: u16,
    pub time_span_start: u32,
}

impl Key {
    /// The key that these four numbers name. Two tables have one key exactly when
    /// their keys made so are equal.
    pub const fn new(table_id: u8, extension: u16, service_id: u16, time_span_start: u32) -> Key {
        if table_id == NRT_IT {
            Key {
                table_id,
                extension,
                service_id,
                time_span_start,
            }
        } else {
            Key {
                table_id,
                extension,
                service_id: 0,
                time_span_start: 0,
            }
        }
    }

    /// The key that this one means, where the caller filled its fields by hand.
    pub const fn proper(self) -> Key {
        Key::new(
            self.table_id,
            self.extension,
            self.service_id,
            self.time_span_start,
        )
    }
}

#[cfg(test)]
mod tests {
    use super::*;

    #[test]
    fn the_nrt_it_has_all_four_fields() {
        let key = Key::new(0xDF, 0x1001, 7, 1_000_000_800);
        let by_hand = Key {
            table_id: 223,
            extension: 4097,
            service_id: 7,
            time_span_start: 1_000_000_800,
        };
        assert_eq!(key, by_hand);
        assert_eq!(key.proper(), key);
        assert_ne!(key, Key::new(0xDE, 0x1001, 7, 1_000_000_800));
        assert_ne!(key, Key::new(0xDF, 0x1000, 7, 1_000_000_800));
        assert_ne!(key, Key::new(0xDF, 0x1001, 6, 1_000_000_800));
        assert_ne!(key, Key::new(0xDF, 0x1001, 7, 1_000_000_801));
        // Every bit of the added fields is a part of it.
        for bit in 0..16 {
            assert_ne!(key, Key::new(0xDF, 0x1001, 7 ^ 1 << bit, 1_000_000_800));
        }
        for bit in 0..32 {
            assert_ne!(key, Key::new(0xDF, 0x1001, 7, 1_000_000_800 ^ 1 << bit));
        }
    }

    #[test]
    fn every_other_table_has_its_id_and_extension_alone() {
        for table_id in 0..=255 {
            let key = Key::new(table_id, 9, 0xFFFF, 0xFFFF_FFFF);
            assert_eq!((key.table_id, key.extension), (table_id, 9));
            let plain = Key::new(table_id, 9, 0, 0);
            if table_id == 0xDF {
                assert_ne!(key, plain);
            } else {
                assert_eq!((key.service_id, key.time_span_start), (0, 0));
                assert_eq!(key, plain);
                assert_eq!(key, Key::new(table_id, 9, 0, 1));
                assert_eq!(key, Key::new(table_id, 9, 1, 0));
                assert_ne!(key, Key::new(table_id, 8, 0, 0));
            }
        }
    }

    #[test]
    fn a_key_filled_by_hand_means_a_proper_one() {
        for table_id in 0..=255 {
            let by_hand = Key {
                table_id,
                extension: 9,
                service_id: 5,
                time_span_start: 6,
            };
            assert_eq!(by_hand.proper(), Key::new(table_id, 9, 5, 6));
            assert_eq!(by_hand.proper() == by_hand, table_id == 0xDF);
        }
    }
}
