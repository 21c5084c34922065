//! Readings of sections.

use crate::timing::race;
use crate::{Table, SEED};
use std::hint::black_box;
use trial::keys::{Key, NRT_IT};
use trial::random::Random;
use trial::sections::{section, Fields};

/// One call for each reading, as through the boundary.
#[inline(never)]
fn theirs(payload: &[u8]) -> Result<opinion::section::Section, u8> {
    opinion::section::read(payload)
}

/// What the host does with an answer. It costs as much as the reading does, so each way has its own figures.
const USES: [&str; 3] = ["kept whole", "each field used", "fields added up"];

pub fn table() -> Table {
    let mut table = Table::new(
        "Reading a section",
        "256 sound sections of other ids than the NRT-IT's in a list, by what the host does with each answer.",
    );
    for used in USES {
        for size in [8, 64, 1_024] {
            table.row(&format!("{size} bytes, {used}"), move || {
                let mut random = Random::new(SEED);
                let mut one = || {
                    let (id, extension) = (random.byte(), random.word() as u16);
                    let id = if id == NRT_IT { 0 } else { id };
                    let fields = Fields {
                        key: Key::new(id, extension, 0, 0),
                        ..Fields::random(&mut random)
                    };
                    section(&mut random, size, fields)
                };
                let list: Vec<_> = (0..256).map(|_| one()).collect();
                sections(used, &list)
            });
        }
    }
    table
}

/// Uses each field by itself.
#[inline(always)]
fn each(table_id: u8, extension: u16, version: u8, number: u8, last: u8, body: usize) {
    black_box(table_id);
    black_box(extension);
    black_box(version);
    black_box(number);
    black_box(last);
    black_box(body);
}

/// Adds the fields up.
#[inline(always)]
fn sum(table_id: u8, extension: u16, version: u8, number: u8, last: u8, body: usize) {
    let narrow = u64::from(table_id) + u64::from(extension) + u64::from(version);
    black_box(narrow + u64::from(number) + u64::from(last) + body as u64);
}

/// Times one way of using the fields of a sound section.
macro_rules! race_fields {
    ($list:expr, $take:ident) => {
        race(
            $list.len(),
            200,
            || {
                for payload in $list {
                    if let Ok(s) = khumsafil::section::read(black_box(payload)) {
                        $take(
                            s.key.table_id,
                            s.key.extension,
                            s.version,
                            s.number,
                            s.last,
                            s.body.len(),
                        );
                    }
                }
            },
            || {
                for payload in $list {
                    if let Ok(s) = theirs(black_box(payload)) {
                        $take(
                            s.table_id,
                            s.extension,
                            s.version,
                            s.number,
                            s.last,
                            s.body_length,
                        );
                    }
                }
            },
        )
    };
}

fn sections(used: &str, list: &[Vec<u8>]) -> (f64, f64) {
    match used {
        "each field used" => race_fields!(list, each),
        "fields added up" => race_fields!(list, sum),
        _ => race(
            list.len(),
            200,
            || {
                for payload in list {
                    let _ = black_box(khumsafil::section::read(black_box(payload)));
                }
            },
            || {
                for payload in list {
                    let _ = black_box(theirs(black_box(payload)));
                }
            },
        ),
    }
}
