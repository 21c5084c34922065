//! Walks over programme lists.

use crate::timing::race;
use crate::{Table, SEED};
use khumsafil::programme::{self, FIRST_ITEM, ITEM_FIELDS, MOST_ITEMS, TEXT};
use std::hint::black_box;
use trial::files::Parts;
use trial::keys::{Key, START};
use trial::programmes::{mend, MOST, TABLE};
use trial::random::Random;
use trial::sections::rest;

pub fn table() -> Table {
    let mut table = Table::new(
        "Programme lists",
        "A walk over all items of a section of 1,024 bytes, 16 such sections in a list: 125 items of 8 bytes, or 25 of 39 with all\n\
         fields, a name of 5 bytes and two descriptors. Each raw call reads the section anew and tells as many items as there is\n\
         room for; the last one says that they are over. The wrapper makes an item of the numbers of each: told by one call into\n\
         numbers that are lent for all, or by its walk, which reads the list first and asks for 16 at a time. The independent\n\
         program reads the section once. A text for staff is of a file that holds all 16.",
    );
    for (what, item) in [
        ("smallest items", smallest as Maker),
        ("items with all fields", with_all),
    ] {
        for room in [MOST_ITEMS, 16, 1] {
            table.row(&format!("{what}, raw calls, room for {room}"), move || {
                raw(&lists(item), room)
            });
        }
        table.row(
            &format!("{what}, wrapper, numbers lent for all"),
            move || lent(&lists(item)),
        );
        table.row(&format!("{what}, wrapper's walk"), move || {
            walked(&lists(item))
        });
    }
    table.row("reading alone", || reading(&lists(smallest)));
    table.row("text of a full file, smallest items", || text(smallest));
    table.row("text of a full file, items with all fields", || {
        text(with_all)
    });
    table
}

/// Makes an item.
type Maker = fn(&mut Random) -> Vec<u8>;

fn smallest(random: &mut Random) -> Vec<u8> {
    let mut item = random.bytes(8);
    // The six flags that tell of no field are as they fall.
    item[4] &= 0xF0;
    item[6] = 0;
    item[7] = 0;
    item
}

fn with_all(random: &mut Random) -> Vec<u8> {
    let mut item = random.bytes(39);
    item[4] |= 0x0F;
    item[21] = 5;
    item[27] = 2;
    item[29] = 4;
    item[35] = 3;
    item
}

/// Sections that are full of items; the table's own loop has the bytes that are left.
fn lists(item: Maker) -> Vec<Vec<u8>> {
    let random = &mut Random::new(SEED);
    let one = |random: &mut Random| {
        let mut payload = random.bytes(FIRST_ITEM);
        payload[..8].copy_from_slice(&[TABLE, 0x70, 0, 0x10, 0, 0xC7, 0, 0]);
        payload[FIRST_ITEM - 1] = 0;
        loop {
            let item = item(random);
            if payload.len() + item.len() + 3 > MOST {
                break;
            }
            payload.extend(item);
            payload[FIRST_ITEM - 1] += 1;
        }
        let left = MOST - payload.len() - 3;
        payload.extend([1, 0xAD, left as u8]);
        payload.extend(random.bytes(left));
        mend(&mut payload);
        let items = opinion::programme::items(&payload).expect("a list");
        let whole = items.filter(|item| item.is_ok()).count();
        assert!(payload.len() == MOST && (whole == 125 || whole == 25));
        payload
    };
    (0..16).map(|_| one(random)).collect()
}

/// The independent program's walk.
fn their_walk(lists: &[Vec<u8>]) {
    for payload in lists {
        let items = opinion::programme::items(black_box(payload)).expect("a list");
        for item in items {
            black_box(&item.expect("an item"));
        }
    }
}

/// Calls with room for so many items, the last one behind all of them; each item is left in the lent numbers.
fn raw(lists: &[Vec<u8>], room: usize) -> (f64, f64) {
    let mut fields = vec![0; room * ITEM_FIELDS];
    let ours = || {
        for payload in lists {
            let payload = black_box(payload);
            let (mut at, mut number) = (FIRST_ITEM, 0);
            while let Ok(told) = programme::item_fields(payload, at, number, &mut fields) {
                if told.count == 0 {
                    break;
                }
                for item in fields[..told.count * ITEM_FIELDS].chunks_exact(ITEM_FIELDS) {
                    black_box(item);
                }
                at = told.next;
                number += told.count as u8;
            }
            black_box(at);
        }
    };
    race(lists.len(), 4, ours, || their_walk(lists))
}

/// One call of the wrapper for all items of a section, of which each is then made out of its numbers.
fn lent(lists: &[Vec<u8>]) -> (f64, f64) {
    let mut numbers = vec![[0; ITEM_FIELDS]; MOST_ITEMS];
    let ours = || {
        for payload in lists {
            let told = programme::items_at(black_box(payload), FIRST_ITEM, 0, &mut numbers);
            for item in told.expect("a list") {
                black_box(&item);
            }
        }
    };
    race(lists.len(), 4, ours, || their_walk(lists))
}

/// A reading and then each item.
fn walked(lists: &[Vec<u8>]) -> (f64, f64) {
    let ours = || {
        for payload in lists {
            let list = programme::read(black_box(payload)).expect("a list");
            for item in list.items() {
                black_box(&item.expect("an item"));
            }
        }
    };
    race(lists.len(), 4, ours, || their_walk(lists))
}

#[inline(never)]
fn their_reading(payload: &[u8]) -> Result<opinion::programme::Programme, u8> {
    opinion::programme::read(payload)
}

fn reading(lists: &[Vec<u8>]) -> (f64, f64) {
    race(
        lists.len(),
        400,
        || {
            for payload in lists {
                black_box(&programme::read(black_box(payload)).expect("a list"));
            }
        },
        || {
            for payload in lists {
                black_box(&their_reading(black_box(payload)).expect("a list"));
            }
        },
    )
}

/// The text of a file as large as any, into room for every text; the independent program's is a string of its own.
fn text(item: Maker) -> (f64, f64) {
    let mut sections = lists(item);
    let key = Key::new(TABLE, 4_096, 3_152, START);
    for (number, section) in sections.iter_mut().enumerate() {
        section[6] = number as u8;
        section[7] = 15;
        section[8..14].copy_from_slice(&rest(key));
    }
    let file = Parts::of(sections).bytes();
    let mut out = vec![0; TEXT];
    let told = programme::list(&file, &mut out).expect("room");
    assert!(told.ends_with("\nwhole\n"));
    race(
        1,
        1,
        || {
            black_box(programme::list(black_box(&file), &mut out).expect("room"));
        },
        || {
            black_box(opinion::programme_text::programmes(black_box(&file)));
        },
    )
}
