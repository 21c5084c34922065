//! The buyer's question, once round: a shelf is begun, three datagrams are offered, the list is asked whether it is whole,
//! saved as a file, and the file is listed.

use khumsafil::shelf::{Accepted, Shelf, LARGEST_FILE, STORE};
use khumsafil::{file, Key, Refusal};

/// Sections 0, 2 and 1 of 0 to 2, as the station sends them: table 201, key 4660, version 3.
const DATAGRAMS: [&[u8]; 3] = [
    b"\xC9\x70\x0A\x12\x34\xC7\x00\x02Ferry",
    b"\xC9\x70\x09\x12\x34\xC7\x02\x02Pier",
    b"\xC9\x70\x05\x12\x34\xC7\x01\x02",
];

fn main() -> Result<(), Refusal> {
    // What the host lends; the shelf borrows it, and keeps the record.
    let mut store = vec![0; STORE];
    let mut shelf = Shelf::begin(&mut store)?;
    let key = Key::new(201, 4_660);
    for datagram in DATAGRAMS {
        let did = match shelf.offer(datagram)? {
            Accepted::Began => "began",
            Accepted::BeganAgain => "began again",
            Accepted::Added => "added",
            Accepted::Repeat => "a repeat",
        };
        match shelf.lowest_missing(key)? {
            Some(number) => println!("{did}: section {number} is missing"),
            None => println!("{did}: nothing is missing"),
        }
    }
    let whole = shelf.is_complete(key);
    println!("the list is {}", if whole { "whole" } else { "not whole" });
    let mut saved = [0; LARGEST_FILE];
    let size = shelf.save(key, &mut saved)?;
    println!("saved in {size} bytes:");
    print!(
        "{}",
        file::list(&saved[..size], &mut [0; file::LARGEST_LIST])?
    );
    Ok(())
}
