//! The library and the independent program are held to every answer of `vectors/`.

mod raw;

use khumsafil::clock::{self, Heard, State};
use khumsafil::shelf::{self, lent, Accepted};
use khumsafil::{descriptor, file, programme, section, trigger, writer, Refusal};
use opinion::clock as their_clock;
use opinion::shelf as their_shelf;
use std::collections::BTreeMap;
use trial::beside::writer::their_file;
use trial::keys::{for_us, Key};
use trial::shelf::{rest, rest_of};
use trial::top;
use trial::vectors::{all, spelt, spelt_held, Arguments, Call, Step, Vector};

/// What the bytes and numbers of an output are before a call.
const UNWRITTEN: u8 = 0xA5;
const UNWRITTEN_NUMBER: u16 = 0xA5A5;

/// What is lent to the library, and the same as the independent program keeps it.
#[derive(Clone)]
struct Lent {
    record: Vec<u16>,
    store: Vec<u8>,
    clock: Vec<u32>,
    their_record: their_shelf::Record,
    their_store: Vec<u8>,
    their_clock: their_clock::Clock,
}

/// The number of an action, by its name or in decimal.
fn action(with: &mut Arguments) -> u8 {
    let text = with.text("action");
    let names = ["prep", "exec", "susp", "kill"];
    match names.iter().position(|name| *name == text) {
        Some(number) => number as u8,
        None => text.parse().expect("an action"),
    }
}

const ACTIONS: [their_clock::Action; 4] = [
    their_clock::Action::Prep,
    their_clock::Action::Exec,
    their_clock::Action::Susp,
    their_clock::Action::Kill,
];

impl Lent {
    /// A fresh shelf and a fresh clock, by the library and by the independent program.
    fn fresh() -> Lent {
        let mut lent = Lent {
            record: vec![0; shelf::RECORD],
            store: vec![1; shelf::STORE],
            clock: vec![1; clock::RECORD],
            their_record: their_shelf::fresh(),
            their_store: vec![0; shelf::STORE],
            their_clock: their_clock::fresh(),
        };
        lent::begin(&mut lent.record, &mut lent.store).expect("a fresh shelf");
        clock::lent::fresh(&mut lent.clock).expect("a fresh clock");
        lent
    }

    /// Whether record and clock are of the sizes that the library is lent, without which the independent program has none.
    fn sizes(&self) -> bool {
        (self.record.len(), self.clock.len()) == (shelf::RECORD, clock::RECORD)
    }

    fn set(&mut self, step: Step) {
        match step {
            Step::Lend(mut with) => {
                if let Some(size) = with.maybe("store") {
                    self.store.resize(size, 0);
                    self.their_store.resize(size, 0);
                }
                if let Some(size) = with.maybe("record") {
                    self.record.resize(size, 0);
                }
                if let Some(size) = with.maybe("clock") {
                    self.clock.resize(size, 0);
                }
                with.end();
            }
            Step::Place(mut with) => {
                let p: usize = with.number("number");
                let place = their_shelf::Place {
                    taken: true,
                    key: key(&mut with),
                    version: with.number("version"),
                    last: with.number("last"),
                    lengths: with.held("held"),
                };
                with.end();
                let mut mask = 0;
                for (n, length) in place.lengths.iter().enumerate().filter(|(_, l)| **l > 0) {
                    self.record[16 * p + n] = *length;
                    mask |= 1 << n;
                }
                self.record[80 + p] = mask;
                self.record[64 + 4 * p..68 + 4 * p].copy_from_slice(&[
                    256 + u16::from(place.key.table_id),
                    place.key.extension,
                    place.version.into(),
                    place.last.into(),
                ]);
                self.record[rest(p)].copy_from_slice(&rest_of(place.key));
                self.their_record.places[p] = place;
            }
            Step::Clock(mut with) => {
                self.clock[0] = with.number("time");
                self.their_clock.now = self.clock[0];
                with.end();
            }
            Step::Held(mut with) => {
                let activation = their_clock::Activation {
                    application: with.number("application"),
                    event: with.number("event"),
                    action: ACTIONS[usize::from(action(&mut with))],
                    time: with.number("time"),
                };
                let applied = match &with.text("applied")[..] {
                    "yes" => true,
                    "no" => false,
                    other => panic!("applied={other}"),
                };
                with.end();
                let held = their_clock::Held {
                    activation,
                    applied,
                };
                let at = 3 + 2 * self.clock[2] as usize;
                // There is no room for the 33rd, which spoils the record by its count.
                if at + 1 < self.clock.len() {
                    self.clock[at] = activation.time;
                    self.clock[at + 1] = trial::clocks::mark(&held);
                }
                self.clock[2] += 1;
                self.their_clock.held.push(held);
            }
            Step::Call(_) => unreachable!("a call is asked"),
        }
    }
}

fn refused(refusal: Refusal) -> String {
    format!("refused {}", refusal.number())
}

fn refused_by(number: u8) -> String {
    format!("refused {number}")
}

/// A table in the numbers that it is answered in, as a vector spells it.
fn table(fields: &[u16]) -> String {
    let held = spelt_held(fields[7..23].try_into().expect("sixteen lengths"));
    let [table_id, extension, service_id, high, low, version, last] = fields[..7] else {
        unreachable!("seven numbers")
    };
    let start = u32::from(high) << 16 | u32::from(low);
    format!(
        "table_id={table_id} extension={extension} {} version={version} last={last} held={held}",
        rest_said((service_id, start))
    )
}

/// An answer's bytes, at the front of an output whose other bytes are as they were.
fn written(answer: Result<usize, String>, out: &[u8]) -> String {
    let size = answer.as_ref().map_or(0, |size| *size);
    assert!(
        out[size..].iter().all(|b| *b == UNWRITTEN),
        "past an answer"
    );
    match answer {
        Ok(size) => format!("bytes={}", spelt(&out[..size])),
        Err(refused) => refused,
    }
}

/// An answer's numbers, at the front of an output whose other numbers are as they were.
fn numbered<N: From<u16> + PartialEq>(
    answer: Result<(), Refusal>,
    out: &[N],
    count: usize,
) -> Result<&[N], String> {
    let size = answer.map_or(0, |()| count);
    let unwritten = N::from(UNWRITTEN_NUMBER);
    let kept = out[size..].iter().all(|n| *n == unwritten);
    assert!(kept, "past an answer");
    answer.map(|()| &out[..size]).map_err(refused)
}

fn yes(so: bool) -> String {
    if so { "yes" } else { "no" }.to_string()
}

fn listed(text: &str) -> String {
    format!("text\n{}", text.trim_end_matches('\n'))
}

/// The rest of a key as a vector spells it.
fn rest_said((service_id, start): (u16, u32)) -> String {
    format!("service_id={service_id} time_span_start={start}")
}

/// The four numbers of a key, of which the last two may lack; they are 0 then.
fn key(with: &mut Arguments) -> Key {
    Key {
        table_id: with.number("table_id"),
        extension: with.number("extension"),
        service_id: with.maybe("service_id").unwrap_or(0),
        time_span_start: with.maybe("time_span_start").unwrap_or(0),
    }
}

/// The same for the library.
fn our_key(with: &mut Arguments) -> khumsafil::Key {
    for_us(key(with))
}

/// What the writer takes beside a body: a table id, an extension and a version.
fn label(with: &mut Arguments) -> writer::Label {
    let key = khumsafil::Key::new(with.number("table_id"), with.number("extension"));
    writer::Label::new(key, with.number("version"))
}

/// What the library answers.
fn ours(lent: &mut Lent, call: &Call) -> String {
    let mut with = call.with.clone();
    let with = &mut with;
    let (record, store, clock) = (&mut lent.record, &mut lent.store, &mut lent.clock);
    let done = |answer: Result<(), Refusal>| match answer {
        Ok(()) => "done".to_string(),
        Err(refusal) => refused(refusal),
    };
    let room = |with: &mut Arguments| vec![UNWRITTEN; with.number("room")];
    let numbers = |with: &mut Arguments| vec![UNWRITTEN_NUMBER; with.number("room")];
    let said = match &call.function[..] {
        "section_read" => match section::read(&with.bytes("payload")) {
            Ok(s) => format!(
                "table_id={} extension={} version={} number={} last={} body={}",
                s.key.table_id,
                s.key.extension,
                s.version,
                s.number,
                s.last,
                spelt(s.body)
            ),
            Err(refusal) => refused(refusal),
        },
        "section_key" => {
            let answer = raw::section_key(&with.bytes("payload"));
            answer.map_or_else(refused_by, rest_said)
        }
        "shelf_begin" => done(lent::begin(record, store)),
        "shelf_offer" => match lent::offer(record, store, &with.bytes("payload")) {
            Ok(Accepted::Began) => "began".to_string(),
            Ok(Accepted::BeganAgain) => "began_again".to_string(),
            Ok(Accepted::Added) => "added".to_string(),
            Ok(Accepted::Repeat) => "repeat".to_string(),
            Err(refusal) => refused(refusal),
        },
        "shelf_is_complete" => yes(lent::is_complete(record, store, our_key(with))),
        "shelf_complete" => match lent::complete(record, store, our_key(with)) {
            Ok(true) => "complete".to_string(),
            Ok(false) => "incomplete".to_string(),
            Err(refusal) => refused(refusal),
        },
        "shelf_lowest_missing" => match lent::lowest_missing(record, store, our_key(with)) {
            Ok(Some(number)) => format!("missing={number}"),
            Ok(None) => "nothing".to_string(),
            Err(refusal) => refused(refusal),
        },
        "shelf_table" => {
            let mut out = numbers(with);
            let place = with.number("place");
            let answer = lent::table_fields(record, store, place, &mut out);
            numbered(answer, &out, shelf::TABLE_FIELDS).map_or_else(|refused| refused, table)
        }
        "shelf_copy_section" => {
            let (key, number, mut out) = (our_key(with), with.number("number"), room(with));
            let answer = lent::copy_section(record, store, key, number, &mut out);
            written(answer.map_err(refused), &out)
        }
        "shelf_release" => done(lent::release(record, store, our_key(with))),
        "shelf_save" => {
            let (key, mut out) = (our_key(with), room(with));
            let answer = lent::save(record, store, key, &mut out);
            written(answer.map_err(refused), &out)
        }
        "shelf_load" => done(lent::load(record, store, &with.bytes("file"))),
        "file_table" => {
            let mut out = numbers(with);
            let answer = file::table_fields(&with.bytes("file"), &mut out);
            numbered(answer, &out, shelf::TABLE_FIELDS).map_or_else(|refused| refused, table)
        }
        "file_list" => {
            let mut out = room(with);
            let answer = file::list(&with.bytes("file"), &mut out).map(str::to_string);
            let size = answer.as_ref().map_or(0, String::len);
            assert!(out[size..].iter().all(|b| *b == UNWRITTEN), "past a text");
            answer.map_or_else(refused, |text| listed(&text))
        }
        "programme_list" => {
            let mut out = room(with);
            let answer = programme::list(&with.bytes("file"), &mut out).map(str::to_string);
            let size = answer.as_ref().map_or(0, String::len);
            assert!(out[size..].iter().all(|b| *b == UNWRITTEN), "past a text");
            answer.map_or_else(refused, |text| listed(&text))
        }
        "file_number" => match file::number(&with.bytes("bytes")) {
            Ok(number) => format!("value={} size={}", number.value, number.size),
            Err(refusal) => refused(refusal),
        },
        "descriptor_step" => match descriptor::step(&with.bytes("bytes"), with.number("at")) {
            Ok(descriptor::Step::Descriptor(d)) => {
                let content = spelt(d.content);
                format!("descriptor tag={} content={content} next={}", d.tag, d.next)
            }
            Ok(descriptor::Step::Over) => "over".to_string(),
            Err(refusal) => refused(refusal),
        },
        "descriptor_is_trigger_tap" => {
            let bytes = with.bytes("bytes");
            yes(descriptor::is_trigger_tap(&bytes, with.number("at")))
        }
        "trigger_read" => {
            let mut out = numbers(with);
            let answer = trigger::fields(&with.bytes("payload"), &mut out);
            numbered(answer, &out, trigger::FIELDS).map_or_else(|refused| refused, trigger_said)
        }
        "trigger_belongs" => {
            let payload = with.bytes("payload");
            let mut fields = vec![UNWRITTEN_NUMBER; trigger::FIELDS];
            trigger::fields(&payload, &mut fields).expect("a trigger");
            fields.resize(with.number("room"), UNWRITTEN_NUMBER);
            let application = with.bytes("application");
            yes(trigger::belongs(&payload, &fields, &application))
        }
        "programme_read" => {
            let mut out = vec![u32::from(UNWRITTEN_NUMBER); with.number("room")];
            let answer = programme::fields(&with.bytes("payload"), &mut out);
            numbered(answer, &out, programme::FIELDS).map_or_else(
                |refused| refused,
                |read| list_said([read[0], read[1], read[2], read[3]]),
            )
        }
        "programme_items" => {
            let mut out = vec![u64::from(UNWRITTEN_NUMBER); with.number("room")];
            let (payload, at) = (with.bytes("payload"), with.number("at"));
            let answer = programme::item_fields(&payload, at, with.number("number"), &mut out);
            let count = answer.map_or(0, |told| told.count);
            let size = count * programme::ITEM_FIELDS;
            match numbered(answer.map(|_| ()), &out, size) {
                Ok(fields) => {
                    let items = fields.chunks_exact(programme::ITEM_FIELDS).map(item_of);
                    let next = answer.map_or(0, |told| told.next);
                    items_said(&items.collect::<Vec<_>>(), next)
                }
                Err(refused) => refused,
            }
        }
        "programme_own" => {
            let payload = with.bytes("payload");
            // No section has an item of number 255, so that none is passed over.
            match programme::own_loop_at(&payload, with.number("at"), u8::MAX) {
                Ok(own) => {
                    let place = own.bytes.as_ptr() as usize - payload.as_ptr() as usize;
                    format!("descriptors={}:{place}:{}", own.count, own.bytes.len())
                }
                Err(refusal) => refused(refusal),
            }
        }
        "clock_fresh" => done(clock::lent::fresh(clock)),
        "clock_offer" => {
            let (application, event) = (with.number("application"), with.number("event"));
            let (action, time) = (action(with), with.number("time"));
            match clock::lent::offer_by_number(clock, application, event, action, time) {
                Ok(Heard::Applied) => "applied".to_string(),
                Ok(Heard::Waiting) => "waiting".to_string(),
                Err(refusal) => refused(refusal),
            }
        }
        "clock_move" => {
            let moved = clock::lent::move_to(clock, with.number("to"));
            moved.map_or_else(refused, |applied| format!("applied={applied}"))
        }
        "clock_time" => {
            clock::lent::time(clock).map_or_else(refused, |time| format!("time={time}"))
        }
        "clock_state" => match clock::lent::state(clock, with.number("application")) {
            Ok(State::Released) => "released".to_string(),
            Ok(State::Ready) => "ready".to_string(),
            Ok(State::Active) => "active".to_string(),
            Ok(State::Suspended) => "suspended".to_string(),
            Err(refusal) => refused(refusal),
        },
        "writer_count" => {
            let counted = writer::count(with.number("table_id"), with.number("length"));
            counted.map_or_else(refused, |sections| format!("sections={sections}"))
        }
        "writer_section" => {
            let label = label(with);
            let (body, k, mut out) = (with.bytes("body"), with.number("k"), room(with));
            let answer = writer::section(label, &body, k, &mut out);
            written(answer.map_err(refused), &out)
        }
        "writer_file" => {
            let (label, body, mut out) = (label(with), with.bytes("body"), room(with));
            let answer = writer::file(label, &body, &mut out);
            written(answer.map_err(refused), &out)
        }
        other => panic!("no function {other}"),
    };
    with.clone().end();
    said
}

/// A trigger's eleven numbers as a vector spells them.
fn trigger_said(fields: &[u16]) -> String {
    let [id_length, description, id, id_bytes, kind, of, first, second, third, user, user_bytes] =
        fields.try_into().expect("eleven numbers");
    let target = match kind {
        0 => "none".to_string(),
        1 => format!("module:{first}:{second}:{third}"),
        2 => format!("tap:{first}"),
        3 => format!("absolute:{first}:{second}"),
        4 => format!("lid:{first}:{second}"),
        5 => format!("http:{first}:{second}"),
        6 => format!("reserved:{of}:{first}:{second}"),
        other => panic!("kind {other}"),
    };
    format!(
        "id_length={id_length} description={description} id={id}:{id_bytes} target={target} user={user}:{user_bytes}"
    )
}

fn their_trigger_said(t: &opinion::trigger::Trigger) -> String {
    use opinion::trigger::Target;
    let target = match t.target {
        Target::None => "none".to_string(),
        Target::Module {
            download,
            group,
            module,
        } => format!("module:{download}:{group}:{module}"),
        Target::Tap(tap) => format!("tap:{tap}"),
        Target::AbsoluteUri { start, length } => format!("absolute:{start}:{length}"),
        Target::LidUri { start, length } => format!("lid:{start}:{length}"),
        Target::HttpUri { start, length } => format!("http:{start}:{length}"),
        Target::Reserved {
            kind,
            start,
            length,
        } => format!("reserved:{kind}:{start}:{length}"),
    };
    format!(
        "id_length={} description={} id={}:{} target={target} user={}:{}",
        t.id_length, t.description, t.id_start, t.id_bytes, t.user_start, t.user_length
    )
}

/// A programme list's four numbers as a vector spells them.
fn list_said(read: [u32; 4]) -> String {
    let [service_id, start, length, items] = read;
    format!(
        "service_id={service_id} time_span_start={start} time_span_length={length} items={items}"
    )
}

/// An item out of its ten numbers: the byte before its descriptors counts them, and they end where it does.
fn item_of(fields: &[u64]) -> opinion::programme::Item {
    let [linkage, flags, playback, delay, expires, size, name, count, at, next] =
        fields.try_into().expect("ten numbers");
    opinion::programme::Item {
        content_linkage: linkage as u32,
        flags: flags as u16,
        playback_length: playback as u32,
        playback_delay: delay as u32,
        expiration: expires as u32,
        content_size: size,
        name_place: name as usize,
        name_length: (at - 1 - name) as usize,
        descriptors: opinion::programme::Loop {
            count: count as u8,
            place: at as usize,
            length: (next - at) as usize,
        },
        next: next as usize,
    }
}

/// Items and the place after them, as a vector spells them.
fn items_said(items: &[opinion::programme::Item], next: usize) -> String {
    if items.is_empty() {
        return "over".to_string();
    }
    let said: String = items.iter().map(item_said).collect();
    format!("items={} next={next}{said}", items.len())
}

/// An item as a line of a vector spells it. A field that is not there is 0.
fn item_said(item: &opinion::programme::Item) -> String {
    let optional = |bit: u16, value: u64| match item.flags >> bit & 1 {
        1 => value.to_string(),
        _ => {
            assert_eq!(value, 0, "a field that is not there");
            "-".to_string()
        }
    };
    let own = item.descriptors;
    format!(
        "\nitem content_linkage={} flags={} playback_length={} playback_delay={} expiration={} content_size={} \
         name={}:{} descriptors={}:{}:{} next={}",
        item.content_linkage,
        item.flags,
        optional(5, item.playback_length.into()),
        optional(4, item.playback_delay.into()),
        optional(3, item.expiration.into()),
        optional(2, item.content_size),
        item.name_place,
        item.name_length,
        own.count,
        own.place,
        own.length,
        item.next
    )
}

fn their_table_said(answer: Result<their_shelf::Table, u8>) -> String {
    match answer {
        Ok(held) => table(&trial::beside::shelf::fields(&held)),
        Err(number) => refused_by(number),
    }
}

/// What the independent program answers, where it has such a question.
fn theirs(lent: &mut Lent, call: &Call) -> Option<String> {
    if !lent.sizes() {
        return None;
    }
    let mut with = call.with.clone();
    let with = &mut with;
    let (record, store) = (&mut lent.their_record, &mut lent.their_store);
    let room = |with: &mut Arguments| vec![UNWRITTEN; with.number("room")];
    // The independent program's answers need no room for numbers.
    let enough = |with: &mut Arguments, count: usize| with.number::<usize>("room") >= count;
    let done = |answer: Result<(), u8>| answer.map_or_else(refused_by, |()| "done".to_string());
    Some(match &call.function[..] {
        "section_read" => {
            let payload = with.bytes("payload");
            match opinion::section::read(&payload) {
                Ok(s) => format!(
                    "table_id={} extension={} version={} number={} last={} body={}",
                    s.table_id,
                    s.extension,
                    s.version,
                    s.number,
                    s.last,
                    spelt(&payload[s.body_start..][..s.body_length])
                ),
                Err(number) => refused_by(number),
            }
        }
        "section_key" => {
            let read = opinion::section::read(&with.bytes("payload"));
            let rest = read.map(|s| (s.service_id, s.time_span_start));
            rest.map_or_else(refused_by, rest_said)
        }
        "shelf_begin" if store.len() != their_shelf::STORE => return None,
        "shelf_begin" => {
            *record = their_shelf::fresh();
            store.fill(0);
            "done".to_string()
        }
        "shelf_offer" => match their_shelf::offer(record, store, &with.bytes("payload")) {
            Ok(their_shelf::Accepted::Began) => "began".to_string(),
            Ok(their_shelf::Accepted::BeganAgain) => "began_again".to_string(),
            Ok(their_shelf::Accepted::Added) => "added".to_string(),
            Ok(their_shelf::Accepted::Repeat) => "repeat".to_string(),
            Err(number) => refused_by(number),
        },
        "shelf_is_complete" => yes(their_shelf::complete(record, store, key(with)) == Ok(true)),
        "shelf_complete" => match their_shelf::complete(record, store, key(with)) {
            Ok(true) => "complete".to_string(),
            Ok(false) => "incomplete".to_string(),
            Err(number) => refused_by(number),
        },
        "shelf_lowest_missing" => match their_shelf::lowest_missing(record, store, key(with)) {
            Ok(Some(number)) => format!("missing={number}"),
            Ok(None) => "nothing".to_string(),
            Err(number) => refused_by(number),
        },
        "shelf_table" => {
            let answer = their_shelf::table(record, store, with.number("place"));
            if answer.is_ok() && !enough(with, shelf::TABLE_FIELDS) {
                return None;
            }
            their_table_said(answer)
        }
        "shelf_copy_section" => {
            let (key, number, mut out) = (key(with), with.number("number"), room(with));
            let answer = their_shelf::copy_section(record, store, key, number, &mut out);
            written(answer.map_err(refused_by), &out)
        }
        "shelf_release" => done(their_shelf::release(record, store, key(with))),
        "shelf_save" => {
            let (key, mut out) = (key(with), room(with));
            let answer = opinion::file::save(record, store, key, &mut out);
            written(answer.map_err(refused_by), &out)
        }
        "shelf_load" => done(opinion::file::load(record, store, &with.bytes("file"))),
        "file_table" => {
            let answer = opinion::file::table(&with.bytes("file"));
            if answer.is_ok() && !enough(with, shelf::TABLE_FIELDS) {
                return None;
            }
            their_table_said(answer)
        }
        "file_list" => {
            let text = opinion::lister::list(&with.bytes("file"));
            if !enough(with, text.len()) {
                return None;
            }
            listed(&text)
        }
        "programme_list" => {
            let text = opinion::programme_text::programmes(&with.bytes("file"));
            if !enough(with, text.len()) {
                return None;
            }
            listed(&text)
        }
        "file_number" => match opinion::file::read_number(&with.bytes("bytes"), 0) {
            Ok((value, size)) => format!("value={value} size={size}"),
            Err(number) => refused_by(number),
        },
        "descriptor_step" => {
            let bytes = with.bytes("bytes");
            match opinion::descriptors::step(&bytes, with.number("at")) {
                Ok(opinion::descriptors::Step::Descriptor {
                    tag,
                    start,
                    length,
                    next,
                }) => {
                    let content = spelt(&bytes[start..start + length]);
                    format!("descriptor tag={tag} content={content} next={next}")
                }
                Ok(opinion::descriptors::Step::Over) => "over".to_string(),
                Err(number) => refused_by(number),
            }
        }
        "descriptor_is_trigger_tap" => {
            let bytes = with.bytes("bytes");
            let at = with.number("at");
            yes(opinion::descriptors::is_trigger_tap(&bytes, at))
        }
        "trigger_read" => match opinion::trigger::read(&with.bytes("payload")) {
            Ok(_) if !enough(with, trigger::FIELDS) => return None,
            Ok(read) => their_trigger_said(&read),
            Err(number) => refused_by(number),
        },
        "trigger_belongs" => {
            if !enough(with, trigger::FIELDS) {
                return None;
            }
            let payload = with.bytes("payload");
            let read = opinion::trigger::read(&payload).expect("a trigger");
            let application = with.bytes("application");
            yes(opinion::trigger::belongs(&payload, &read, &application))
        }
        "programme_read" => match opinion::programme::read(&with.bytes("payload")) {
            Ok(_) if !enough(with, programme::FIELDS) => return None,
            Ok(p) => list_said([
                p.service_id.into(),
                p.time_span_start,
                p.time_span_length.into(),
                p.items.into(),
            ]),
            Err(number) => refused_by(number),
        },
        "programme_items" => {
            let (payload, at) = (with.bytes("payload"), with.number("at"));
            let (number, room) = (with.number("number"), with.number("room"));
            match trial::beside::programmes::their_items(&payload, at, number, room) {
                Ok((items, next)) => items_said(&items, next),
                Err(15) => return None,
                Err(number) => refused_by(number),
            }
        }
        "programme_own" => {
            match opinion::programme::own(&with.bytes("payload"), with.number("at")) {
                Ok(own) => format!("descriptors={}:{}:{}", own.count, own.place, own.length),
                Err(number) => refused_by(number),
            }
        }
        "clock_fresh" => {
            lent.their_clock = their_clock::fresh();
            "done".to_string()
        }
        "clock_offer" => {
            let number = action(with);
            let activation = their_clock::Activation {
                application: with.number("application"),
                event: with.number("event"),
                action: *ACTIONS.get(usize::from(number))?,
                time: with.number("time"),
            };
            match their_clock::offer(&mut lent.their_clock, activation) {
                Ok(their_clock::Heard::Applied) => "applied".to_string(),
                Ok(their_clock::Heard::Waiting) => "waiting".to_string(),
                Err(number) => refused_by(number),
            }
        }
        "clock_move" => {
            let moved = their_clock::move_to(&mut lent.their_clock, with.number("to"));
            moved.map_or_else(refused_by, |applied| format!("applied={applied}"))
        }
        // The independent program has no such questions: they are asked of a copy by a move that moves nothing.
        "clock_time" => {
            let now = lent.their_clock.now;
            let asked = their_clock::move_to(&mut lent.their_clock.clone(), now);
            asked.map_or_else(refused_by, |_| format!("time={now}"))
        }
        "clock_state" => {
            let now = lent.their_clock.now;
            let asked = their_clock::move_to(&mut lent.their_clock.clone(), now);
            let application: usize = with.number("application");
            match (asked, lent.their_clock.states.get(application)) {
                (Err(number), _) => refused_by(number),
                (Ok(_), None) => return None,
                (Ok(_), Some(state)) => format!("{state:?}").to_lowercase(),
            }
        }
        "writer_count" => {
            let (table_id, length) = (with.number("table_id"), with.number("length"));
            let counted = opinion::writer::count(table_id, length);
            counted.map_or_else(refused_by, |sections| format!("sections={sections}"))
        }
        "writer_section" => {
            let (id, extension) = (with.number("table_id"), with.number("extension"));
            let (version, k) = (with.number("version"), with.number("k"));
            let (body, mut out) = (with.bytes("body"), room(with));
            let answer = opinion::writer::write(id, extension, version, &body, k, &mut out);
            written(answer.map_err(refused_by), &out)
        }
        "writer_file" => match their_file(label(with), &with.bytes("body")) {
            Ok(file) if !enough(with, file.len()) => return None,
            Ok(file) => format!("bytes={}", spelt(&file)),
            Err(number) => refused_by(number),
        },
        other => panic!("no function {other}"),
    })
}

/// Asks the calls of a vector, and says how many the independent program had a question for.
fn ask(vector: &Vector) -> usize {
    let mut lent = Lent::fresh();
    let mut both = 0;
    for step in vector.steps.clone() {
        let call = match step {
            Step::Call(call) => call,
            other => {
                lent.set(other);
                continue;
            }
        };
        let told = format!("{}: {}: {}", vector.file, vector.name, call.function);
        let before = lent.clone();
        assert_eq!(ours(&mut lent, &call), call.answer, "{told}: the library");
        let answer = theirs(&mut lent, &call);
        if let Some(answer) = &answer {
            assert_eq!(answer, &call.answer, "{told}: the independent program");
            both += 1;
        }
        if call.refused().is_some() {
            assert!(before.record == lent.record, "{told}: the record");
            assert!(before.store == lent.store, "{told}: the store");
            assert!(before.clock == lent.clock, "{told}: the clock");
            assert!(before.their_record == lent.their_record, "{told}");
            assert!(before.their_store == lent.their_store, "{told}");
            assert!(before.their_clock == lent.their_clock, "{told}");
        } else if answer.is_some() {
            let record = lent.record[..].try_into().expect("a record");
            let decoded = trial::shelf::decode(record);
            assert!(their_shelf::equal(&decoded, &lent.their_record), "{told}");
            assert!(lent.store == lent.their_store, "{told}: the stores");
            let decoded = trial::clocks::decode(lent.clock[..].try_into().expect("a clock"));
            assert!(their_clock::equal(&decoded, &lent.their_clock), "{told}");
        }
    }
    both
}

#[test]
fn every_vector_is_answered() {
    let vectors = all(&top("vectors"));
    let mut counts: BTreeMap<&str, (usize, usize, usize)> = BTreeMap::new();
    for vector in &vectors {
        let both = ask(vector);
        let count = counts.entry(&vector.file).or_default();
        count.0 += 1;
        count.1 += vector.calls().count();
        count.2 += both;
    }
    for (file, (vectors, calls, both)) in &counts {
        println!(
            "{file}: {vectors} vectors, {calls} calls, {both} asked of the independent program too"
        );
        assert!(
            both * 2 > *calls,
            "{file}: too few for the independent program"
        );
    }
    assert_eq!(counts.len(), 8, "a file for each layer");
}

/// A wrong answer in any vector would be seen: one that is changed is refused.
#[test]
fn a_wrong_answer_is_seen() {
    let vectors = all(&top("vectors"));
    let mut seen = 0;
    for mut vector in vectors.into_iter().step_by(17) {
        let name = vector.name.clone();
        let calls = vector.steps.iter_mut().filter_map(|step| match step {
            Step::Call(call) => Some(call),
            _ => None,
        });
        calls.last().expect("a call").answer.push('0');
        let asked = std::panic::catch_unwind(|| ask(&vector));
        assert!(asked.is_err(), "{name}");
        seen += 1;
    }
    println!("{seen} wrong answers seen");
}
