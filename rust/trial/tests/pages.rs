//! docs/REFUSALS.md, docs/FORMAT.md and the README say what the code does.

use khumsafil::{file, programme, shelf, Refusal};
use std::collections::{BTreeMap, BTreeSet};
use std::fs;
use trial::declarations::in_header;
use trial::top;
use trial::vectors::{all, Vector};

fn page(path: &str) -> String {
    fs::read_to_string(top(path)).unwrap_or_else(|e| panic!("{path}: {e}"))
}

/// The rows of the table with these columns, each cell without its spaces. A row of another width fails.
fn rows(page: &str, columns: &str) -> Vec<Vec<String>> {
    let cells = |line: &str| -> Vec<String> {
        let inner = line.strip_prefix('|').and_then(|l| l.strip_suffix('|'));
        let inner = inner.unwrap_or_else(|| panic!("a row: {line}"));
        inner
            .split('|')
            .map(|cell| cell.trim().to_string())
            .collect()
    };
    let mut lines = page.lines().skip_while(|line| *line != columns);
    let width = cells(lines.next().unwrap_or_else(|| panic!("no table {columns}"))).len();
    let rule = lines.next().expect("a table's rule");
    assert_eq!(rule, format!("|{}", "---|".repeat(width)));
    let rows = lines.take_while(|line| line.starts_with('|')).map(cells);
    let rows: Vec<_> = rows
        .inspect(|row| assert_eq!(row.len(), width, "{row:?}"))
        .collect();
    assert!(!rows.is_empty(), "an empty table {columns}");
    rows
}

/// What stands in a cell between two marks of code.
fn code(cell: &str) -> &str {
    let inner = cell.strip_prefix('`').and_then(|c| c.strip_suffix('`'));
    inner.unwrap_or_else(|| panic!("code: {cell}"))
}

/// The order of a call: ranks, of which one has several numbers where the place decides between them.
type Order = Vec<Vec<u8>>;

/// The calls of docs/REFUSALS.md with their orders.
fn orders() -> BTreeMap<String, Order> {
    let numbers = |text: &str| -> Vec<u8> {
        let words = text.split(' ').map(|n| n.parse().expect("a number"));
        words.collect()
    };
    let order = |text: &str| -> Order {
        let ranks = text.split(", ").map(|rank| {
            let several = rank.strip_prefix('(').and_then(|r| r.strip_suffix(')'));
            numbers(several.unwrap_or(rank))
        });
        ranks.collect()
    };
    let mut found = BTreeMap::new();
    for row in rows(&page("docs/REFUSALS.md"), "| Call | Order |") {
        let order = match &row[1][..] {
            "none" => Vec::new(),
            text => order(text),
        };
        let given: Vec<_> = order.concat();
        let once: BTreeSet<_> = given.iter().collect();
        assert_eq!(once.len(), given.len(), "a number twice: {row:?}");
        let before = found.insert(code(&row[0]).to_string(), order);
        assert!(before.is_none(), "a call twice: {row:?}");
    }
    found
}

fn rank(order: &Order, number: u8) -> Option<usize> {
    order.iter().position(|rank| rank.contains(&number))
}

/// Every number has its name and its words there, and the calls in which it is given.
#[test]
fn every_number_has_its_words() {
    let orders = orders();
    let page = page("docs/REFUSALS.md");
    let rows = rows(&page, "| No | Name | Given exactly when | In |");
    let mut all = Refusal::ALL.iter();
    for row in &rows {
        let (name, refusal) = all.next().expect("a number that is none");
        let number = refusal.number();
        assert_eq!(row[0], number.to_string());
        assert_eq!(code(&row[1]), *name);
        assert_eq!(row[2], refusal.text());
        let calls: BTreeSet<_> = row[3].split(", ").map(code).collect();
        let given = orders
            .iter()
            .filter(|(_, order)| rank(order, number).is_some());
        let given: BTreeSet<_> = given.map(|(call, _)| &call[..]).collect();
        assert_eq!(calls, given, "the calls of {number}");
    }
    assert_eq!(all.next(), None, "a number that is not on the page");
    println!("{} numbers", rows.len());
}

/// The calls are the functions of khumsafil_raw.h.
#[test]
fn every_function_has_its_order() {
    let header = in_header(&page("include/khumsafil_raw.h"));
    let names = header.iter().map(|function| {
        let name = function.name.strip_prefix("khumsafil_raw_");
        name.expect("a raw function").to_string()
    });
    let names: BTreeSet<String> = names.collect();
    let calls: BTreeSet<String> = orders().into_keys().collect();
    assert_eq!(names, calls);
}

/// What the vectors have of each call: the numbers that it is refused by, whether it is accepted, and two faults at once.
#[derive(Default)]
struct Seen {
    refused: BTreeSet<u8>,
    accepted: bool,
    faults: BTreeSet<(u8, u8)>,
}

fn seen(vectors: &[Vector]) -> BTreeMap<String, Seen> {
    let mut found: BTreeMap<String, Seen> = BTreeMap::new();
    for call in vectors.iter().flat_map(Vector::calls) {
        let seen = found.entry(call.function.clone()).or_default();
        seen.refused.extend(call.refused());
        seen.accepted |= call.refused().is_none();
        seen.faults.extend(call.faults);
    }
    found
}

/// Of each call the vectors have every number of the page and no other, and an answer that is not refused.
#[test]
fn the_vectors_have_every_number() {
    let seen = seen(&all(&top("vectors")));
    let mut count = 0;
    for (call, order) in orders() {
        if call == "version" {
            assert!(order.is_empty() && !seen.contains_key(&call));
            continue;
        }
        let given: BTreeSet<u8> = order.concat().into_iter().collect();
        let there = seen.get(&call).unwrap_or_else(|| panic!("no {call}"));
        assert_eq!(there.refused, given, "{call}");
        assert!(there.accepted, "{call}");
        count += given.len();
    }
    println!("{count} numbers of {} calls", seen.len());
}

/// Of two faults at once the first in the call's order is answered; two neighbours of an order have such a vector, or
/// stand on the page as what cannot be.
#[test]
fn the_vectors_keep_the_order() {
    let seen = seen(&all(&top("vectors")));
    let never = rows(&page("docs/REFUSALS.md"), "| Numbers | Why |");
    let never = never.iter().map(|row| {
        let (first, second) = row[0].split_once(" and ").expect("two numbers");
        let number = |text: &str| text.parse().expect("a number");
        (number(first), number(second))
    });
    let never: BTreeSet<(u8, u8)> = never.collect();
    let mut used = BTreeSet::new();
    let mut count = 0;
    for (call, order) in orders() {
        let none = Seen::default();
        let faults = &seen.get(&call).unwrap_or(&none).faults;
        for (first, second) in faults {
            let ranks = rank(&order, *first).zip(rank(&order, *second));
            let (a, b) = ranks.unwrap_or_else(|| panic!("{call}: {first} {second}"));
            // Of one rank the place decides, which the vector's bytes show.
            let by_place = a == b && order[a].len() > 1;
            assert!(a < b || by_place, "{call}: {first} before {second}");
            let both = [(*first, *second), (*second, *first)];
            assert!(!both.iter().any(|pair| never.contains(pair)), "{call}");
            count += 1;
        }
        for pair in order.windows(2) {
            let tried = faults
                .iter()
                .any(|(a, b)| pair[0].contains(a) && pair[1].contains(b));
            let cannot = (pair[0][0], pair[1][0]);
            if never.contains(&cannot) {
                used.insert(cannot);
            } else {
                assert!(tried, "{call}: {:?} and {:?}", pair[0], pair[1]);
            }
        }
    }
    assert_eq!(used, never, "neighbours of no order");
    println!("{count} kinds of two faults at once");
}

/// What stands between the first marks of a block behind a line of the page.
fn block<'a>(page: &'a str, behind: &str) -> &'a str {
    let (_, rest) = page
        .split_once(behind)
        .unwrap_or_else(|| panic!("no {behind}"));
    let (_, rest) = rest.split_once("```\n").expect("a block");
    rest.split_once("```").expect("a block's end").0
}

fn hexadecimal(text: &str) -> Vec<u8> {
    let bytes = text.split(' ').map(|two| {
        assert_eq!(two.len(), 2, "{text}");
        u8::from_str_radix(two, 16).unwrap_or_else(|e| panic!("{text}: {e}"))
    });
    bytes.collect()
}

/// The dump is the sample's bytes, the runs joined are the file, and the listing is the library's.
#[test]
fn the_sample_is_explained() {
    let page = page("docs/FORMAT.md");
    let sample = fs::read(top("samples/small.shelf")).expect("the sample");
    let dump: String = sample
        .chunks(16)
        .enumerate()
        .map(|(row, bytes)| {
            let digits: Vec<_> = bytes.iter().map(|b| format!("{b:02x}")).collect();
            let text = bytes.iter().map(|b| match b {
                32..=126 => char::from(*b),
                _ => '.',
            });
            let text: String = text.collect();
            format!("{:08x}  {:<48} |{text}|\n", 16 * row, digits.join(" "))
        })
        .collect();
    assert_eq!(block(&page, "`samples/small.shelf`:"), dump);
    let runs = rows(&page, "| Bytes | What |");
    let runs = runs.iter().flat_map(|row| {
        let cell = code(&row[0]);
        match cell.strip_prefix('"').and_then(|c| c.strip_suffix('"')) {
            Some(text) => text.as_bytes().to_vec(),
            None => hexadecimal(cell),
        }
    });
    assert_eq!(runs.collect::<Vec<u8>>(), sample);
    let mut out = [0; file::LARGEST_LIST];
    let listed = file::list(&sample, &mut out).expect("room");
    assert_eq!(block(&page, "The sample is listed as"), listed);
    assert_eq!(listed, opinion::lister::list(&sample));
}

/// The sample of a programme list is told as the page says, by the library and by the committed text.
#[test]
fn the_text_for_staff_is_shown() {
    let page = page("docs/FORMAT.md");
    let sample = fs::read(top("samples/programmes.shelf")).expect("the sample");
    let mut out = vec![0; programme::TEXT];
    let told = programme::list(&sample, &mut out).expect("room");
    assert_eq!(block(&page, "is told as"), told);
    assert_eq!(told, opinion::programme_text::programmes(&sample));
    let text = fs::read_to_string(top("samples/programmes.txt")).expect("the text");
    assert_eq!(told, text);
    let room = format!(
        "longer than {},{:03} bytes",
        programme::TEXT / 1_000,
        programme::TEXT % 1_000
    );
    assert!(page.contains(&room), "{room}");
}

/// Whether a line is of this kind: words as they stand, and where the kind has a capital letter a number. `TEXT` is any rest.
fn is_of(line: &str, kind: &str) -> bool {
    if let Some(front) = kind.strip_suffix("TEXT") {
        return line.starts_with(front);
    }
    let number = |word: &str| !word.is_empty() && word.bytes().all(|b| b.is_ascii_digit());
    let capital = |word: &str| word.len() == 1 && word.bytes().all(|b| b.is_ascii_uppercase());
    let (words, kinds) = (line.split(' '), kind.split(' '));
    words.clone().count() == kinds.clone().count()
        && words.zip(kinds).all(|(word, kind)| match capital(kind) {
            true => number(word),
            false => word == kind,
        })
}

/// Every line of the vectors' texts is one of the page's, and every line of the page stands in a vector.
#[test]
fn every_line_for_staff_has_its_vector() {
    let rows = rows(&page("docs/FORMAT.md"), "| Line | What it says |");
    let kinds: Vec<_> = rows.iter().map(|row| code(&row[0])).collect();
    let mut met = BTreeSet::new();
    let mut lines = 0;
    for vector in all(&top("vectors")) {
        let calls = vector.calls().filter(|c| c.function == "programme_list");
        for call in calls.filter(|call| call.refused().is_none()) {
            for line in call.answer.lines().skip(1) {
                let kind = kinds.iter().filter(|kind| is_of(line, kind));
                let kind: Vec<_> = kind.collect();
                assert_eq!(kind.len(), 1, "{}: {line}", vector.name);
                met.insert(*kind[0]);
                lines += 1;
            }
        }
    }
    assert_eq!(met, kinds.into_iter().collect());
    println!("{lines} lines of {} kinds", met.len());
}

/// The numbers of the page are spelt as the library and the independent program read and write them.
#[test]
fn the_numbers_are_spelt_so() {
    let page = page("docs/FORMAT.md");
    let rows = rows(&page, "| Number | Bytes |");
    for row in &rows {
        let value: u16 = row[0].replace(',', "").parse().expect("a number");
        let bytes = hexadecimal(code(&row[1]));
        let size = bytes.len();
        assert_eq!(file::number(&bytes), Ok(file::Number { value, size }));
        assert_eq!(opinion::file::write_number(value), bytes);
    }
    let wrong = page.lines().find(|line| line.starts_with("`80 00` is not"));
    let codes = wrong
        .expect("what is no number")
        .split('`')
        .skip(1)
        .step_by(2);
    let refused = codes.map(|bytes| file::number(&hexadecimal(bytes)));
    let refused: Vec<_> = refused.collect();
    assert_eq!(refused, [Err(Refusal::BAD_NUMBER); 3]);
    println!("{} numbers spelt", rows.len());
}

/// Each fault of the page has a vector of a file that is refused so, and every number of a file's faults stands there.
#[test]
fn every_fault_of_a_file_has_its_vector() {
    let vectors = all(&top("vectors"));
    let mut given = BTreeSet::new();
    for row in rows(&page("docs/FORMAT.md"), "| At | Fault | Number | Vector |") {
        let number: u8 = row[2].parse().expect("a number");
        let mut named = vectors.iter().filter(|vector| vector.name == row[3]);
        let vector = named
            .next()
            .unwrap_or_else(|| panic!("no vector {}", row[3]));
        let call = vector.calls().next().expect("a call");
        assert_eq!(call.function, "file_table", "{}", row[3]);
        assert_eq!(call.refused(), Some(number), "{}", row[3]);
        given.insert(number);
    }
    let order = orders().remove("file_table").expect("file_table");
    assert_eq!(given, order[0].iter().copied().collect());
}

/// The largest file is as large as the page says, and why.
#[test]
fn the_largest_file() {
    let length = opinion::file::write_number(shelf::LARGEST_SECTION as u16).len();
    let largest = 1 + 1 + shelf::SECTIONS * (length + shelf::LARGEST_SECTION);
    assert_eq!(largest, shelf::LARGEST_FILE);
    let said = format!(
        "1 + 1 + {} × ({length} + 1,024) = {},{:03} bytes",
        shelf::SECTIONS,
        largest / 1_000,
        largest % 1_000
    );
    assert!(page("docs/FORMAT.md").contains(&said), "{said}");
}

/// What the README shows of its first command is what that prints.
#[test]
fn the_readme_shows_the_listing() {
    let page = page("README.md");
    let sample = fs::read(top("samples/whole.shelf")).expect("the sample");
    let mut out = [0; file::LARGEST_LIST];
    let listed = file::list(&sample, &mut out).expect("room");
    assert_eq!(block(&page, "The first prints what the file holds"), listed);
}
