//! The header and the library as a C program meets them: compiled without a warning, linked and run.

use std::fs;
use std::io::Write;
use std::path::{Path, PathBuf};
use std::process::{Command, Stdio};
use trial::random::Random;
use trial::sections::{self, KINDS};
use trial::tally::share;
use trial::{native, top};

/// The compiler is `cc`, or the one that the environment variable `KHUMSAFIL_CC` names.
fn compiler() -> Command {
    let mut command = Command::new(std::env::var_os("KHUMSAFIL_CC").unwrap_or("cc".into()));
    command.args(["-std=c99", "-pedantic", "-Wall", "-Wextra", "-Wconversion"]);
    command.args(["-Werror", "-O2", "-I"]).arg(top("include"));
    command
}

/// The C++ compiler is `c++`, or the one that `KHUMSAFIL_CXX` names. There may be none, and none is looked for beside
/// another C compiler, which may be for another machine.
fn cpp_compiler() -> Option<Command> {
    let named = std::env::var_os("KHUMSAFIL_CXX");
    if named.is_none() && std::env::var_os("KHUMSAFIL_CC").is_some() {
        return None;
    }
    let name = named.unwrap_or("c++".into());
    let there = Command::new(&name).arg("--version").output();
    there.ok().filter(|done| done.status.success())?;
    let mut command = Command::new(name);
    command.args(["-std=c++11", "-Wall", "-Wextra", "-Wconversion", "-Werror"]);
    command.args(["-O2", "-I"]).arg(top("include"));
    Some(command)
}

/// Compiles a program against the header and the library, and gives the path of the executable.
fn compiled(mut compiler: Command, language: &str, name: &str, source: PathBuf) -> PathBuf {
    let program = Path::new(env!("CARGO_TARGET_TMPDIR")).join(name);
    let done = compiler
        .arg("-o")
        .arg(&program)
        .args(["-x", language])
        .arg(source)
        .args(["-x", "none"])
        .arg(native("libkhumsafil.a"))
        .status()
        .expect("the compiler runs");
    assert!(done.success(), "the compiler refuses {name}");
    program
}

fn compile(name: &str, source: PathBuf) -> PathBuf {
    compiled(compiler(), "c", name, source)
}

/// What the program writes when it is given that input, and that it succeeds.
fn run(program: &Path, input: &[u8]) -> String {
    let (text, status) = ended(program, input);
    assert_eq!(status, Some(0), "{text}");
    text
}

/// What the program writes when it is given that input, and its status.
fn ended(program: &Path, input: &[u8]) -> (String, Option<i32>) {
    let mut child = trial::program(program)
        .stdin(Stdio::piped())
        .stdout(Stdio::piped())
        .spawn()
        .expect("the program runs");
    let mut stdin = child.stdin.take().expect("its input");
    stdin.write_all(input).expect("its input is read");
    drop(stdin);
    let done = child.wait_with_output().expect("the program ends");
    let text = String::from_utf8(done.stdout).expect("text");
    (text, done.status.code())
}

/// What the sample is to write, by the independent program.
fn said(payload: &[u8]) -> String {
    match opinion::section::read(payload) {
        Err(number) => format!("refused {number}\n"),
        Ok(s) => {
            let mut text = format!("table {} key {}", s.table_id, s.extension);
            if s.table_id == 0xDF {
                text += &format!(" service {} start {}", s.service_id, s.time_span_start);
            }
            let (version, number, last, body) = (s.version, s.number, s.last, s.body_length);
            text + &format!(" version {version} section {number} last {last} body {body}\n")
        }
    }
}

#[test]
fn the_sample_reads_sections() {
    let sample = compile("section", top("samples/section.c"));
    let mut random = Random::new(0x4B68_756D_7361_0003);
    for kind in KINDS {
        for size in [0, 7, 8, 9, 13, 14, 64, 513, 1_023, 1_024] {
            let mut payload = sections::payload(&mut random, kind, size);
            assert_eq!(run(&sample, &payload), said(&payload), "{payload:02X?}");
            // The same of an NRT-IT.
            if let Some(table_id) = payload.first_mut() {
                *table_id = 0xDF;
            }
            assert_eq!(run(&sample, &payload), said(&payload), "{payload:02X?}");
        }
    }
}

#[test]
fn the_sample_lists_files() {
    let sample = compile("shelf", top("samples/shelf.c"));
    let mut random = Random::new(0x4B68_756D_7361_0009);
    for kind in trial::files::KINDS {
        for _ in 0..share(8) {
            let fields = sections::Fields::random(&mut random);
            let parts = trial::files::Parts::random(&mut random, fields);
            let file = trial::files::damaged(&mut random, kind, parts);
            assert_eq!(
                run(&sample, &file),
                opinion::lister::list(&file),
                "{file:02X?}"
            );
        }
    }
    for name in ["whole", "gaps", "damaged", "programmes"] {
        let file = fs::read(top(&format!("samples/{name}.shelf"))).expect(name);
        assert_eq!(run(&sample, &file), opinion::lister::list(&file), "{name}");
    }
}

/// The example goes round, and says what the one in Rust says.
#[test]
fn the_sample_goes_round() {
    let sample = compile("round", top("samples/round.c"));
    let said = fs::read_to_string(top("samples/round.txt")).expect("samples/round.txt");
    assert_eq!(run(&sample, &[]), said);
}

/// What a host in C may do that one in Rust cannot: no buffer and a null pointer for it, fewer numbers than a trigger,
/// a table or an item has, a number that is no action.
#[test]
fn a_bad_host() {
    run(
        &compile("bad_host", top("rust/trial/tests/bad_host.c")),
        &[],
    );
}

/// Each function of the header, accepted and refused.
#[test]
fn the_answers() {
    run(&compile("answers", top("rust/trial/tests/answers.c")), &[]);
}

/// The next place is right in a loop of a terabyte, which a checker of memory may have no room for.
#[test]
fn a_loop_of_a_terabyte() {
    let program = compile("terabyte", top("rust/trial/tests/terabyte.c"));
    let said = run(&program, &[]);
    let under = std::env::var_os("KHUMSAFIL_UNDER").is_some();
    assert!(said == "tried\n" || under && said == "no room for a terabyte\n");
}

/// The words of a refusal are the same in C and in Rust.
#[test]
fn the_words_of_a_refusal() {
    let said = run(&compile("words", top("rust/trial/tests/words.c")), &[]);
    let ours: String = (0..=300)
        .map(|number| {
            let mut all = khumsafil::Refusal::ALL.iter();
            let named = all.find(|(_, refusal)| u32::from(refusal.number()) == number);
            let text = named.map_or("no number of this library", |(_, r)| r.text());
            format!("{number} {text}\n")
        })
        .collect();
    assert_eq!(said, ours);
}

/// The samples and the programs that try the header are C++ too.
#[test]
fn as_cpp() {
    if cpp_compiler().is_none() {
        println!("no C++ compiler: the header was not tried as C++");
        return;
    }
    let cpp = |name: &str, source: PathBuf| {
        let compiler = cpp_compiler().expect("the C++ compiler");
        compiled(compiler, "c++", &format!("{name}_cpp"), source)
    };
    for name in ["answers", "bad_host"] {
        run(&cpp(name, top(&format!("rust/trial/tests/{name}.c"))), &[]);
    }
    for name in ["section", "shelf", "trigger", "programme"] {
        cpp(name, top(&format!("samples/{name}.c")));
    }
    let said = fs::read_to_string(top("samples/round.txt")).expect("samples/round.txt");
    assert_eq!(run(&cpp("round", top("samples/round.c")), &[]), said);
    println!("the header was tried as C++");
}

/// A call of each function that answers in a structure, by that function's name.
const ANSWERS: [(&str, &str); 29] = [
    ("section_read", "bytes, 8"),
    ("shelf_begin", "&shelf"),
    ("shelf_offer", "&shelf, bytes, 8"),
    ("shelf_completeness", "&shelf, key"),
    ("shelf_lowest_missing", "&shelf, key"),
    ("shelf_table", "&shelf, 0"),
    ("shelf_copy_section", "&shelf, key, 0, bytes, 8"),
    ("shelf_release", "&shelf, key"),
    ("shelf_save", "&shelf, key, bytes, 8"),
    ("file_table", "bytes, 8"),
    ("shelf_load", "&shelf, bytes, 8"),
    ("file_list", "bytes, 4, bytes + 4, 4"),
    ("file_number", "bytes, 8"),
    ("descriptor_step", "bytes, 8, 0"),
    ("trigger_read", "bytes, 8"),
    ("programme_read", "bytes, 8"),
    ("item_of", "fields"),
    ("item_at", "bytes, 8, 17, 0"),
    ("items_at", "bytes, 8, 17, 0, fields, 10"),
    ("own_loop", "bytes, 8, 17, 0"),
    ("programme_list", "bytes, 4, bytes + 4, 4"),
    ("clock_fresh", "&clock"),
    ("clock_offer", "&clock, activation"),
    ("clock_move", "&clock, 1"),
    ("clock_time", "&clock"),
    ("clock_state", "&clock, 1"),
    ("writer_count", "201, 8"),
    ("writer_section", "label, bytes, 4, 0, bytes + 4, 4"),
    ("writer_file", "label, bytes, 4, bytes + 4, 4"),
];

/// Whether the compiler takes a program in which that statement stands.
fn takes(statement: &str) -> bool {
    let source = format!(
        "#include \"khumsafil.h\"\n\
         uint32_t tried(khumsafil_key key, khumsafil_label label, khumsafil_activation activation);\n\
         uint32_t tried(khumsafil_key key, khumsafil_label label, khumsafil_activation activation) {{\n\
         static khumsafil_shelf shelf;\nstatic khumsafil_clock clock;\nstatic uint8_t bytes[8];\n\
         static uint64_t fields[KHUMSAFIL_ITEM_FIELDS];\n\
         uint32_t number = shelf.store[0] + clock.record[0] + bytes[0] + (uint8_t)fields[0] + key.table_id + label.version + activation.event;\n\
         {statement}\nreturn number;\n}}\n"
    );
    let mut child = compiler()
        .args(["-S", "-o", "/dev/null", "-x", "c", "-"])
        .stdin(Stdio::piped())
        .stderr(Stdio::null())
        .spawn()
        .expect("the compiler runs");
    let mut stdin = child.stdin.take().expect("its input");
    stdin.write_all(source.as_bytes()).expect("it is read");
    drop(stdin);
    child.wait().expect("the compiler ends").success()
}

/// No answer that is not a plain yes or no stands in an `if`, in `!` or in a number: the compiler refuses that program, and
/// takes the one beside it that looks at the refusal. What is a plain yes or no may stand there.
#[test]
fn no_answer_is_taken_for_yes() {
    let header = fs::read_to_string(top("include/khumsafil.h")).expect("the header");
    let made = ["khumsafil_key", "khumsafil_label"];
    let mut there: Vec<_> = trial::declarations::inline_in_header(&header)
        .into_iter()
        .filter(|f| f.result.starts_with("khumsafil_") && !made.contains(&&f.result[..]))
        .filter(|f| !f.name.ends_with('_'))
        .map(|f| f.name)
        .collect();
    let mut tried: Vec<_> = ANSWERS
        .iter()
        .map(|(name, _)| format!("khumsafil_{name}"))
        .collect();
    there.sort();
    tried.sort();
    assert_eq!(there, tried, "every function that answers in a structure");
    for (name, with) in ANSWERS {
        let call = format!("khumsafil_{name}({with})");
        assert!(takes(&format!("if ({call}.refusal) number = 1;")), "{call}");
        assert!(takes(&format!("number = {call}.refusal;")), "{call}");
        assert!(!takes(&format!("if ({call}) number = 1;")), "{call}");
        assert!(!takes(&format!("if (!{call}) number = 1;")), "{call}");
        assert!(!takes(&format!("number = {call};")), "{call}");
        assert!(!takes(&format!("number = {call} == 0;")), "{call}");
        // Nor is it left lying: the warning is an error here.
        assert!(!takes(&format!("{call};")), "{call}");
    }
    assert!(!takes("khumsafil_shelf_is_complete(&shelf, key);"));
    assert!(takes(
        "if (khumsafil_shelf_is_complete(&shelf, key)) number = 1;"
    ));
    assert!(!takes("if (khumsafil_shelf_is_complete) number = 1;"));
    println!("{} answers that no program takes for yes", tried.len());
}

/// The numbers of a trigger stand where the header says.
#[test]
fn the_sample_reads_triggers() {
    let sample = compile("trigger", top("samples/trigger.c"));
    let mut random = Random::new(0x4B68_756D_7361_0007);
    for kind in trial::triggers::KINDS {
        for _ in 0..share(8) {
            let payload = trial::triggers::payload(&mut random, kind);
            assert_eq!(
                run(&sample, &payload),
                trigger_said(&payload),
                "{payload:02X?}"
            );
        }
    }
}

/// What the sample is to write of a trigger, by the independent program.
fn trigger_said(payload: &[u8]) -> String {
    use opinion::trigger::Target;
    let t = match opinion::trigger::read(payload) {
        Err(number) => return format!("refused {number}\n"),
        Ok(t) => t,
    };
    let target = match t.target {
        Target::None => "none".to_string(),
        Target::Module {
            download,
            group,
            module,
        } => format!("module {download} {group} {module}"),
        Target::Tap(tap) => format!("tap {tap}"),
        Target::AbsoluteUri { start, length } => format!("absolute URI {start} {length}"),
        Target::LidUri { start, length } => format!("lid URI {start} {length}"),
        Target::HttpUri { start, length } => format!("http URI {start} {length}"),
        Target::Reserved {
            kind,
            start,
            length,
        } => format!("reserved {kind} {start} {length}"),
    };
    format!(
        "id {} description {} at {} {}\ntarget {target}\nuser {} {}\n",
        t.id_length, t.description, t.id_start, t.id_bytes, t.user_start, t.user_length
    )
}

/// The members of a list and its items are as the header says, and so are the views of names and loops.
#[test]
fn the_sample_reads_programme_lists() {
    let sample = compile("programme", top("samples/programme.c"));
    let mut random = Random::new(0x4B68_756D_7361_000C);
    for kind in trial::programmes::KINDS {
        for _ in 0..share(12) {
            let payload = trial::programmes::payload(&mut random, kind);
            let said = list_said(&payload).unwrap_or_else(|number| format!("refused {number}\n"));
            let status = i32::from(said.contains("refused"));
            let told = ended(&sample, &payload);
            assert_eq!(told, (said, Some(status)), "{payload:02X?}");
        }
    }
}

/// What the sample is to write of a list, by the independent program.
fn list_said(payload: &[u8]) -> Result<String, u8> {
    use opinion::programme::{items, own, read};
    let list = read(payload)?;
    let mut text = format!(
        "service {} start {} minutes {} items {}\n",
        list.service_id, list.time_span_start, list.time_span_length, list.items
    );
    let descriptors = |l: opinion::programme::Loop| {
        let bytes = &payload[l.place..l.place + l.length];
        let places = trial::loops::places(bytes);
        let tags: String = places.iter().map(|at| format!(" {}", bytes[*at])).collect();
        format!(
            " descriptors {} at {} {}:{tags}\n",
            l.count, l.place, l.length
        )
    };
    let mut walk = items(payload)?;
    for (number, item) in walk.by_ref().enumerate() {
        let Ok(item) = item else { break };
        // The six flags that tell of no field, and then the four fields.
        let flag = |bit: u16| item.flags >> bit & 1;
        text += &format!(
            "item {number} linkage {} updates {} fragment {} protected {} master {} internet {} broadcast {}",
            item.content_linkage,
            flag(9),
            flag(8),
            flag(7),
            flag(6),
            flag(1),
            flag(0)
        );
        for (word, bit, value) in [
            ("playback", 5, item.playback_length.into()),
            ("delay", 4, item.playback_delay.into()),
            ("expires", 3, item.expiration.into()),
            ("size", 2, item.content_size),
        ] {
            text += &match flag(bit) {
                1 => format!(" {word} {value}"),
                _ => format!(" {word} -"),
            };
        }
        text += &format!(" name {} {}", item.name_place, item.name_length);
        text += &descriptors(item.descriptors);
    }
    let at = walk.place();
    let items = text.lines().count() - 1;
    text += &match own(payload, at) {
        _ if items < usize::from(list.items) => format!("refused 43 at {at}\n"),
        Ok(own) => format!("list{}", descriptors(own)),
        Err(number) => format!("refused {number} at {at}\n"),
    };
    Ok(text)
}
