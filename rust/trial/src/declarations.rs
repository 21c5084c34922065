//! The boundary's functions as the C header, the Rust wrapper and the Rattle source declare them, in one form, so
//! that the three can be compared: nothing else checks one against another.

/// A function of the boundary, with its types as Rust writes them. `()` is no result.
#[derive(Clone, Debug, PartialEq, Eq, PartialOrd, Ord)]
pub struct Function {
    pub name: String,
    pub parameters: Vec<(String, String)>,
    pub result: String,
}

/// The prototypes of a C header. Whatever is neither a comment, a line for the preprocessor nor a prototype fails.
pub fn in_header(text: &str) -> Vec<Function> {
    let mut plain = without_lines(&without_comments(text), "#");
    let guarded = plain.trim();
    if let Some(inner) = guarded.strip_prefix("extern \"C\" {") {
        let inner = inner.trim_end();
        plain = inner
            .strip_suffix('}')
            .expect("the end of extern \"C\"")
            .to_string();
    }
    statements(&plain).map(c_prototype).collect()
}

/// The functions that `extern "C"` blocks of Rust declare.
pub fn in_rust(text: &str) -> Vec<Function> {
    let text = without_comments(text);
    let mut found = Vec::new();
    for block in text.split("extern \"C\" {").skip(1) {
        let (block, _) = block.split_once('}').expect("the block's end");
        found.extend(statements(block).map(|one| {
            let one = one.strip_prefix("pub ").unwrap_or(one);
            let one = one
                .strip_prefix("fn ")
                .expect("a function in an extern block");
            let (name, parameters, rest) = signature(one);
            Function {
                name,
                parameters: parameters.iter().map(|p| named(p)).collect(),
                result: rust_result(&rest),
            }
        }));
    }
    found
}

/// The functions that a file of Rattle exports. A slice is a pointer and then a length, as C sees it.
pub fn in_rattle(text: &str) -> Vec<Function> {
    let text = without_comments(text);
    let mut found = Vec::new();
    let mut pieces = text.split("extern \"C\" fn ");
    let mut before = pieces.next().unwrap_or_default().to_string();
    for piece in pieces {
        let ahead: Vec<_> = before.split_whitespace().rev().take(2).collect();
        assert_eq!(
            ahead,
            ["pub", "#[unsafe(no_mangle)]"],
            "an exported function is #[unsafe(no_mangle)] pub: {piece}"
        );
        before = piece.to_string();
        let (name, parameters, rest) = signature(piece);
        let mut seen = Vec::new();
        for parameter in parameters {
            let (name, of) = named(&parameter);
            seen.extend(as_c_sees(&name, &of));
        }
        let end = ["requires", "ensures", "{"]
            .iter()
            .filter_map(|w| rest.find(w))
            .min();
        let result = rust_result(&rest[..end.expect("a contract or a body")]);
        found.push(Function {
            name,
            parameters: seen,
            result,
        });
    }
    found
}

/// The plain numbers that a C header defines, by name.
pub fn numbers_in_header(text: &str) -> Vec<(String, u64)> {
    let text = without_comments(text);
    let defined = text
        .lines()
        .filter_map(|line| line.trim().strip_prefix("#define "));
    let pairs = defined.filter_map(|line| line.trim().split_once(' '));
    pairs
        .filter_map(|(name, value)| Some((name.to_string(), number(value.trim())?)))
        .collect()
}

/// A decimal number, or one in hexadecimal.
fn number(text: &str) -> Option<u64> {
    match text.strip_prefix("0x") {
        Some(digits) => u64::from_str_radix(digits, 16).ok(),
        None => text.parse().ok(),
    }
}

/// The enumerations of a C header: each one's name, and its constants with their numbers. A constant without a number of
/// its own fails.
pub fn enumerations_in_header(text: &str) -> Vec<(String, Vec<(String, u64)>)> {
    let text = without_comments(text);
    let mut found = Vec::new();
    for piece in text.split("typedef enum ").skip(1) {
        let (name, rest) = piece.split_once('{').expect("an enumeration's constants");
        let (constants, rest) = rest.split_once('}').expect("an enumeration's end");
        assert!(
            rest.trim_start().starts_with(&format!("{};", name.trim())),
            "an enumeration of two names: {name}"
        );
        let constants = constants.split(',').map(|constant| {
            let (name, value) = constant.split_once('=').expect("a constant's number");
            let value = number(value.trim()).expect("a constant's number");
            (name.trim().to_string(), value)
        });
        found.push((name.trim().to_string(), constants.collect()));
    }
    found
}

/// A function that a C header defines.
#[derive(Clone, Debug, PartialEq, Eq)]
pub struct Inline {
    pub name: String,
    pub result: String,
    pub body: String,
}

/// The inline functions of a C header. An `inline` that is not at a line's beginning and `static`, or has no body, fails.
pub fn inline_in_header(text: &str) -> Vec<Inline> {
    let text = without_comments(text);
    let found: Vec<_> = format!("\n{text}")
        .split("\nstatic inline ")
        .skip(1)
        .map(|piece| {
            let (head, rest) = piece.split_once('(').expect("the parameters");
            let (_, rest) = rest.split_once(") {\n").expect("a body");
            let (body, _) = rest.split_once("\n}").expect("a body's end");
            let at = head.rfind([' ', '*']).expect("a result") + 1;
            Inline {
                name: head[at..].to_string(),
                result: head[..at].trim().to_string(),
                body: body.to_string(),
            }
        })
        .collect();
    assert_eq!(found.len(), text.matches("inline").count());
    found
}

/// The variants of an enum of a file of Rattle that have a number, by the name that a constant has: `KeyHeld` is KEY_HELD.
pub fn variants_in_rattle(text: &str, name: &str) -> Vec<(String, u64)> {
    let text = without_comments(text);
    let inside = text.lines().map(str::trim);
    let inside = inside.skip_while(|line| *line != format!("pub enum {name} {{"));
    let parts = inside.take_while(|line| *line != "}").filter_map(|line| {
        let (variant, number) = line.trim_end_matches(',').split_once(" = ")?;
        Some((as_constant(variant), number.parse().ok()?))
    });
    parts.collect()
}

/// A variant's name as a constant's: a word begins at each capital, and a number after a small letter is one.
fn as_constant(variant: &str) -> String {
    let mut name = String::new();
    let mut before = ' ';
    for letter in variant.chars() {
        let begins = letter.is_uppercase() || (letter.is_ascii_digit() && before.is_lowercase());
        if begins && !name.is_empty() {
            name.push('_');
        }
        name.extend(letter.to_uppercase());
        before = letter;
    }
    name
}

fn without_comments(text: &str) -> String {
    let mut plain = String::new();
    let mut rest = text;
    while let Some(start) = rest.find("/*") {
        let end = rest[start..].find("*/").expect("a comment's end");
        plain.push_str(&rest[..start]);
        rest = &rest[start + end + 2..];
    }
    plain.push_str(rest);
    let lines = plain
        .lines()
        .map(|line| line.split("//").next().unwrap_or(""));
    lines.collect::<Vec<_>>().join("\n")
}

fn without_lines(text: &str, start: &str) -> String {
    let kept = text
        .lines()
        .filter(|line| !line.trim_start().starts_with(start));
    kept.collect::<Vec<_>>().join("\n")
}

fn statements(text: &str) -> impl Iterator<Item = &str> {
    text.split(';').map(str::trim).filter(|one| !one.is_empty())
}

/// A signature's name, its parameters, and what follows them.
fn signature(text: &str) -> (String, Vec<String>, String) {
    let (name, rest) = text.split_once('(').expect("the parameters");
    let (parameters, rest) = rest.split_once(')').expect("the parameters' end");
    let parameters = parameters
        .split(',')
        .map(one_space)
        .filter(|p| !p.is_empty());
    (
        name.trim().to_string(),
        parameters.collect(),
        rest.to_string(),
    )
}

fn one_space(text: &str) -> String {
    text.split_whitespace().collect::<Vec<_>>().join(" ")
}

/// A parameter of Rust or Rattle.
fn named(parameter: &str) -> (String, String) {
    let (name, of) = parameter.split_once(':').expect("a parameter's type");
    (name.trim().to_string(), of.trim().to_string())
}

fn rust_result(rest: &str) -> String {
    let rest = rest.trim();
    if rest.is_empty() {
        return "()".to_string();
    }
    rest.strip_prefix("->")
        .expect("a result")
        .trim()
        .to_string()
}

/// What a parameter of Rattle is at the boundary.
fn as_c_sees(name: &str, of: &str) -> Vec<(String, String)> {
    let (behind, pointer) = match (of.strip_prefix("&mut "), of.strip_prefix('&')) {
        (Some(behind), _) => (behind, "*mut"),
        (None, Some(behind)) => (behind, "*const"),
        (None, None) => return vec![(name.to_string(), of.to_string())],
    };
    let inner = behind.strip_prefix('[').and_then(|b| b.strip_suffix(']'));
    match inner.map(|i| i.split_once(';')) {
        // a slice
        Some(None) => vec![
            (
                name.to_string(),
                format!("{pointer} {}", inner.unwrap_or_default()),
            ),
            (format!("{name}_length"), "usize".to_string()),
        ],
        // an array
        Some(Some((element, _))) => {
            vec![(name.to_string(), format!("{pointer} {}", element.trim()))]
        }
        // a number
        None => vec![(name.to_string(), format!("{pointer} {behind}"))],
    }
}

fn c_prototype(text: &str) -> Function {
    let (head, parameters, rest) = signature(text);
    assert!(rest.trim().is_empty(), "after a prototype: {rest}");
    let (result, name) = c_declared(&head);
    let parameters = parameters.iter().filter(|p| *p != "void");
    Function {
        name,
        parameters: parameters
            .map(|p| c_declared(p))
            .map(|(of, name)| (name, of))
            .collect(),
        result,
    }
}

/// The type and the name of what a C declaration declares.
fn c_declared(text: &str) -> (String, String) {
    let spaced = text.replace('*', " * ");
    let mut words: Vec<_> = spaced.split_whitespace().collect();
    let name = words.pop().expect("a name").to_string();
    let pointer = words.contains(&"*");
    let constant = words.contains(&"const");
    let base: Vec<_> = words
        .iter()
        .filter(|w| !["*", "const"].contains(w))
        .collect();
    assert!(
        base.len() == 1 && words.iter().filter(|w| **w == "*").count() <= 1,
        "a type: {text}"
    );
    let base = match *base[0] {
        "uint8_t" => "u8",
        "uint16_t" => "u16",
        "uint32_t" => "u32",
        "uint64_t" => "u64",
        "size_t" => "usize",
        "bool" => "bool",
        "void" => "()",
        other => panic!("a type that the boundary does not use: {other}"),
    };
    let of = match (pointer, constant) {
        (false, _) => base.to_string(),
        (true, true) => format!("*const {base}"),
        (true, false) => format!("*mut {base}"),
    };
    (of, name)
}

#[cfg(test)]
mod tests {
    use super::*;

    const HEADER: &str = "/* f(int x); */\n#include <stddef.h>\n#ifdef __cplusplus\nextern \"C\" {\n#endif\n\
        #define WIDTH 16 /* a width */\n#define TOP(x) ((x) >> 8)\n\
        uint16_t f(const uint8_t *a, size_t a_length,\n  uint32_t *b, size_t b_length, uint16_t *c, uint8_t d);\n\
        void g(void);\n#ifdef __cplusplus\n}\n#endif\n";
    const RUST: &str =
        "// fn no();\nextern \"C\" {\n    pub fn f(a: *const u8, a_length: usize, b: *mut u32, \
        b_length: usize, c: *mut u16, d: u8) -> u16;\n    pub fn g();\n}\n";
    const RATTLE: &str = "// fn\n#[unsafe(no_mangle)]\npub extern \"C\" fn f(a: &[u8], b: &mut [u32], \
        c: &mut [u16; 4], d: u8) -> u16\n    ensures { result ≡ 0 }\n{\n    0\n}\n#[unsafe(no_mangle)]\npub extern \"C\" fn g() {\n}\n";

    #[test]
    fn three_languages_agree() {
        let header = in_header(HEADER);
        assert_eq!(header.len(), 2);
        assert_eq!(header[0].parameters.len(), 6);
        assert_eq!(header, in_rust(RUST));
        assert_eq!(header, in_rattle(RATTLE));
        assert_eq!(numbers_in_header(HEADER), [("WIDTH".to_string(), 16)]);
    }

    #[test]
    fn variants_are_constants() {
        let source = "pub enum Other {\n    A = 3,\n}\n\npub enum E {\n    // One.\n    LastAbove15 = 7,\n    WriterKAboveLast = 42,\n}\n";
        let found = [("LAST_ABOVE_15".to_string(), 7), ("WRITER_K_ABOVE_LAST".to_string(), 42)];
        assert_eq!(variants_in_rattle(source, "E"), found);
        assert!(variants_in_rattle(source, "F").is_empty());
    }

    #[test]
    fn enumerations_and_inline_functions() {
        let header = "/* inline */\n#define V 0x0102\ntypedef enum e {\n    E_A = 0, /* none */\n    E_B = 7\n} e;\n\
            static inline e f(int x) {\n    return g(x);\n}\n\nstatic inline const char *h(void) {\n    return 0;\n}\n";
        let constants = vec![("E_A".to_string(), 0), ("E_B".to_string(), 7)];
        assert_eq!(
            enumerations_in_header(header),
            [("e".to_string(), constants)]
        );
        assert_eq!(numbers_in_header(header), [("V".to_string(), 0x0102)]);
        let found = inline_in_header(header);
        let names: Vec<_> = found.iter().map(|f| (&f.result[..], &f.name[..])).collect();
        assert_eq!(names, [("e", "f"), ("const char *", "h")]);
        assert_eq!(found[0].body.trim(), "return g(x);");
    }

    #[test]
    fn a_difference_is_seen() {
        let header = in_header(HEADER);
        for (old, new) in [
            ("*mut u32", "*const u32"),
            ("d: u8", "d: u16"),
            ("a_length: usize", "a_size: usize"),
            ("-> u16", "-> u32"),
            ("fn g()", "fn h()"),
        ] {
            assert_ne!(header, in_rust(&RUST.replace(old, new)), "{new}");
        }
        assert_ne!(header, in_rattle(&RATTLE.replace("&mut [u32]", "&[u32]")));
    }
}
