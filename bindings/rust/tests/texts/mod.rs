//! Readers of the repository's texts: docs/BUFFERS.md, the C header, this crate's declarations, and the library's own.

use std::fs;
use std::path::{Path, PathBuf};

/// A function's name, and its parameters as Rust has them: `graph: *mut u32`.
pub type Function = (String, Vec<String>);

fn root() -> PathBuf {
    Path::new(env!("CARGO_MANIFEST_DIR")).join("../..")
}

fn read(path: &str) -> String {
    let path = root().join(path);
    fs::read_to_string(&path).unwrap_or_else(|error| panic!("{}: {error}", path.display()))
}

pub fn buffers() -> String {
    read("docs/BUFFERS.md")
}

pub fn header() -> String {
    read("bindings/c/sardinerod.h")
}

/// The cells of a table's line.
pub fn cells(line: &str) -> Option<Vec<&str>> {
    let inner = line.strip_prefix('|')?.strip_suffix('|')?;
    Some(inner.split('|').map(str::trim).collect())
}

pub fn sorted(mut functions: Vec<Function>) -> Vec<Function> {
    functions.sort();
    functions
}

/// `WrongLength` as `WRONG_LENGTH`.
pub fn screaming(name: &str) -> String {
    let mut out = String::new();
    for (k, c) in name.chars().enumerate() {
        if k > 0 && c.is_uppercase() {
            out.push('_');
        }
        out.push(c.to_ascii_uppercase());
    }
    out
}

/// The text between each start and the next end.
fn between<'a>(text: &'a str, start: &'a str, end: &'a str) -> impl Iterator<Item = &'a str> {
    text.split(start)
        .skip(1)
        .filter_map(move |rest| Some(rest.split_once(end)?.0))
}

/// The texts of a list that are parted by commas, without the spaces around them.
fn listed(list: &str) -> Vec<String> {
    let words = list
        .split(',')
        .map(|w| w.split_whitespace().collect::<Vec<_>>().join(" "));
    words.filter(|w| !w.is_empty()).collect()
}

/// `name(parameters` as a function, each parameter translated to one or two of Rust's.
fn function(text: &str, translate: impl Fn(&str) -> Vec<String>) -> Function {
    let (name, parameters) = text.split_once('(').expect("a function has parameters");
    let parameters = listed(parameters)
        .iter()
        .flat_map(|p| translate(p))
        .collect();
    (name.to_owned(), parameters)
}

/// The prototypes of the header.
pub fn header_functions() -> Vec<Function> {
    between(&header(), "\nuint32_t sardinerod_", ");")
        .map(|text| function(text, from_c))
        .collect()
}

fn from_c(parameter: &str) -> Vec<String> {
    let (kind, name) = parameter
        .rsplit_once(' ')
        .expect("a C parameter has a type and a name");
    let (kind, name) = match name.strip_prefix('*') {
        Some(name) => (format!("{kind} *"), name),
        None => (kind.to_owned(), name),
    };
    let kind = match kind.as_str() {
        "const uint8_t *" => "*const u8",
        "uint8_t *" => "*mut u8",
        "const uint32_t *" => "*const u32",
        "uint32_t *" => "*mut u32",
        "uint64_t *" => "*mut u64",
        "size_t" => "usize",
        "uint32_t" => "u32",
        other => panic!("no C type of the interface: {other}"),
    };
    vec![format!("{name}: {kind}")]
}

/// The declarations of `raw`.
pub fn raw_functions() -> Vec<Function> {
    let raw = read("bindings/rust/src/raw.rs");
    let (_, block) = raw
        .split_once("unsafe extern \"C\" {")
        .expect("raw.rs has the declarations");
    let (block, _) = block.split_once("\n}").expect("the declarations end");
    between(block, "fn sardinerod_", ") -> u32;")
        .map(|text| function(text, |p| vec![p.to_owned()]))
        .collect()
}

/// The functions that the library exports, by its own source.
pub fn library_functions() -> Vec<Function> {
    let folder = root().join("crates/contact_api_c/src");
    let files = fs::read_dir(&folder).expect("the library's source is there");
    files
        .flat_map(|file| {
            let file = file.expect("the folder can be read");
            let source = fs::read_to_string(file.path()).expect("a source is text");
            between(&source, "extern \"C\" fn sardinerod_", ") -> u32")
                .map(|text| function(text, from_rattle))
                .collect::<Vec<_>>()
        })
        .collect()
}

/// A slice is passed as a pointer and a length.
fn from_rattle(parameter: &str) -> Vec<String> {
    let (name, kind) = parameter
        .split_once(": ")
        .expect("a parameter has a name and a type");
    let pointer = match kind {
        "&[u8]" => "*const u8",
        "&mut [u8]" => "*mut u8",
        "&[u32]" => "*const u32",
        "&mut [u32]" => "*mut u32",
        "&mut [u64]" => "*mut u64",
        _ => return vec![parameter.to_owned()],
    };
    vec![format!("{name}: {pointer}"), format!("{name}_len: usize")]
}

/// The names of the functions in the document's table, sorted.
pub fn document_functions() -> Vec<String> {
    let text = buffers();
    let mut names: Vec<String> = between(&text, "\n| `sardinerod_", "`")
        .map(str::to_owned)
        .collect();
    names.sort();
    names
}

/// Names and values of an enum of the header, in its order.
pub fn header_enum(name: &str) -> Vec<(String, u32)> {
    let text = header();
    let start = format!("enum {name} {{");
    let body = between(&text, &start, "};")
        .next()
        .expect("the header has the enum")
        .to_owned();
    let values = body.lines().filter_map(|line| {
        let (name, rest) = line.trim().strip_prefix("SARDINEROD_")?.split_once(" = ")?;
        let digits: String = rest.chars().take_while(char::is_ascii_digit).collect();
        Some((name.to_owned(), digits.parse().ok()?))
    });
    values.collect()
}

/// Names and numbers of the library's refusals, by its own source.
pub fn library_refusals() -> Vec<(String, u32)> {
    let source = read("crates/contact_types/src/refusal.rt");
    let body = between(&source, "pub enum Refusal {", "}")
        .next()
        .expect("the library has the enum");
    let variants = body.lines().filter_map(|line| {
        let (name, number) = line.trim().split_once(" = ")?;
        Some((screaming(name), number.trim_end_matches(',').parse().ok()?))
    });
    variants.collect()
}
