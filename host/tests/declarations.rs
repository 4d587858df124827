//! The answers and calls of the library are declared three times: in
//! `crates/capi`, in `src/ffi.rs` and in `include/lohenarr.h`. All must say
//! the same, field by field and parameter by parameter. So must `crates/capi_c`,
//! which exports each of the calls, and the numbers that have names: those of the
//! crates, of the host, and of the header's enums.

use std::collections::BTreeMap;
use std::fs;
use std::path::{Path, PathBuf};

use lohenarr::ffi::AS_IT_STANDS;
use lohenarr::refusal;

/// What stands in front of the name of a function that C calls.
const EXPORT: &str = "#[unsafe(no_mangle)]\npub extern \"C\" fn ";

/// Each answer's fields and each call's parameters and result, by name, in order.
type Declared = BTreeMap<String, Vec<String>>;

fn root() -> PathBuf {
    Path::new(env!("CARGO_MANIFEST_DIR")).join("..")
}

fn read(path: &Path) -> String {
    fs::read_to_string(path).unwrap_or_else(|error| panic!("{}: {error}", path.display()))
}

/// The text without comments that end a line.
fn bare(text: &str) -> String {
    let lines = text.lines().map(|line| line.split("//").next().unwrap());
    lines.collect::<Vec<_>>().join("\n")
}

/// What stands between `open` and the next `close`, and what comes behind.
fn between<'a>(text: &'a str, open: &str, close: &str) -> (&'a str, &'a str) {
    let (_, text) = text.split_once(open).expect(open);
    text.split_once(close).expect(close)
}

/// `LayoutAnswer` as `_layout_answer`.
fn snake(name: &str) -> String {
    name.chars()
        .flat_map(|c| match c.is_ascii_uppercase() {
            true => vec!['_', c.to_ascii_lowercase()],
            false => vec![c],
        })
        .collect()
}

/// `LayoutAnswer` as C names it.
fn c_name(name: &str) -> String {
    format!("lohenarr{}", snake(name))
}

/// `name: type` as `type name`, with a slice as its pointer and its length.
fn rust_field(field: &str) -> Vec<String> {
    let field = field.trim().trim_start_matches("pub ");
    let (name, kind) = field.split_once(':').expect("a field has a type");
    let slice = |kind: &str| {
        vec![
            format!("{kind} {name}"),
            format!("usize {}", length_of(name)),
        ]
    };
    match kind.trim() {
        "&[u8]" => slice("bytes"),
        "&mut [u8]" => slice("mut bytes"),
        "&[u32]" => slice("words"),
        "&mut [u32]" => slice("mut words"),
        "&[u64]" => slice("longs"),
        "&mut [u64]" => slice("mut longs"),
        "*const u8" => vec![format!("bytes {name}")],
        "*mut u8" => vec![format!("mut bytes {name}")],
        "*const u32" => vec![format!("words {name}")],
        "*mut u32" => vec![format!("mut words {name}")],
        "*const u64" => vec![format!("longs {name}")],
        "*mut u64" => vec![format!("mut longs {name}")],
        kind => match kind.starts_with(|c: char| c.is_ascii_uppercase()) {
            true => vec![format!("{} {name}", c_name(kind))],
            false => vec![format!("{kind} {name}")],
        },
    }
}

/// The name of a slice's length: `len` for the dump, and else its own.
fn length_of(name: &str) -> String {
    match name {
        "dump" => "len".to_string(),
        _ => format!("{name}_len"),
    }
}

fn rust_fields(list: &str) -> Vec<String> {
    let fields = list.split(',').filter(|field| !field.trim().is_empty());
    fields.flat_map(rust_field).collect()
}

/// The declarations of Rattle or Rust text.
fn rust(text: &str, calls: &str, declared: &mut Declared) {
    let text = bare(text);
    for part in text.split("#[repr(C)]").skip(1) {
        let (name, rest) = between(part, "pub struct ", "{");
        let fields = rust_fields(rest.split_once('}').unwrap().0);
        declared.insert(c_name(name.trim()), fields);
    }
    for part in text.split(calls).skip(1) {
        let (name, rest) = part.split_once('(').unwrap();
        let (parameters, rest) = rest.split_once(')').unwrap();
        let (result, _) = between(rest, "-> ", if calls == "fn " { ";" } else { "\n" });
        let mut all = rust_fields(parameters);
        all.push(match result.trim() {
            answer if answer.ends_with("Answer") => c_name(answer),
            number => number.to_string(),
        });
        declared.insert(name.to_string(), all);
    }
}

/// What a crate declares, where its calls begin so.
fn declared_in(of_crate: &str, calls: &str) -> Declared {
    let mut declared = Declared::new();
    let folder = root().join("crates").join(of_crate).join("src");
    for file in fs::read_dir(folder).unwrap() {
        rust(&read(&file.unwrap().path()), calls, &mut declared);
    }
    declared
}

/// The answers, which are those of `capi`, and the exports.
fn rattle() -> Declared {
    let mut declared = declared_in("capi", "no calls here");
    declared.extend(declared_in("capi_c", EXPORT));
    declared
}

fn host() -> Declared {
    let text = read(&root().join("host/src/ffi.rs"));
    let (structs, rest) = text.split_once("extern \"C\" {").unwrap();
    let calls = rest.split_once("\n}").unwrap().0;
    let mut declared = Declared::new();
    rust(structs, "no calls here", &mut declared);
    rust(calls, "fn ", &mut declared);
    declared
}

/// `uint32_t name` as `u32 name`.
fn c_field(field: &str) -> String {
    let (kind, name) = field.trim().rsplit_once(' ').expect("a field has a type");
    let kind = match (kind, name.starts_with('*')) {
        ("uint32_t", false) => "u32",
        ("uint64_t", false) => "u64",
        ("size_t", false) => "usize",
        ("const uint8_t", true) => "bytes",
        ("uint8_t", true) => "mut bytes",
        ("const uint32_t", true) => "words",
        ("uint32_t", true) => "mut words",
        ("const uint64_t", true) => "longs",
        ("uint64_t", true) => "mut longs",
        (kind, false) if kind.starts_with("lohenarr_") => kind,
        _ => panic!("unknown type of {field}"),
    };
    format!("{kind} {}", name.trim_start_matches('*'))
}

/// The header without comments.
fn c_text() -> String {
    let text = read(&root().join("include/lohenarr.h"));
    text.split("/*")
        .map(|part| part.split_once("*/").map_or(part, |(_, rest)| rest))
        .collect()
}

fn c() -> Declared {
    let text = c_text();
    let mut declared = Declared::new();
    for part in text.split("typedef struct {").skip(1) {
        let (fields, rest) = part.split_once('}').unwrap();
        let name = rest.split_once(';').unwrap().0.trim().to_string();
        let fields = fields.split(';').filter(|field| !field.trim().is_empty());
        declared.insert(name, fields.map(c_field).collect());
    }
    for line in text.lines().filter(|line| line.ends_with(");")) {
        let (head, parameters) = line.split_once('(').unwrap();
        let (result, name) = head.rsplit_once(' ').unwrap();
        let parameters = parameters.trim_end_matches(");").split(',');
        let parameters = parameters.filter(|parameter| *parameter != "void");
        let mut all: Vec<String> = parameters.map(c_field).collect();
        all.push(match result {
            "size_t" => "usize".to_string(),
            "uint32_t" => "u32".to_string(),
            answer => answer.to_string(),
        });
        declared.insert(name.to_string(), all);
    }
    declared
}

#[test]
fn every_call_is_exported() {
    assert_eq!(declared_in("capi", "pub fn "), rattle());
}

#[test]
fn rust_declares_what_the_library_exports() {
    let rattle = rattle();
    assert!(rattle.len() > 10, "the exports are read");
    assert_eq!(host(), rattle);
}

#[test]
fn c_declares_what_the_library_exports() {
    assert_eq!(c(), rattle());
}

/// Names with their numbers.
type Numbered = BTreeMap<String, u32>;

/// What is numbered in a crate: the enum of the header and the begin of its names, the
/// file, the function or other text in which the numbers stand and its end, and what
/// stands in front of a name and of its number.
struct Numbers {
    c_enum: &'static str,
    prefix: &'static str,
    file: &'static str,
    within: (&'static str, &'static str),
    name: &'static str,
    number: &'static [&'static str],
    /// What the crate gives no name.
    others: &'static [(&'static str, u32)],
    /// Where the host has the same.
    host: (&'static str, &'static str),
}

const NUMBERS: [Numbers; 6] = [
    Numbers {
        c_enum: "lohenarr_refusal",
        prefix: "LOHENARR_",
        file: "page/src/refusal.rt",
        within: ("pub enum Refusal {", "\n}\n"),
        name: "\n    ",
        number: &["= "],
        others: &[("OK", 0)],
        host: ("refusal.rs", "/// Refusals that a command acts on"),
    },
    Numbers {
        c_enum: "lohenarr_page_kind",
        prefix: "LOHENARR_KIND_",
        file: "capi/src/kind.rt",
        within: ("fn from(answer: Result<Kind, Refusal>)", "\n    }\n"),
        name: "Kind::",
        number: &["kind: "],
        others: &[],
        host: ("ffi.rs", "impl KindAnswer {"),
    },
    Numbers {
        c_enum: "lohenarr_reason",
        prefix: "LOHENARR_WHY_",
        file: "why/src/reason.rt",
        within: ("fn kind(self)", "\n    }\n"),
        name: "Reason::",
        number: &["=> "],
        others: &[],
        host: ("ffi.rs", "impl WhyAnswer {"),
    },
    Numbers {
        c_enum: "lohenarr_stands",
        prefix: "LOHENARR_STANDS_",
        file: "records/src/standing.rt",
        within: ("fn kind(self)", "\n    }\n"),
        name: "Standing::",
        number: &["=> "],
        others: &[],
        host: ("ffi.rs", "impl StandingAnswer {"),
    },
    Numbers {
        c_enum: "lohenarr_no_path",
        prefix: "LOHENARR_TREE_",
        file: "tree/src/reason.rt",
        within: ("pub enum Reason {", "\n}\n"),
        name: "\n    ",
        number: &["= "],
        others: &[],
        host: ("ffi.rs", "impl RowAnswer {"),
    },
    Numbers {
        c_enum: "lohenarr_place",
        prefix: "LOHENARR_PLACE_",
        file: "file/src/table.rt",
        within: ("pub type Tabled", "\npub(crate) fn "),
        name: "const ",
        number: &["= "],
        others: &[("HOLE", 0)],
        host: ("table.rs", "/// The first word of a row"),
    },
];

/// `BadLayout` or `BAD_LAYOUT` as `BAD_LAYOUT`.
fn constant(name: &str) -> String {
    match name.contains(|c: char| c.is_ascii_lowercase()) {
        true => snake(name).trim_start_matches('_').to_ascii_uppercase(),
        false => name.to_string(),
    }
}

/// The name that a text begins with.
fn first_name(text: &str) -> &str {
    let end = text.find(|c: char| !c.is_alphanumeric() && c != '_');
    &text[..end.unwrap_or(text.len())]
}

/// The number that a text begins with.
fn first_number(text: &str) -> u32 {
    let end = text.find(|c: char| !c.is_ascii_digit());
    let digits = &text[..end.unwrap_or(text.len())];
    digits
        .parse()
        .unwrap_or_else(|_| panic!("no number: {text}"))
}

/// The number that a text begins with, or that of the constant that it begins with, which
/// the whole text declares.
fn number_in(text: &str, whole: &str) -> u32 {
    if text.starts_with(|c: char| c.is_ascii_digit()) {
        return first_number(text);
    }
    let declared = format!("const {}: u32 = ", first_name(text));
    let (_, number) = whole.split_once(&declared).expect("a constant");
    first_number(number)
}

/// The names of a text with their numbers, by what stands in front of each; constants among
/// the numbers are those of the whole text.
fn numbered(text: &str, whole: &str, name: &str, number: &[&str]) -> Numbered {
    let of = |part: &str| {
        let mut behind = number.iter().filter_map(|mark| part.split_once(mark));
        let (_, behind) = behind.next().expect("a name has a number");
        (constant(first_name(part)), number_in(behind, whole))
    };
    text.split(name).skip(1).map(of).collect()
}

impl Numbers {
    /// As the crate has them.
    fn rattle(&self) -> Numbered {
        let text = bare(&read(&root().join("crates").join(self.file)));
        let lines = text.lines().filter(|line| !line.trim().is_empty());
        let text = lines.collect::<Vec<_>>().join("\n");
        let (part, _) = between(&text, self.within.0, self.within.1);
        let mut all = numbered(part, &text, self.name, self.number);
        let others = self.others.iter();
        all.extend(others.map(|(name, number)| (name.to_string(), *number)));
        all
    }

    /// As the host has those that it names.
    fn host(&self) -> Numbered {
        let text = read(&root().join("host/src").join(self.host.0));
        let (text, _) = between(&text, self.host.1, "\n}\n");
        let (text, _) = text.split_once("\n\n").unwrap_or((text, ""));
        let text = bare(text);
        numbered(&text, &text, "const ", &["= "])
    }

    /// As a text of the header has them.
    fn c(&self, text: &str) -> Numbered {
        let (text, _) = between(text, &format!("enum {} {{", self.c_enum), "};");
        let lines = text.lines().filter(|line| !line.trim().is_empty());
        lines
            .map(|line| {
                let (name, number) = line.trim().split_once(" = ").expect("a number");
                let name = name.strip_prefix(self.prefix).expect(self.prefix);
                (name.to_string(), first_number(number))
            })
            .collect()
    }
}

#[test]
fn c_numbers_as_the_crates_do() {
    let text = c_text();
    for numbers in NUMBERS {
        assert_eq!(numbers.c(&text), numbers.rattle(), "{}", numbers.c_enum);
    }
    let enums = text.matches("\nenum ").count();
    assert_eq!(enums, NUMBERS.len());
    let stands = format!("\n#define LOHENARR_AS_IT_STANDS 0x{AS_IT_STANDS:X}u\n");
    assert!(text.contains(&stands));
    assert!(read(&root().join("crates/capi/src/moment.rt")).contains("NOW: u32 = 0xFFFF_FFFF;"));
}

/// Those that it names; of refusals it has all names as well.
#[test]
fn the_host_numbers_as_the_crates_do() {
    for numbers in NUMBERS {
        let (host, rattle) = (numbers.host(), numbers.rattle());
        assert!(host.len() > 1, "{}", numbers.c_enum);
        for (name, number) in &host {
            assert_eq!(rattle.get(name), Some(number), "{} {name}", numbers.c_enum);
        }
        let is_whole = numbers.host.1.starts_with("impl ");
        assert!(!is_whole || host == rattle, "{}", numbers.c_enum);
    }
    let rattle = NUMBERS[0].rattle();
    let names = (1..).map(|number| (refusal::name(number), number));
    let names = names.take_while(|(name, _)| *name != "unknown");
    let names = names.map(|(name, number)| (constant(name), number));
    let names: Numbered = names.chain([("OK".to_string(), 0)]).collect();
    assert_eq!(names, rattle);
}

/// A name of the header that is left out, or has another's number.
#[test]
fn a_wrong_number_is_noticed() {
    let text = c_text();
    let mut tried = 0;
    for numbers in NUMBERS {
        let rattle = numbers.rattle();
        for (name, number) in &rattle {
            let line = format!("    {}{name} = {number}", numbers.prefix);
            assert_eq!(text.matches(&line).count(), 1, "{line}");
            let wrong = format!("    {}{name} = {}", numbers.prefix, number + 1);
            assert_ne!(numbers.c(&text.replace(&line, &wrong)), rattle, "{wrong}");
            let (before, behind) = text.split_once(&line).unwrap();
            let without = format!("{before}{}", behind.trim_start_matches(','));
            assert_ne!(numbers.c(&without), rattle, "no {line}");
            tried += 1;
        }
    }
    assert_eq!(tried, 41);
}
