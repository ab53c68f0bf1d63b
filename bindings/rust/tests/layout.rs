//! What `build.rs` makes of `bully.h` is what that header says to the machine's C compiler: the same constants, functions and structs, by
//! names, values and types, laid out alike. And the library names its statuses as the header does.

use bully as _; // the library stands in it
use std::collections::{BTreeMap, BTreeSet};
use std::env;
use std::ffi::CStr;
use std::fs;
use std::mem::{align_of, offset_of, size_of};
use std::process::Command;

#[path = "../src/raw.rs"]
mod raw;

const HEADER: &str = include_str!("../../../include/bully.h");
const RAW: &str = include_str!(concat!(env!("OUT_DIR"), "/raw.rs"));

/// What the header has, and is no number: its guard, and the handles that are closed.
const NO_NUMBERS: [&str; 4] = [
    "BULLY_H",
    "BULLY_AGENT_CLOSED",
    "BULLY_REPLICA_CLOSED",
    "BULLY_MEMBER_CLOSED",
];

#[test]
fn all_of_the_header_is_declared() {
    let header = without_comments(HEADER);
    let numbers = names(&words(&header), "BULLY_", &NO_NUMBERS);
    assert!(numbers.len() > 100);
    assert_eq!(declared("pub const "), numbers);
    let before_brackets: Vec<&str> = header.split('(').map(last_word).collect();
    let functions = names(&before_brackets, "bully_", &[]);
    assert!(functions.len() > 50);
    assert_eq!(declared("pub fn "), functions);
    let structs: Vec<&str> = header.split("typedef struct ").map(first_word).collect();
    assert_eq!(declared("pub struct "), names(&structs, "bully_", &[]));
}

#[test]
fn what_is_declared_is_so_in_c() {
    let claims = [
        claims_on_numbers(),
        claims_on_functions(),
        claims_on_structs(),
    ]
    .concat();
    assert!(claims.len() > 200);
    let program = format!("#include \"bully.h\"\n{}\n", claims.join("\n"));
    assert!(compiles("right", &program));
    for (right, wrong) in [
        ("BULLY_FULL == 1,", "BULLY_FULL == 2,"),
        ("(bully_member *, uint32_t)", "(bully_member *, uint64_t)"),
        ("(const uint8_t *, size_t", "(uint8_t *, size_t"),
        ("sizeof(bully_group) == 20", "sizeof(bully_group) == 24"),
    ] {
        assert!(program.contains(right), "{right}");
        assert!(
            !compiles("wrong", &program.replacen(right, wrong, 1)),
            "{wrong}"
        );
    }
}

#[test]
fn statuses_are_named_as_in_the_header() {
    let header = without_comments(HEADER);
    let (_, behind) = header.split_once("bully_status;").expect("statuses");
    let (statuses, _) = behind.split_once('}').expect("the end of an enum");
    let pieces = statuses.split([',', '{']).map(str::trim);
    let named: BTreeMap<u32, &str> = pieces
        .filter_map(|piece| piece.strip_prefix("BULLY_")?.split_once(" = "))
        .map(|(name, number)| (number.parse().expect("a number"), name))
        .collect();
    assert!(named.len() > 40);
    for number in (0..300).chain([u32::MAX]) {
        let name = named.get(&number).copied().unwrap_or("?");
        assert_eq!(status_name(number), name);
    }
}

fn status_name(status: u32) -> &'static str {
    // SAFETY: the name is a text with a zero byte at its end, which is never freed.
    let name = unsafe { CStr::from_ptr(raw::bully_status_name(status)) };
    name.to_str().expect("ASCII")
}

// ---- Names ----

fn without_comments(text: &str) -> String {
    let behind = |piece: &str| piece.rsplit("*/").next().unwrap_or_default().to_string();
    text.split("/*").map(behind).collect()
}

fn words(text: &str) -> Vec<&str> {
    let is_of_word = |letter: char| letter.is_ascii_alphanumeric() || letter == '_';
    text.split(|letter| !is_of_word(letter)).collect()
}

fn first_word(text: &str) -> &str {
    words(text).first().copied().unwrap_or_default()
}

fn last_word(text: &str) -> &str {
    words(text).last().copied().unwrap_or_default()
}

/// Those of these words that begin so, but for some.
fn names(words: &[&str], beginning: &str, but: &[&str]) -> BTreeSet<String> {
    let named = words.iter().filter(|word| word.starts_with(beginning));
    named
        .filter(|word| !but.contains(word))
        .map(|word| word.to_string())
        .collect()
}

/// What Rust has behind these words.
fn declared(behind: &str) -> BTreeSet<String> {
    let named = RAW.split(behind).skip(1);
    named.map(|piece| first_word(piece).to_string()).collect()
}

// ---- What C is told of it ----

fn claims_on_numbers() -> Vec<String> {
    let lines = RAW
        .lines()
        .filter_map(|line| line.strip_prefix("pub const "));
    let claims = lines.map(|line| {
        let (name, rest) = line.split_once(": ").expect("a type");
        let (_, value) = rest.split_once(" = ").expect("a value");
        let value = value.trim_end_matches(';');
        format!("_Static_assert({name} == {value}, \"{name}\");")
    });
    claims.collect()
}

/// A pointer of the type that Rust has of each function, which is set to that function of the header.
fn claims_on_functions() -> Vec<String> {
    let pieces = RAW.split("pub fn ").skip(1);
    let claims = pieces.map(|piece| {
        let (name, rest) = piece.split_once('(').expect("parameters");
        let (parameters, rest) = rest.split_once(") -> ").expect("a result");
        let (gives, _) = rest.split_once(';').expect("the end of a function");
        let kinds = parameters
            .split(", ")
            .filter_map(|one| one.split_once(": "));
        let kinds: Vec<String> = kinds.map(|(_, kind)| c_type(kind)).collect();
        let takes = match kinds.is_empty() {
            true => String::from("void"),
            false => kinds.join(", "),
        };
        format!("{} (*its_{name})({takes}) = {name};", c_type(gives))
    });
    claims.collect()
}

fn c_type(kind: &str) -> String {
    if let Some(target) = kind.strip_prefix("*const ") {
        return format!("const {} *", c_name(target));
    }
    match kind.strip_prefix("*mut ") {
        Some(target) => format!("{} *", c_name(target)),
        None => c_name(kind).to_string(),
    }
}

fn c_name(kind: &str) -> &str {
    match kind {
        "c_void" => "void",
        "c_char" => "char",
        "usize" => "size_t",
        "u8" => "uint8_t",
        "u16" => "uint16_t",
        "u32" => "uint32_t",
        "u64" => "uint64_t",
        other => other,
    }
}

macro_rules! layouts {
    ($($kind:ident: $($field:ident)+;)*) => {{
        let mut claims = Vec::new();
        $(
            let (kind, size, alignment) = (stringify!($kind), size_of::<raw::$kind>(), align_of::<raw::$kind>());
            claims.push(format!("_Static_assert(sizeof({kind}) == {size} && _Alignof({kind}) == {alignment}, \"{kind}\");"));
            let _all_fields = |raw::$kind { $($field: _),+ }: raw::$kind| ();
            $(
                let (field, offset) = (stringify!($field), offset_of!(raw::$kind, $field));
                let size = size_of_field(|held: &raw::$kind| &raw const held.$field);
                claims.push(format!("_Static_assert(offsetof({kind}, {field}) == {offset} && sizeof((({kind} *)0)->{field}) == {size}, \"{kind}.{field}\");"));
            )+
        )*
        claims
    }};
}

fn size_of_field<S, F>(_field: fn(&S) -> *const F) -> usize {
    size_of::<F>()
}

fn claims_on_structs() -> Vec<String> {
    let claims = layouts! {
        bully_setup: nodes partitions events_max keeps;
        bully_verdict: kind number cause;
        bully_agent: held;
        bully_state: status wants events generation call orphan number node coordinator halter callee;
        bully_replica: held;
        bully_group: rows events token planner nodes partitions keeps;
        bully_member: held;
        bully_step: at_most process number kind request until reason offset token ending;
        bully_lease: process number epoch offset node kept_count is_leaving;
        bully_member_state: process number since sure_left session promised work token ending epoch offset node has_request;
    };
    for name in declared("pub struct ") {
        let claim = format!("sizeof({name})");
        assert!(claims.iter().any(|one| one.contains(&claim)), "{name}");
    }
    claims
}

/// Whether the machine's C compiler takes this: `cc`, unless CC says another.
fn compiles(name: &str, program: &str) -> bool {
    let header_folder = concat!(env!("CARGO_MANIFEST_DIR"), "/../../include");
    let source = format!("{}/{name}.c", env!("CARGO_TARGET_TMPDIR"));
    fs::write(&source, program).expect("a program");
    let compiler = env::var("CC").unwrap_or_else(|_| String::from("cc"));
    let flags = [
        "-std=c11",
        "-Wall",
        "-Wextra",
        "-Werror",
        "-fsyntax-only",
        "-I",
    ];
    let compiled = Command::new(compiler)
        .args(flags)
        .args([header_folder, &source])
        .output()
        .expect("a C compiler");
    compiled.status.success()
}
