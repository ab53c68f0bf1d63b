//! Tells cargo where the library is: in the folder that BULLY_LIBRARY names, or in `lib` of that; or else in `lib` of the archive that this
//! crate stands in; or else in `out/library` of the repository, where `bin/library` makes it. Its `libbully.a` is taken into the crate, so a program that has
//! this crate has to name no library. And it writes what the header of that library declares for `src/raw.rs`, into the folder OUT_DIR.
//!
//! Without cargo, rustc does the same so:
//!
//!     rustc --edition 2021 build.rs -o build && OUT_DIR=$PWD BULLY_LIBRARY=FOLDER ./build
//!     OUT_DIR=$PWD rustc --edition 2021 --crate-type rlib --crate-name bully src/lib.rs -L native=FOLDER/lib -l static=bully
//!     rustc --edition 2021 PROGRAM.rs --extern bully=libbully.rlib

use std::env;
use std::fs;
use std::path::{Path, PathBuf};
use std::process::exit;

const ARCHIVE: &str = "libbully.a";
const HEADER: &str = "bully.h";

const HOW_TO_FIND: &str = "\
set BULLY_LIBRARY to the folder that has it:
    that of an archive cinnabarloom-VERSION-x86_64-linux, or
    FOLDER, after `bin/library FOLDER` in the repository of Cinnabarloom.
For example: BULLY_LIBRARY=/opt/cinnabarloom cargo build";

fn main() {
    println!("cargo:rerun-if-env-changed=BULLY_LIBRARY");
    if let Err(fault) = tell_and_write() {
        eprintln!("{fault}");
        exit(1);
    }
}

fn tell_and_write() -> Result<(), String> {
    let here = env::current_dir().map_err(|fault| fault.to_string())?;
    let folder = library_folder(&here).map_err(|fault| format!("{fault}: {HOW_TO_FIND}"))?;
    let header = header_of(&folder, &here)?;
    println!("cargo:rerun-if-changed={}", folder.join(ARCHIVE).display());
    println!("cargo:rerun-if-changed={}", header.display());
    println!("cargo:rustc-link-search=native={}", folder.display());
    println!("cargo:rustc-link-lib=static=bully");
    let text = fs::read_to_string(header).map_err(|fault| fault.to_string())?;
    let out = env::var_os("OUT_DIR").ok_or("OUT_DIR is to name a folder")?;
    fs::write(Path::new(&out).join("raw.rs"), translated(&text)).map_err(|fault| fault.to_string())
}

// The folder that has the library, or what is wrong. A path that isn't absolute goes from the folder of this file.
fn library_folder(here: &Path) -> Result<PathBuf, String> {
    match env::var_os("BULLY_LIBRARY") {
        Some(named) if !named.is_empty() => ["lib", ""]
            .iter()
            .map(|place| here.join(&named).join(place))
            .find(|folder| has_library(folder))
            .ok_or_else(|| format!("there is no {ARCHIVE} in BULLY_LIBRARY")),
        _ => ["../../lib", "../../out/library/lib"]
            .iter()
            .map(|place| here.join(place))
            .find(|folder| has_library(folder))
            .ok_or_else(|| format!("{ARCHIVE} is not found")),
    }
}

fn has_library(folder: &Path) -> bool {
    folder.join(ARCHIVE).is_file()
}

// The header: with the library, in `include` beside that as archives have it, or in this tree.
fn header_of(folder: &Path, here: &Path) -> Result<PathBuf, String> {
    [
        folder.to_path_buf(),
        folder.join("../include"),
        here.join("../../include"),
    ]
    .iter()
    .map(|place| place.join(HEADER))
    .find(|file| file.is_file())
    .ok_or_else(|| format!("there is no {HEADER} with the library: {HOW_TO_FIND}"))
}

// ---- What the header declares, as Rust has it ----

fn translated(header: &str) -> String {
    let text = without_comments(header);
    let others = (text.lines().filter_map(alias))
        .chain(text.lines().flat_map(numbers))
        .chain(text.split("typedef struct ").skip(1).map(structure));
    let functions: String = text.split(';').filter_map(function).collect();
    others.collect::<String>() + &format!("extern \"C\" {{\n{functions}}}\n")
}

fn without_comments(text: &str) -> String {
    let behind = |piece: &str| piece.rsplit("*/").next().unwrap_or_default().to_string();
    text.split("/*").map(behind).collect()
}

// `typedef uint32_t bully_status;`
fn alias(line: &str) -> Option<String> {
    let told = line.strip_prefix("typedef ")?.strip_suffix(';')?;
    let (name, kind) = variable(told);
    Some(format!("pub type {name} = {kind};\n"))
}

// The numbers of a line: that of a `#define`, or those of an enum.
fn numbers(line: &str) -> Vec<String> {
    let words: Vec<&str> = line.split_whitespace().collect();
    match words.as_slice() {
        ["#define", name, value] => vec![format!("pub const {name}: u64 = {value};\n")],
        ["#define", ..] => Vec::new(), // the header's guard, and the closed handles
        _ => line
            .split(['{', '}', ',', ';'])
            .filter_map(|piece| piece.trim().split_once(" = "))
            .map(|(name, value)| format!("pub const {name}: u32 = {value};\n"))
            .collect(),
    }
}

// A struct behind its `typedef struct `. One without pointers may be all zeros.
fn structure(told: &str) -> String {
    let (name, behind) = told.split_once(" {").expect("fields");
    let (fields, _) = behind.split_once('}').expect("the end of a struct");
    let default = match fields.contains('*') {
        true => "",
        false => "#[derive(Default)]\n",
    };
    let fields = fields.split(';').filter(|field| !field.trim().is_empty());
    let fields: String = fields
        .map(|field| format!("    pub {},\n", typed(field)))
        .collect();
    format!("{default}#[repr(C)]\npub struct {name} {{\n{fields}}}\n")
}

// `bully_status bully_agent_close(bully_agent *agent)`, behind other lines.
fn function(declared: &str) -> Option<String> {
    let (head, behind) = declared.split_once('(')?;
    let (name, gives) = variable(head.lines().last()?);
    let (parameters, _) = behind.split_once(')').expect("the end of parameters");
    let parameters = parameters.split(',').filter(|&one| one != "void");
    let parameters: Vec<String> = parameters.map(typed).collect();
    let parameters = parameters.join(", ");
    Some(format!("    pub fn {name}({parameters}) -> {gives};\n"))
}

fn typed(declared: &str) -> String {
    let (name, kind) = variable(declared);
    format!("{name}: {kind}")
}

// The name of what is declared, as `const uint16_t *owners`, and its type as Rust spells it.
fn variable(declared: &str) -> (&str, String) {
    let declared = declared.trim();
    let is_of_name = |letter: char| letter.is_ascii_alphanumeric() || letter == '_';
    let (kind, name) = match declared.rfind(|letter| !is_of_name(letter)) {
        Some(last) => declared.split_at(last + 1),
        None => panic!("{HEADER} declares what isn't understood here: {declared}"),
    };
    (name, rust_type(kind.trim()))
}

fn rust_type(kind: &str) -> String {
    let Some(target) = kind.strip_suffix('*') else {
        return rust_name(kind).to_string();
    };
    match target.trim().strip_prefix("const ") {
        Some(target) => format!("*const {}", rust_name(target)),
        None => format!("*mut {}", rust_name(target.trim())),
    }
}

fn rust_name(kind: &str) -> &str {
    match kind {
        "void" => "c_void",
        "char" => "c_char",
        "size_t" => "usize",
        "uint8_t" => "u8",
        "uint16_t" => "u16",
        "uint32_t" => "u32",
        "uint64_t" => "u64",
        other => other,
    }
}
