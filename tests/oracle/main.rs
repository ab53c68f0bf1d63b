//! A plain checker of traces, to compare `bully check` with, and a maker of long traces and of spoiled ones.
//!
//!     oracle check < TRACE
//!     oracle answers FOLDER
//!     oracle annotate < TRACE > TRACE
//!     oracle generate NODES PARTITIONS ROWS SEED > TRACE
//!     oracle spoil FOLDER COUNT SEED
//!     oracle spoil-annotated FOLDER COUNT SEED
//!
//! `check` answers as `bully check` does. It takes rows as lines without quotes, as traces are written.
//! `annotate` writes a lawful trace of any version as one of version 3, in which all is said that a row may say, and where
//! behind each event a whole claim tells what it changed. Of a trace that isn't lawful it writes the verdict, on standard
//! error. `generate` writes a lawful trace, of version 1 where that can tell the setup.
//! `answers` does so for each file of the folder, in the order of their names, and takes the text as csv does: standard
//! output has the file's name behind `== `, its verdict if it has one, and the status behind `= `; standard error has the
//! lines of the faults. `spoil` writes so many traces into the folder, most of which aren't lawful, and `spoil-annotated`
//! so many of version 3.

mod annotating;
mod checking;
mod csv_text;
mod generating;
mod random;
mod reading;
mod rows;
mod spoiling;
mod spoiling_annotated;
mod world;

use annotating::annotate;
use checking::{check, write_verdict, Verdict};
use csv_text::plain_lines;
use generating::{generate, Order};
use random::Random;
use reading::Fault;
use rows::Version;
use spoiling::spoiled_trace;
use spoiling_annotated::spoiled_annotated_trace;
use std::fs;
use std::io::{self, stderr, stdin, stdout, BufReader, BufWriter, Read, Write};
use std::path::{Path, PathBuf};
use std::process::ExitCode;
use world::{Setup, NODES_MAX, PARTITIONS_MAX};

const BUFFER: usize = 1 << 16;

fn main() -> ExitCode {
    let words: Vec<String> = std::env::args().skip(1).collect();
    let words: Vec<&str> = words.iter().map(String::as_str).collect();
    match words.as_slice() {
        ["check"] => ExitCode::from(check_input()),
        ["answers", folder] => exit_code(answer_folder(Path::new(folder))),
        ["annotate"] => ExitCode::from(annotate_input()),
        ["generate", nodes, partitions, rows, seed] => generate_output(nodes, partitions, rows, seed),
        ["spoil", folder, count, seed] => spoil(spoiled_trace, Path::new(folder), count, seed),
        ["spoil-annotated", folder, count, seed] => spoil(spoiled_annotated_trace, Path::new(folder), count, seed),
        _ => refuse_words(),
    }
}

fn refuse_words() -> ExitCode {
    eprintln!("usage: oracle check | answers FOLDER | annotate | generate NODES PARTITIONS ROWS SEED");
    eprintln!("     | spoil FOLDER COUNT SEED | spoil-annotated FOLDER COUNT SEED");
    ExitCode::from(2)
}

fn exit_code(done: io::Result<()>) -> ExitCode {
    match done {
        Ok(()) => ExitCode::SUCCESS,
        Err(_) => ExitCode::from(4),
    }
}

fn check_input() -> u8 {
    let input = BufReader::with_capacity(BUFFER, stdin().lock());
    answer(check(input), &mut BufWriter::new(stdout().lock()), &mut stderr())
}

/// Annotates a lawful trace, read as `csv` takes it; of another one it tells the verdict or the fault.
fn annotate_input() -> u8 {
    let mut text = Vec::new();
    if stdin().lock().read_to_end(&mut text).is_err() {
        return tell_fault(&mut stderr(), &Fault::Read);
    }
    let lines = plain_lines(&text);
    match check(lines.as_slice()) {
        Ok(Verdict::Lawful(_)) => {}
        judged => return answer(judged, &mut stderr(), &mut stderr()),
    }
    match annotate(lines.as_slice(), BufWriter::with_capacity(BUFFER, stdout().lock())) {
        Ok(()) => 0,
        Err(fault) => tell_fault(&mut stderr(), &fault),
    }
}

/// Tells the verdict on a trace, or its fault. The status is 0 for lawful, 1 for refused or differs, 3 for a fault of form,
/// 4 for a stream that failed.
fn answer<W: Write, E: Write>(judged: Result<Verdict, Fault>, output: &mut W, errors: &mut E) -> u8 {
    match judged {
        Ok(verdict) => answer_verdict(&verdict, output, errors),
        Err(fault) => tell_fault(errors, &fault),
    }
}

fn answer_verdict<W: Write, E: Write>(verdict: &Verdict, output: &mut W, errors: &mut E) -> u8 {
    if write_verdict(output, verdict).is_err() {
        return tell_fault(errors, &Fault::Write);
    }
    match verdict {
        Verdict::Lawful(_) => 0,
        Verdict::Refused(..) | Verdict::Differs(_) => 1,
    }
}

fn tell_fault<E: Write>(errors: &mut E, fault: &Fault) -> u8 {
    let (what, status) = match fault {
        Fault::Form(row, cause) => (format!("trace row {row}: {cause}"), 3),
        Fault::Read => ("Read".to_string(), 4),
        Fault::Write => ("Write".to_string(), 4),
    };
    let _ = writeln!(errors, "bully: {what}");
    status
}

/// Answers for each trace in the folder.
fn answer_folder(folder: &Path) -> io::Result<()> {
    let entries: io::Result<Vec<PathBuf>> = fs::read_dir(folder)?.map(|entry| Ok(entry?.path())).collect();
    let mut paths = entries?;
    paths.sort();
    let mut output = BufWriter::new(stdout().lock());
    let mut errors = BufWriter::new(stderr().lock());
    for path in paths {
        let lines = plain_lines(&fs::read(&path)?);
        writeln!(output, "== {}", path.file_name().unwrap_or_default().to_string_lossy())?;
        let status = answer(check(lines.as_slice()), &mut output, &mut errors);
        writeln!(output, "= {status}")?;
    }
    output.flush()?;
    errors.flush()
}

/// Makes a spoiled trace.
type Spoiler = fn(&mut Random) -> io::Result<Vec<u8>>;

fn spoil(spoiler: Spoiler, folder: &Path, count: &str, seed: &str) -> ExitCode {
    match (count.parse(), seed.parse()) {
        (Ok(count), Ok(seed)) => exit_code(write_spoiled(spoiler, folder, count, seed)),
        _ => refuse_words(),
    }
}

/// Writes so many spoiled traces, each into a file whose name is its number.
fn write_spoiled(spoiler: Spoiler, folder: &Path, count: u32, seed: u64) -> io::Result<()> {
    let mut random = Random(seed | 1 << 63);
    for number in 1..=count {
        fs::write(folder.join(format!("{number:05}")), spoiler(&mut random)?)?;
    }
    Ok(())
}

fn setup_of(nodes: &str, partitions: &str) -> Option<Setup> {
    let nodes: u16 = nodes.parse().ok()?;
    let partitions: u16 = partitions.parse().ok()?;
    let in_range = (1..=NODES_MAX).contains(&nodes) && (1..=PARTITIONS_MAX).contains(&partitions);
    in_range.then_some(Setup::even(nodes, partitions as usize))
}

/// Writes a trace to standard output, and what it has in it to standard error.
fn generate_output(nodes: &str, partitions: &str, rows: &str, seed: &str) -> ExitCode {
    let (setup, rows, seed) = match (setup_of(nodes, partitions), rows.parse(), seed.parse()) {
        (Some(setup), Ok(rows), Ok(seed)) => (setup, rows, seed),
        _ => return refuse_words(),
    };
    let order = Order {
        setup,
        version: Version::of(&setup),
        recovers_from: setup.nodes + 1,
        rows,
        seed,
    };
    match generate(&order, BufWriter::with_capacity(BUFFER, stdout().lock())) {
        Ok(tally) => {
            eprintln!("{tally}");
            ExitCode::SUCCESS
        }
        Err(_) => ExitCode::from(4),
    }
}
