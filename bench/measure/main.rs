//! Compares two programs on one input: first their answers, then their times and their peaks of memory.
//!
//!     measure INPUT PROVED PLAIN WORD..
//!     measure INPUT PROVED PART WORD.. -- WORD..
//!
//! Each run is `PROGRAM WORD.. < INPUT` in a process of its own. The second form is for a program that does a part of
//! the work alone, by words of its own, and answers otherwise: the two answers aren't compared. This program is small, since Linux counts what a
//! parent takes at the time of a fork into the peak of its child.

use std::fs::File;
use std::io::{self, Error, Read};
use std::os::raw::{c_int, c_long};
use std::process::{Command, ExitCode, Stdio};
use std::time::Instant;

const RUNS: usize = 9;

/// What `wait4` tells of a process, as the C library lays it out on 64-bit Linux.
#[repr(C)]
struct Usage {
    times: [c_long; 4],
    peak_kilobytes: c_long,
    others: [c_long; 13],
}

extern "C" {
    fn wait4(process: c_int, status: *mut c_int, options: c_int, usage: *mut Usage) -> c_int;
}

struct Run {
    seconds: f64,
    kilobytes: i64,
}

/// A program, and what it is run with.
struct Subject<'a> {
    name: &'a str,
    program: &'a str,
    file: &'a str,
    words: &'a [String],
}

/// What a program answers.
#[derive(PartialEq)]
struct Answer {
    text: Vec<u8>,
    status: Option<i32>,
}

fn command_of(subject: &Subject) -> io::Result<Command> {
    let mut command = Command::new(subject.program);
    command.args(subject.words).stdin(File::open(subject.file)?);
    Ok(command)
}

fn answer(subject: &Subject) -> io::Result<Answer> {
    let output = command_of(subject)?.stderr(Stdio::inherit()).output()?;
    Ok(Answer {
        text: output.stdout,
        status: output.status.code(),
    })
}

/// Waits for the end of a process; its peak of memory in kilobytes.
fn wait_for(process: u32) -> io::Result<i64> {
    let mut status = 0;
    let mut usage = Usage {
        times: [0; 4],
        peak_kilobytes: 0,
        others: [0; 13],
    };
    // Sound, since both places are there for as long as the call lasts and are laid out as it asks.
    if unsafe { wait4(process as c_int, &mut status, 0, &mut usage) } < 0 {
        return Err(Error::last_os_error());
    }
    if status != 0 {
        return Err(Error::other("a run didn't end with status 0"));
    }
    Ok(usage.peak_kilobytes as i64)
}

/// One run, from the start of the process to its end.
fn run(subject: &Subject) -> io::Result<Run> {
    let mut command = command_of(subject)?;
    command.stdout(Stdio::piped());
    let start = Instant::now();
    let mut process = command.spawn()?;
    let mut text = Vec::new();
    if let Some(output) = process.stdout.as_mut() {
        output.read_to_end(&mut text)?;
    }
    let kilobytes = wait_for(process.id())?;
    Ok(Run {
        seconds: start.elapsed().as_secs_f64(),
        kilobytes,
    })
}

/// Prints the runs of a program; gives their median time and the least one.
fn report(name: &str, runs: &[Run]) -> (f64, f64) {
    let mut seconds: Vec<f64> = runs.iter().map(|run| run.seconds).collect();
    seconds.sort_by(f64::total_cmp);
    let median = seconds[RUNS / 2];
    let (least, most) = (seconds[0], seconds[RUNS - 1]);
    let peak = runs.iter().map(|run| run.kilobytes).max().unwrap_or(0) as f64 / 1024.0;
    println!("  {name:<9} median {median:.3} s (from {least:.3} to {most:.3}), peak {peak:.1} MiB");
    (median, least)
}

/// Stops where the answers differ.
fn compare_answers(proved: &Subject, plain: &Subject) -> io::Result<()> {
    let expected = answer(plain)?;
    if answer(proved)? != expected {
        return Err(Error::other("the two programs answer differently"));
    }
    if expected.status != Some(0) {
        return Err(Error::other("the answer isn't that of status 0"));
    }
    Ok(())
}

fn compare_times(proved: &Subject, other: &Subject) -> io::Result<()> {
    let mut proved_runs = Vec::new();
    let mut other_runs = Vec::new();
    for _ in 0..RUNS {
        proved_runs.push(run(proved)?);
        other_runs.push(run(other)?);
    }
    let (proved_median, proved_least) = report(proved.name, &proved_runs);
    let (other_median, other_least) = report(other.name, &other_runs);
    println!(
        "  ratio     {:.2} (proved by {}, of the medians), {:.2} (of the least times)",
        proved_median / other_median,
        other.name,
        proved_least / other_least
    );
    Ok(())
}

fn compare(file: &str, proved: &str, other: &str, words: &[String]) -> io::Result<()> {
    let (words, part) = match words.iter().position(|word| word == "--") {
        Some(place) => (&words[..place], Some(&words[place + 1..])),
        None => (words, None),
    };
    let proved = Subject {
        name: "proved",
        program: proved,
        file,
        words,
    };
    let other = Subject {
        name: if part.is_some() { "part" } else { "plain" },
        program: other,
        file,
        words: part.unwrap_or(words),
    };
    if part.is_none() {
        compare_answers(&proved, &other)?;
    }
    compare_times(&proved, &other)
}

fn main() -> ExitCode {
    let words: Vec<String> = std::env::args().skip(1).collect();
    let result = match words.as_slice() {
        [file, proved, other, words @ ..] => compare(file, proved, other, words),
        _ => Err(Error::other("usage: measure INPUT PROVED OTHER WORD.. [-- WORD..]")),
    };
    match result {
        Ok(()) => ExitCode::SUCCESS,
        Err(error) => {
            eprintln!("measure: {error}");
            ExitCode::FAILURE
        }
    }
}
