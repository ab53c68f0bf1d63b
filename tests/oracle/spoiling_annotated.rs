//! Makes traces of version 3 that are mostly not lawful: random rows, and annotated traces that were changed.

use crate::annotating::annotate;
use crate::random::Random;
use crate::rows::Version;
use crate::spoiling::{
    any_row, any_setup, changed_bytes, changed_parts, changed_rows, lawful_trace, lines_of, number, random_rows,
    write_owners,
};
use crate::world::Setup;
use std::io::{self, Write};

const CALLS: [&str; 5] = ["are-you-up", "are-you-normal", "halt", "new-coordinator", "ready"];
const ANSWERS: [&str; 5] = ["done", "yes", "no", "failed", "discarded"];
/// What is put into the place of a field: words and numbers that may fit there, and some that fit nowhere.
const ODD_FIELDS: [&str; 24] = [
    "", "-", "--", "0", "01", "1", "2", "1 2", "2 1", "1 1", " 1", "1 ", "1  2", "1 1024", "1025", "normal", "halt", "ready",
    "are-you-up", "Halt", "are_you_up", "yes", "discarded", "maybe",
];

/// One trace; each such call draws another one.
pub fn spoiled_annotated_trace(random: &mut Random) -> io::Result<Vec<u8>> {
    match random.below(12) {
        0 => {
            let (setup, _) = any_setup(random);
            random_rows(random, &setup, Version::Three, write_further)
        }
        1 => annotated_trace(random, 300),
        2 => {
            let text = annotated_trace(random, 40)?;
            Ok(changed_bytes(random, text))
        }
        3 | 4 => {
            let text = annotated_trace(random, 100)?;
            Ok(changed_rows(random, &text))
        }
        _ => {
            let mut lines = lines_of(&annotated_trace(random, 100)?);
            change_lines(random, &mut lines);
            Ok(lines.concat())
        }
    }
}

/// A lawful trace of version 3, with up to so many rows before it is annotated. In half of them some rows don't say more
/// than in version 2.
fn annotated_trace(random: &mut Random, most: u32) -> io::Result<Vec<u8>> {
    let plain = lawful_trace(random, most)?;
    let mut text = Vec::new();
    annotate(plain.as_slice(), &mut text).expect("a lawful trace");
    if random.once_in(2) {
        return Ok(text);
    }
    let mut lines = lines_of(&text);
    for line in &mut lines[1..] {
        if random.once_in(4) {
            *line = plain_row(line);
        }
    }
    Ok(lines.concat())
}

/// The fields of a row.
fn fields_of(line: &[u8]) -> Vec<Vec<u8>> {
    let row = line.strip_suffix(b"\n").unwrap_or(line);
    row.split(|&byte| byte == b',').map(<[u8]>::to_vec).collect()
}

fn line_of(fields: &[Vec<u8>]) -> Vec<u8> {
    [fields.join(&b','), b"\n".to_vec()].concat()
}

/// How many fields the row of this word has where it says no more than in version 2.
fn plain_length(word: &[u8]) -> usize {
    match word {
        b"saw" => 4,
        b"plan" => 3,
        _ => 2,
    }
}

fn plain_row(line: &[u8]) -> Vec<u8> {
    let mut fields = fields_of(line);
    fields.truncate(plain_length(&fields[0]));
    line_of(&fields)
}

/// A row is copied to behind another one, or mostly a field of a row that says more becomes another one.
fn change_lines(random: &mut Random, lines: &mut Vec<Vec<u8>>) {
    if random.once_in(6) {
        return copy_row(random, lines);
    }
    let row = any_telling_row(random, lines);
    let mut fields = fields_of(&lines[row]);
    let place = any_place(random, &fields);
    match random.below(12) {
        0 => {
            fields.remove(place);
        }
        1 => fields.insert(place, fields[place].clone()),
        2 => fields[place] = any_of(random, &ODD_FIELDS).into(),
        3 => fields[place] = changed_parts(random, &fields[place], b' '),
        4 => {
            let other = random.below(fields.len() as u32) as usize;
            fields.swap(place, other);
        }
        _ => fields[place] = field_of_like(random, lines, row, place),
    }
    lines[row] = line_of(&fields);
}

/// A row is copied to right behind itself, or to behind any other.
fn copy_row(random: &mut Random, lines: &mut Vec<Vec<u8>>) {
    let row = any_row(random, lines);
    let behind = if random.once_in(2) { row } else { any_row(random, lines) };
    lines.insert(behind + 1, lines[row].clone());
}

/// A row that says more than in version 2, if there is one.
fn any_telling_row(random: &mut Random, lines: &[Vec<u8>]) -> usize {
    let tells = |&row: &usize| {
        let fields = fields_of(&lines[row]);
        fields.len() > plain_length(&fields[0])
    };
    let rows: Vec<usize> = (1..lines.len()).filter(tells).collect();
    if rows.is_empty() {
        return any_row(random, lines);
    }
    rows[random.below(rows.len() as u32) as usize]
}

/// Mostly one of what the row says further.
fn any_place(random: &mut Random, fields: &[Vec<u8>]) -> usize {
    let plain = plain_length(&fields[0]);
    if fields.len() == plain || random.once_in(8) {
        return random.below(fields.len() as u32) as usize;
    }
    plain + random.below((fields.len() - plain) as u32) as usize
}

/// What another row of the same word, and of as many fields, has at this place.
fn field_of_like(random: &mut Random, lines: &[Vec<u8>], row: usize, place: usize) -> Vec<u8> {
    let mine = fields_of(&lines[row]);
    let rows = lines[1..].iter().map(|line| fields_of(line));
    let like: Vec<Vec<Vec<u8>>> = rows
        .filter(|fields| fields[0] == mine[0] && fields.len() == mine.len() && fields[place] != mine[place])
        .collect();
    if like.is_empty() {
        return any_of(random, &ODD_FIELDS).into();
    }
    like[random.below(like.len() as u32) as usize][place].clone()
}

fn any_of(random: &mut Random, words: &[&'static str]) -> &'static str {
    words[random.below(words.len() as u32) as usize]
}

/// Mostly one of the words.
fn any_word(random: &mut Random, words: &[&'static str]) -> &'static str {
    if random.once_in(40) {
        any_of(random, &ODD_FIELDS)
    } else {
        any_of(random, words)
    }
}

/// What the row of this word may say further, in half of them.
fn write_further(random: &mut Random, text: &mut Vec<u8>, word: &str, setup: &Setup) -> io::Result<()> {
    if random.once_in(2) {
        return Ok(());
    }
    match word {
        "start" | "lose" | "drop" => write_call(random, text, setup),
        "run" | "return" => {
            write_call(random, text, setup)?;
            write!(text, ",{}", any_word(random, &ANSWERS))
        }
        "saw" => write_rest(random, text, setup),
        _ if random.once_in(20) => write!(text, ",{}", any_of(random, &ODD_FIELDS)),
        _ => Ok(()),
    }
}

fn write_call(random: &mut Random, text: &mut Vec<u8>, setup: &Setup) -> io::Result<()> {
    let call = any_word(random, &CALLS);
    write!(text, ",{call},{}", number(random, setup.nodes.into()))
}

/// The halter, the up set and the owners of a claim.
fn write_rest(random: &mut Random, text: &mut Vec<u8>, setup: &Setup) -> io::Result<()> {
    let nodes = setup.nodes.into();
    if random.once_in(2) {
        return write!(text, ",-,-,-");
    }
    let up: Vec<String> = (1..=setup.nodes)
        .filter(|_| random.once_in(3))
        .map(|node| node.to_string())
        .collect();
    let up = if up.is_empty() { "-".to_string() } else { up.join(" ") };
    write!(text, ",{},{up}", number(random, nodes))?;
    write_owners(random, text, nodes, setup.partitions as u32)
}
