//! Makes traces that are mostly not lawful: random rows, random bytes, and lawful traces that were changed.

use crate::generating::{generate, Order};
use crate::random::Random;
use crate::rows::{header, Version};
use crate::world::{Setup, WEIGHT_MAX};
use std::io::{self, Write};

const WORDS: [&str; 15] = [
    "recover", "recover", "recover", "crash", "check", "timeout", "start", "run", "lose", "return", "drop", "move",
    "plan", "saw", "halt",
];
const STATUSES: [&str; 5] = ["down", "election", "reorganization", "normal", "up"];
/// The limits of both versions, and what is one above them.
const NODES_EDGES: [u16; 4] = [64, 65, 1024, 1025];
const PARTITIONS_EDGES: [u16; 4] = [256, 257, 4096, 4097];
/// What is put into a header.
const ODD_PARTS: [&[u8]; 8] = [b"", b"0", b"01", b"2", b"1000", b"1001", b"keep", b"clear"];
/// The bytes of traces, and some that are near to them.
const ALPHABET: &[u8] = b"bully,1recovsatdmpnk-0 23\n\n\r\"";
const HEADERS: [&[u8]; 2] = [b"bully,1,2,2\n", b"bully,2,2,2,2 1,keep\n"];

/// One trace; each such call draws another one.
pub fn spoiled_trace(random: &mut Random) -> io::Result<Vec<u8>> {
    match random.below(10) {
        0 => {
            let (setup, version) = any_setup(random);
            random_rows(random, &setup, version, |_, _, _, _| Ok(()))
        }
        1 => Ok(random_bytes(random)),
        2 => lawful_trace(random, 600),
        3 | 4 => {
            let text = lawful_trace(random, 60)?;
            Ok(changed_bytes(random, text))
        }
        _ => {
            let text = lawful_trace(random, 150)?;
            Ok(changed_rows(random, &text))
        }
    }
}

/// The text cut behind any byte, or with one or two bytes that become another of the alphabet.
pub fn changed_bytes(random: &mut Random, mut text: Vec<u8>) -> Vec<u8> {
    if random.once_in(2) {
        text.truncate(random.below(1 + text.len() as u32) as usize);
        return text;
    }
    for _ in 0..1 + random.below(2) {
        let place = random.below(text.len() as u32) as usize;
        text[place] = ALPHABET[random.below(ALPHABET.len() as u32) as usize];
    }
    text
}

/// The trace with its rows changed.
pub fn changed_rows(random: &mut Random, text: &[u8]) -> Vec<u8> {
    let mut lines = lines_of(text);
    match random.below(8) {
        0 | 1 => swap_rows(random, &mut lines),
        2 => cut_rows(random, &mut lines),
        3 => dress(random, &mut lines),
        4 => change_header(random, &mut lines[0]),
        5 => put_edge(random, &mut lines),
        _ => change_number(random, &mut lines),
    }
    lines.concat()
}

/// The lines, each with its line feed.
pub fn lines_of(text: &[u8]) -> Vec<Vec<u8>> {
    let lines = text.split_inclusive(|&byte| byte == b'\n');
    lines.map(<[u8]>::to_vec).collect()
}

/// A setup, and a version of traces that can tell it.
pub fn any_setup(random: &mut Random) -> (Setup, Version) {
    let mut setup = any_size(random);
    if random.once_in(2) {
        return (setup, Version::of(&setup));
    }
    for weight in &mut setup.weights[..setup.nodes as usize] {
        *weight = any_weight(random);
    }
    setup.keeps = random.once_in(2);
    (setup, Version::Two)
}

/// Mostly a small one; now and then one with more nodes or more partitions than version 1 has, or with as many.
fn any_size(random: &mut Random) -> Setup {
    let mut nodes = 1 + random.below(5);
    let mut partitions = 1 + random.below(7);
    match random.below(24) {
        0 => nodes = 64 + random.below(17),
        1 => partitions = 256 + random.below(45),
        _ => {}
    }
    Setup::even(nodes as u16, partitions as usize)
}

/// Mostly a small one.
fn any_weight(random: &mut Random) -> u16 {
    if random.once_in(10) {
        WEIGHT_MAX
    } else {
        1 + random.below(4) as u16
    }
}

/// A number from 1 to the limit; now and then one that is higher, or no number at all.
pub fn number(random: &mut Random, limit: u32) -> String {
    if !random.once_in(40) {
        return (1 + random.below(limit)).to_string();
    }
    match random.below(6) {
        0 => "0".to_string(),
        1 => "01".to_string(),
        2 => "-".to_string(),
        3 => String::new(),
        4 => (limit + 1).to_string(),
        _ => any_edge(random, NODES_EDGES),
    }
}

fn any_edge(random: &mut Random, edges: [u16; 4]) -> String {
    edges[random.below(4) as usize].to_string()
}

/// Writes what the row of a word says further, which has this setup.
type Further = fn(&mut Random, &mut Vec<u8>, &str, &Setup) -> io::Result<()>;

/// A header and rows, mostly of the right form.
pub fn random_rows(random: &mut Random, setup: &Setup, version: Version, further: Further) -> io::Result<Vec<u8>> {
    let (nodes, partitions) = (setup.nodes as u32, setup.partitions as u32);
    let mut text = header(setup, version).into_bytes();
    text.push(b'\n');
    if random.once_in(20) {
        change_header(random, &mut text);
    }
    for _ in 0..random.below(16) {
        let word = WORDS[random.below(WORDS.len() as u32) as usize];
        write!(text, "{word},{}", number(random, nodes))?;
        match word {
            "plan" => write_owners(random, &mut text, nodes, partitions)?,
            "saw" => write_claim(random, &mut text, nodes)?,
            _ => {}
        }
        further(random, &mut text, word, setup)?;
        writeln!(text, "{}", if random.once_in(80) { "," } else { "" })?;
    }
    Ok(text)
}

pub fn write_owners(random: &mut Random, text: &mut Vec<u8>, nodes: u32, partitions: u32) -> io::Result<()> {
    for place in 0..partitions {
        write!(text, "{}{}", if place == 0 { ',' } else { ' ' }, number(random, nodes))?;
    }
    Ok(())
}

fn write_claim(random: &mut Random, text: &mut Vec<u8>, nodes: u32) -> io::Result<()> {
    let status = STATUSES[random.below(STATUSES.len() as u32) as usize];
    if random.once_in(2) {
        return write!(text, ",{status},-");
    }
    write!(text, ",{status},{}", number(random, nodes))
}

/// Bytes of any kind or of the alphabet, half of them behind a header.
fn random_bytes(random: &mut Random) -> Vec<u8> {
    let mut text = Vec::new();
    if random.once_in(2) {
        text.extend_from_slice(HEADERS[random.below(2) as usize]);
    }
    let of_any_kind = random.once_in(2);
    for _ in 0..random.below(100) {
        text.push(if of_any_kind {
            random.below(256) as u8
        } else {
            ALPHABET[random.below(ALPHABET.len() as u32) as usize]
        });
    }
    text
}

/// A lawful trace of any setup, with up to so many rows. Where there are many nodes, the highest ones recover first, and
/// there are more rows, since an election takes longer.
pub fn lawful_trace(random: &mut Random, most: u32) -> io::Result<Vec<u8>> {
    let mut text = Vec::new();
    let (setup, version) = any_setup(random);
    let highest = setup.nodes / 16;
    let order = Order {
        setup,
        version,
        recovers_from: setup.nodes - highest + 1,
        rows: 1 + random.below(most * u32::from(highest + 1)),
        seed: random.next(),
    };
    generate(&order, &mut text)?;
    Ok(text)
}

pub fn any_row(random: &mut Random, lines: &[Vec<u8>]) -> usize {
    1 + random.below(lines.len() as u32 - 1) as usize
}

/// A row changes places with one behind it, mostly the next.
fn swap_rows(random: &mut Random, lines: &mut [Vec<u8>]) {
    let row = any_row(random, lines);
    let other = if random.once_in(3) {
        any_row(random, lines)
    } else {
        (row + 1).min(lines.len() - 1)
    };
    lines.swap(row, other);
}

/// One to three rows in a sequence are taken out, or all from a row on.
fn cut_rows(random: &mut Random, lines: &mut Vec<Vec<u8>>) {
    let first = any_row(random, lines);
    let count = if random.once_in(3) {
        lines.len()
    } else {
        1 + random.below(3) as usize
    };
    let last = (first + count).min(lines.len());
    lines.drain(first..last);
}

/// A field of the header becomes another one, is left out or stands there twice; or a weight does so; or the version is
/// another one, or the number of nodes or of partitions is near a limit.
fn change_header(random: &mut Random, line: &mut Vec<u8>) {
    line.pop();
    let mut fields: Vec<Vec<u8>> = line.split(|&byte| byte == b',').map(<[u8]>::to_vec).collect();
    match random.below(5) {
        0 => fields[1] = vec![b'0' + random.below(5) as u8],
        1 => fields[2] = any_edge(random, NODES_EDGES).into_bytes(),
        2 => fields[3] = any_edge(random, PARTITIONS_EDGES).into_bytes(),
        3 if fields.len() > 4 => fields[4] = changed_parts(random, &fields[4], b' '),
        _ => fields = vec![changed_parts(random, line, b',')],
    }
    *line = fields.join(&b',');
    line.push(b'\n');
}

/// The text with one of its parts changed, of which there is this byte between each two.
pub fn changed_parts(random: &mut Random, text: &[u8], between: u8) -> Vec<u8> {
    let mut parts: Vec<&[u8]> = text.split(|&byte| byte == between).collect();
    let place = random.below(parts.len() as u32) as usize;
    match random.below(3) {
        0 => {
            parts.remove(place);
        }
        1 => parts.insert(place, parts[place]),
        _ => parts[place] = ODD_PARTS[random.below(ODD_PARTS.len() as u32) as usize],
    }
    parts.join(&between)
}

/// A digit of a row becomes another one.
fn change_number(random: &mut Random, lines: &mut [Vec<u8>]) {
    if let Some((row, place)) = any_digit(random, lines) {
        lines[row][place] = b'1' + random.below(5) as u8;
    }
}

/// A number of a row becomes one near a limit on nodes.
fn put_edge(random: &mut Random, lines: &mut [Vec<u8>]) {
    if let Some((row, place)) = any_digit(random, lines) {
        let line = &mut lines[row];
        let ends = |byte: &u8| !byte.is_ascii_digit();
        let first = line[..place].iter().rposition(ends).map_or(0, |before| before + 1);
        let last = line[place..].iter().position(ends).map_or(line.len(), |behind| place + behind);
        line.splice(first..last, any_edge(random, NODES_EDGES).into_bytes());
    }
}

/// A row, and the place of a digit in it: half of the time in an owner of a plan or in a claim, if there is one.
fn any_digit(random: &mut Random, lines: &[Vec<u8>]) -> Option<(usize, usize)> {
    let word: &[u8] = if random.once_in(4) { b"saw" } else { b"plan" };
    let rows: Vec<usize> = (1..lines.len()).filter(|&row| lines[row].starts_with(word)).collect();
    let (row, first) = if rows.is_empty() || random.once_in(2) {
        (any_row(random, lines), 0)
    } else {
        (rows[random.below(rows.len() as u32) as usize], word.len() + 2)
    };
    let line = &lines[row];
    let digits: Vec<usize> = (first..line.len())
        .filter(|&place| line[place].is_ascii_digit())
        .collect();
    if digits.is_empty() {
        return None;
    }
    Some((row, digits[random.below(digits.len() as u32) as usize]))
}

/// Rows get quotes, other line ends or blank lines, by which `csv` reads on as before.
fn dress(random: &mut Random, lines: &mut [Vec<u8>]) {
    for line in lines.iter_mut() {
        match random.below(8) {
            0 => *line = in_quotes(line),
            1 => line.insert(line.len() - 1, b'\r'),
            2 => line.extend_from_slice(b"\r\n\n"),
            3 => *line.last_mut().expect("a line feed") = b'\r',
            _ => {}
        }
    }
    if random.once_in(4) {
        lines[0].splice(0..0, *b"\xef\xbb\xbf");
    }
}

/// Each field of the row in quotes.
fn in_quotes(line: &[u8]) -> Vec<u8> {
    let row = &line[..line.len() - 1];
    let fields: Vec<Vec<u8>> = row
        .split(|&byte| byte == b',')
        .map(|field| [b"\"", field, b"\""].concat())
        .collect();
    [fields.join(&b','), b"\n".to_vec()].concat()
}
