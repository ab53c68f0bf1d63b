//! Text as `csv` takes it, turned into plain lines: docs/FORMATS.md has the table.

/// Stands for what fits no form of a row wherever it is: in a field a comma or a line end, and an empty field alone.
const NO_FORM: u8 = 0xff;

const MARK: &[u8] = b"\xef\xbb\xbf";

enum Place {
    RowStart,
    FieldStart,
    /// In a field that began without a quote, or behind the quotes of one that began with a quote.
    Bare,
    Quoted,
    /// Behind a quote within quotes. It ended them, or it is the first of two that stand for one.
    QuoteMet,
}

struct Lines {
    text: Vec<u8>,
    place: Place,
}

/// The records of the text as lines without quotes, each ended by one line feed.
pub fn plain_lines(text: &[u8]) -> Vec<u8> {
    let mut lines = Lines {
        text: Vec::new(),
        place: Place::RowStart,
    };
    for &byte in text.strip_prefix(MARK).unwrap_or(text) {
        lines.take(byte);
    }
    if !matches!(lines.place, Place::RowStart) {
        lines.end_row();
    }
    lines.text
}

impl Lines {
    fn take(&mut self, byte: u8) {
        match (&self.place, byte) {
            (Place::RowStart, b'\r' | b'\n') => {}
            (Place::RowStart | Place::FieldStart, b'"') => self.place = Place::Quoted,
            (Place::Quoted, b'"') => self.place = Place::QuoteMet,
            (Place::Quoted, b',' | b'\r' | b'\n') => self.text.push(NO_FORM),
            (Place::Quoted, _) => self.text.push(byte),
            (Place::QuoteMet, b'"') => self.put(byte, Place::Quoted),
            (_, b',') => self.put(byte, Place::FieldStart),
            (_, b'\r' | b'\n') => self.end_row(),
            _ => self.put(byte, Place::Bare),
        }
    }

    fn put(&mut self, byte: u8, place: Place) {
        self.text.push(byte);
        self.place = place;
    }

    fn end_row(&mut self) {
        if matches!(self.text.last(), None | Some(b'\n')) {
            self.text.push(NO_FORM);
        }
        self.put(b'\n', Place::RowStart);
    }
}
