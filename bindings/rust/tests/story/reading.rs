//! Reads the stories of `bindings/stories`, as `tests/stories.py` prints them.

use std::process::Command;
use std::str::SplitWhitespace;

/// What a call is given, or writes.
#[derive(Clone, Debug, PartialEq)]
pub enum Value {
    Number(u64),
    Word(String),
    Text(Vec<u8>),
    List(Vec<Value>),
    /// The fields that are named; and whether all others are 0.
    Struct(Vec<(String, Value)>, bool),
}

// The names whose numbers are 0.
const ZEROS: &str = "NONE IDLE ABSENT DOWN NOTHING NO_CALL_KIND LAWFUL OK";

impl Value {
    fn is_zero(&self) -> bool {
        match self {
            Value::Number(number) => *number == 0,
            Value::Word(word) => ZEROS.split(' ').any(|zero| zero == word),
            _ => false,
        }
    }

    /// Whether this is what is wanted: of a struct what is named, and if it is whole nothing else.
    pub fn is_same(&self, given: &Value) -> bool {
        match (self, given) {
            (Value::Struct(wanted, is_whole), Value::Struct(given, _)) => {
                let found = |name: &str| wanted.iter().find(|(wanted, _)| wanted == name);
                let is_so = |(name, value): &(String, Value)| match found(name) {
                    Some((_, wanted)) => wanted.is_same(value),
                    None => !is_whole || value.is_zero(),
                };
                let is_given = |name| given.iter().any(|(given, _)| given == name);
                given.iter().all(is_so) && wanted.iter().all(|(name, _)| is_given(name))
            }
            (Value::List(wanted), Value::List(given)) => {
                let mut pairs = wanted.iter().zip(given);
                wanted.len() == given.len() && pairs.all(|(wanted, given)| wanted.is_same(given))
            }
            _ => self == given || self.is_zero() && given.is_zero(),
        }
    }
}

/// A call, with what it must answer.
#[derive(Clone, Debug)]
pub struct Line {
    pub place: String,
    pub handle: String,
    pub name: String,
    pub status: String,
    pub arguments: Vec<Value>,
    pub answers: Vec<Value>,
}

impl Line {
    /// The kind of its handle: an agent, a replica, a member, or none.
    pub fn kind(&self) -> &str {
        let is_digit = |each: char| each.is_ascii_digit();
        self.handle.trim_end_matches(is_digit)
    }
}

pub struct Story {
    pub name: String,
    pub lines: Vec<Line>,
}

/// All stories, but for those of C alone; and the examples of traces.
pub fn stories() -> Vec<Story> {
    let reader = concat!(env!("CARGO_MANIFEST_DIR"), "/../../tests/stories.py");
    let ran = Command::new(reader).output().expect("the reader");
    let printed = String::from_utf8(ran.stdout).expect("stories");
    assert!(ran.status.success(), "{reader}: {}", ran.status);
    let mut stories: Vec<Story> = Vec::new();
    for line in printed.lines() {
        let parts: Vec<&str> = line.split('\t').collect();
        let [story, place, handle, name, status, arguments, answers] = parts[..] else {
            panic!("{line}")
        };
        let [place, handle, name, status] = [place, handle, name, status].map(String::from);
        let [arguments, answers] =
            [arguments, answers].map(|text| values(&mut text.split_whitespace(), ""));
        if stories.last().map_or("", |last| &last.name) != story {
            let (name, lines) = (story.to_string(), Vec::new());
            stories.push(Story { name, lines });
        }
        stories.last_mut().expect("a story").lines.push(Line {
            place,
            handle,
            name,
            status,
            arguments,
            answers,
        });
    }
    stories
}

// The values up to this word.
fn values(words: &mut SplitWhitespace, end: &str) -> Vec<Value> {
    let mut values = Vec::new();
    while let Some(word) = words.next().filter(|word| *word != end) {
        values.push(match word.split_at(1) {
            ("[", _) => Value::List(self::values(words, "]")),
            ("{", more) => Value::Struct(fields(self::values(words, "}")), more.is_empty()),
            ("\"", digits) => Value::Text(bytes_of(digits)),
            _ => word
                .parse()
                .map_or_else(|_| Value::Word(word.to_string()), Value::Number),
        });
    }
    values
}

// A name and its value, one after the other.
fn fields(values: Vec<Value>) -> Vec<(String, Value)> {
    let field = |pair: &[Value]| match pair {
        [Value::Word(name), value] => (name.clone(), value.clone()),
        other => panic!("{other:?} is no field"),
    };
    values.chunks(2).map(field).collect()
}

fn bytes_of(digits: &str) -> Vec<u8> {
    let byte = |at| u8::from_str_radix(&digits[at..at + 2], 16).expect("two digits");
    (0..digits.len()).step_by(2).map(byte).collect()
}
