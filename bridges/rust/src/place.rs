//! Where a part of a tape stands in the message, and by which keys and indices it is reached.
use crate::tags::*;
use std::fmt::Write;

/// A value of a tape, by the number of its first part; of a row, by that of its first field. What is wrong with it is
/// at another part, where the value is an object whose fields are wrong.
#[derive(Debug, Clone, Copy, PartialEq, Eq)]
pub(crate) struct Spot {
    pub at: usize,
    pub is_row: bool,
    pub wrong: usize,
}

/// A container that is open, and where in it the last part is.
enum Open<'t> {
    Items(Option<usize>),
    Entries(&'t [u8]),
    Rows { keys: Vec<&'t [u8]>, field: Option<usize> },
}

impl Open<'_> {
    /// Another value begins.
    fn step(&mut self) {
        match self {
            Open::Items(at) | Open::Rows { field: at, .. } => *at = Some(at.map_or(0, |at| at + 1)),
            Open::Entries(_) => {}
        }
    }

    /// Writes the step to the last value.
    fn write(&self, path: &mut String, is_whole_row: bool) {
        match self {
            Open::Items(Some(at)) => write!(path, "[{at}]").unwrap_or_default(),
            Open::Rows { keys, field: Some(at) } if !keys.is_empty() => {
                write!(path, "[{}]", at / keys.len()).unwrap_or_default();
                if !is_whole_row {
                    write_key(keys[at % keys.len()], path);
                }
            }
            Open::Entries(key) => write_key(key, path),
            _ => {}
        }
    }
}

/// Writes the step to the value of a key: a name of letters, digits and underscores as it is, and another as a text
/// of JSON in brackets.
fn write_key(key: &[u8], path: &mut String) {
    let key = String::from_utf8_lossy(key);
    let is_name = |it: &str| it.bytes().all(|byte| byte.is_ascii_alphanumeric() || byte == b'_');
    if is_name(&key) && !key.is_empty() && !key.as_bytes()[0].is_ascii_digit() {
        path.push_str(if path.is_empty() { "" } else { "." });
        path.push_str(&key);
        return;
    }
    path.push_str("[\"");
    for c in key.chars() {
        match c {
            '"' => path.push_str("\\\""),
            '\\' => path.push_str("\\\\"),
            '\u{8}' => path.push_str("\\b"),
            '\t' => path.push_str("\\t"),
            '\n' => path.push_str("\\n"),
            '\u{c}' => path.push_str("\\f"),
            '\r' => path.push_str("\\r"),
            c if c < ' ' => write!(path, "\\u{:04x}", u32::from(c)).unwrap_or_default(),
            c => path.push(c),
        }
    }
    path.push_str("\"]");
}

/// How many bytes the integer has that is spelled there.
fn integer_len(bytes: &[u8], at: usize) -> usize {
    match bytes.get(at) {
        Some(0x03) => 2,
        Some(0x04) => 3,
        Some(0x05) => 5,
        _ => 9,
    }
}

/// How many bytes the part has that is spelled there, but for what a container holds.
fn part_len(bytes: &[u8], at: usize, [first, second]: [u64; 2]) -> usize {
    match tag_of(first) {
        ARRAY | OBJECT => 1 + integer_len(bytes, at + 1),
        BYTES | TEXT | KEY | BYTES_KEY => (second as usize + count_of(first)).saturating_sub(at),
        INT | ROWS => integer_len(bytes, at),
        REAL => 9,
        TEMPLATE => 2 + integer_len(bytes, at + 2),
        CLOSE => 0,
        _ => 1,
    }
}

/// How many bytes lie before the part.
fn place_of(bytes: &[u8], parts: &[[u64; 2]], at: usize) -> usize {
    let head = 6 + integer_len(bytes, 6);
    parts[..at].iter().fold(head, |place, &part| place + part_len(bytes, place, part))
}

/// The containers around the part, the outermost first.
fn around<'t>(bytes: &'t [u8], parts: &[[u64; 2]], at: usize) -> Vec<Open<'t>> {
    let string = |[first, second]: [u64; 2]| {
        let start = second as usize;
        bytes.get(start..start + count_of(first)).unwrap_or_default()
    };
    let mut open: Vec<Open<'t>> = Vec::new();
    for &part in &parts[..=at] {
        let tag = tag_of(part[0]);
        match (tag, open.last_mut()) {
            (KEY | BYTES_KEY, Some(Open::Entries(key))) => *key = string(part),
            (KEY | BYTES_KEY, Some(Open::Rows { keys, .. })) => keys.push(string(part)),
            (ROWS | CLOSE, _) | (_, None) => {}
            (_, Some(outer)) => outer.step(),
        }
        match tag {
            ARRAY => open.push(Open::Items(None)),
            OBJECT => open.push(Open::Entries(b"")),
            TEMPLATE => open.push(Open::Rows { keys: Vec::new(), field: None }),
            CLOSE => drop(open.pop()),
            _ => {}
        }
    }
    if matches!(tag_of(parts[at][0]), ARRAY | OBJECT | TEMPLATE) {
        open.pop();
    }
    open
}

/// How many bytes lie before what is wrong, and the path to the value, or to this field of it.
pub(crate) fn locate(bytes: &[u8], parts: &[[u64; 2]], spot: Spot, field: Option<&str>) -> (usize, String) {
    let last = parts.len().saturating_sub(1);
    let open = around(bytes, parts, spot.at.min(last));
    let mut path = String::new();
    for (level, outer) in open.iter().enumerate() {
        outer.write(&mut path, spot.is_row && level + 1 == open.len());
    }
    if let Some(field) = field {
        write_key(field.as_bytes(), &mut path);
    }
    (place_of(bytes, parts, spot.wrong.min(last)), path)
}
