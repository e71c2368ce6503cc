//! Looking into a tape.

use crate::tags::*;

/// Of which kind a value is.
#[derive(Debug, Clone, Copy, PartialEq, Eq)]
pub enum Kind {
    /// Null, and a field that a row lacks.
    Null,
    /// A truth value.
    Bool,
    /// An integer.
    Int,
    /// A real.
    Real,
    /// A byte string.
    Bytes,
    /// A text.
    Text,
    /// An array, and the rows of a template.
    Array,
    /// An object, and a row of a template.
    Object,
}

/// A value of a message.
#[derive(Debug, Clone, Copy)]
pub struct Item<'t> {
    bytes: &'t [u8],
    words: &'t [u64],
    // the index of its first word; of a row, that of its first field
    at: usize,
    // of a row, where the keys of its template are, and how many
    row: Option<(usize, usize)>,
}

impl<'t> Item<'t> {
    pub(crate) fn new(bytes: &'t [u8], words: &'t [u64], at: usize) -> Item<'t> {
        Item { bytes, words, at, row: None }
    }

    fn tag(&self) -> u64 {
        if self.row.is_some() { OBJECT } else { tag_of(self.words[self.at]) }
    }

    fn count_at(&self, at: usize) -> usize {
        count_of(self.words[at])
    }

    fn string_at(&self, at: usize) -> &'t [u8] {
        let start = self.words[at + 1] as usize;
        &self.bytes[start..start + self.count_at(at)]
    }

    /// The index behind the value that begins there.
    fn after(&self, mut at: usize) -> usize {
        let mut open = 0usize;
        loop {
            match tag_of(self.words[at]) {
                ARRAY | OBJECT | TEMPLATE => open += 1,
                CLOSE => open -= 1,
                _ => {}
            }
            at += 2;
            if open == 0 {
                return at;
            }
        }
    }

    /// Of which kind the value is.
    pub fn kind(&self) -> Kind {
        match self.tag() {
            ARRAY | TEMPLATE => Kind::Array,
            OBJECT => Kind::Object,
            BYTES => Kind::Bytes,
            TEXT => Kind::Text,
            INT => Kind::Int,
            REAL => Kind::Real,
            TRUE | FALSE => Kind::Bool,
            _ => Kind::Null,
        }
    }

    /// Whether it is null, or a field that a row lacks.
    pub fn is_null(&self) -> bool {
        self.kind() == Kind::Null
    }

    /// The truth value.
    pub fn as_bool(&self) -> Option<bool> {
        match self.tag() {
            TRUE => Some(true),
            FALSE => Some(false),
            _ => None,
        }
    }

    /// The integer.
    pub fn as_i64(&self) -> Option<i64> {
        (self.tag() == INT).then(|| self.words[self.at + 1].cast_signed())
    }

    /// The real, or the nearest one of an integer.
    pub fn as_f64(&self) -> Option<f64> {
        match self.tag() {
            REAL => Some(f64::from_bits(self.words[self.at + 1])),
            _ => self.as_i64().map(|number| number as f64),
        }
    }

    /// The bytes of a byte string or of a text.
    pub fn as_bytes(&self) -> Option<&'t [u8]> {
        matches!(self.tag(), BYTES | TEXT).then(|| self.string_at(self.at))
    }

    /// The text. A byte string has none.
    pub fn as_str(&self) -> Option<&'t str> {
        if self.tag() != TEXT {
            return None;
        }
        std::str::from_utf8(self.string_at(self.at)).ok()
    }

    /// The items of an array, or the rows of a template.
    pub fn items(&self) -> Option<Items<'t>> {
        match self.tag() {
            ARRAY => Some(Items { of: *self, left: self.count_at(self.at), at: self.at + 2, keys: None }),
            TEMPLATE => {
                let width = self.count_at(self.at);
                let rows = self.at + 2 + 2 * width;
                let keys = Some((self.at + 2, width));
                Some(Items { of: *self, left: self.count_at(rows), at: rows + 2, keys })
            }
            _ => None,
        }
    }

    /// The entries of an object or of a row, as they are spelled. Fields that a row lacks are null.
    pub fn entries(&self) -> Option<Entries<'t>> {
        if let Some((key, width)) = self.row {
            return Some(Entries { of: *self, left: width, key, at: self.at });
        }
        if self.tag() != OBJECT {
            return None;
        }
        let (key, left) = (self.at + 2, self.count_at(self.at));
        Some(Entries { of: *self, left, key, at: key + 2 })
    }

    /// The value under a key of an object, the last one where there are several.
    pub fn get(&self, key: &str) -> Option<Item<'t>> {
        let mut found = None;
        for (name, item) in self.entries()? {
            if name == key {
                found = Some(item);
            }
        }
        found
    }

    /// How many items, rows or entries there are.
    pub fn len(&self) -> usize {
        match (self.items(), self.entries()) {
            (Some(items), _) => items.left,
            (_, Some(entries)) => entries.left,
            _ => 0,
        }
    }

    /// Whether there are none.
    pub fn is_empty(&self) -> bool {
        self.len() == 0
    }
}

/// The items of an array.
#[derive(Debug, Clone)]
pub struct Items<'t> {
    of: Item<'t>,
    left: usize,
    at: usize,
    keys: Option<(usize, usize)>,
}

impl<'t> Iterator for Items<'t> {
    type Item = Item<'t>;

    fn next(&mut self) -> Option<Item<'t>> {
        self.left = self.left.checked_sub(1)?;
        let item = Item { at: self.at, row: self.keys, ..self.of };
        let values = self.keys.map_or(1, |(_, width)| width);
        for _ in 0..values {
            self.at = item.after(self.at);
        }
        Some(item)
    }

    fn size_hint(&self) -> (usize, Option<usize>) {
        (self.left, Some(self.left))
    }
}

impl ExactSizeIterator for Items<'_> {}

/// The entries of an object, each a key and a value.
#[derive(Debug, Clone)]
pub struct Entries<'t> {
    of: Item<'t>,
    left: usize,
    key: usize,
    at: usize,
}

impl<'t> Iterator for Entries<'t> {
    type Item = (&'t str, Item<'t>);

    fn next(&mut self) -> Option<(&'t str, Item<'t>)> {
        self.left = self.left.checked_sub(1)?;
        let key = std::str::from_utf8(self.of.string_at(self.key)).unwrap_or_default();
        let item = Item { at: self.at, row: None, ..self.of };
        let behind = self.of.after(self.at);
        // The next key of a row is its template's; of an object, it stands behind the value.
        (self.key, self.at) = match self.of.row {
            Some(_) => (self.key + 2, behind),
            None => (behind, behind + 2),
        };
        Some((key, item))
    }

    fn size_hint(&self) -> (usize, Option<usize>) {
        (self.left, Some(self.left))
    }
}

impl ExactSizeIterator for Entries<'_> {}
