//! Reads messages, and mutations of them, by the crate serde_bser 0.4.0 and by the facade, and compares.
//!
//! usage: beside COUNT FILE..
//!
//! Each message is read as a `Value` and as a struct of Watchman's answers, from a slice and from a reader, and what was
//! read is written again. The last line has the counts; the status is 1 where the two differ otherwise than that the
//! crate panics.
use serde::{Deserialize, Serialize};
use serde_bser::value::Value;
use std::collections::BTreeMap;
use std::panic::{AssertUnwindSafe, catch_unwind};
use std::process::ExitCode;

#[derive(Debug, PartialEq, Serialize, Deserialize)]
struct File {
    name: serde_bytes::ByteBuf,
    size: Option<i64>,
    mtime_ms: Option<i64>,
    exists: Option<bool>,
    mode: Option<u32>,
    #[serde(rename = "type")]
    kind: Option<String>,
}

#[derive(Debug, PartialEq, Serialize, Deserialize)]
struct Answer {
    #[serde(default)]
    version: Option<String>,
    #[serde(default)]
    files: Vec<File>,
    #[serde(default)]
    is_fresh_instance: bool,
}

/// The crate's value, as the facade's: both have the same variants.
fn as_ours(value: original::value::Value) -> Value {
    use original::value::Value as Theirs;
    match value {
        Theirs::Array(items) => Value::Array(items.into_iter().map(as_ours).collect()),
        Theirs::Object(of) => Value::Object(of.into_iter().map(|(key, value)| (key, as_ours(value))).collect()),
        Theirs::ByteString(bytes) => Value::ByteString(bytes.into_bytes().into()),
        Theirs::Integer(number) => Value::Integer(number),
        Theirs::Real(number) => Value::Real(number),
        Theirs::Bool(truth) => Value::Bool(truth),
        Theirs::Null => Value::Null,
        Theirs::Utf8String(text) => Value::Utf8String(text),
    }
}

/// A value as text, in which each NaN is itself and the keys are in order.
fn shown(value: &Value) -> String {
    match value {
        Value::Array(items) => format!("{:?}", items.iter().map(shown).collect::<Vec<_>>()),
        Value::Object(of) => format!("{:?}", of.iter().map(|(key, it)| (key, shown(it))).collect::<BTreeMap<_, _>>()),
        Value::Real(number) => format!("real {:016x}", number.to_bits()),
        other => format!("{other:?}"),
    }
}

#[derive(Default)]
struct Counts(BTreeMap<&'static str, u64>);

impl Counts {
    fn add(&mut self, what: &'static str) {
        *self.0.entry(what).or_default() += 1;
    }

    fn of(&self, what: &str) -> u64 {
        self.0.get(what).copied().unwrap_or_default()
    }

    /// Counts a difference, and shows the first ones.
    fn differ(&mut self, what: &'static str, bytes: &[u8], ours: &str, theirs: &str) {
        self.add(what);
        if self.of(what) <= 5 {
            let hex: String = bytes.iter().map(|byte| format!("{byte:02x}")).collect();
            println!("{what}: {hex}\n  here  {ours}\n  crate {theirs}");
        }
    }
}

fn compare(bytes: &[u8], counts: &mut Counts) {
    let theirs = catch_unwind(AssertUnwindSafe(|| {
        let value = original::from_slice::<original::value::Value>(bytes).map(as_ours);
        (value, original::from_slice::<Answer>(bytes))
    }));
    let ours = serde_bser::from_slice::<Value>(bytes);
    let ours_typed = serde_bser::from_slice::<Answer>(bytes);
    readers(bytes, &ours_typed, counts);
    let Ok((theirs, theirs_typed)) = theirs else {
        if ours.is_ok() && ours_typed.is_ok() {
            counts.differ("the crate panics and it is read here", bytes, "", "");
        }
        return counts.add("the crate panics");
    };
    if let (Ok(ours), Ok(theirs)) = (&ours_typed, &theirs_typed) {
        let here = serde_bser::ser::serialize(Vec::new(), ours).unwrap_or_default();
        let there = original::ser::serialize(Vec::new(), theirs).unwrap_or_default();
        if here == there { counts.add("written alike") } else { counts.differ("written otherwise", bytes, "", "") }
    }
    let values = (ours.map(|it| shown(&it)), theirs.map(|it| shown(&it)));
    let structs = (ours_typed.map(|it| format!("{it:?}")), theirs_typed.map(|it| format!("{it:?}")));
    let pairs = [values, structs].map(|(a, b)| (a.map_err(|it| it.to_string()), b.map_err(|it| it.to_string())));
    for (ours, theirs) in pairs {
        match (&ours, &theirs) {
            (Ok(a), Ok(b)) if a == b => counts.add("read alike"),
            (Err(_), Err(_)) => counts.add("refused by both"),
            (Ok(a), Ok(b)) => counts.differ("other values", bytes, a, b),
            (Ok(a), Err(b)) => counts.differ("read here alone", bytes, a, b),
            (Err(a), Ok(b)) => counts.differ("read by the crate alone", bytes, a, b),
        }
    }
}

/// From a reader with bytes behind the message the same is read, and those bytes are left.
fn readers(bytes: &[u8], by_slice: &Result<Answer, serde_bser::de::Error>, counts: &mut Counts) {
    let longer = [bytes, b"more"].concat();
    let mut reader = &longer[..];
    let by_reader = serde_bser::from_reader::<_, Answer>(&mut reader);
    match (&by_reader, by_slice) {
        (Ok(a), Ok(b)) if a == b && reader.ends_with(b"more") => {}
        // a message that is cut short goes on in the bytes behind it
        (Err(_), Err(_)) | (Ok(_), Err(_)) => {}
        _ => counts.differ("read otherwise from a reader", bytes, &format!("{by_slice:?}"), &format!("{by_reader:?}")),
    }
}

/// Changes a message in up to three places.
fn mutate(bytes: &mut Vec<u8>, random: &mut impl FnMut(usize) -> usize) {
    for _ in 0..1 + random(3) {
        let at = random(bytes.len());
        match random(4) {
            0 => bytes[at] = random(0x12) as u8,
            1 => bytes[at] ^= 1 << random(8),
            2 if bytes.len() > 1 => drop(bytes.remove(at)),
            _ => bytes.insert(at, random(0x12) as u8),
        }
    }
}

fn main() -> ExitCode {
    std::panic::set_hook(Box::new(|_| {}));
    let mut words = std::env::args().skip(1);
    let count: u64 = words.next().and_then(|it| it.parse().ok()).expect("how many mutations");
    let messages: Vec<Vec<u8>> = words.map(|file| std::fs::read(file).expect("a message")).collect();
    let (mut counts, mut state) = (Counts::default(), 88172645463325252u64);
    let mut random = move |below: usize| {
        state ^= state << 13;
        state ^= state >> 7;
        state ^= state << 17;
        (state % below as u64) as usize
    };
    for message in &messages {
        compare(message, &mut counts);
    }
    let short: Vec<&Vec<u8>> = messages.iter().filter(|it| !it.is_empty() && it.len() <= 1500).collect();
    for _ in 0..count {
        let mut message = short[random(short.len())].clone();
        mutate(&mut message, &mut random);
        compare(&message, &mut counts);
    }
    let wrong = ["other values", "read here alone", "read by the crate alone", "written otherwise", "read otherwise from a reader"];
    let differences: u64 = wrong.iter().map(|what| counts.of(what)).sum();
    let told: Vec<String> = counts.0.iter().map(|(what, count)| format!("{count} {what}")).collect();
    println!("{} messages and {count} mutations: {differences} differences; {}", messages.len(), told.join(", "));
    ExitCode::from(u8::from(differences > 0))
}
