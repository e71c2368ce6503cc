//! Tests against the tables of messages and the recorded answers, whose folder BSER_DATA names.
use kuvtsada_bser::{Item, Kind, Tape, message_length, message_of, to_canonical, to_compact};
use std::collections::BTreeMap;
use std::fmt::Write;
use std::path::PathBuf;

fn data(name: &str) -> PathBuf {
    let folder = std::env::var_os("BSER_DATA").expect("BSER_DATA names the folder of the tables");
    PathBuf::from(folder).join(name)
}

fn bytes_of(hex: &str) -> Vec<u8> {
    (0..hex.len() / 2).map(|i| u8::from_str_radix(&hex[2 * i..2 * i + 2], 16).unwrap()).collect()
}

fn hex(bytes: &[u8]) -> String {
    bytes.iter().fold(String::new(), |mut text, byte| {
        let _ = write!(text, "{byte:02x}");
        text
    })
}

/// The value as the tables print it.
fn dump(item: Item<'_>) -> String {
    match item.kind() {
        Kind::Null => "n".into(),
        Kind::Bool => if item.as_bool() == Some(true) { "t" } else { "f" }.into(),
        Kind::Int => format!("i{}", item.as_i64().unwrap()),
        Kind::Real => format!("r{:016x}", item.as_f64().unwrap().to_bits()),
        Kind::Bytes => format!("b{}", hex(item.as_bytes().unwrap())),
        Kind::Text => format!("s{}", hex(item.as_str().unwrap().as_bytes())),
        Kind::Array => {
            let items: Vec<String> = item.items().unwrap().map(dump).collect();
            format!("[{}]", items.join(","))
        }
        Kind::Object => {
            let entries: BTreeMap<&str, String> =
                item.entries().unwrap().map(|(key, value)| (key, dump(value))).collect();
            let entries: Vec<String> = entries
                .iter()
                .map(|(key, value)| format!("{}:{value}", hex(key.as_bytes())))
                .collect();
            format!("{{{}}}", entries.join(","))
        }
    }
}

fn rows(name: &str) -> Vec<Vec<String>> {
    let table = std::fs::read_to_string(data(name)).unwrap();
    table.lines().map(|line| line.split('\t').map(str::to_string).collect()).collect()
}

#[test]
fn tables() {
    let (mut read, mut refused) = (0, 0);
    for row in rows("sample.tsv").into_iter().chain(rows("lines.tsv")) {
        let bytes = bytes_of(&row[1]);
        match Tape::read(&bytes) {
            Ok(tape) => {
                assert_eq!((row[2].as_str(), dump(tape.root())), ("ok", row[3].clone()), "{row:?}");
                assert_eq!(tape.message_len().to_string(), row[4]);
                assert_eq!(message_length(&bytes), Ok(Some(tape.message_len())));
                check_forms(&row, &bytes, &tape);
                read += 1;
            }
            Err(error) => {
                assert_eq!(row[2], "err", "{row:?}: {error}");
                assert!(error.place() <= bytes.len() && error.code() >= 16, "{error:?}");
                assert!(error.to_string().contains(", at byte "), "{error}");
                refused += 1;
            }
        }
    }
    assert!(read > 900 && refused > 500);
    println!("tables: {read} read, {refused} refused");
}

fn check_forms(row: &[String], bytes: &[u8], tape: &Tape<'_>) {
    let (canonical, compact) = (to_canonical(bytes).unwrap(), to_compact(bytes).unwrap());
    if !row[7].starts_with('#') {
        assert_eq!(hex(&canonical), row[7]);
    }
    if !row[8].starts_with('#') {
        assert_eq!(hex(&compact), row[8]);
    }
    let written = message_of(tape.words(), bytes).unwrap();
    assert_eq!(dump(Tape::read(&written).unwrap().root()), row[3]);
}

#[test]
fn recorded() {
    let mut count = 0;
    for entry in std::fs::read_dir(data("watchman")).unwrap() {
        let path = entry.unwrap().path();
        if path.extension().is_none_or(|kind| kind != "bser") {
            continue;
        }
        let bytes = std::fs::read(path).unwrap();
        let tape = Tape::read(&bytes).unwrap();
        let canonical = to_canonical(&bytes).unwrap();
        let again = Tape::read(&canonical).unwrap();
        assert_eq!(dump(tape.root()), dump(again.root()));
        assert_eq!(to_canonical(&canonical).unwrap(), canonical);
        assert!(to_compact(&bytes).unwrap().len() <= bytes.len());
        count += 1;
    }
    assert!(count > 10);
    println!("recorded: {count}");
}

#[test]
fn places() {
    let mut count = 0;
    let table = rows("errors.tsv");
    let column = |name: &str| table[0].iter().position(|other| other == name).unwrap();
    for row in table.iter().skip(1).filter(|row| row[column("read as")] == "Value") {
        let error = Tape::read(&bytes_of(&row[column("message")])).unwrap_err();
        assert_eq!(error.place().to_string(), row[column("place")], "{row:?}: {error}");
        count += 1;
    }
    assert!(count > 15);
    println!("places: {count}");
}

#[test]
fn errors() {
    let error = Tape::read(b"\x00\x02\x00\x00\x00\x00\x03\x04\x00\x03\x01\x14").unwrap_err();
    assert_eq!((error.code(), error.byte(), error.place()), (16, 0x14, 11));
    let text = "unknown byte 0x14 where a value is wanted, at byte 11, in [0]";
    assert_eq!(error.to_string(), text);
    assert_eq!(message_length(b"\x00\x02"), Ok(None));
    for behind in [&b""[..], b"\x0e", b"\x0a", b"\x06\x00\x00\x00\x00\x00\x00\x00\x80"] {
        let head = &b"\x00\x02\x00\x00\x00\x00\x06\xff\xff\xff\xff\xff\xff\xff\x7f"[..];
        let error = message_length(&[head, behind].concat()).unwrap_err();
        assert_eq!((error.code(), error.byte(), error.place()), (43, 0, 15));
        assert_eq!(error.to_string(), "count too great, at byte 15");
    }
    let error = message_of(&[0x100, 0, 0x0a, 0], b"").unwrap_err();
    assert_eq!(error.code(), 4);
    let error = message_of(&[0x20d, 1], b"ab").unwrap_err();
    assert_eq!((error.code(), error.place()), (4, 0));
}
