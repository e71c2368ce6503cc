//! Reading and writing types by serde, against the tables whose folder BSER_DATA names, and by examples.
use kuvtsada_bser::{Error, ErrorKind, Tape, from_reader, from_slice, serialize, to_vec};
use serde::de::{Deserializer, MapAccess, SeqAccess, Visitor};
use serde::ser::Serializer;
use serde::{Deserialize, Serialize};
use std::collections::BTreeMap;
use std::fmt;
use std::io::{self, Read};
use std::path::PathBuf;

// ---- any value

#[derive(Debug, Clone, PartialEq)]
enum Any {
    Null,
    Bool(bool),
    Int(i64),
    Real(f64),
    Bytes(Vec<u8>),
    Text(String),
    Array(Vec<Any>),
    Object(BTreeMap<String, Any>),
}

struct AnyVisitor;

impl<'de> Visitor<'de> for AnyVisitor {
    type Value = Any;

    fn expecting(&self, f: &mut fmt::Formatter<'_>) -> fmt::Result {
        f.write_str("any value")
    }
    fn visit_unit<E>(self) -> Result<Any, E> {
        Ok(Any::Null)
    }
    fn visit_bool<E>(self, v: bool) -> Result<Any, E> {
        Ok(Any::Bool(v))
    }
    fn visit_i64<E>(self, v: i64) -> Result<Any, E> {
        Ok(Any::Int(v))
    }
    fn visit_f64<E>(self, v: f64) -> Result<Any, E> {
        Ok(Any::Real(v))
    }
    fn visit_bytes<E>(self, v: &[u8]) -> Result<Any, E> {
        Ok(Any::Bytes(v.to_vec()))
    }
    fn visit_str<E>(self, v: &str) -> Result<Any, E> {
        Ok(Any::Text(v.into()))
    }
    fn visit_seq<A: SeqAccess<'de>>(self, mut seq: A) -> Result<Any, A::Error> {
        let mut items = Vec::new();
        while let Some(item) = seq.next_element()? {
            items.push(item);
        }
        Ok(Any::Array(items))
    }
    fn visit_map<A: MapAccess<'de>>(self, mut map: A) -> Result<Any, A::Error> {
        let mut entries = BTreeMap::new();
        while let Some((key, value)) = map.next_entry()? {
            entries.insert(key, value);
        }
        Ok(Any::Object(entries))
    }
}

impl<'de> Deserialize<'de> for Any {
    fn deserialize<D: Deserializer<'de>>(deserializer: D) -> Result<Any, D::Error> {
        deserializer.deserialize_any(AnyVisitor)
    }
}

impl Serialize for Any {
    fn serialize<S: Serializer>(&self, serializer: S) -> Result<S::Ok, S::Error> {
        match self {
            Any::Null => serializer.serialize_unit(),
            Any::Bool(v) => serializer.serialize_bool(*v),
            Any::Int(v) => serializer.serialize_i64(*v),
            Any::Real(v) => serializer.serialize_f64(*v),
            Any::Bytes(v) => serializer.serialize_bytes(v),
            Any::Text(v) => serializer.serialize_str(v),
            Any::Array(v) => v.serialize(serializer),
            Any::Object(v) => v.serialize(serializer),
        }
    }
}

// ---- the tables

fn bytes_of(hex: &str) -> Vec<u8> {
    (0..hex.len() / 2).map(|i| u8::from_str_radix(&hex[2 * i..2 * i + 2], 16).unwrap()).collect()
}

fn hex(bytes: &[u8]) -> String {
    bytes.iter().map(|byte| format!("{byte:02x}")).collect()
}

/// The value as the tables print it.
fn dump(value: &Any) -> String {
    let joined = |items: Vec<String>| items.join(",");
    match value {
        Any::Null => "n".into(),
        Any::Bool(v) => if *v { "t" } else { "f" }.into(),
        Any::Int(v) => format!("i{v}"),
        Any::Real(v) => format!("r{:016x}", v.to_bits()),
        Any::Bytes(v) => format!("b{}", hex(v)),
        Any::Text(v) => format!("s{}", hex(v.as_bytes())),
        Any::Array(v) => format!("[{}]", joined(v.iter().map(dump).collect())),
        Any::Object(v) => {
            let entries = v.iter().map(|(key, value)| format!("{}:{}", hex(key.as_bytes()), dump(value)));
            format!("{{{}}}", joined(entries.collect()))
        }
    }
}

fn data(name: &str) -> PathBuf {
    let folder = std::env::var_os("BSER_DATA").expect("BSER_DATA names the folder of the tables");
    PathBuf::from(folder).join(name)
}

fn rows(name: &str) -> Vec<Vec<String>> {
    let table = std::fs::read_to_string(data(name)).unwrap();
    table.lines().map(|line| line.split('\t').map(str::to_string).collect()).collect()
}

/// How many levels the value has.
fn levels(value: &Any) -> usize {
    match value {
        Any::Array(items) => 1 + items.iter().map(levels).max().unwrap_or(0),
        Any::Object(entries) => 1 + entries.values().map(levels).max().unwrap_or(0),
        _ => 0,
    }
}

fn check_written(row: &[String], value: &Any) {
    if levels(value) > 128 {
        // a template and its rows are one level of a message, and two of what is written
        assert_eq!(to_vec(value).unwrap_err().kind(), ErrorKind::Value);
        return;
    }
    let written = to_vec(value).unwrap();
    // the keys are in order and once, so this is the canonical message
    if !row[7].starts_with('#') {
        assert_eq!(hex(&written), row[7]);
    }
    assert_eq!(dump(&from_slice(&written).unwrap()), row[3]);
}

#[test]
fn tables() {
    let (mut read, mut refused) = (0, 0);
    for row in rows("sample.tsv").into_iter().chain(rows("lines.tsv")) {
        let bytes = bytes_of(&row[1]);
        let mut reader = &bytes[..];
        let by_reader = from_reader::<_, Any>(&mut reader);
        match from_slice::<Any>(&bytes) {
            Ok(value) => {
                assert_eq!((row[2].as_str(), dump(&value)), ("ok", row[3].clone()), "{row:?}");
                assert_eq!((bytes.len() - reader.len()).to_string(), row[4]);
                assert_eq!(dump(&by_reader.unwrap()), row[3]);
                check_written(&row, &value);
                read += 1;
            }
            Err(error) => {
                assert_eq!(row[2], "err", "{row:?}: {error}");
                assert!(matches!(error.kind(), ErrorKind::Malformed | ErrorKind::Ended), "{error:?}");
                assert!(by_reader.is_err(), "{row:?}");
                refused += 1;
            }
        }
    }
    assert!(read > 900 && refused > 500);
    println!("tables: {read} read, {refused} refused");
}

#[derive(Debug, PartialEq, Deserialize)]
struct File {
    name: String,
    size: u64,
    mtime_ms: i64,
    exists: bool,
    mode: Option<i32>,
}

#[derive(Debug, PartialEq, Deserialize)]
struct Answer {
    clock: String,
    files: Vec<File>,
}

#[derive(Debug, PartialEq, Deserialize)]
enum TestEnum {
    TestUnit,
    TestNewtype(String),
    TestTuple(String, String),
    TestStruct { abc: String, def: String },
}

#[test]
fn errors_of_the_table() {
    let table = rows("errors.tsv");
    let column = |name: &str| table[0].iter().position(|it| it == name);
    let (from, to, path, place) = (column("from").unwrap(), column("to").unwrap(), column("path"), column("place"));
    for row in &table[1..] {
        let bytes = bytes_of(&row[2]);
        let refused = match row[1].as_str() {
            "Value" => from_slice::<Any>(&bytes).err(),
            "Answer" => from_slice::<Answer>(&bytes).err(),
            "i8" => from_slice::<i8>(&bytes).err(),
            "String" => from_slice::<String>(&bytes).err(),
            "char" => from_slice::<char>(&bytes).err(),
            "tup2" => from_slice::<(i64, i64)>(&bytes).err(),
            "vec_TestEnum" => from_slice::<Vec<TestEnum>>(&bytes).err(),
            other => panic!("no type {other}"),
        };
        let error = refused.expect(&row[0]);
        let told = format!("{}: {error}: {error:?}", row[0]);
        let number = |at: usize| row[at].parse::<usize>().unwrap();
        assert!((number(from)..=number(to)).contains(&error.place()), "{told}");
        if let Some(place) = place {
            assert_eq!(error.place(), number(place), "{told}");
        }
        if let Some(path) = path {
            assert_eq!(if error.path().is_empty() { "." } else { error.path() }, row[path], "{told}");
        }
        assert!(row[4] == "-" || error.to_string().contains(&row[4]), "{told}");
    }
    assert!(table.len() > 25);
}

// ---- errors

fn kind_place_path<T: fmt::Debug>(read: Result<T, Error>) -> (ErrorKind, usize, String) {
    let error = read.unwrap_err();
    (error.kind(), error.place(), error.path().to_string())
}

fn object(entries: &[(&str, Any)]) -> Any {
    Any::Object(entries.iter().map(|(key, value)| (key.to_string(), value.clone())).collect())
}

#[test]
fn wrong_types() {
    let bytes = to_vec(&object(&[("a", Any::Array(vec![Any::Int(1), Any::Text("x".into())]))])).unwrap();
    type Map<T> = BTreeMap<String, Vec<T>>;
    let error = from_slice::<Map<u8>>(&bytes).unwrap_err();
    // 8 bytes of head, 01 03 01, 0d 03 01 61, 00 03 02, 03 01
    assert_eq!((error.kind(), error.place(), error.path()), (ErrorKind::Type, 20, "a[1]"));
    assert_eq!(error.to_string(), "invalid type: string \"x\", expected u8, at byte 20, in a[1]");
    let bytes = to_vec(&object(&[("odd key", Any::Bool(true))])).unwrap();
    let found = kind_place_path(from_slice::<BTreeMap<String, String>>(&bytes));
    assert_eq!(found, (ErrorKind::Type, 21, "[\"odd key\"]".into()));
    let found = kind_place_path(from_slice::<BTreeMap<u8, bool>>(&bytes));
    assert_eq!(found, (ErrorKind::Type, 11, "[\"odd key\"]".into()));
    assert_eq!(kind_place_path(from_slice::<u8>(&to_vec(&256).unwrap())), (ErrorKind::Type, 8, String::new()));
    // too many: the part that is too many; too few: the end
    let found = kind_place_path(from_slice::<(u8, u8)>(&to_vec(&[1, 2, 3]).unwrap()));
    assert_eq!(found, (ErrorKind::Type, 15, "[2]".into()));
    let found = kind_place_path(from_slice::<(u8, u8)>(&to_vec(&[1]).unwrap()));
    assert_eq!(found, (ErrorKind::Type, 13, String::new()));
}

#[test]
fn readers() {
    let (first, second) = (to_vec(&vec![7; 300]).unwrap(), to_vec("behind").unwrap());
    let both = [first.clone(), second.clone()].concat();
    let mut reader = OneByte(&both);
    assert_eq!(from_reader::<_, Vec<i32>>(&mut reader).unwrap(), vec![7; 300]);
    assert_eq!(reader.0, &second[..]);
    assert_eq!(from_reader::<_, String>(&mut reader).unwrap(), "behind");
    assert_eq!(kind_place_path(from_reader::<_, String>(&mut reader)), (ErrorKind::Ended, 0, String::new()));
    for cut in 0..first.len() {
        let found = kind_place_path(from_reader::<_, Vec<i32>>(&first[..cut]));
        assert_eq!(found, (ErrorKind::Ended, cut, String::new()));
    }
    let error = from_reader::<_, Vec<i32>>(Failing).unwrap_err();
    assert_eq!((error.kind(), error.to_string()), (ErrorKind::Io, "the cable is out".into()));
    assert!(std::error::Error::source(&error).is_some());
    // what is announced is not reserved
    let found = kind_place_path(from_reader::<_, Any>(&b"\x00\x02\x00\x00\x00\x00\x06\x00\x00\x00\x00\x00\x00\x00\x40\x0a"[..]));
    assert_eq!(found, (ErrorKind::Ended, 16, String::new()));
}

/// Gives a byte at a time.
struct OneByte<'a>(&'a [u8]);

impl Read for OneByte<'_> {
    fn read(&mut self, out: &mut [u8]) -> io::Result<usize> {
        let count = out.len().min(1);
        self.0.read(&mut out[..count])
    }
}

struct Failing;

impl Read for Failing {
    fn read(&mut self, _: &mut [u8]) -> io::Result<usize> {
        Err(io::Error::other("the cable is out"))
    }
}

// ---- what types are read of

#[test]
fn borrowing() {
    #[derive(Deserialize)]
    struct Borrowed<'a> {
        text: &'a str,
        #[serde(borrow, with = "serde_bytes")]
        bytes: &'a [u8],
    }
    let made = object(&[("text", Any::Text("a text".into())), ("bytes", Any::Bytes(b"\xff\xfe".to_vec()))]);
    let bytes = to_vec(&made).unwrap();
    let read: Borrowed<'_> = from_slice(&bytes).unwrap();
    assert_eq!((read.text, read.bytes), ("a text", &b"\xff\xfe"[..]));
    let within = bytes.as_ptr_range();
    assert!(within.contains(&read.text.as_ptr()) && within.contains(&read.bytes.as_ptr()));
    let tape = Tape::read(&bytes).unwrap();
    assert_eq!(tape.to_type::<Borrowed<'_>>().unwrap().text, "a text");
    let mut deserializer = kuvtsada_bser::Deserializer::new(&tape);
    assert_eq!(Any::deserialize(&mut deserializer).unwrap(), made);
}

#[derive(Debug, PartialEq, Serialize, Deserialize)]
enum Shape {
    Point,
    Circle(u32),
    Line(i8, i8),
    Box { width: u8, height: u8 },
}

#[test]
fn enums() {
    let shapes = vec![Shape::Point, Shape::Circle(9), Shape::Line(-1, 1), Shape::Box { width: 2, height: 3 }];
    let bytes = to_vec(&shapes).unwrap();
    assert_eq!(from_slice::<Vec<Shape>>(&bytes).unwrap(), shapes);
    // a text, and objects of one entry
    let wanted = b"\x00\x02\x00\x00\x00\x00\x03\x4b\x00\x03\x04\x0d\x03\x05Point\x01\x03\x01\x0d\x03\x06Circle\x03\x09\
                   \x01\x03\x01\x0d\x03\x04Line\x00\x03\x02\x03\xff\x03\x01\x01\x03\x01\x0d\x03\x03Box\x01\x03\x02\
                   \x0d\x03\x05width\x03\x02\x0d\x03\x06height\x03\x03";
    assert_eq!(bytes, wanted);
    let unit_of_object = b"\x00\x02\x00\x00\x00\x00\x03\x0c\x01\x03\x01\x02\x03\x05Point\x0a";
    assert_eq!(from_slice::<Shape>(unit_of_object).unwrap(), Shape::Point);
    let unknown = from_slice::<Shape>(&to_vec("Cone").unwrap()).unwrap_err();
    assert!(unknown.to_string().starts_with("unknown variant `Cone`"), "{unknown}");
    let found = from_slice::<Shape>(&to_vec(&5).unwrap()).unwrap_err();
    assert_eq!(found.to_string(), "invalid type: integer `5`, expected enum Shape, at byte 8");
}

#[test]
fn rows_of_a_template() {
    #[derive(Debug, PartialEq, Deserialize)]
    struct Row {
        kind: Shape,
        size: Option<u8>,
        #[serde(default)]
        note: Option<String>,
    }
    // keys kind, size; rows: "Point", 5; {"Circle": 7}, skipped
    let bytes = b"\x00\x02\x00\x00\x00\x00\x03\x2d\x0b\x00\x03\x02\x0d\x03\x04kind\x0d\x03\x04size\x03\x02\
                  \x02\x03\x05Point\x03\x05\x01\x03\x01\x0d\x03\x06Circle\x03\x07\x0c";
    let rows: Vec<Row> = from_slice(bytes).unwrap();
    let row = |kind, size| Row { kind, size, note: None };
    assert_eq!(rows, [row(Shape::Point, Some(5)), row(Shape::Circle(7), None)]);
    let maps: Vec<BTreeMap<String, Any>> = from_slice(bytes).unwrap();
    assert_eq!((&maps[0]["size"], &maps[1]["size"]), (&Any::Int(5), &Any::Null));
    // each row is an enum
    let bytes = b"\x00\x02\x00\x00\x00\x00\x03\x13\x0b\x00\x03\x01\x0d\x03\x06Circle\x03\x02\x03\x01\x03\x02";
    assert_eq!(from_slice::<Vec<Shape>>(bytes).unwrap(), [Shape::Circle(1), Shape::Circle(2)]);
    let found = kind_place_path(from_slice::<Vec<BTreeMap<String, bool>>>(bytes));
    assert_eq!(found, (ErrorKind::Type, 23, "[0].Circle".into()));
}

#[test]
fn attributes() {
    #[derive(Debug, PartialEq, Serialize, Deserialize)]
    #[serde(tag = "type", rename_all = "lowercase")]
    enum Tagged {
        File { size: u64 },
        Folder,
    }
    #[derive(Debug, PartialEq, Serialize, Deserialize)]
    struct Flat {
        own: i8,
        #[serde(flatten)]
        rest: BTreeMap<String, i64>,
    }
    #[derive(Debug, PartialEq, Serialize, Deserialize)]
    #[serde(untagged)]
    enum Either {
        Number(i64),
        Text(String),
    }
    fn again<T: Serialize + for<'de> Deserialize<'de> + PartialEq + fmt::Debug>(value: T) {
        let bytes = to_vec(&value).unwrap();
        assert_eq!(from_slice::<T>(&bytes).unwrap(), value);
        assert_eq!(from_reader::<_, T>(&bytes[..]).unwrap(), value);
    }
    again(Tagged::File { size: 3 });
    again(Tagged::Folder);
    again(Flat { own: 1, rest: BTreeMap::from([("a".into(), 2), ("b".into(), -3)]) });
    again(vec![Either::Number(5), Either::Text("five".into())]);
    again((1.5, 'é', Some(4u8), [true, false]));
    again(BTreeMap::from([("k".to_string(), serde_bytes::ByteBuf::from(vec![0xff]))]));
}

// ---- writing

#[test]
fn refused_values() {
    let refused = |error: Error| (error.kind(), error.to_string());
    let error = refused(to_vec(&u64::MAX).unwrap_err());
    assert_eq!(error, (ErrorKind::Value, "integer too big: 18446744073709551615".into()));
    assert_eq!(to_vec(&(i64::MAX as u64)).unwrap().len(), 17);
    let error = refused(to_vec(&BTreeMap::from([(1, 2)])).unwrap_err());
    assert_eq!(error, (ErrorKind::Value, "a key is no text in UTF-8".into()));
    let key = |bytes: &'static [u8]| BTreeMap::from([(serde_bytes::Bytes::new(bytes), 1)]);
    assert!(to_vec(&key(b"key")).is_ok());
    assert_eq!(refused(to_vec(&key(b"\xff")).unwrap_err()), error);
    let nested = |levels| (0..levels).fold(Any::Null, |inner, _| Any::Array(vec![inner]));
    let deepest = to_vec(&nested(128)).unwrap();
    assert_eq!(from_slice::<Any>(&deepest).unwrap(), nested(128));
    assert_eq!(refused(to_vec(&nested(129)).unwrap_err()), (ErrorKind::Value, "more levels than 128".into()));
}

#[test]
fn writers() {
    struct Full;
    impl io::Write for Full {
        fn write(&mut self, _: &[u8]) -> io::Result<usize> {
            Err(io::Error::other("the disk is full"))
        }
        fn flush(&mut self) -> io::Result<()> {
            Ok(())
        }
    }
    assert_eq!(serialize(Vec::new(), &5).unwrap(), b"\x00\x02\x00\x00\x00\x00\x03\x02\x03\x05");
    let Err(error) = serialize(Full, &5) else { panic!("a full disk takes nothing") };
    assert_eq!((error.kind(), error.to_string()), (ErrorKind::Io, "the disk is full".into()));
}
