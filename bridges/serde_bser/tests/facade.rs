//! What the crate's tests leave out: values, byte strings, the heads that part a stream, and what differs.
use serde::{Deserialize, Serialize};
use serde_bser::bytestring::ByteString;
use serde_bser::de::{Bunser, Deserializer, SliceRead};
use serde_bser::ser::serialize;
use serde_bser::value::Value;
use std::collections::HashMap;

fn message<T: Serialize>(value: T) -> Vec<u8> {
    serialize(Vec::new(), value).unwrap()
}

#[test]
fn values() {
    let object = HashMap::from([("k".to_string(), Value::Array(vec![Value::Null, Value::Real(0.5)]))]);
    let value = Value::Array(vec![Value::Object(object), Value::ByteString(vec![0xff].into()), "text".into()]);
    let bytes = message(&value);
    assert_eq!(serde_bser::from_slice::<Value>(&bytes).unwrap(), value);
    assert_eq!(serde_bser::from_reader::<_, Value>(&bytes[..]).unwrap(), value);
    assert_eq!(Value::from(HashMap::new()), Value::Object(HashMap::new()));
    let path: Value = std::path::PathBuf::from("a/b").try_into().unwrap();
    assert_eq!(path, Value::ByteString("a/b".into()));
}

#[test]
fn escaped_strings() {
    let string = ByteString::from(b"a\xff\xe2\x82".to_vec());
    // the crate drops the character that is not whole
    assert_eq!(string.as_escaped_string(), "a\\xff\\xe2\\x82");
    let text: Result<String, _> = string.try_into();
    assert!(text.is_err());
}

#[test]
fn heads() {
    let bytes = message(vec![1; 200]);
    let pdu = Bunser::new(SliceRead::new(&bytes)).read_pdu().unwrap();
    assert_eq!((pdu.bser_capabilities, pdu.start, pdu.len), (0, 9, bytes.len() as i64 - 9));
    let cut = Bunser::new(SliceRead::new(&bytes[..7])).read_pdu().unwrap_err();
    assert_eq!(cut.to_string(), "the head of the message is not whole");
    assert!(Bunser::new(SliceRead::new(b"{\"a\": 1}")).read_pdu().is_err());
}

#[test]
fn a_deserializer() {
    let bytes = message(Some("lent"));
    let mut deserializer = Deserializer::new(SliceRead::new(&bytes)).unwrap();
    assert_eq!(deserializer.capabilities(), 0);
    assert_eq!(Option::<&str>::deserialize(&mut deserializer).unwrap(), Some("lent"));
    assert!(Deserializer::new(SliceRead::new(&bytes[..12])).is_err());
}

#[test]
fn where_the_crate_panics() {
    // an object that announces -1 entries; a text of -1 bytes; an array of 2^62 items
    for body in [&b"\x01\x03\xff"[..], b"\x0d\x03\xff", b"\x00\x06\x00\x00\x00\x00\x00\x00\x00\x40"] {
        let bytes = [b"\x00\x02\x00\x00\x00\x00\x03", &[body.len() as u8][..], body].concat();
        assert!(serde_bser::from_slice::<Value>(&bytes).is_err());
        assert!(serde_bser::from_reader::<_, Value>(&bytes[..]).is_err());
    }
}
