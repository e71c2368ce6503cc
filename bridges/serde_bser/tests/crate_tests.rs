/*
 * Copyright (c) Meta Platforms, Inc. and affiliates.
 *
 * This source code is licensed under the MIT license found in the
 * LICENSE file in the root directory of this source tree.
 */

//! The tests of serde_bser 0.4.0, as tests of its public calls. One byte of what is expected is another: see
//! `BASIC_SERIALIZED`.
#![allow(clippy::all, dead_code)]

mod bytestring_tests {
    use serde_bser::bytestring::ByteString;
    use serde_bser::from_slice;
    use serde_bser::ser::serialize;

    #[test]
    fn test_serde() {
        let bs = ByteString::from(vec![1, 2, 3, 4]);

        let out = serialize(Vec::<u8>::new(), &bs).unwrap();
        assert_eq!(
            out,
            b"\x00\x02\x00\x00\x00\x00\x03\x07\x02\x03\x04\x01\x02\x03\x04"
        );

        let got: ByteString = from_slice(&out).unwrap();
        assert_eq!(bs, got);
    }
}

mod ser_tests {
    use std::f64::consts;

    use serde::Serialize;

    use serde_bser::ser::serialize;

    #[derive(Debug, Serialize)]
    enum TestEnum {
        TestUnit,
        TestNewtype(#[serde(with = "serde_bytes")] &'static [u8]),
        TestTuple(i8, u64),
        TestStruct { abc: (), def: char },
    }

    #[derive(Debug, Serialize)]
    struct SerializeStruct {
        test_list: Vec<i32>,
        test_tuple: (String, Option<f64>),
        test_enum: TestEnum,
        test_enum_list: Vec<TestEnum>,
    }

    // In the crate the fields of TestStruct are 00 03 02, the head of an array of two items with four behind it. Here they
    // are an object, 01 03 02.
    const BASIC_SERIALIZED: &[u8] = b"\x00\x02\x00\x00\x00\x00\x04\xcb\x00\x01\x03\x04\r\x03\t\
                                      test_list\x00\x03\x05\x03\x03\x03\x04\x03*\x04\xdb\x03\x05\x00\
                                      \x00\x08\x00\r\x03\ntest_tuple\x00\x03\x02\r\x03\x03foo\x07\
                                      \x18-DT\xfb!\t@\r\x03\ttest_enum\r\x03\x08TestUnit\r\x03\x0e\
                                      test_enum_list\x00\x03\x03\x01\x03\x01\r\x03\x0bTestNewtype\
                                      \x02\x03\tBSER test\x01\x03\x01\r\x03\tTestTuple\x00\x03\x02\x03*\
                                      \x06\xff\xff\xff\xff\xff\xff\xff\x7f\x01\x03\x01\r\x03\n\
                                      TestStruct\x01\x03\x02\r\x03\x03abc\n\r\x03\x03\
                                      def\r\x03\x04\xf0\x9f\x92\xa9";

    #[test]
    fn test_basic_serialize() {
        let to_serialize = SerializeStruct {
            test_list: vec![3, 4, 42, 987, 2 << 18],
            test_tuple: ("foo".into(), Some(consts::PI)),
            test_enum: TestEnum::TestUnit,
            test_enum_list: vec![
                TestEnum::TestNewtype(&b"BSER test"[..]),
                TestEnum::TestTuple(42, i64::MAX as u64),
                TestEnum::TestStruct {
                    abc: (),
                    def: '\u{1f4a9}',
                },
            ],
        };

        let out = Vec::new();
        let out = serialize(out, to_serialize).unwrap();
        assert_eq!(out, BASIC_SERIALIZED);
    }
}

mod de_tests {
    use std::borrow::Cow;
    use std::collections::HashMap;
    use std::io::Cursor;

    use serde::Deserialize;

    use serde_bser::from_reader;
    use serde_bser::from_slice;

    // For "from_reader" data in owned and for "from_slice" data is borrowed

    #[derive(Debug, Deserialize, Eq, Hash, PartialEq)]
    struct Bytestring<'a>(#[serde(borrow)] Cow<'a, [u8]>);

    impl<'a> From<&'a [u8]> for Bytestring<'a> {
        fn from(value: &'a [u8]) -> Self {
            Bytestring(Cow::Borrowed(value))
        }
    }

    impl<'a, 'b> PartialEq<&'b [u8]> for Bytestring<'a> {
        fn eq(&self, rhs: &&'b [u8]) -> bool {
            self.0 == *rhs
        }
    }

    #[derive(Debug, Deserialize, Eq, PartialEq)]
    struct BytestringArray<'a>(#[serde(borrow)] Vec<Bytestring<'a>>);

    #[derive(Debug, Deserialize, Eq, PartialEq)]
    struct BytestringObject<'a>(#[serde(borrow)] HashMap<Bytestring<'a>, Bytestring<'a>>);

    #[derive(Debug, Deserialize, Eq, PartialEq)]
    struct TwoBytestrings<'a>(
        #[serde(borrow)] Bytestring<'a>,
        #[serde(borrow)] Bytestring<'a>,
    );

    #[derive(Debug, Deserialize, Eq, PartialEq)]
    enum BytestringVariant<'a> {
        TestUnit,
        TestNewtype(Bytestring<'a>),
        TestTuple(
            #[serde(borrow)] Bytestring<'a>,
            #[serde(borrow)] Bytestring<'a>,
        ),
        TestStruct {
            #[serde(borrow)]
            abc: Bytestring<'a>,
            #[serde(borrow)]
            def: Bytestring<'a>,
        },
    }

    #[derive(Debug, Deserialize, Eq, PartialEq)]
    enum StringVariant {
        TestUnit,
        TestNewtype(String),
        TestTuple(String, String),
        TestStruct { abc: String, def: String },
    }

    #[test]
    fn test_basic_array() {
        let bser_v2 =
            b"\x00\x02\x00\x00\x00\x00\x05\x11\x00\x00\x00\x00\x03\x02\x02\x03\x03Tom\x02\x03\x05Jerry";
        let decoded = from_slice::<BytestringArray<'_>>(bser_v2).unwrap();
        assert_eq!(decoded.0, vec![&b"Tom"[..], &b"Jerry"[..]]);

        let reader = Cursor::new(bser_v2.to_vec());
        let decoded: Vec<String> = from_reader(reader).unwrap();
        let expected = vec!["Tom", "Jerry"];
        assert_eq!(decoded, expected);
    }

    #[test]
    fn test_basic_object() {
        let bser_v2 =
            b"\x00\x02\x00\x00\x00\x00\x05\x0f\x00\x00\x00\x01\x03\x01\x02\x03\x03abc\x02\x03\x03def";
        let decoded = from_slice::<BytestringObject<'_>>(bser_v2).unwrap();
        let expected = HashMap::from([(Bytestring::from(&b"abc"[..]), Bytestring::from(&b"def"[..]))]);
        assert_eq!(decoded.0, expected);

        let reader = Cursor::new(bser_v2.to_vec());
        let decoded: HashMap<String, String> = from_reader(reader).unwrap();
        let expected = HashMap::from([("abc".into(), "def".into())]);
        assert_eq!(decoded, expected);
    }

    #[test]
    fn test_basic_tuple() {
        let bser_v2 =
            b"\x00\x02\x00\x00\x00\x00\x05\x11\x00\x00\x00\x00\x03\x02\x02\x03\x03Tom\x02\x03\x05Jerry";
        let decoded = from_slice::<TwoBytestrings<'_>>(bser_v2).unwrap();
        assert_eq!(decoded.0, &b"Tom"[..]);
        assert_eq!(decoded.1, &b"Jerry"[..]);

        let reader = Cursor::new(bser_v2.to_vec());
        let decoded: (String, String) = from_reader(reader).unwrap();
        let expected: (String, String) = ("Tom".into(), "Jerry".into());
        assert_eq!(decoded, expected);
    }

    #[test]
    fn test_bare_variant() {
        // "TestUnit"
        let bser_v2 = b"\x00\x02\x00\x00\x00\x00\x05\x0b\x00\x00\x00\x02\x03\x08TestUnit";
        let decoded = from_slice::<BytestringVariant<'_>>(bser_v2).unwrap();
        assert_eq!(decoded, BytestringVariant::TestUnit);

        let reader = Cursor::new(bser_v2.to_vec());
        let decoded: StringVariant = from_reader(reader).unwrap();
        assert_eq!(decoded, StringVariant::TestUnit);
    }

    #[test]
    fn test_unit_variant() {
        // {"TestUnit": null}
        let bser_v2 = b"\x00\x02\x00\x00\x00\x00\x05\x0f\x00\x00\x00\x01\x03\x01\x02\x03\x08TestUnit\n";
        let decoded = from_slice::<BytestringVariant<'_>>(bser_v2).unwrap();
        assert_eq!(decoded, BytestringVariant::TestUnit);

        let reader = Cursor::new(bser_v2.to_vec());
        let decoded: StringVariant = from_reader(reader).unwrap();
        assert_eq!(decoded, StringVariant::TestUnit);
    }

    #[test]
    fn test_newtype_variant() {
        // {"TestNewtype": "foobar"}
        let bser_v2 =
            b"\x00\x02\x00\x00\x00\x00\x05\x1a\x00\x00\x00\x01\x03\x01\x02\x03\x0bTestNewtype\
                        \x02\x03\x06foobar";
        let decoded = from_slice::<BytestringVariant<'_>>(bser_v2).unwrap();
        assert_eq!(
            decoded,
            BytestringVariant::TestNewtype((&b"foobar"[..]).into())
        );

        let reader = Cursor::new(bser_v2.to_vec());
        let decoded: StringVariant = from_reader(reader).unwrap();
        assert_eq!(decoded, StringVariant::TestNewtype("foobar".into()));
    }

    #[test]
    fn test_tuple_variant() {
        // {"TestTuple": ["foo", "bar"]}
        let bser_v2 = b"\x00\x02\x00\x00\x00\x00\x05\x1e\x00\x00\x00\x01\x03\x01\x02\x03\tTestTuple\
                        \x00\x03\x02\x02\x03\x03foo\x02\x03\x03bar";
        let decoded = from_slice::<BytestringVariant<'_>>(bser_v2).unwrap();
        assert_eq!(
            decoded,
            BytestringVariant::TestTuple((&b"foo"[..]).into(), (&b"bar"[..]).into())
        );

        let reader = Cursor::new(bser_v2.to_vec());
        let decoded: StringVariant = from_reader(reader).unwrap();
        assert_eq!(
            decoded,
            StringVariant::TestTuple("foo".into(), "bar".into())
        );
    }

    #[test]
    fn test_struct_variant() {
        // {"TestStruct": {"abc": "foo", "def": "bar"}}
        let bser_v2 = b"\x00\x02\x00\x00\x00\x00\x05+\x00\x00\x00\x01\x03\x01\x02\x03\nTestStruct\
                        \x01\x03\x02\x02\x03\x03abc\x02\x03\x03foo\x02\x03\x03def\x02\x03\x03bar";
        let decoded = from_slice::<BytestringVariant<'_>>(bser_v2).unwrap();
        assert_eq!(
            decoded,
            BytestringVariant::TestStruct {
                abc: (&b"foo"[..]).into(),
                def: (&b"bar"[..]).into(),
            }
        );

        let reader = Cursor::new(bser_v2.to_vec());
        let decoded: StringVariant = from_reader(reader).unwrap();
        assert_eq!(
            decoded,
            StringVariant::TestStruct {
                abc: "foo".into(),
                def: "bar".into(),
            }
        );
    }

    #[derive(Debug, Deserialize, Eq, PartialEq)]
    struct BytestringTemplateObject<'a> {
        abc: i32,
        #[serde(borrow)]
        def: Option<Bytestring<'a>>,
        ghi: Option<i64>,
    }

    #[derive(Debug, Deserialize, Eq, PartialEq)]
    struct TemplateObject {
        abc: i32,
        def: Option<String>,
        ghi: Option<i64>,
    }

    #[test]
    fn test_template() {
        // Logical expansion of this template:
        // [
        //   {"abc": 123, "def": "bar", "ghi": null},
        //   {"abc": 456,               "ghi": 789},
        // ]
        //
        // The second "def" is skipped.
        let bser_v2 = b"\x00\x02\x00\x00\x00\x00\x05(\x00\x00\x00\x0b\x00\x03\x03\x02\x03\x03abc\x02\
                        \x03\x03def\x02\x03\x03ghi\x03\x02\x03{\x02\x03\x03bar\n\x04\xc8\x01\x0c\x04\
                        \x15\x03";
        let decoded = from_slice::<Vec<BytestringTemplateObject<'_>>>(bser_v2).unwrap();
        assert_eq!(
            decoded,
            vec![
                BytestringTemplateObject {
                    abc: 123,
                    def: Some((&b"bar"[..]).into()),
                    ghi: None,
                },
                BytestringTemplateObject {
                    abc: 456,
                    def: None,
                    ghi: Some(789),
                },
            ]
        );

        let reader = Cursor::new(bser_v2.to_vec());
        let decoded: Vec<TemplateObject> = from_reader(reader).unwrap();
        assert_eq!(
            decoded,
            vec![
                TemplateObject {
                    abc: 123,
                    def: Some("bar".into()),
                    ghi: None,
                },
                TemplateObject {
                    abc: 456,
                    def: None,
                    ghi: Some(789),
                },
            ]
        );
    }

    #[derive(Debug, Deserialize, PartialEq)]
    #[serde(untagged)]
    pub enum RequestResult<T, E> {
        Error(E),
        Ok(T),
    }

    #[derive(Debug, Deserialize, PartialEq)]
    pub struct FileInfo {
        name: String,
        size: u32,
    }

    #[derive(Debug, Deserialize, PartialEq)]
    pub struct Files {
        files: Vec<FileInfo>,
    }

    #[derive(Debug, Deserialize, PartialEq)]
    pub struct RequestError {
        error: String,
    }

    #[derive(Debug, Deserialize, PartialEq)]
    pub struct BytestringFileInfo<'a> {
        #[serde(borrow)]
        name: Bytestring<'a>,
        size: u32,
    }

    #[derive(Debug, Deserialize, PartialEq)]
    pub struct BytestringFiles<'a> {
        #[serde(borrow)]
        files: Vec<BytestringFileInfo<'a>>,
    }

    #[derive(Debug, Deserialize, PartialEq)]
    pub struct BytestringRequestError<'a> {
        #[serde(borrow)]
        error: Bytestring<'a>,
    }

    #[test]
    fn test_compact_arrays() {
        // {
        //  "files": [
        //      {
        //          "name": "fbcode/scm/hg/lib/hg_watchman_client/tester/target/debug",
        //          "size": 384
        //      },
        //      {
        //          "name": "fbcode/scm/hg/lib/hg_watchman_client/tester/target/debug/deps",
        //          "size": 3200
        //      },
        //   ]
        // }

        let bser_v2 = b"\x00\x02\x00\x00\x00\x00\x04\xeb\x00\x01\x03\x04\x02\x03\x05files\x0b\x00\x03\x02\x0d\x03\x04name\x0d\x03\x04size\x03\x02\x02\x038fbcode/scm/hg/lib/hg_watchman_client/tester/target/debug\x04\x80\x01\x02\x03\x3dfbcode/scm/hg/lib/hg_watchman_client/tester/target/debug/deps\x04\x80\x0c\x02\x03\x05clock\x0d\x03\x19c\x3a1525428959\x3a45796\x3a2\x3a7717\x02\x03\x11is_fresh_instance\x09\x02\x03\x07version\x0d\x03\x054.9.1";

        let decoded = from_slice::<BytestringFiles<'_>>(bser_v2).unwrap();

        assert_eq!(
            decoded,
            BytestringFiles {
                files: vec![
                    BytestringFileInfo {
                        name: (&b"fbcode/scm/hg/lib/hg_watchman_client/tester/target/debug"[..]).into(),
                        size: 384,
                    },
                    BytestringFileInfo {
                        name: (&b"fbcode/scm/hg/lib/hg_watchman_client/tester/target/debug/deps"[..])
                            .into(),
                        size: 3200,
                    },
                ],
            }
        );

        let reader = Cursor::new(bser_v2.to_vec());
        let decoded: Files = from_reader(reader).unwrap();

        assert_eq!(
            decoded,
            Files {
                files: vec![
                    FileInfo {
                        name: "fbcode/scm/hg/lib/hg_watchman_client/tester/target/debug".into(),
                        size: 384,
                    },
                    FileInfo {
                        name: "fbcode/scm/hg/lib/hg_watchman_client/tester/target/debug/deps".into(),
                        size: 3200,
                    },
                ],
            }
        );
    }

    #[test]
    fn test_compact_arrays_untagged_enum() {
        let bser_v2 = b"\x00\x02\x00\x00\x00\x00\x04\xeb\x00\x01\x03\x04\x02\x03\x05files\x0b\x00\x03\x02\x0d\x03\x04name\x0d\x03\x04size\x03\x02\x02\x038fbcode/scm/hg/lib/hg_watchman_client/tester/target/debug\x04\x80\x01\x02\x03\x3dfbcode/scm/hg/lib/hg_watchman_client/tester/target/debug/deps\x04\x80\x0c\x02\x03\x05clock\x0d\x03\x19c\x3a1525428959\x3a45796\x3a2\x3a7717\x02\x03\x11is_fresh_instance\x09\x02\x03\x07version\x0d\x03\x054.9.1";

        let decoded =
            from_slice::<RequestResult<BytestringFiles<'_>, BytestringRequestError<'_>>>(bser_v2)
                .unwrap();

        assert_eq!(
            decoded,
            RequestResult::Ok(BytestringFiles {
                files: vec![
                    BytestringFileInfo {
                        name: (&b"fbcode/scm/hg/lib/hg_watchman_client/tester/target/debug"[..]).into(),
                        size: 384,
                    },
                    BytestringFileInfo {
                        name: (&b"fbcode/scm/hg/lib/hg_watchman_client/tester/target/debug/deps"[..])
                            .into(),
                        size: 3200,
                    },
                ],
            })
        );

        let reader = Cursor::new(bser_v2.to_vec());

        let decoded: RequestResult<Files, RequestError> = from_reader(reader).unwrap();

        assert_eq!(
            decoded,
            RequestResult::Ok(Files {
                files: vec![
                    FileInfo {
                        name: "fbcode/scm/hg/lib/hg_watchman_client/tester/target/debug".into(),
                        size: 384,
                    },
                    FileInfo {
                        name: "fbcode/scm/hg/lib/hg_watchman_client/tester/target/debug/deps".into(),
                        size: 3200,
                    },
                ],
            })
        );
    }

    #[test]
    // non compact arrays
    fn test_arrays() {
        // {
        //    "files": [
        //      {
        //          "name": "fbcode/scm/hg/lib/hg_watchman_client/tester/target/debug",
        //          "size": 384
        //      },
        //      {
        //          "name": "fbcode/scm/hg/lib/hg_watchman_client/tester",
        //          "size": 224
        //      }
        //    ]
        // }

        let bser_v2 = b"\x00\x02\x00\x00\x00\x00\x04\xea\x00\x01\x03\x04\x02\x03\x07version\x02\x03\x054.9.1\x02\x03\x11is_fresh_instance\x09\x02\x03\x05clock\x02\x03\x19c\x3a1525428959\x3a45796\x3a2\x3a9642\x02\x03\x05files\x00\x03\x02\x01\x03\x02\x02\x03\x04size\x04\x80\x01\x02\x03\x04name\x02\x038fbcode/scm/hg/lib/hg_watchman_client/tester/target/debug\x01\x03\x02\x02\x03\x04size\x04\xe0\x00\x02\x03\x04name\x02\x03\x2bfbcode/scm/hg/lib/hg_watchman_client/tester";

        let decoded = from_slice::<BytestringFiles<'_>>(bser_v2).unwrap();

        assert_eq!(
            decoded,
            BytestringFiles {
                files: vec![
                    BytestringFileInfo {
                        name: (&b"fbcode/scm/hg/lib/hg_watchman_client/tester/target/debug"[..]).into(),
                        size: 384,
                    },
                    BytestringFileInfo {
                        name: (&b"fbcode/scm/hg/lib/hg_watchman_client/tester"[..]).into(),
                        size: 224,
                    },
                ],
            }
        );

        let reader = Cursor::new(bser_v2.to_vec());
        let decoded: Files = from_reader(reader).unwrap();

        assert_eq!(
            decoded,
            Files {
                files: vec![
                    FileInfo {
                        name: "fbcode/scm/hg/lib/hg_watchman_client/tester/target/debug".into(),
                        size: 384,
                    },
                    FileInfo {
                        name: "fbcode/scm/hg/lib/hg_watchman_client/tester".into(),
                        size: 224,
                    },
                ],
            }
        );
    }

    #[test]
    // non compact arrays
    fn test_arrays_untagged_enum() {
        let bser_v2 = b"\x00\x02\x00\x00\x00\x00\x04\xea\x00\x01\x03\x04\x02\x03\x07version\x02\x03\x054.9.1\x02\x03\x11is_fresh_instance\x09\x02\x03\x05clock\x02\x03\x19c\x3a1525428959\x3a45796\x3a2\x3a9642\x02\x03\x05files\x00\x03\x02\x01\x03\x02\x02\x03\x04size\x04\x80\x01\x02\x03\x04name\x02\x038fbcode/scm/hg/lib/hg_watchman_client/tester/target/debug\x01\x03\x02\x02\x03\x04size\x04\xe0\x00\x02\x03\x04name\x02\x03\x2bfbcode/scm/hg/lib/hg_watchman_client/tester";

        let decoded =
            from_slice::<RequestResult<BytestringFiles<'_>, BytestringRequestError<'_>>>(bser_v2)
                .unwrap();

        assert_eq!(
            decoded,
            RequestResult::Ok(BytestringFiles {
                files: vec![
                    BytestringFileInfo {
                        name: (&b"fbcode/scm/hg/lib/hg_watchman_client/tester/target/debug"[..]).into(),
                        size: 384,
                    },
                    BytestringFileInfo {
                        name: (&b"fbcode/scm/hg/lib/hg_watchman_client/tester"[..]).into(),
                        size: 224,
                    },
                ],
            })
        );

        let reader = Cursor::new(bser_v2.to_vec());
        let decoded: RequestResult<Files, RequestError> = from_reader(reader).unwrap();

        assert_eq!(
            decoded,
            RequestResult::Ok(Files {
                files: vec![
                    FileInfo {
                        name: "fbcode/scm/hg/lib/hg_watchman_client/tester/target/debug".into(),
                        size: 384,
                    },
                    FileInfo {
                        name: "fbcode/scm/hg/lib/hg_watchman_client/tester".into(),
                        size: 224,
                    },
                ],
            })
        );
    }
}
