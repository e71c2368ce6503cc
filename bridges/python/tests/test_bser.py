"""Tests of the package, against values that were made by hand or elsewhere."""

import array
import collections
import collections.abc
import gc
import hashlib
import io
import math
import os
import sys
import types
import unittest
from pathlib import Path

import kuvtsada_bser as bser

DATA = Path(os.environ["BSER_DATA"])
TEMPLATE = bytes.fromhex("0002010000000311" "0b000302" "0d030161" "02030162" "0301" "0302" "0c")


def rows(name):
    """The rows of a table whose second column is a message in hexadecimal."""
    for line in (DATA / name).read_text().splitlines():
        yield line.split("\t")


def dump(value):
    """A value as the tables print it; strings have to be read as bytes."""
    if value is None:
        return "n"
    if isinstance(value, bool):
        return "t" if value else "f"
    if isinstance(value, int):
        return f"i{value}"
    if isinstance(value, float):
        return "r"
    if isinstance(value, bytes):
        return f"b{value.hex()}"
    if isinstance(value, str):
        return f"s{value.encode().hex()}"
    if isinstance(value, list):
        return "[" + ",".join(map(dump, value)) + "]"
    entries = sorted((key.encode(), item) for key, item in value.items())
    return "{" + ",".join(f"{key.hex()}:{dump(item)}" for key, item in entries) + "}"


def without_reals(text):
    """The printed value, without the digits of its reals."""
    out, skip = [], 0
    for i, c in enumerate(text):
        if skip:
            skip -= 1
            continue
        out.append(c)
        if c == "r" and (i == 0 or text[i - 1] in "[,:"):
            skip = 16
    return "".join(out)


class Tables(unittest.TestCase):
    def test_values(self):
        """Each message of the tables is read as their value, or is an error."""
        seen = {"ok": 0, "err": 0}
        for name in ("sample.tsv", "lines.tsv"):
            for row in rows(name):
                message, verdict, what = bytes.fromhex(row[1]), row[2], row[3]
                seen[verdict] += 1
                if verdict == "ok":
                    message = message[: int(row[4])]
                    self.assertEqual(dump(bser.loads(message)), without_reals(what), row)
                    self.assertEqual(bser.pdu_len(message), len(message))
                else:
                    with self.assertRaises(bser.BserDecodeError):
                        bser.loads(message)
        self.assertGreater(min(seen.values()), 500)
        print(f"values: {seen['ok']} read, {seen['err']} refused")

    def check_form(self, written, form):
        """A form in hexadecimal, or its length and its SHA-256."""
        if form.startswith("#"):
            self.assertEqual(f"#{len(written)}:{hashlib.sha256(written).hexdigest()}", form)
        else:
            self.assertEqual(written.hex(), form)

    def test_forms(self):
        """The canonical and the compact message are those of the tables, of recordings too."""
        count = 0
        messages = [
            (bytes.fromhex(row[1]), row[7], row[8])
            for name in ("sample.tsv", "lines.tsv") for row in rows(name) if row[2] == "ok"
        ]
        for name, _, canonical, compact in rows("recorded.tsv"):
            messages.append(((DATA / name).read_bytes(), canonical, compact))
        for message, canonical, compact in messages:
            self.check_form(bser.canonical(message), canonical)
            self.check_form(bser.compact(message), compact)
            count += 1
        self.assertGreater(count, 1000)
        print(f"forms: {count}")

    def test_version1(self):
        """A message with a head of version 1 has the same value, and its errors the same place."""
        count = 0
        for row in rows("sample.tsv"):
            message = bytes.fromhex(row[1])
            other = b"\0\1" + message[6:]
            if message[:6] != b"\0\2\0\0\0\0":
                continue
            count += 1
            try:
                self.assertEqual(repr(bser.loads(message)), repr(bser.loads(other)))
            except bser.BserDecodeError as error:
                with self.assertRaises(bser.BserDecodeError) as caught:
                    bser.loads(other)
                self.assertEqual(caught.exception.code, error.code)
                self.assertEqual(caught.exception.place, max(error.place - 4, 0))
                self.assertIn(f", at byte {caught.exception.place}", str(caught.exception))
        self.assertGreater(count, 1000)
        print(f"version 1: {count}")


    def test_places(self):
        """What is no message is told at the place that each way of reading tells."""
        count = 0
        names, *cases = rows("errors.tsv")
        for case in (dict(zip(names, row)) for row in cases):
            # (a message of version 1 is read here, and refused for its body)
            if case["read as"] != "Value" or case["case"] == "version 1":
                continue
            with self.assertRaises(bser.BserDecodeError) as caught:
                bser.loads(bytes.fromhex(case["message"]))
            self.assertEqual(caught.exception.place, int(case["place"]), case["case"])
            count += 1
        self.assertGreater(count, 15)
        print(f"places: {count}")


class Pairs(collections.abc.Mapping):
    """A mapping of these items."""

    def __init__(self, pairs):
        self.pairs = pairs

    def __len__(self):
        return len(self.pairs)

    def __iter__(self):
        return iter(self.pairs)

    def __getitem__(self, key):
        return dict(self.pairs)[key]

    def items(self):
        return self.pairs


class Failing(collections.abc.Sequence):
    def __len__(self):
        return 1

    def __getitem__(self, at):
        return 1 // 0


class Sized:
    """Has a length and items, and is neither a mapping nor a sequence."""

    def __len__(self):
        return 1

    def __getitem__(self, at):
        return 1


class Values(unittest.TestCase):
    def test_reals(self):
        for real in (0.0, -0.0, 1.5, 1e300, math.inf, -math.inf, 5e-324):
            read = bser.loads(bser.dumps(real))
            self.assertEqual((read, math.copysign(1, read)), (real, math.copysign(1, real)))
        self.assertTrue(math.isnan(bser.loads(bser.dumps(math.nan))))

    def test_template(self):
        self.assertEqual(bser.loads(TEMPLATE), [{"a": 2, "b": None}])
        (row,) = bser.loads(TEMPLATE, False)
        self.assertEqual((row.a, row["a"], row[0], row.st_a, row["b"], len(row)), (2, 2, 2, 2, None, 2))
        self.assertEqual(list(row), [2, None])
        for wrong in ("c", 2, -3):
            with self.assertRaises((AttributeError, IndexError)):
                row[wrong]
        self.assertEqual(repr(row), "BserObject(('a', 'b'), (2, None))")

    def test_not_mutable(self):
        value = bser.loads(bser.dumps({"a": [1, {"b": ()}]}), mutable=False)
        self.assertEqual((value.a[0], value.a[1].b), (1, ()))

    def test_long(self):
        """A tape that is too long to be kept, whose memory is given back as it is read."""
        value = [{"number": i, "same": 70000, "name": b"%d" % i} for i in range(50_000)]
        message = bser.dumps(value)
        self.assertEqual(bser.loads(message), value)
        rows = bser.loads(message, False)
        self.assertEqual([tuple(row) for row in rows], [tuple(row.values()) for row in value])
        template = bser.compact(message)
        self.assertLess(len(template), len(message) / 2)
        self.assertEqual(sorted(map(repr, bser.loads(template))), sorted(
            repr(dict(sorted(row.items()))) for row in value))

    def test_keys(self):
        """Keys of all lengths, and some that share a place among the keys that are kept."""
        value = {name * times: times for times in (1, 2, 9, 40) for name in ("a", "b", "mtime_ms", "mtime_us", "ключ")}
        value[""] = 0
        for _ in range(3):
            self.assertEqual(bser.loads(bser.dumps([value, value])), [value, value])

    def test_short_lists(self):
        """Lists of byte strings of all lengths, some of which share a place among those that are kept."""
        words = [b"x" * n for n in range(18)] + [b"query", b"mtime_ms", b"mtime_us", b"\xff\xfe"]
        words += [b"head%dtail" % i for i in range(12)] + [b"head%08dtail" % i for i in range(12)]
        for _ in range(3):
            for at in range(len(words)):
                value = [words[at:at + 16], [words[:at], words[at]]]
                message = bser.dumps(value)
                self.assertEqual(bser.loads(message), value)
                self.assertEqual(bser.loads(message, value_encoding="latin-1")[1][1], words[at].decode("latin-1"))

    def test_arguments(self):
        message = bser.dumps(1)
        self.assertEqual(bser.loads(buf=message, value_errors=None), 1)
        self.assertEqual(bser.loads(message.decode()), 1)
        self.assertEqual(bser.dumps(val=1, capabilities=0), message)
        for wrong in (lambda: bser.loads(), lambda: bser.loads(message, True, None, None, 5), lambda: bser.loads(1),
                      lambda: bser.loads(message, other=1), lambda: bser.loads(message, buf=message),
                      lambda: bser.loads(message, value_encoding=1), lambda: bser.dumps(1, "2")):
            with self.assertRaises(TypeError):
                wrong()

    def test_encodings(self):
        message = bser.dumps([b"caf\xc3\xa9", b"\xff"])
        self.assertEqual(bser.loads(message), [b"caf\xc3\xa9", b"\xff"])
        self.assertEqual(bser.loads(message, True, "utf-8", "surrogateescape"), ["café", "\udcff"])
        with self.assertRaises(UnicodeDecodeError):
            bser.loads(message, value_encoding="utf-8")
        with self.assertRaises(LookupError):
            bser.loads(message, value_encoding="none of these")

    def test_levels(self):
        deep = []
        for _ in range(127):
            deep = [deep]
        self.assertEqual(bser.loads(bser.dumps(deep)), deep)
        with self.assertRaises(bser.BserEncodeError):
            bser.dumps([deep])
        itself = []
        itself.append(itself)
        with self.assertRaises(bser.BserEncodeError):
            bser.dumps(itself)

    def test_dumps(self):
        self.assertEqual(bser.dumps({"a": b"\xff"}).hex(), "000105" "0b000000" "0103010203016102" "0301ff")
        self.assertEqual(bser.dumps(-1, 2, 0x01020304).hex(), "0002" "04030201" "0502000000" "03ff")
        for wrong in (1 << 63, -(1 << 63) - 1, object(), {1, 2}):
            with self.assertRaises(bser.BserEncodeError):
                bser.dumps(wrong)
        with self.assertRaises(TypeError):
            bser.dumps({1: 2})
        with self.assertRaises(bser.BserEncodeError) as caught:
            bser.dumps({b"\xff": 2})
        self.assertEqual(str(caught.exception), "a key that is not UTF-8")
        with self.assertRaises(bser.BserEncodeError):
            bser.dumps(1, version=3)

    def test_dumps_surrogates(self):
        """A str has the bytes that it escapes, and nothing of it is left out."""
        for name in (b"a\xff", b"caf\xc3\xa9", b"\xed\xa0\x80", bytes(range(1, 256))):
            text = name.decode("utf-8", "surrogateescape")
            message = bser.dumps([text])
            self.assertEqual(bser.loads(message), [name])
            self.assertEqual(bser.loads(message, True, "utf-8", "surrogateescape"), [text])
        self.assertEqual(bser.dumps("a\udcff").hex(), "000105" "05000000" "020302" "61ff")
        self.assertEqual(bser.dumps({"\udcc3\udca9": 1}), bser.dumps({"é": 1}))
        for wrong, why in (("a\ud800b", "a str with a lone surrogate"), ("\udc7f", "a str with a lone surrogate"),
                           ({"a\udcff": 1, "a": 2}, "a key that is not UTF-8"),
                           ({"a\ud800": 1}, "a str with a lone surrogate")):
            with self.assertRaises(bser.BserEncodeError) as caught:
                bser.dumps(wrong)
            self.assertEqual(str(caught.exception), why)

    def test_dumps_others(self):
        """Bytes, sequences and mappings of other types are written as bytes, arrays and objects."""
        numbers, letters = "0003030300" "03010302", "0103010203016102" "0301ff"
        for value, body in (
                (range(3), numbers), (array.array("h", [0, 1, 2]), numbers), (collections.deque(range(3)), numbers),
                (collections.UserList(range(3)), numbers), (range(0), "000300"), (array.array("d", [1.5]), "000301" "07000000000000f83f"),
                (bytearray(b"a\xff"), "02030261ff"), (memoryview(b"a\xff"), "02030261ff"), (memoryview(b"a\0\xff")[::2], "02030261ff"),
                (memoryview(array.array("B", [97, 255])), "02030261ff"), (bytearray(), "020300"),
                (collections.UserDict({"a": b"\xff"}), letters), (types.MappingProxyType({"a": b"\xff"}), letters),
                (collections.ChainMap({"a": b"\xff"}, {"a": 2}), letters), (types.MappingProxyType({}), "010300"),
                (collections.OrderedDict(a=b"\xff"), letters), (Pairs([("a", b"\xff")]), letters)):
            message = bytes.fromhex(body)
            self.assertEqual(bser.dumps(value).hex(), "000105" + len(message).to_bytes(4, "little").hex() + body, value)
        rows = bser.loads(TEMPLATE, False)
        self.assertEqual(bser.loads(bser.dumps(rows)), [{"a": 2, "b": None}])
        self.assertEqual(bser.loads(bser.dumps([range(2), {"x": bytearray(b"y")}])), [[0, 1], {"x": b"y"}])

    def test_dumps_no_others(self):
        """What is neither is refused, and so are a mapping of wrong items and one that fails."""
        for wrong in (Sized(), iter([1]), {1, 2}, frozenset(), (n for n in range(3)), range, 1j):
            with self.assertRaises(bser.BserEncodeError) as caught:
                bser.dumps(wrong)
            self.assertEqual(str(caught.exception), "Unsupported value type")
        for wrong in (Pairs([("a", 1, 2)]), Pairs([5]), collections.UserDict({1: 2})):
            with self.assertRaises(TypeError):
                bser.dumps(wrong)
        with self.assertRaises(ZeroDivisionError):
            bser.dumps(Failing())
        with self.assertRaises(ValueError):
            released = memoryview(b"a")
            released.release()
            bser.dumps(released)
        for deep in (collections.UserList, lambda x: types.MappingProxyType({"a": x[0]})):
            value = 1
            for _ in range(128):
                value = deep([value])
            self.assertEqual(len(bser.loads(bser.dumps(value))), 1)
            with self.assertRaises(bser.BserEncodeError) as caught:
                bser.dumps(deep([value]))
            self.assertEqual(str(caught.exception), "more than 128 levels")

    def test_errors(self):
        message = bytes.fromhex("00010305" "0003010314"[:10])
        with self.assertRaises(bser.BserDecodeError) as caught:
            bser.loads(bytes.fromhex("000103040003" "0114"))
        self.assertEqual(str(caught.exception), "unknown byte 0x14 where a value is wanted, at byte 7, in [0]")
        self.assertEqual((caught.exception.code, caught.exception.byte), (16, 0x14))
        with self.assertRaises(bser.BserDecodeError) as caught:
            bser.loads(message[:3])
        self.assertEqual((caught.exception.code, caught.exception.place), (48, 3))
        with self.assertRaises(bser.BserDecodeError) as caught:
            bser.loads(TEMPLATE + b"x")
        self.assertEqual(str(caught.exception), "bser data len != header len, at byte 25")
        self.assertEqual((caught.exception.code, caught.exception.place), (53, 25))
        for empty in (b"", bytearray(), memoryview(b"")):
            with self.assertRaises(bser.BserDecodeError):
                bser.loads(empty)

    def test_pdu(self):
        self.assertEqual(bser.pdu_info(TEMPLATE), (2, 1, 25))
        self.assertEqual(bser.pdu_info(b"\0\1\3\5"), (1, 0, 9))
        self.assertEqual(bser.pdu_len(bytearray(b"\0\1\4\0\1")), 261)
        for wrong, code in ((b"", 1), (b"\0\2", 1), (b"\0\1\3", 1), (b"ab", 54), (b"\0\1\x0a\0", 17)):
            with self.assertRaises(bser.BserDecodeError) as caught:
                bser.pdu_len(wrong)
            self.assertEqual(caught.exception.code, code)

    def test_pdu_that_announces_too_much(self):
        """One text, code and place, whatever follows the head."""
        length = b"\x06" + 7 * b"\xff" + b"\x7f"
        for behind in (b"", b"\x0e", b"\x0a", b"\x06" + 7 * b"\0" + b"\x80"):
            for head, place in ((b"\0\2\0\0\0\0", 15), (b"\0\1", 11)):
                for call in (bser.pdu_info, bser.pdu_len):
                    with self.assertRaises(bser.BserDecodeError) as caught:
                        call(head + length + behind)
                    self.assertEqual(str(caught.exception), f"count too great, at byte {place}")
                    self.assertEqual((caught.exception.code, caught.exception.place), (43, place))

    def test_load(self):
        file = io.BytesIO(b"\0\1\3\1\x0a" + TEMPLATE + b"\0\1\3\1\x08" + b"\0\2\0")
        self.assertEqual(bser.load(file), None)
        self.assertEqual(bser.load(file), [{"a": 2, "b": None}])
        self.assertEqual(bser.load(file), True)
        with self.assertRaises(bser.BserDecodeError):
            bser.load(file)
        self.assertEqual(bser.load(file), None)

    def test_memory(self):
        """Many calls, with errors too, keep no memory."""
        wrong, right = b"\0\1\3\4\0\3\1\x14", bser.dumps([{"a": [1.5, "b", b"c"]}] * 9)

        def calls():
            for mutable in (True, False):
                bser.loads(right, mutable)
                for call in (bser.loads, bser.canonical, bser.pdu_len):
                    try:
                        call(wrong)
                    except bser.BserDecodeError:
                        pass
            try:
                bser.dumps([right, {"a": object()}])
            except bser.BserEncodeError:
                pass

        for _ in range(50):
            calls()
        gc.collect()
        before = sys.getallocatedblocks()
        for _ in range(500):
            calls()
        gc.collect()
        self.assertLess(sys.getallocatedblocks() - before, 50)


if __name__ == "__main__":
    unittest.main(verbosity=1)
