"""Tests of Python code that runs while a call does: finalizers, codecs, files and other threads."""

import codecs
import collections
import gc
import io
import sys
import threading
import types
import unittest
import weakref

import kuvtsada_bser as bser

NAMES = [f"a\udcff{i}" for i in range(2000)]  # as surrogateescape gives names that are no UTF-8
KEYS = [f"é{i}" for i in range(2000)]
FILES = {f"k{i}": [b"v%d" % i] * 3 for i in range(300)}


class Cycle:
    """An object that the collector alone frees."""

    def __init__(self, freed=None):
        self.me, self.freed = self, freed

    def __del__(self):
        if self.freed is not None:
            self.freed()


def by_callback(change):
    """Changes at the collector's next start, and answers what undoes this."""

    def started(phase, _info):
        if phase == "start":
            change()

    gc.callbacks.append(started)
    return lambda: gc.callbacks.remove(started)


def by_weak_reference(change):
    reference = weakref.ref(Cycle(), lambda _: change())
    return lambda: reference


def by_finalizer(change):
    Cycle(change)
    return lambda: None


class Changed(unittest.TestCase):
    """What is written changes meanwhile, by code that the collector runs at the next object that it tracks, or
    with its own thresholds: a message or a RuntimeError comes of it."""

    def check(self, make, change, when, objects, lengths=None):
        value = make()
        gc.disable()
        gc.collect()
        undo = when(lambda: change(value))
        kept = [[] for _ in range(objects)]
        threshold = gc.get_threshold()
        if not kept:
            gc.set_threshold(1, 1, 1)
        gc.enable()
        try:
            message = bser.dumps(value)
        except RuntimeError:
            message = None
        finally:
            undo()
            gc.set_threshold(*threshold)
        if message is not None:
            self.assertIn(len(bser.loads(message)), lengths or [len(make())])

    def check_all(self, make, *changes, lengths=None):
        for when in (by_callback, by_weak_reference, by_finalizer):
            for change in changes:
                with self.subTest(when=when.__name__):
                    self.check(make, change, when, 0, lengths)

    def test_list(self):
        self.check_all(lambda: NAMES + [b"y" * 50] * 2000, list.clear, lambda x: x.extend(x), list.reverse)

    def test_rows(self):
        self.check_all(lambda: [{"name": name} for name in NAMES], list.clear,
                       lambda x: [row.clear() for row in x])

    def test_dict(self):
        self.check_all(lambda: dict.fromkeys(map(str, range(2000)), NAMES[0]), dict.clear,
                       lambda x: x.update({"more": 1}), lambda x: [x.pop(str(i)) for i in range(1000)])

    def test_names(self):
        """Keys that are not UTF-8 as they stand in memory."""
        self.check_all(lambda: dict.fromkeys(KEYS, b"y" * 50), dict.clear)

    def test_pairs(self):
        """Mappings of other types, whose pairs the collector alone finds; they may be empty at the start."""

        def clear_pairs(_value):
            for found in gc.get_objects():
                if type(found) is list and len(found) == len(KEYS) and type(found[0]) is tuple:
                    found.clear()

        entries = dict.fromkeys(KEYS, NAMES[0])
        self.check_all(lambda: types.MappingProxyType(dict(entries)), clear_pairs, lengths=[0, len(KEYS)])
        self.check_all(lambda: collections.UserDict(entries), collections.UserDict.clear, clear_pairs,
                       lengths=[0, len(KEYS)])

    def test_thresholds(self):
        for objects in range(640, 721):
            self.check(lambda: list(NAMES), list.clear, by_finalizer, objects)


class Codecs(unittest.TestCase):
    """A codec or a handler of errors, which is Python code in the midst of loads."""

    def setUp(self):
        self.given = []
        self.decode = lambda data: bytes(data).decode("latin-1")

        def search(name):
            return codecs.CodecInfo(None, decode, name=name) if name == "kuvtsada_test" else None

        def decode(data, errors="strict"):
            self.given.append(data)
            return self.decode(data), len(data)

        codecs.register(search)
        self.addCleanup(codecs.unregister, search)

    def loads(self, message, mutable=True, errors=None):
        return bser.loads(message, mutable, "kuvtsada_test", errors)

    def test_entered(self):
        """The codec enters each call, with more words and strings than the outer one has, and with fewer."""
        message, depth = bser.dumps(FILES), [0]

        def decode(data):
            if depth[0] == 0 and len(self.given) % 7 == 0:
                depth[0] = 1
                self.assertEqual(self.loads(message)["k299"], ["v299"] * 3)
                self.assertEqual(bser.loads(message, False).k7, (b"v7",) * 3)
                self.assertEqual(bser.loads(bser.dumps([b"x"] * 5000)), [b"x"] * 5000)
                self.assertEqual(bser.loads(bser.compact(bser.canonical(message))), FILES)
                depth[0] = 0
            return bytes(data).decode("latin-1")

        self.decode = decode
        for mutable in (True, False):
            value = self.loads(message, mutable)
            self.assertEqual([list(value[key]) for key in FILES],
                             [[names[0].decode()] * 3 for names in FILES.values()])

    def test_overwritten(self):
        """The codec writes over the message, whose length it cannot change."""
        message = bytearray(bser.dumps(FILES, 2))

        def decode(data):
            if len(self.given) == 50:
                message[20:] = b"\xff" * (len(message) - 20)
                for change in (message.clear, lambda: message.extend(b"x" * 10_000)):
                    with self.assertRaises(BufferError):
                        change()
            return bytes(data).decode("latin-1")

        self.decode = decode
        with self.assertRaises(UnicodeDecodeError):
            self.loads(message)
        message.clear()

    def test_kept(self):
        """The codec keeps what it was given, and the message is gone."""
        message = bser.dumps(b"y" * 100_000_000)
        self.loads(message)
        del message
        self.assertEqual(bytes(self.given[0][-2:]), b"yy")

    def test_results(self):
        message = bser.dumps([b"a", b"b"])
        for result in (None, b"a", 1):
            self.decode = lambda data: result
            with self.assertRaises(TypeError):
                self.loads(message)

        def fail(data):
            raise KeyError("no such name")

        self.decode = fail
        for mutable in (True, False):
            with self.assertRaises(KeyError):
                self.loads(message, mutable)
        for wrong in ("utf-8\0", "\0", "hex", "none of these"):
            with self.assertRaises((ValueError, LookupError, TypeError)):
                bser.loads(message, value_encoding=wrong)
            with self.assertRaises((ValueError, LookupError, TypeError)):
                bser.loads(bser.dumps(b"\xff"), value_encoding="utf-8", value_errors=wrong)

    def test_encodings(self):
        """Each way to decode, with handlers of errors, gives what bytes.decode does."""
        strings = [b"", b"a", b"caf\xc3\xa9", b"\xff\x80z", b"\x81"]
        message = bser.dumps(strings)
        for encoding in ("utf-8", "utf8", "UTF_8", "ascii", "latin-1", "iso8859-1", "cp1252", "utf-16-le"):
            for errors in ("ignore", "replace", "surrogateescape", "backslashreplace"):
                try:
                    expected = [string.decode(encoding, errors) for string in strings]
                except UnicodeDecodeError:
                    with self.assertRaises(UnicodeDecodeError):
                        bser.loads(message, value_encoding=encoding, value_errors=errors)
                else:
                    self.assertEqual(bser.loads(message, True, encoding, errors), expected)

    def test_handler(self):
        """A handler of errors enters loads, and puts other bytes into the place of those that are wrong."""
        message = bser.dumps([b"\xffa"] * 100)

        def handle(error):
            self.assertEqual(bser.loads(bser.dumps(FILES)), FILES)
            error.object = b"?"
            return "!", 1

        codecs.register_error("kuvtsada_test", handle)
        self.assertEqual(bser.loads(message, value_encoding="utf-8", value_errors="kuvtsada_test"), ["!"] * 100)

    def test_memory(self):
        """Codecs that fail keep no memory."""
        message = bser.dumps([{"a": [b"b", b"c"]}] * 9)

        def calls(times):
            for n in range(times):
                self.given.clear()
                self.decode = lambda data: "b" if len(self.given) % 5 != n % 5 else None
                for mutable in (True, False):
                    try:
                        self.loads(message, mutable)
                    except TypeError:
                        pass
            gc.collect()
            return sys.getallocatedblocks()

        self.assertLess(-calls(50) + calls(500), 50)


class Threads(unittest.TestCase):
    def test_threads(self):
        """Eight threads at once, which change places at each call and in the midst of loads, by a codec."""
        messages = [bser.dumps([{"name": b"n%d" % i, "size": i} for i in range(n)], 2) for n in (0, 1, 50, 500)]
        values = [bser.loads(message, value_encoding="latin-1") for message in messages]
        forms = [(bser.canonical(message), bser.compact(message)) for message in messages]
        info = codecs.CodecInfo(None, lambda data, errors="strict": (str(bytes(data), "latin-1"), len(data)))

        def search(name):
            return info if name == "kuvtsada_thread" else None

        done = []

        def work(seed):
            for i in range(100):
                at = (i + seed) % 4
                value = bser.loads(messages[at], True, "kuvtsada_thread")
                self.assertEqual(value, values[at])
                self.assertEqual(bser.loads(bser.dumps(value), True, "latin-1"), value)
                self.assertEqual(len(bser.loads(messages[at], False)), len(value))
                self.assertEqual((bser.canonical(messages[at]), bser.compact(messages[at])), forms[at])
            done.append(seed)

        codecs.register(search)
        interval = sys.getswitchinterval()
        sys.setswitchinterval(1e-6)
        try:
            threads = [threading.Thread(target=work, args=(seed,)) for seed in range(8)]
            for thread in threads:
                thread.start()
            for thread in threads:
                thread.join()
        finally:
            sys.setswitchinterval(interval)
            codecs.unregister(search)
        self.assertEqual(sorted(done), list(range(8)))


class Limits(unittest.TestCase):
    def test_empty(self):
        """An empty string where the last call left no memory for strings, since it took too much."""
        self.assertEqual(len(bser.dumps(b"y" * 9_000_000)), 9_000_013)
        self.assertEqual(bser.loads(bser.dumps(["", b""])), [b"", b""])

    def test_capabilities(self):
        self.assertEqual(bser.pdu_info(bser.dumps(1, 2, 0xFFFFFFFF))[1], 0xFFFFFFFF)
        self.assertEqual(bser.pdu_info(bser.dumps(1, 2, -1))[1], 0xFFFFFFFF)
        for wrong in (1 << 32, -(1 << 31) - 1):
            with self.assertRaises(bser.BserEncodeError):
                bser.dumps(1, 2, wrong)

    def test_subclasses(self):
        """What subclasses say of themselves is not asked, so they cannot say it wrong."""

        def wrong(*_):
            raise AssertionError("this is not called")

        names = ("__len__", "__iter__", "__getitem__", "__eq__", "__index__", "__int__", "__float__", "__str__",
                 "__bool__", "__contains__", "keys", "items", "encode", "__bytes__")
        of = {base: type(base.__name__, (base,), {**dict.fromkeys(names, wrong), "__hash__": lambda _: 0})
              for base in (list, tuple, dict, str, bytes, int, float)}
        value = of[list]([of[str]("a\xe9"), of[bytes](b"b"), of[int](5), of[float](0.5), of[tuple]((1, of[str]("c")))])
        self.assertEqual(bser.dumps(value), bser.dumps(["a\xe9", b"b", 5, 0.5, [1, "c"]]))
        value = of[dict]({"a": of[int](1), of[bytes](b"b"): of[list]()})
        self.assertEqual(bser.dumps(value), bser.dumps({"a": 1, "b": []}))

    def test_levels(self):
        """128 levels, and many more, in each call."""
        for levels in (127, 128, 129, 100_000):
            body = b"\0\3\1" * levels + b"\x08"
            message = b"\0\2\0\0\0\0\5" + len(body).to_bytes(4, "little") + body
            for call in (bser.loads, lambda m: bser.loads(m, False), bser.canonical, bser.compact):
                if levels <= 128:
                    call(message)
                else:
                    with self.assertRaises(bser.BserDecodeError) as caught:
                        call(message)
                    self.assertEqual(caught.exception.code, 52)

    def test_cycles(self):
        """An object that its own list of rows holds, which the collector frees, and one that it need not see."""
        rows = bytes.fromhex("0b000301" "0d030161" "0302" "0301" "0302")
        message = b"\0\1\3\x18" + bytes.fromhex("010301" "0d030162" "000301") + rows

        def calls(times):
            for _ in range(times):
                value = bser.loads(message, False)
                value.b[0].append(value)
            gc.collect()
            return sys.getallocatedblocks()

        self.assertLess(-calls(50) + calls(500), 50)
        value = bser.loads(message, False)
        rows = "[BserObject(('a',), (1,)), BserObject(('a',), (2,))]"
        self.assertEqual(repr(value), f"BserObject(('b',), (({rows},),))")
        self.assertEqual([gc.is_tracked(value), gc.is_tracked(value.b[0][0])], [True, False])

    def test_attributes(self):
        """A name that is not UTF-8 is that of no key."""
        row = bser.loads(bser.dumps({"a": 1}), False)
        self.assertFalse(hasattr(row, "\udcff"))
        with self.assertRaises(AttributeError):
            row["\udcff"]
        for make in (type(row), lambda: object.__new__(type(row)), lambda: type("Row", (type(row),), {})):
            with self.assertRaises(TypeError):
                make()

    def test_announced(self):
        """A head that announces more than memory could hold, before a message that is cut short."""

        class File:
            def __init__(self, data):
                self.readinto = io.BytesIO(data).readinto

        for length in (1 << 40, 1 << 62, (1 << 63) - 16, (1 << 63) - 1):
            head = b"\0\2\0\0\0\0\6" + length.to_bytes(8, "little")
            data = head + b"\x08"
            for file in (io.BytesIO(data), io.BufferedReader(io.BytesIO(data)), File(data)):
                with self.assertRaises(bser.BserDecodeError):
                    bser.load(file)


if __name__ == "__main__":
    unittest.main(verbosity=1)
