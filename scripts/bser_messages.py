"""Messages of BSER version 2, written and read by Python alone."""
import struct

WIDTHS = {3: 1, 4: 2, 5: 4, 6: 8}  # the tags of integers, and how many bytes follow each
SKIP = object()  # what a row of a template leaves out


def number(value):
    """An integer of the least width."""
    for tag, width in WIDTHS.items():
        if -(1 << 8 * width - 1) <= value < 1 << 8 * width - 1:
            return bytes([tag]) + value.to_bytes(width, "little", signed=True)
    raise ValueError(value)


def string(text):
    return b"\x02" + number(len(text)) + text


def value(what):
    """A value: None, a truth, an integer, text, bytes, a list or a dictionary."""
    if what is None:
        return b"\x0a"
    if isinstance(what, bool):
        return b"\x08" if what else b"\x09"
    if isinstance(what, int):
        return number(what)
    if isinstance(what, list):
        return b"\x00" + number(len(what)) + b"".join(map(value, what))
    if isinstance(what, dict):
        fields = (value(key) + value(field) for key, field in what.items())
        return b"\x01" + number(len(what)) + b"".join(fields)
    return string(what if isinstance(what, bytes) else what.encode())


def framed(body):
    """A message of version 2 whose value is written already."""
    return b"\x00\x02" + bytes(4) + number(len(body)) + body


def message(what):
    return framed(value(what))


def length(data, at=0):
    """How many bytes the message at this place has, of either version. None if it is not whole."""
    head = at + (2 if data[at + 1 : at + 2] == b"\x01" else 6)
    if len(data) <= head or len(data) <= head + WIDTHS[data[head]]:
        return None
    body, behind = read(data, head)
    end = behind + body
    return end - at if len(data) >= end else None


def messages(data):
    """The whole messages of these bytes, each as bytes, and what is left."""
    found, at = [], 0
    while (long := length(data, at)) is not None:
        found.append(bytes(data[at : at + long]))
        at += long
    return found, data[at:]


def decoded(data):
    """The value of a message of version 2. Texts are bytes, and keys are strings."""
    _body, behind = read(data, 6)
    return read(data, behind)[0]


def read(data, at):
    """The value at this place, and the place behind it."""
    tag, at = data[at], at + 1
    if tag in WIDTHS:
        return int.from_bytes(data[at : at + WIDTHS[tag]], "little", signed=True), at + WIDTHS[tag]
    if tag in (2, 13):
        long, at = read(data, at)
        return bytes(data[at : at + long]), at + long
    if tag == 0:
        return read_items(data, at)
    if tag == 1:
        return read_fields(data, at)
    if tag == 7:
        return struct.unpack_from("<d", data, at)[0], at + 8
    if tag == 11:
        return read_rows(data, at)
    return {8: True, 9: False, 10: None, 12: SKIP}[tag], at


def read_items(data, at):
    count, at = read(data, at)
    items = []
    for _ in range(count):
        item, at = read(data, at)
        items.append(item)
    return items, at


def read_fields(data, at):
    count, at = read(data, at)
    fields = {}
    for _ in range(count):
        key, at = read(data, at)
        fields[key.decode()], at = read(data, at)
    return fields, at


def read_rows(data, at):
    keys, at = read(data, at)
    count, at = read(data, at)
    rows = []
    for _ in range(count):
        row = {}
        for key in keys:
            row[key.decode()], at = read(data, at)
        rows.append({key: field for key, field in row.items() if field is not SKIP})
    return rows, at
