"""Messages of BSER, by a library that is proved: pywatchman's module `bser` with other errors.

The calls have the names, the arguments and the results of `pywatchman.bser`. Errors are
`BserDecodeError` and `BserEncodeError`, which are `ValueError`. Each has a text for people, a `code`
of bser.h, a `place` that counts bytes, and a `byte`.
"""

from ._bser import (
    BserDecodeError,
    BserEncodeError,
    BserError,
    BserObject,
    canonical,
    compact,
    dumps,
    loads,
    pdu_info,
    pdu_len,
)

__all__ = [
    "BserDecodeError",
    "BserEncodeError",
    "BserError",
    "BserObject",
    "canonical",
    "compact",
    "dumps",
    "load",
    "loads",
    "pdu_info",
    "pdu_len",
]

# The shortest head, the shortest message of version 1, and the longest head; and how much is read at once,
# since a head may announce what no memory holds.
_SHORTEST, _LONGEST, _PIECE = 5, 15, 1 << 24
_NOT_WHOLE = 1


def _read_some(fp, size):
    """Reads some bytes by `read`, or by `readinto` where a file has only that."""
    if hasattr(fp, "read"):
        return fp.read(size) or b""
    buffer = bytearray(size)
    return bytes(buffer[: fp.readinto(memoryview(buffer)) or 0])


def _read(fp, size):
    """Reads so many bytes, or as many as are left."""
    pieces = []
    while size > 0:
        piece = _read_some(fp, min(size, _PIECE))
        if not piece:
            break
        pieces.append(piece)
        size -= len(piece)
    return b"".join(pieces)


def _read_head(fp):
    """Reads bytes that tell the message's length, and none of those behind the message."""
    head = _read(fp, _SHORTEST)
    while head:
        try:
            return head, pdu_len(head)
        except BserDecodeError as error:
            more = _read(fp, 1) if error.code == _NOT_WHOLE and len(head) < _LONGEST else b""
            if not more:
                raise
            head += more
    return head, 0


def load(fp, mutable=True, value_encoding=None, value_errors=None):
    """Reads the next message of a file and gives its value, or None where no byte is left."""
    head, length = _read_head(fp)
    if not head:
        return None
    message = head + _read(fp, length - len(head))
    return loads(message, mutable, value_encoding, value_errors)
