"""The messages of recorded files, each of which has one or several."""

import kuvtsada_bser as bser


def messages(names):
    """The whole messages of the files that this file names, each with the name of its own."""
    for name in open(names, encoding="utf-8").read().split("\n")[:-1]:
        with open(name, "rb") as file:
            data = file.read()
        while data:
            try:
                length = bser.pdu_len(data)
            except bser.BserDecodeError:
                break
            if length > len(data):
                break
            yield name, data[:length]
            data = data[length:]
