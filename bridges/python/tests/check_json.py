"""Compares what the example in C prints with the values that Python reads.

Arguments: the program, and a file with the names of messages.
"""

import codecs
import json
import subprocess
import sys

import kuvtsada_bser as bser
from recorded import messages

# As the example: a replacement character for each byte that is no UTF-8.
codecs.register_error("each", lambda error: ("\ufffd", error.start + 1))


def main(program, names):
    count = 0
    for name, message in messages(names):
        printed = subprocess.run([program], input=message, capture_output=True, check=True).stdout
        value = bser.loads(message, value_encoding="utf-8", value_errors="each")
        if json.loads(printed) != value:
            sys.exit(f"{name}: another value")
        count += 1
    wrong = subprocess.run([program], input=b"\0\2\0\0\0\0\3\1\x14", capture_output=True, check=False)
    said = "unknown byte 0x14 where a value is wanted, at byte 8\n"
    if (wrong.returncode, wrong.stderr.decode()) != (1, said):
        sys.exit(f"an error is told as {wrong.stderr!r}")
    print(f"{count} messages, and an error")


main(*sys.argv[1:])
