"""The blocks of code and commands in a page, and by what each is known to be right.

A comment stands above a block, and says one of these:
  <!-- from PATH -->                its lines stand in that file
  <!-- run:NAME/PART -->            that part of the test scripts/NAME runs it
  <!-- run:NAME/PART/endless -->    the same of what does not end by itself
  <!-- printed -->                  the block before it prints these lines, among others
"""
import collections
import re

MARK = re.compile(
    r"<!-- (?:from (?P<file>\S+)|run:(?P<script>\w+)/(?P<part>\w+)(?P<endless>/endless)?|(?P<printed>printed)) -->$"
)
# The line of a block in its page, the word behind its fence, its lines, and the match of MARK above it. What is only
# indented has no word.
Block = collections.namedtuple("Block", "line word lines mark")


def blocks_of(lines):
    """The blocks of a page, in their order."""
    at = 0
    while at < len(lines):
        before = lines[at - 1] if at else ""
        if lines[at].startswith("```"):
            end = next((n for n in range(at + 1, len(lines)) if lines[n].startswith("```")), len(lines))
            yield Block(at + 1, lines[at][3:], lines[at + 1 : end], MARK.match(before))
            at = end
        elif lines[at].startswith("    ") and not before.strip():
            end = next((n for n in range(at, len(lines)) if not lines[n].startswith("    ")), len(lines))
            yield Block(at + 1, None, [it[4:] for it in lines[at:end]], None)
            at = end
        at += 1
