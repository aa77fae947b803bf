"""Writes what a page becomes, and a line feed: Guarded, of any page, by the selectors of a second word; in pieces of as
many bytes as a third word says, without the line feed. Where the page becomes nothing, it writes nothing, and the exit
status is 1."""

import sys

import htmd

chunks = int(sys.argv[3]) if len(sys.argv) == 4 else None
with open(sys.argv[1], "rb") as file:
    page = file.read()
try:
    markdown = htmd.convert(page, select=sys.argv[2], chunks=chunks)
except (LookupError, ValueError):
    sys.exit(1)
sys.stdout.buffer.write(markdown.encode("utf-8") + (b"\n" if chunks is None else b""))
