#!/usr/bin/env python3
"""records.py FILE: writes the bytes of a list of records to standard output.

A line of the list is a record: eight numbers, 0 to 65535, the kind first. What follows a `#` is a comment."""
import struct
import sys


def record(line, place):
    numbers = line.split("#")[0].split()
    if not numbers:
        return b""
    if len(numbers) != 8:
        sys.exit(f"{place}: a record has eight numbers, here are {len(numbers)}")
    for n in numbers:
        if not (n.isascii() and n.isdigit() and int(n) < 65536):
            sys.exit(f"{place}: `{n}` is no number from 0 to 65535")
    return struct.pack("<8H", *map(int, numbers))


def main():
    if len(sys.argv) != 2:
        sys.exit(__doc__)
    path = sys.argv[1]
    try:
        with open(path, encoding="utf-8") as f:
            book = b"".join(record(line, f"{path}, line {i}") for i, line in enumerate(f, 1))
    except OSError as e:
        sys.exit(f"{path}: {e.strerror}")
    except UnicodeDecodeError:
        sys.exit(f"{path}: this is no text; the bytes of a book have a name that ends in .book")
    sys.stdout.buffer.write(book)


main()
