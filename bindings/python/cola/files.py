# SPDX-License-Identifier: MIT
"""Rows as files that other programs read: CSV with a heading, and JSON lines.

In CSV a key and a value are text with the escapes of cola/words.py. In JSON lines a row is {"key": .., "value": ..}; what is no
UTF-8 is "key_hex" or "value_hex" in its place, two digits a byte.
"""

import csv
import json
import os

from cola.words import Mistake, escaped, unescaped

FORMATS = {"csv": ("csv",), "jsonl": ("jsonl", "json", "ndjson")}
_HEADING = ["key", "value"]
_FORM = 'write {"key": "..", "value": ".."} on one line'


def format_of(path, word=None):
    """The format that is named, or that the end of the file's name says."""
    given = word or os.path.splitext(path)[1].lstrip(".").lower()
    for name, ends in FORMATS.items():
        if given in ends:
            return name
    if word:
        raise Mistake(f"There is no format {word}: name csv or jsonl.")
    raise Mistake(f"The name {path} does not say its format: let it end with .csv or .jsonl, or put the word csv or jsonl behind it.")


def write(file, kind, pairs):
    """Writes the pairs, and gives the number of rows behind each."""
    if kind == "csv":
        rows = csv.writer(file, lineterminator="\n")
        rows.writerow(_HEADING)
        for count, (key, value) in enumerate(pairs, 1):
            rows.writerow([escaped(key), escaped(value)])
            yield count
    else:
        for count, (key, value) in enumerate(pairs, 1):
            file.write(json.dumps({**_member("key", key), **_member("value", value)}, ensure_ascii=False) + "\n")
            yield count


def _member(name, it):
    try:
        return {name: it.decode()}
    except UnicodeDecodeError:
        return {name + "_hex": it.hex()}


def read(file, kind):
    """The rows of a file, each the number of its line, its key and its value."""
    return _read_csv(file) if kind == "csv" else _read_lines(file)


def _read_csv(file):
    rows = csv.reader(file, strict=True)
    while True:
        try:
            row = next(rows, None)
            if row is None:
                return
            if not row or (rows.line_num == 1 and row == _HEADING):
                continue
            if len(row) != 2:
                raise Mistake(f"it has {len(row)} column{'s' if len(row) != 1 else ''}: write a key and a value")
            yield rows.line_num, unescaped(row[0]), unescaped(row[1])
        except Mistake as mistake:
            raise _refused(rows.line_num, mistake) from None
        except csv.Error as error:
            raise _refused(rows.line_num, "a field has more signs than a key or a value has bytes: make it shorter" if "limit" in str(error) else
                           "its quotes don't match: put a field that has a quote or a comma in quotes, and write each quote in it twice") from None


def _read_lines(file):
    for number, line in enumerate(file, 1):
        if not line.strip():
            continue
        try:
            row = json.loads(line)
            if not isinstance(row, dict):
                raise Mistake(f"it is no object: {_FORM}")
            yield number, _bytes_of(row, "key"), _bytes_of(row, "value")
        except Mistake as mistake:
            raise _refused(number, mistake) from None
        except json.JSONDecodeError as error:
            raise _refused(number, f"it is no JSON from column {min(error.pos, len(line.rstrip())) + 1} on: {_FORM}") from None
        except (ValueError, RecursionError):  # (a number of thousands of digits, or thousands of lists in each other)
            raise _refused(number, f"it has more than a key and a value: {_FORM}") from None


def _bytes_of(row, name):
    """The bytes of a member, or of the one that has them by their digits."""
    for member, to_bytes, form in ((name, lambda text: text.encode("utf-8", "surrogateescape"), f"has half a sign: write its bytes as {name}_hex"),
                                   (name + "_hex", bytes.fromhex, "is no bytes: write two digits of 0-9 and a-f for each")):
        if member in row:
            if not isinstance(row[member], str):
                raise Mistake(f"its {member} is no text: put it in quotes")
            try:
                return to_bytes(row[member])
            except ValueError:
                raise Mistake(f"its {member} {form}") from None
    raise Mistake(f"it has no {name}: write one")


def _refused(number, why):
    """The mistake of a line, in a sentence."""
    return Mistake(f"Line {number} can't be loaded: {str(why).rstrip('.')}.")
