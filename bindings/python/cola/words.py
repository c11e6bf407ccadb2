# SPDX-License-Identifier: MIT
"""Keys and values as people type and read them: any bytes, as text with escapes.

A word is what stands between spaces, or in quotes. In both \\xHH is the byte of that number, and \\n, \\t, \\r, \\\\ and \\" are
a line feed, a tab, a carriage return, a backslash and a quote; all else stands for its UTF-8.
"""

import re
import sys
import unicodedata

_named = {"n": "\n", "t": "\t", "r": "\r", "\\": "\\", '"': '"'}
_names = {sign: "\\" + name for name, sign in _named.items()}
_piece = re.compile(r'\\x([0-9A-Fa-f]{2})|\\([ntr\\"])|(\\)|[^\\]+', re.DOTALL)
_unfinished = re.compile(r"(?<!\\)(?:\\\\)*(\\(?:x[0-9A-Fa-f]?)?)$")


class Mistake(Exception):
    """What was typed, or is in a file, is wrong: a sentence that says how, and what to do."""


def unescaped(text):
    """The bytes of a text with escapes."""
    pieces = []
    for piece in _piece.finditer(text):
        byte, name, stray = piece.groups()
        if stray:
            raise Mistake(r'A \ begins an escape: \xHH is a byte, \n, \t and \r are its names, \\ is a backslash, \" a quote.')
        if byte:
            pieces.append(bytes([int(byte, 16)]))
        else:
            pieces.append((_named[name] if name else piece[0]).encode("utf-8", "surrogateescape"))
    return b"".join(pieces)


def _is_shown(sign):
    """Whether a character may stand as it is."""
    if not sign.isprintable():
        return False
    try:
        sign.encode(sys.stdout.encoding or "ascii")
    except UnicodeEncodeError:
        return False
    return True


def escaped(it, signs='\\\n\t\r'):
    """The text of bytes, with escapes for what has no shape and for these signs."""
    return "".join(_names[sign] if sign in signs else sign if _is_shown(sign) else
                   "".join(f"\\x{byte:02x}" for byte in sign.encode("utf-8", "surrogateescape"))
                   for sign in it.decode("utf-8", "surrogateescape"))


def shown(it, in_quotes=False):
    """The word of bytes, in quotes where it has to be."""
    text = escaped(it, '\\\n\t\r"')
    return f'"{text}"' if in_quotes or not text or "\\" in text or " " in text else text


def _end_of_quoted(line, at):
    """Where the quote that begins there ends, or None."""
    at += 1
    while at < len(line) and line[at] != '"':
        at += 2 if line[at] == "\\" else 1
    return at if at < len(line) else None


def places(line):
    """The words of a line: where each begins, and its text between the quotes that it may have. The last one may not be finished:
    then it is in quotes that are not closed."""
    at = 0
    while True:
        while at < len(line) and line[at] in " \t":
            at += 1
        if at == len(line):
            return
        begin = at
        if line[at] == '"':
            end = _end_of_quoted(line, at)
            yield begin, line[at + 1:end], end is not None
            at = len(line) if end is None else end + 1
            if at < len(line) and line[at] not in " \t":
                raise Mistake('A space parts two words: put one behind the closing quote, or write \\" for a quote in a word.')
        else:
            while at < len(line) and line[at] not in " \t":
                at += 1
            yield begin, line[begin:at], True


def split(line):
    """The words of a line, as bytes."""
    words = []
    for _, text, is_closed in places(line):
        if not is_closed:
            raise Mistake('A quote is not closed: end the word with a ", or write \\" for a quote in a word.')
        words.append(unescaped(text))
    return words


def begun(line):
    """The last word of a line that is being typed: how many words stand before it, where it begins, the bytes that it has, and
    whether it is in quotes."""
    before, begin, text, in_quotes, is_closed = 0, len(line), "", False, True
    for count, (at, word, is_closed) in enumerate(places(line)):
        before, begin, text, in_quotes = count, at, word, line[at] == '"'
    if begin < len(line) and is_closed and line[-1] in " \t":
        before, begin, text, in_quotes = before + 1, len(line), "", False
    unfinished = _unfinished.search(text)
    return before, begin, unescaped(text[:unfinished.start(1)] if unfinished else text), in_quotes


def width(text):
    """The columns that a text takes at a terminal."""
    return sum(0 if unicodedata.combining(sign) else 2 if unicodedata.east_asian_width(sign) in "WF" else 1 for sign in text)
