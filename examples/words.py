"""An index of the words of a text, in a store: under each word stand the number of the first line that has it, and how often
it stands there in all. Then the index is asked for one word, and for all words from one to another.

    python3 words.py INDEX < sonnet.txt        INDEX is a new file
"""

import re
import sys

import cola


def count_word(index, word, line):
    """Counts one more of a word that stands in a line."""
    value = index.get(word, b"line:%d,times:0" % line)
    first, times = re.fullmatch(rb"line:(\d+),times:(\d+)", value).groups()
    index[word] = b"line:%s,times:%d" % (first, int(times) + 1)


def main(path):
    cola.create(path, keys=10000)
    with cola.open(path) as index:
        for number, line in enumerate(sys.stdin.buffer, 1):
            for word in re.findall(rb"[A-Za-z]+", line):
                if len(word) <= 24:
                    count_word(index, word.lower(), number)
        print(len(index), "words")
        for word in b"summer", b"winter":
            value = index.get(word)
            print("none" if value is None else "val " + value.decode())
        rows = list(index[b"so":b"su"])
        for word, value in rows:
            print("row", word.decode(), value.decode())
        print("end", len(rows))


main(sys.argv[1])
