# SPDX-License-Identifier: MIT
"""The tests of the shell (cola/shell.py): at a terminal of its own for each session, and in a pipe."""

import csv
import fcntl
import importlib.util
import io
import json
import os
import pty
import random
import re
import select
import shutil
import signal
import struct
import subprocess
import sys
import tempfile
import termios
import time
import unittest

import cola
from cola import files, shell
from cola.words import Mistake, begun, escaped, shown, split, unescaped

# (The shells are run in other folders, and find this module and its library there.)
os.environ["PYTHONPATH"] = os.path.dirname(os.path.dirname(os.path.abspath(cola.__file__)))
if os.environ.get("COLA_LIBRARY"):
    os.environ["COLA_LIBRARY"] = os.path.abspath(os.environ["COLA_LIBRARY"])


class Terminal:
    """A session at a terminal, as a person has it."""

    def __init__(self, test, *words, folder):
        self.pid, self.master = pty.fork()
        if self.pid == 0:
            signal.signal(signal.SIGINT, signal.SIG_DFL)  # (a gate in the background has it ignored)
            os.chdir(folder)
            os.environ.update(TERM="dumb", INPUTRC="/dev/null", COLA_HISTORY=os.path.join(folder, "history"), LC_ALL="C.UTF-8")
            os.execv(sys.executable, [sys.executable, "-m", "cola", *words])
        fcntl.ioctl(self.master, termios.TIOCSWINSZ, struct.pack("HHHH", 50, 200, 0, 0))
        self.seen, self.status = "", None
        test.addCleanup(self.kill)

    def kill(self):
        if self.status is None:
            os.kill(self.pid, signal.SIGKILL)
            self.wait()
        if self.master is not None:
            os.close(self.master)
            self.master = None

    def wait(self):
        """The status of the process, once it has ended."""
        until = time.monotonic() + 30
        while self.status is None:
            pid, status = os.waitpid(self.pid, os.WNOHANG)
            if pid:
                self.status = status
            elif time.monotonic() > until:
                raise AssertionError("it does not end")
            else:
                time.sleep(0.01)
        return os.waitstatus_to_exitcode(self.status)

    def type(self, text):
        os.write(self.master, text.encode())

    def interrupt(self, text):
        """Types Ctrl-C, once, and gives what is shown up to this text."""
        self.type("\x03")
        return self.until(text)

    def _read(self, until):
        if not select.select([self.master], [], [], max(0, until - time.monotonic()))[0]:
            raise TimeoutError(f"it was waited for in vain; there is {self.seen!r}")
        try:
            read = os.read(self.master, 1 << 16)
        except OSError:  # (how Linux says that nobody writes there any more)
            read = b""
        self.seen += read.decode("utf-8", "replace").replace("\r\n", "\n")
        return read != b""

    def until(self, text, seconds=30):
        """What is shown up to this text."""
        until = time.monotonic() + seconds
        while text not in self.seen:
            if not self._read(until):
                raise AssertionError(f"it ended; there is {self.seen!r}")
        before, _, self.seen = self.seen.partition(text)
        return before

    def says(self, line, prompt="notes> "):
        """What is shown between this line and the next prompt."""
        self.type(line + "\r")
        self.until("\n")
        return self.until(prompt)

    def end(self):
        """The status with which it ends, and what it shows before."""
        until = time.monotonic() + 30
        while self._read(until):
            pass
        return self.wait(), self.seen


class Folder(unittest.TestCase):
    def setUp(self):
        self.folder = tempfile.mkdtemp()
        self.addCleanup(shutil.rmtree, self.folder)
        self.path = os.path.join(self.folder, "notes")

    def make(self, pairs=(), keys=1000, **options):
        with cola.open(self.path, create=True, keys=keys, **options) as store:
            store.update(pairs)

    def rows(self):
        with cola.open(self.path) as store:
            return dict(store)

    def piped(self, lines, *words, status=0):
        done = subprocess.run([sys.executable, "-m", "cola", *(words or ["notes"])], cwd=self.folder, input=lines.encode("utf-8", "surrogateescape"),
                              capture_output=True, timeout=60)
        self.assertEqual(done.returncode, status, done.stderr)
        return done.stdout.decode("utf-8", "surrogateescape"), done.stderr.decode()


@unittest.skipUnless(importlib.util.find_spec("readline"), "this Python has no readline")
class AtATerminal(Folder):
    def session(self, *words, prompt="notes> "):
        session = Terminal(self, *(words or ["notes"]), folder=self.folder)
        if prompt:
            session.until(prompt)
        return session

    def test_a_first_session(self):
        session = Terminal(self, "notes", "--create", "1000", folder=self.folder)
        self.assertIn("notes has 0 of at most 1,000 keys. help shows the commands", session.until("notes> "))
        self.assertEqual(session.says("put user:1001 Ada"), "new\n")
        self.assertEqual(session.says('put "user 2" "Grace \\x00\\xff"'), "new\n")
        self.assertEqual(session.says("put user:1001 Ada"), "replaced\n")
        self.assertEqual(session.says("get user:1001"), "Ada\n")
        self.assertEqual(session.says("count"), "2\n")
        self.assertEqual(session.says("scan"), 'key        value\n"user 2"   "Grace \\x00\\xff"\nuser:1001  Ada\n(2 rows)\n')
        self.assertEqual(session.says("prefix user:"), "key        value\nuser:1001  Ada\n(1 row)\n")
        self.assertEqual(session.says('range "" user:'), 'key       value\n"user 2"  "Grace \\x00\\xff"\n(1 row)\n')
        self.assertEqual(session.says("scan user: 1"), "key        value\nuser:1001  Ada\n(1 row)\n")
        self.assertEqual(session.says("del user:1001"), "deleted\n")
        self.assertEqual(session.says("del user:1001"), "There is no key user:1001: scan shows those that there are.\n")
        self.assertIn("for at most    1000\n", session.says("info"))
        self.assertIn("cells a put    360\n", session.says("info"))
        self.assertEqual(session.says("last"), 'key       value\n"user 2"  "Grace \\x00\\xff"\n(1 row)\n')
        self.assertEqual(session.says("checkpoint copy"), "The store as it is now is in copy.\n")
        self.assertEqual(session.says("check"), "Sound: a map of 1 key.\n")
        self.assertEqual(session.says("check co\t"), "Sound: a map of 1 key.\n")
        self.assertEqual(session.says("check none"), "none: no such file or directory. Look at the name.\n")
        self.assertIn("notes is open in another process", session.says("check notes"))
        self.assertEqual(session.says(""), "")
        self.assertIn("for example: put ", session.says("help put"))
        session.type("\x04")
        self.assertEqual(session.end()[0], 0)
        self.assertEqual(self.rows(), {b"user 2": b"Grace \x00\xff"})
        self.path = os.path.join(self.folder, "copy")
        self.assertEqual(self.rows(), {b"user 2": b"Grace \x00\xff"})

    def test_levels_are_drawn(self):
        self.make(((b"%04d" % at, b"") for at in range(700)))
        prompt = "notes (read alone)> "
        lines = self.session("notes", "--read-only", prompt=prompt).says("levels", prompt).splitlines()
        with cola.open(self.path, read_only=True) as store:
            levels = store.info().levels
        self.assertEqual(lines[0].split(), "level searched, of its room built, of at most".split())
        self.assertEqual(len(lines) - 1, len(levels))
        self.assertEqual({len(line) for line in lines[1:]}, {5 + 2 * (2 + 14 + 1 + 4 + 4 + 4)})
        most = [shell._most_built(levels, number) for number in range(len(levels))]
        for number, (line, level) in enumerate(zip(lines[1:], levels)):
            found = re.fullmatch(r" +(\d+)  \[(#*)(\.*)\] +(\d+) of +(\d+)  \[(#*)(\.*)\] +(\d+) of +(\d+)", line)
            self.assertEqual(tuple(map(int, found.group(1, 4, 5, 8, 9))), (number, level.visible, level.room, level.shadow, most[number]))
            for marks, dots, cells, room in (*found.group(2, 3), level.visible, level.room), (*found.group(6, 7), level.shadow, most[number]):
                self.assertEqual(len(marks + dots), 12)
                self.assertEqual((marks == "", dots == ""), (cells == 0, cells == room))
                self.assertLess(abs(len(marks) - 12 * cells / room), 1)
        told = self.piped("levels\n", "notes", "--read-only")[0].splitlines()
        self.assertEqual([line.split("\t") for line in told],
                         [[str(it) for it in (number, level.room, *level[:2], most[number])] for number, level in enumerate(levels)])
        os.remove(self.path)
        self.make()
        lines = self.session().says("levels").splitlines()[1:]
        self.assertEqual(lines[8], "    8  [............]    0 of 1024  [............]    0 of    0")

    def test_a_merge_gives_at_most_what_its_bar_is_of(self):
        """Of keys that do not meet some merges of each level fill the bar (from 3 on: the runs that the others are merged from are gone as
        they end), and none is above it."""
        with cola.open(self.path, create=True, keys=1000) as store:
            before, ends, full = store.info().levels, [0] * 9, [False] * 9
            for at in range(600):
                store[b"%04d" % (at * 7919 % 10000)] = b""
                levels = store.info().levels
                for number, (old, new) in enumerate(zip(before, levels)):
                    most = shell._most_built(levels, number)
                    self.assertLessEqual(new.shadow, most)
                    self.assertLessEqual(most, new.room)
                    if new.shadow:
                        full[number] = full[number] or new.shadow == most
                    elif old.shadow:  # (a flip: the run that was built is searched now)
                        ends[number] += 1
                        self.assertEqual(new.visible, old.shadow)
                before = levels
        self.assertGreater(min(ends[1:7]), 1)
        self.assertTrue(all(full[3:7]), full)

    def test_the_column_of_keys_stays_as_wide(self):
        keys = sorted({b"%05d" % at for at in range(2500)} | {b"02000 and a longer key", b"02100\0" + b"\1" * 18})
        self.make(((key, b"v") for key in keys), keys=3000)
        lines = self.session().says("scan").splitlines()
        self.assertEqual([lines[0], lines[-1]], ["key" + " " * 23 + "value", "(2,502 rows)"])
        for key, line in zip(keys, lines[1:-1]):
            self.assertEqual(line, f"{shown(key):<24}  v")
        self.assertEqual(self.session("notes", "--read-only", prompt=None).end()[0], 1)

    def test_signs_of_two_columns_are_aligned(self):
        self.make({"日本".encode(): b"1", b"ab": b"2"})
        self.assertEqual(self.session().says("scan"), "key   value\nab    2\n日本  1\n(2 rows)\n")

    def test_history(self):
        self.make()
        session = self.session()
        self.assertEqual(session.says("put a 1"), "new\n")
        self.assertEqual(session.says("\x10"), "replaced\n")  # (Ctrl-P: the line before)
        self.assertEqual(session.says("count"), "1\n")
        self.assertEqual(session.says("\x10\x10"), "replaced\n")
        self.assertEqual(session.says("\x10\x10\x0e"), "replaced\n")  # (Ctrl-N: the one behind it)
        session.type("quit\r")
        self.assertEqual(session.end()[0], 0)
        self.assertEqual(os.stat(os.path.join(self.folder, "history")).st_mode & 0o077, 0)
        session = self.session()
        self.assertEqual(session.says("\x10\x10"), "replaced\n")  # (behind the quit)
        self.assertEqual(session.says("\x12t a"), "replaced\n")  # (Ctrl-R: the line that has it)

    def test_completion(self):
        self.make({b"user:1001": b"Ada", b"user:1002": b"Grace", b"item one": b"1", b"\x00\xff": b"2", b"say\"so": b"3"})
        session = self.session()
        self.assertEqual(session.says("cou\t"), "5\n")
        self.assertEqual(session.says("ge\tuser:1001"), "Ada\n")
        self.assertEqual(session.says("get u\t2"), "Grace\n")
        self.assertEqual(session.says("get i\t"), "1\n")
        self.assertEqual(session.says('get "item o\t'), "1\n")
        self.assertEqual(session.says('get "\\x\t'), "2\n")
        self.assertEqual(session.says("get \\x00\t"), "2\n")
        self.assertEqual(session.says("get s\t"), "3\n")
        self.assertEqual(session.says("put u\t3 Edsger"), "new\n")
        self.assertIn("user:1001", session.says("range u\t1 u\t3"))
        self.assertIn("for example: get", session.says("help ge\t"))
        session.type("get user:\t")
        session.until("100")
        session.type("\t\t")
        self.assertIn("user:1001", session.until("user:1003"))
        session.until("get user:100")
        session.type("1\r")
        session.until("Ada\nnotes> ")
        os.mkdir(os.path.join(self.folder, "some folder"))
        self.assertEqual(session.says("dump so\tx.csv\""), "Dumped to some folder/x.csv: 6 rows.\n")
        self.assertEqual(session.says("load \"some folder/x\t"), "Loaded: 6 rows.\n")
        self.assertEqual(session.says("load so\tx\t cs\t"), "Loaded: 6 rows.\n")

    def test_ctrl_c_at_the_prompt_drops_the_line(self):
        self.make()
        session = self.session()
        session.type("put a b")
        session.until("put a b")
        session.interrupt("notes> ")
        self.assertEqual(session.says("count"), "0\n")
        for at in range(200):  # (at once behind the prompt or a sign, where readline may not wait yet)
            if at % 2:
                session.type("x")
                session.until("x")
            session.interrupt("notes> ")
        session.interrupt("notes> ")
        self.assertEqual(session.says("put a 1"), "new\n")
        session.type("\x04")
        self.assertEqual(session.end()[0], 0)
        self.assertEqual(self.rows(), {b"a": b"1"})

    def test_ctrl_c_ends_a_long_scan_and_not_the_shell(self):
        self.make(((b"key %06d" % at, b"value %d" % at) for at in range(20000)), keys=20000)
        session = self.session()
        session.type("scan\r")
        session.until("value 10")
        session.interrupt("Ended by Ctrl-C; the store is open as before.\n")
        session.until("notes> ")
        self.assertEqual(session.says("count"), "20000\n")
        session.type("\x04")
        self.assertEqual(session.end()[0], 0)
        self.assertEqual(len(self.rows()), 20000)

    def test_a_store_in_use(self):
        self.make()
        first = self.session()
        status, text = self.session(prompt=None).end()
        self.assertEqual(status, 1)
        self.assertIn("notes is open in another process: end that one and try again.", text)
        self.assertEqual(self.session("--read-only", "notes", prompt=None).end()[0], 1)
        first.type("\x04")
        self.assertEqual(first.end()[0], 0)

    def test_readers_share_a_store(self):
        self.make({b"a": b"1"})
        one, two = (self.session("notes", "--read-only", prompt="notes (read alone)> ") for _ in range(2))
        for reader in one, two:
            self.assertEqual(reader.says("get a", prompt="notes (read alone)> "), "1\n")
            self.assertEqual(reader.says("put a 2", prompt="notes (read alone)> "),
                             "The store is open to be read alone: start the shell without --read-only to change it.\n")
        self.assertEqual(self.session(prompt=None).end()[0], 1)
        one.kill()
        two.type("\x04")
        self.assertEqual(two.end()[0], 0)
        self.assertEqual(self.rows(), {b"a": b"1"})

    def test_a_store_that_was_not_closed(self):
        self.make()
        self.session().kill()
        status, text = self.session(prompt=None).end()
        self.assertEqual(status, 1)
        self.assertIn("notes was not closed: a process that had it open died. Go back to the copy of its last checkpoint: cp COPY notes", text)

    def test_a_terminal_that_goes_away_closes_the_store(self):
        for number in None, signal.SIGTERM, signal.SIGHUP:
            if os.path.exists(self.path):
                os.remove(self.path)
            self.make()
            session = self.session()
            self.assertEqual(session.says("put a 1"), "new\n")
            if number is None:
                os.close(session.master)
                session.master = None
            else:
                os.kill(session.pid, number)
            status = session.wait()
            if number is not None:
                self.assertEqual(status, 128 + number)
            self.assertEqual(self.rows(), {b"a": b"1"})

    def test_dump_and_load_show_how_far_they_are(self):
        self.make(((b"key %06d" % at, b"%d" % at) for at in range(60000)), keys=60000)
        session = self.session()
        self.assertRegex(session.says("dump rows.jsonl"), r"\r[\d,]+ rows dumped\r\x1b\[KDumped to rows.jsonl: 60,000 rows.\n$")
        self.assertRegex(session.says("load rows.jsonl"), r"\r[\d,]+ rows loaded\r\x1b\[KLoaded: 60,000 rows.\n$")


class InAPipe(Folder):
    def test_rows_are_text_parted_by_tabs(self):
        self.make({b"a": b"1", b"tab\tand\n": b'"\\\x00\xff', "Zoë".encode(): "日本".encode()})
        self.assertEqual(self.piped("scan\n"), ('Zoë\t日本\na\t1\ntab\\tand\\n\t"\\\\\\x00\\xff\n', ""))
        self.assertEqual(self.piped("get a\ncount\n\nget Zoë"), ("1\n3\n日本\n", ""))
        self.assertEqual(self.piped("info\n")[0].splitlines()[3:5], ["keys\t3", "for at most\t1000"])
        self.assertEqual(self.piped("check\nput b 1\ncheck\ndel b\n")[0], "sound\t3\nsound\t4\n")
        with open(self.path, "rb") as file, open(os.path.join(self.folder, "other"), "wb") as other:
            other.write(file.read(24) + b"\x09" + file.read()[1:])
        out, error = self.piped("check other\n", status=1)
        self.assertRegex(out, r"^broken\tcount\t\d+\t\d+\n$")
        self.assertRegex(error, r"^other is damaged \(count, level \d+, cell \d+\): go back to a copy of it; ")
        self.assertEqual(self.piped("last 2\n")[0], self.piped("scan\n")[0].splitlines()[2] + "\na\t1\n")
        self.assertEqual(self.piped("last 0\n", status=1)[1], "0 is no number of rows: write one from 1 to 16777216.\n")
        self.assertEqual(self.piped("last 16777216\nlast 000000000001\n")[0].count("\n"), 4)
        for line in "scan a {}", "range a b {}", "prefix a {}", "last {}":
            for number in "16777217", "9" * 20, "9" * 5000:
                self.assertEqual(self.piped(line.format(number) + "\ncount\n", status=1),
                                 ("3\n", f"{number} is no number of rows: write one from 1 to 16777216.\n"))
        self.assertEqual(self.piped("put x \\x00\nput y 2\ndel a\nquit\nput z 3\n"), ("", ""))
        self.assertEqual(self.rows()[b"x"], b"\0")
        self.assertNotIn(b"z", self.rows())

    def test_what_is_refused_is_said_and_the_rest_is_done(self):
        self.make(keys=2)
        mistakes = {"foo": "There is no command foo: help shows all of them.", "gat a": "There is no command gat: try get, or help for all of them.",
                    "put a": 'It is put KEY VALUE, which gives the key the value: for example put user:1001 "Ada Lovelace"',
                    "count a": "It is count, which shows how many keys there are: for example count",
                    'get "a': 'A quote is not closed: end the word with a ", or write \\" for a quote in a word.',
                    'get "a"b': 'A space parts two words: put one behind the closing quote, or write \\" for a quote in a word.',
                    "get \\q": r'A \ begins an escape: \xHH is a byte, \n, \t and \r are its names, \\ is a backslash, \" a quote.',
                    "get a": "There is no key a: scan shows those that there are.", "scan a 0": "0 is no number of rows: write one from 1 to 16777216.",
                    "put " + "k" * 25 + " v": "In this store a key has from 1 to 24 bytes and a value at most 32: make it shorter. A file of version 2",
                    "dump x": "The name x does not say its format: let it end with .csv or .jsonl, or put the word csv or jsonl behind it.",
                    "dump x.csv xml": "There is no format xml: name csv or jsonl.",
                    "dump notes csv": "That is the file of the store itself: name another one.",
                    "load none.csv": "none.csv: no such file or directory. Look at the name.",
                    "dump none/x.csv": "none/x.csv: no such file or directory. Look at the name.",
                    "checkpoint notes": "A store is no copy of itself: name another file.",
                    'load "a\\x00.csv"': "A path has no zero byte: name another file.",
                    "checkpoint none/x": "none/x: no such file or directory. Look at the name.", "load . csv": "It is a folder: name a file in it."}
        for line, said in mistakes.items():
            out, err = self.piped(line + "\nput last 1\n", status=1)
            self.assertEqual(out, "")
            self.assertIn(said.lower(), err.lower())
            self.assertEqual(len(err.splitlines()), 1)
            self.assertEqual(self.rows(), {b"last": b"1"})
        self.assertIn("The store has as many keys as it is for: delete some, or make a larger one", self.piped("put a 1\nput b 1\n", status=1)[1])

    def test_files_that_are_refused(self):
        self.assertIn("There is no file notes: look at the name, or make a store there with --create KEYS.", self.piped("", status=1)[1])
        self.assertIn("No store has these keys", self.piped("", "notes", "--create", "0", status=1)[1])
        self.assertIn("--create KEYS", self.piped("", "notes", "--block", "3", status=2)[1])
        self.make()
        with open(self.path, "r+b") as file:
            file.truncate(600)
        self.assertIn("notes has fewer bytes than its store: go back to a copy", self.piped("", status=1)[1])
        with open(self.path, "wb") as file:
            file.write(b"x" * 8192)
        self.assertIn("notes is no store: name the file of one", self.piped("", status=1)[1])
        self.assertIn("It is a folder", self.piped("", self.folder, status=1)[1])

    def test_a_file_is_made_once(self):
        self.piped("put a 1\n", "notes", "--create", "50", "--block", "3", "--version", "2")
        self.piped("put b 1\n", "notes", "--create", "70")
        with cola.open(self.path) as store:
            self.assertEqual((store.limits, dict(store)), ({"keys": 50, "block": 3, "version": 2}, {b"a": b"1", b"b": b"1"}))

    def test_a_reader_that_goes_away_ends_it_and_the_store_is_closed(self):
        self.make(((b"%06d" % at, b"v") for at in range(20000)), keys=20000)
        with subprocess.Popen([sys.executable, "-m", "cola", "notes"], cwd=self.folder, stdin=subprocess.PIPE, stdout=subprocess.PIPE) as child:
            child.stdin.write(b"scan\n" * 20)
            child.stdin.close()
            child.stdout.readline()
            child.stdout.close()
            self.assertEqual(child.wait(), 1)
        self.assertEqual(len(self.rows()), 20000)

    def test_dump_and_load(self):
        dice = random.Random(20261130)
        rows = {dice.randbytes(1 + dice.randrange(24)): dice.randbytes(dice.randrange(33)) for _ in range(2500)}
        rows.update({b"plain": b"text", 'Zoë "x", \\'.encode(): "日本\n\t".encode(), b"empty": b""})
        self.make(rows, keys=3000)
        self.piped("dump rows.csv\ndump rows.jsonl\ndump rows json\n")
        with open(os.path.join(self.folder, "rows.csv"), newline="", encoding="utf-8") as file:
            read = list(csv.reader(file))
        self.assertEqual(read[0], ["key", "value"])
        self.assertEqual({unescaped(key): unescaped(value) for key, value in read[1:]}, rows)
        self.assertIn(["plain", "text"], read)
        with open(os.path.join(self.folder, "rows.jsonl"), encoding="utf-8") as file:
            lines = file.read()
        self.assertIn('{"key": "plain", "value": "text"}\n', lines)
        self.assertEqual(len([json.loads(line) for line in lines.splitlines()]), len(rows))
        for name in "rows.csv", "rows.jsonl", "rows json":
            os.remove(self.path)
            self.piped(f"load {name}\n", "notes", "--create", "3000")
            self.assertEqual(self.rows(), rows)
        self.assertEqual(sorted(os.listdir(self.folder)), ["notes", "rows", "rows.csv", "rows.jsonl"])

    def test_a_load_says_where_it_ended(self):
        def load(name, text, keys=5):
            if os.path.exists(self.path):
                os.remove(self.path)
            with open(os.path.join(self.folder, name), "w", encoding="utf-8", errors="surrogateescape", newline="") as file:
                file.write(text)
            return self.piped(f"load {name}\n", "notes", "--create", f"{keys}", status=1)[1]

        self.assertIn("Line 3 can't be loaded: it has 1 column: write a key and a value. Loaded before it: 1 row.", load("x.csv", "key,value\na,1\nb\n"))
        self.assertEqual(self.rows(), {b"a": b"1"})
        self.assertIn("Line 2 can't be loaded: A \\ begins an escape", load("x.csv", "a,1\nb,\\q\n"))
        said = load("x.csv", "a,1\n" + "b" * 25 + ",2\nc,3\n")
        self.assertTrue(said.startswith("Line 2 is refused. In this store a key has from 1 to 24") and said.endswith(" Loaded before it: 1 row.\n"), said)
        said = load("x.csv", "a,1\nb,2\nc,3\n", keys=2)
        self.assertTrue(said.startswith("Line 3 is refused. The store has as many keys") and said.endswith(" Loaded before it: 2 rows.\n"), said)
        self.assertEqual(self.rows(), {b"a": b"1", b"b": b"2"})
        said = load("x.csv", "".join(f"{at:05},v\n" for at in range(2000)), keys=1500)
        self.assertTrue(said.startswith("Line 1501 is refused. ") and said.endswith(" Loaded before it: 1,500 rows.\n"), said)
        self.assertIn('Line 1 can\'t be loaded: it is no object: write {"key": "..", "value": ".."}', load("x.jsonl", "[1]\n"))
        self.assertIn("Line 2 can't be loaded: it has no value: write one.", load("x.jsonl", '{"key": "a", "value": "1"}\n{"key": "b"}\n'))
        self.assertIn("Line 1 can't be loaded: its key is no text: put it in quotes.", load("x.jsonl", '{"key": 5, "value": "1"}\n'))

    def test_no_error_of_a_file_is_in_the_words_of_python(self):
        form, quotes = 'write {"key": "..", "value": ".."} on one line.', "its quotes don't match: put a field that has a quote or a comma in quotes, "
        for kind, line, said in (
                ("jsonl", "{", f"it is no JSON from column 2 on: {form}"), ("jsonl", '{"key": "a"} x', f"it is no JSON from column 14 on: {form}"),
                ("jsonl", "NaN", f"it is no object: {form}"), ("jsonl", "[" * 100000, f"it has more than a key and a value: {form}"),
                ("jsonl", '{"key": ' + "1" * 5000 + "}", None),
                ("jsonl", '{"key": "b", "value_hex": "0g"}', "its value_hex is no bytes: write two digits of 0-9 and a-f for each."),
                ("jsonl", '{"key_hex": "é", "value": "1"}', "its key_hex is no bytes: write two digits of 0-9 and a-f for each."),
                ("jsonl", '{"key": "\\ud800", "value": "1"}', "its key has half a sign: write its bytes as key_hex."),
                ("csv", 'b,"1', quotes + "and write each quote in it twice."), ("csv", 'b,"1"2', quotes + "and write each quote in it twice."),
                ("csv", "b," + "x" * 200000, "a field has more signs than a key or a value has bytes: make it shorter.")):
            first = "a,1\n" if kind == "csv" else '{"key": "a", "value": "1"}\n'
            with self.assertRaises(Mistake) as raised:
                list(files.read(io.StringIO(first + "\n" + line + "\n", newline=""), kind))
            self.assertTrue(str(raised.exception).startswith("Line 3 can't be loaded: "), raised.exception)
            if said:
                self.assertEqual(str(raised.exception), f"Line 3 can't be loaded: {said}")
        with open(os.path.join(self.folder, "x.jsonl"), "w", encoding="utf-8") as file:
            file.write('{"key": "a", "value": "1"}\n{\n')
        self.assertEqual(self.piped("load x.jsonl\n", "notes", "--create", "5", status=1)[1],
                         f"Line 2 can't be loaded: it is no JSON from column 2 on: {form} Loaded before it: 1 row.\n")

    def test_each_refusal_has_a_sentence(self):
        for kind in cola.Error.__subclasses__():
            self.assertIn(kind.__name__, cola.__all__)
            if kind not in (cola.Length, cola.Order, cola.Fewer, cola.NotEmpty):  # (the first is one of the shell; it makes none of the others)
                said = shell.sentence(kind("the library's words"), "notes")
                self.assertRegex(said, r"^(The|No|A|notes) [^{}]*: [^{}]+$")
                self.assertNotIn("the library's words", said)


class Words(unittest.TestCase):
    def test_any_bytes_are_typed_as_they_are_shown(self):
        dice = random.Random(20261130)
        for _ in range(5000):
            it = dice.choice([dice.randbytes(dice.randrange(9)), 'Zoë "x\\ \n日本'.encode()[:dice.randrange(20)],
                              bytes(dice.choice(b'ab \\"x0n\t') for _ in range(dice.randrange(9)))])
            for in_quotes in False, True:
                self.assertEqual(split(f"{shown(it, in_quotes)}  x"), [it, b"x"])
            self.assertEqual(unescaped(escaped(it)), it)
            self.assertNotIn("\t", escaped(it))
            self.assertEqual(begun(f"get {shown(it)}")[2], it)
        self.assertEqual([shown(it) for it in (b"", b"a b", b"a", b'"', b"\xff")], ['""', '"a b"', "a", '"\\""', '"\\xff"'])

    def test_the_word_that_is_typed(self):
        for line, wanted in {"": (0, 0, b"", False), "ge": (0, 0, b"ge", False), "get ": (1, 4, b"", False), "get us": (1, 4, b"us", False),
                             'get "us er': (1, 4, b"us er", True), 'get "us\\x0': (1, 4, b"us", True), 'get "us\\': (1, 4, b"us", True),
                             'get "a "': (1, 4, b"a ", True), 'put "a" ': (2, 8, b"", False), "put a\\\\": (1, 4, b"a\\", False)}.items():
            self.assertEqual(begun(line), wanted, line)

    def test_each_command_is_in_the_manual(self):
        page = os.path.join(os.path.dirname(__file__), "../../docs/cola-shell.1")
        with open(page, encoding="utf-8") as file:
            text = re.sub(r"\\f[BIR]|\\&", "", file.read()).replace("\\-", "-").replace("\\(dq", '"').replace("\\e", "\\")
        for name, (words, what, example) in shell.COMMANDS.items():
            self.assertIn(f"\n{name} {words}".rstrip() + "\n", text)
            self.assertIn(f"{what}".lower(), text.lower())
            self.assertIn(example, text)
            self.assertTrue(hasattr(shell.Shell, "do_" + name))
        for option in "--read-only", "--create", "--block", "--version", "COLA_HISTORY", "COLA_LIBRARY":
            self.assertIn(option, text)

    def test_a_format_is_named_or_told_by_the_name(self):
        self.assertEqual([files.format_of(name) for name in ("a.csv", "a.CSV", "a.jsonl", "a.json", "a.ndjson")], ["csv", "csv", "jsonl", "jsonl", "jsonl"])
        with self.assertRaises(Mistake):
            files.format_of("a.txt")
        self.assertEqual(list(files.read(io.StringIO('a,"1\n2"\n'), "csv")), [(2, b"a", b"1\n2")])


if __name__ == "__main__":
    unittest.main()
