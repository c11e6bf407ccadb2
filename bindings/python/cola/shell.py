# SPDX-License-Identifier: MIT
"""A shell for people: cola-shell FILE, or python3 -m cola FILE.

At a terminal it has a prompt, a history, and completion of commands, keys and paths; rows are a table, and what is refused is said
in a sentence. In a pipe each line of the input is a command, and rows are a key, a tab and a value.
"""

import argparse
import cmd
import difflib
import errno
import glob
import itertools
import os
import signal
import sys
import tempfile
import termios
import threading
import time

import cola
from cola import files
from cola.words import Mistake, begun, escaped, shown, split, width

try:
    import readline
except ImportError:  # (then there is neither history nor completion)
    readline = None

COMMANDS = {  # the words, what the command does, and an example
    "put": ("KEY VALUE", "gives the key the value", 'put user:1001 "Ada Lovelace"'),
    "get": ("KEY", "shows the value of the key", "get user:1001"),
    "del": ("KEY", "takes the key out", "del user:1001"),
    "range": ("LOW HIGH [COUNT]", "shows the rows from LOW on and below HIGH, or the first COUNT of them", "range user:1000 user:2000"),
    "scan": ("[LOW [COUNT]]", "shows all rows, or those from LOW on, or the first COUNT of them", "scan user:1001 10"),
    "prefix": ("BYTES [COUNT]", "shows the rows whose keys begin so, or the first COUNT of them", "prefix user: 10"),
    "last": ("[COUNT]", "shows the last COUNT rows, 10 where it is not said, from the last one on", "last 100"),
    "count": ("", "shows how many keys there are", "count"),
    "info": ("", "shows what the file is and has", "info"),
    "levels": ("", "draws the runs of each level: the one that is searched, of its room, and the one that its merge builds, of the most that it gives",
               "levels"),
    "check": ("[PATH]", "tests the store as it is now, or the closed one in a file", "check notes.copy"),
    "checkpoint": ("PATH", "makes a copy of the store as it is now, a closed store, in the place of PATH", "checkpoint notes.copy"),
    "load": ("PATH [csv|jsonl]", "puts the rows of a file", "load users.csv"),
    "dump": ("PATH [csv|jsonl]", "writes all rows to a file, in the place of PATH", "dump users.jsonl"),
    "help": ("[COMMAND]", "shows the commands, or one of them with an example", "help put"),
    "quit": ("", "closes the store and ends, as Ctrl-D does", "quit"),
}
_BATCH = 1000  # rows that are shown, or put, at once
_LAST = 10  # rows that last shows
_COLUMNS = 12  # of a bar: the largest store has lines of 79
_SAMPLE = 8  # a run has a cell for every so many cells of the run below
_CANDIDATES = 100  # keys that are offered at most to complete one


def sentence(error, path):
    """What is said of an error of a call on the store at the path: why, and what to do."""
    path = os.fsdecode(path)
    for kind, text in _SENTENCES.items():
        if isinstance(error, kind):
            return text.format(path=path)
    if isinstance(error, OSError):
        name = os.fsdecode(error.filename) if error.filename is not None else path
        why = os.strerror(error.errno) if error.errno else str(error)
        return f"{name}: {why[:1].lower()}{why[1:]}. {_ADVICE.get(error.errno, 'Look at the name and at the disk, then try again.')}"
    return f"{str(error) or type(error).__name__}."


_SENTENCES = {
    cola.Full: "The store has as many keys as it is for: delete some, or make a larger one (cola grow) and open that.",
    cola.Worn: "The store has no stamp left to give: dump its rows, and load them into a new one.",
    cola.Closed: "The store is closed: end the shell and open it again.",
    cola.NotClosed: "{path} was not closed: a process that had it open died. Go back to the copy of its last checkpoint: cp COPY {path}",
    cola.NotStore: "{path} is no store: name the file of one, or a new file with --create KEYS.",
    cola.Small: "{path} has fewer bytes than its store: go back to a copy of it, or make a store in a new file with --create KEYS.",
    cola.BadCell: "A cell of {path} is damaged: go back to a copy of it; cola check says where the damage is.",
    cola.Overfull: "The levels of {path} are damaged: go back to a copy of it; cola check says where the damage is.",
    cola.Options: "No store has these keys, this block or this version: keys are from 1 to 16777216, a block from 3 to 9 and no more than "
                  "the keys have room for (5 always goes), and a version is 1 or 2.",
    cola.ReadOnly: "The store is open to be read alone: start the shell without --read-only to change it.",
    cola.Unfinished: "A journal or a log beside {path} has what the file has not yet: keep all of them, and run cola-recover {path}, which says "
                     "what is in the way.",
    BlockingIOError: "{path} is open in another process: end that one and try again. To read it beside others that read, start with "
                     "--read-only.",
    MemoryError: "There was no memory: end something else and try again.",
}
_ADVICE = {
    errno.ENOENT: "Look at the name.",
    errno.EACCES: "Ask the owner of it for the permission, or name another file.",
    errno.EPERM: "Ask the owner of it for the permission, or name another file.",
    errno.EROFS: "Its disk can't be written: name a file on another one.",
    errno.EISDIR: "It is a folder: name a file in it.",
    errno.ENOTDIR: "A part of the path is no folder: look at the name.",
    errno.ENOSPC: "Make room on its disk, then try again.",
    errno.EINVAL: "A store is no copy of itself: name another file.",
}


def _rest(found, before, typed):
    """What readline may put in: the rest of the words that are found behind what was typed before its last space. Those that are
    spelled as was typed, in quotes or not, are preferred."""
    found = [word for word in found if word.lstrip('"').startswith(typed.lstrip('"'))] or found
    return [word[len(before):] for word in found if word.startswith(before)]


def _path(word):
    if b"\0" in word:
        raise Mistake("A path has no zero byte: name another file.")
    return os.fsdecode(word)


def _rows(count):
    return f"{count:,} row{'s' if count != 1 else ''}"


def _bar(cells, most):
    """How many cells there are of the most that there may be: empty or full only where it is."""
    marks = max(cells * _COLUMNS // most, 1) if cells else 0
    return f"[{'#' * marks}{'.' * (_COLUMNS - marks)}]"


def _most_built(levels, number):
    """How many cells the merge of a level gives at most: the items of its own run and of the run above it, or the one that is put, and
    the sample of the run below it. Of a run the sample of the run below is no item."""
    def cells(at):
        return levels[at].visible if at < len(levels) else 0

    own, above = cells(number) - cells(number + 1) // _SAMPLE, 1 if number == 0 else cells(number - 1) - cells(number) // _SAMPLE
    below = max(levels[number + 1][:2]) // _SAMPLE if number + 1 < len(levels) else 0
    return max(levels[number].shadow, min(levels[number].room, max(own, 0) + max(above, 0) + below))


class _Progress:
    """A line at a terminal that says how many rows there were so far."""

    def __init__(self, what):
        self.what, self.count, self.shown_at = what, 0, time.monotonic()
        self.is_terminal, self.is_shown = sys.stderr.isatty(), False

    def reach(self, count):
        self.count = count
        now = time.monotonic()
        if self.is_terminal and now - self.shown_at >= 0.1:
            self.shown_at, self.is_shown = now, True
            sys.stderr.write(f"\r{_rows(count)} {self.what}")
            sys.stderr.flush()

    def end(self):
        if self.is_shown:
            sys.stderr.write("\r\x1b[K")
            sys.stderr.flush()


class Shell(cmd.Cmd):
    """The commands, over an open store."""

    def __init__(self, store):
        super().__init__()
        self.store = store
        self.name = os.path.basename(os.fsdecode(store.path))
        self.is_terminal = sys.stdin.isatty() and sys.stdout.isatty()
        self.has_table = sys.stdout.isatty()
        self.prompt = f"{self.name}{' (read alone)' if store.read_only else ''}> " if self.is_terminal else ""
        self.refusals = 0
        self.is_waiting = False  # (for a line)

    # The lines.

    def preloop(self):
        if readline is not None and self.is_terminal:
            readline.set_completer_delims(" \t")
        self.is_waiting = True

    def precmd(self, line):
        self.is_waiting = False
        return line

    def postcmd(self, stop, line):
        self.is_waiting = True
        return stop

    def onecmd(self, line):
        try:
            return super().onecmd(line)
        except BrokenPipeError:
            raise
        except KeyboardInterrupt:
            if not self.is_terminal:
                raise
            self.refuse("Ended by Ctrl-C; the store is open as before.")
        except Mistake as mistake:
            self.refuse(str(mistake))
        except cola.Length:
            self.refuse(self._length())
        except (cola.Error, OSError, MemoryError) as error:
            self.refuse(sentence(error, self.store.path))
        return False

    def emptyline(self):
        return False

    def default(self, line):
        name = line.split(None, 1)[0]
        near = difflib.get_close_matches(name, COMMANDS, 1)
        raise Mistake(f"There is no command {name}: " + (f"try {near[0]}, or help for all of them." if near else "help shows all of them."))

    def refuse(self, text):
        """Says why something was not done."""
        self.refusals += 1
        self.stdout.flush()
        print(text, file=sys.stderr, flush=True)

    def remark(self, text):
        """Says what was done, where a person reads it."""
        if self.is_terminal:
            print(text, file=self.stdout)

    def _limits(self):
        return (40, 72) if self.store.limits["version"] == 2 else (24, 32)

    def _length(self):
        limits = self._limits()
        return f"In this store a key has from 1 to {limits[0]} bytes and a value at most {limits[1]}: make it shorter." \
               + ("" if limits[0] == 40 else " A file of version 2 takes 40 and 72.")

    @staticmethod
    def _words(name, line, least, most):
        words = split(line)
        if not least <= len(words) <= most:
            usage, what, example = COMMANDS[name]
            raise Mistake(f"It is {f'{name} {usage}'.strip()}, which {what}: for example {example}")
        return words

    @staticmethod
    def _number(words, at):
        """How many rows the word asks for; None where it is not there."""
        if len(words) <= at:
            return None
        digits = words[at].lstrip(b"0")
        if not words[at].isdigit() or not digits or len(digits) > len(str(cola.KEYS_MAX)) or int(digits) > cola.KEYS_MAX:
            raise Mistake(f"{shown(words[at])} is no number of rows: write one from 1 to {cola.KEYS_MAX}.")
        return int(digits)

    # The commands.

    def do_put(self, line):
        key, value = self._words("put", line, 2, 2)
        was = key in self.store
        self.store[key] = value
        self.remark("replaced" if was else "new")

    def do_get(self, line):
        key, = self._words("get", line, 1, 1)
        value = self.store.get(key)
        if value is None:
            raise Mistake(self._absent(key))
        print(shown(value) if self.has_table else escaped(value), file=self.stdout)

    def do_del(self, line):
        key, = self._words("del", line, 1, 1)
        try:
            del self.store[key]
        except KeyError:
            raise Mistake(self._absent(key)) from None
        self.remark("deleted")

    @staticmethod
    def _absent(key):
        return f"There is no key {shown(key)}: scan shows those that there are."

    def do_range(self, line):
        words = self._words("range", line, 2, 3)
        self._show(self.store[words[0]:words[1]], self._number(words, 2))

    def do_scan(self, line):
        words = self._words("scan", line, 0, 2)
        self._show(self.store[words[0] if words else b"":], self._number(words, 1))

    def do_prefix(self, line):
        words = self._words("prefix", line, 1, 2)
        self._show(self.store.prefix(words[0]), self._number(words, 1))

    def do_last(self, line):
        count = self._number(self._words("last", line, 0, 1), 0)
        self._show(reversed(self.store[:]), _LAST if count is None else count)

    def do_count(self, line):
        self._words("count", line, 0, 0)
        print(len(self.store), file=self.stdout)

    def do_info(self, line):
        self._words("info", line, 0, 0)
        info = self.store.info()
        longest = self._limits()
        rows = [("file", os.fsdecode(self.store.path)), ("bytes", os.stat(self.store.path).st_size),
                ("open", "to be read alone" if self.store.read_only else "to be read and written"),
                ("keys", info.count), ("for at most", info.keys), ("longest key", longest[0]), ("longest value", longest[1]),
                ("version", info.version), ("block", info.block), ("levels", len(info.levels)),
                ("cells a put", info.write_bound), ("cells a get", info.get_bound)]
        for name, value in rows:
            print(f"{name:<13}  {value}" if self.has_table else f"{name}\t{value}", file=self.stdout)

    def do_levels(self, line):
        self._words("levels", line, 0, 0)
        levels = self.store.info().levels
        digits = len(str(levels[-1].room))
        columns = _COLUMNS + 7 + 2 * digits
        if self.has_table:
            print(f"level  {'searched, of its room':<{columns}}  built, of at most", file=self.stdout)
        for number, level in enumerate(levels):
            most = _most_built(levels, number)
            if self.has_table:
                runs = ((level.visible, level.room), (level.shadow, most))
                print(f"{number:>5}  {'  '.join(f'{_bar(*run)} {run[0]:>{digits}} of {run[1]:>{digits}}' for run in runs)}", file=self.stdout)
            else:
                print(number, level.room, *level[:2], most, sep="\t", file=self.stdout)

    def do_check(self, line):
        words = self._words("check", line, 0, 1)
        path = _path(words[0]) if words else self.store.path
        try:
            verdict = cola.check(path) if words else self.store.check()
        except (cola.Error, OSError) as error:
            raise Mistake(sentence(error, path)) from None
        if not self.is_terminal:
            print("sound" if verdict.is_sound else "broken", *(it for it in verdict[1:] if it is not None), sep="\t", file=self.stdout)
        if not verdict.is_sound:
            raise Mistake(f"{os.fsdecode(path)} is damaged ({verdict.flaw}, level {verdict.level}, cell {verdict.cell}): go back to a copy of it; "
                          "cola help check says what that flaw is.")
        self.remark(f"Sound: a map of {verdict.count:,} key{'s' if verdict.count != 1 else ''}.")

    def do_checkpoint(self, line):
        copy = _path(self._words("checkpoint", line, 1, 1)[0])
        self.store.checkpoint(copy)
        self.remark(f"The store as it is now is in {copy}.")

    def do_load(self, line):
        words = self._words("load", line, 1, 2)
        path = _path(words[0])
        kind = files.format_of(path, os.fsdecode(words[1]) if len(words) > 1 else None)
        progress = _Progress("loaded")
        try:
            with open(path, encoding="utf-8", errors="surrogateescape", newline="") as file:
                self._load(files.read(file, kind), progress)
        except KeyboardInterrupt:
            raise Mistake(f"Ended by Ctrl-C: {_rows(progress.count)} or some more were loaded; load the file again for the rest.") from None
        finally:
            progress.end()
        self.remark(f"Loaded: {_rows(progress.count)}.")

    def _load(self, rows, progress):
        """Puts the rows of a file, up to the first that is refused."""
        while True:
            batch, mistake = [], None
            try:
                for row in itertools.islice(rows, _BATCH):
                    batch.append(row)
            except Mistake as error:
                mistake = str(error)
            try:
                self.store.update([row[1:] for row in batch])
            except cola.Error as error:
                why = self._length() if isinstance(error, cola.Length) else sentence(error, self.store.path)
                number = batch[error.done][0] if batch else 1
                raise Mistake(f"Line {number} is refused. {why} Loaded before it: {_rows(progress.count + error.done)}.") from None
            progress.reach(progress.count + len(batch))
            if mistake:
                raise Mistake(f"{mistake} Loaded before it: {_rows(progress.count)}.")
            if len(batch) < _BATCH:
                return

    def do_dump(self, line):
        words = self._words("dump", line, 1, 2)
        path = _path(words[0])
        kind = files.format_of(path, os.fsdecode(words[1]) if len(words) > 1 else None)
        if os.path.isdir(path):
            raise IsADirectoryError(errno.EISDIR, "", path)
        if os.path.exists(path) and os.path.samefile(path, self.store.path):
            raise Mistake("That is the file of the store itself: name another one.")
        progress = _Progress("dumped")
        try:
            self._dump(path, kind, progress)
        except KeyboardInterrupt:
            raise Mistake(f"Ended by Ctrl-C: {path} is as it was.") from None
        finally:
            progress.end()
        self.remark(f"Dumped to {path}: {_rows(progress.count)}.")

    def _dump(self, path, kind, progress):
        """Writes the rows to a file of a new name, which then takes the place of the one that is named."""
        try:
            descriptor, unfinished = tempfile.mkstemp(prefix=os.path.basename(path) + ".new-", dir=os.path.dirname(path) or ".")
        except OSError as error:
            error.filename = path
            raise
        try:
            with open(descriptor, "w", encoding="utf-8", newline="") as file:
                for count in files.write(file, kind, self.store.items()):
                    progress.reach(count)
            mask = os.umask(0)
            os.umask(mask)
            os.chmod(unfinished, 0o666 & ~mask)
            os.replace(unfinished, path)
        except BaseException:
            os.unlink(unfinished)
            raise

    def do_help(self, line):
        name = line.strip()
        if not name:
            for name, (words, what, _) in COMMANDS.items():
                print(f"{f'{name} {words}'.strip():<27} {what}", file=self.stdout)
            print('\nA word with spaces stands in quotes, and \\x00 to \\xff is a byte: put "two words" "\\x00\\xff"', file=self.stdout)
        elif name in COMMANDS:
            words, what, example = COMMANDS[name]
            print(f"{name} {words}".strip() + f"\n    {what}\n    for example: {example}", file=self.stdout)
        else:
            self.default(name)

    def do_quit(self, line):
        self._words("quit", line, 0, 0)
        return True

    def do_EOF(self, line):
        if self.is_terminal:
            print(file=self.stdout)
        return True

    # The rows.

    def _show(self, pairs, count):
        """Shows the rows. The first of them, and the bytes that a key may have where there may be more, say how wide the keys are; one that is
        wider by its escapes makes no other row wider."""
        pairs, columns, all_rows = itertools.islice(pairs, count), 0, 0
        while batch := [(shown(key), shown(value)) if self.has_table else (escaped(key), escaped(value))
                        for key, value in itertools.islice(pairs, _BATCH)]:
            if self.has_table:
                if all_rows == 0:
                    columns = max(len("key"), *(width(key) for key, _ in batch), self._limits()[0] if len(batch) == _BATCH else 0)
                    self.stdout.write(f"key{' ' * (columns - 3)}  value\n")
                self.stdout.writelines(f"{key}{' ' * (columns - width(key))}  {value}\n" for key, value in batch)
            else:
                self.stdout.writelines(f"{key}\t{value}\n" for key, value in batch)
            all_rows += len(batch)
        self.remark(f"({_rows(all_rows)})")

    # Completion.

    def get_names(self):
        return ["do_" + name for name in COMMANDS]

    def completenames(self, text, *ignored):
        return [name + " " for name in COMMANDS if name.startswith(text)]

    def complete_help(self, text, *ignored):
        return self.completenames(text)

    def _complete_key(self, text, line, begin, end, places=1):
        before, start, key, in_quotes = begun(line[:end])
        if before > places:
            return []
        found = [shown(key, in_quotes) for key, _ in itertools.islice(self.store.prefix(key), _CANDIDATES)]
        found = _rest(found, line[start:begin], line[start:end])
        return [found[0] + " "] if len(found) == 1 else found

    complete_put = complete_get = complete_del = complete_scan = complete_prefix = _complete_key

    def complete_range(self, *words):
        return self._complete_key(*words, places=2)

    def _complete_path(self, text, line, begin, end):
        before, start, path, in_quotes = begun(line[:end])
        if before > 1:
            return [name for name in files.FORMATS if name.startswith(text)] if not line.startswith("check") else []
        paths = sorted(glob.glob(glob.escape(os.fsdecode(path)) + "*"))[:_CANDIDATES]
        found = [shown(os.fsencode(it + os.sep), in_quotes).rstrip('"') if os.path.isdir(it) else shown(os.fsencode(it), in_quotes) for it in paths]
        found = _rest(found, line[start:begin], line[start:end])
        return [found[0] + " "] if len(found) == 1 and not found[0].endswith(os.sep) else found

    complete_check = complete_checkpoint = complete_load = complete_dump = _complete_path


class _History:
    """The lines of former sessions: in the file that COLA_HISTORY names, else in .cola_history of the home."""

    def __init__(self, is_kept):
        self.path = os.environ.get("COLA_HISTORY") or os.path.join(os.path.expanduser("~"), ".cola_history")
        self.is_kept = is_kept and readline is not None
        if not self.is_kept:
            return
        readline.set_history_length(1000)
        try:
            readline.read_history_file(self.path)
        except OSError:
            pass  # (there is none yet, or none can be had)
        self.had = readline.get_current_history_length()

    def save(self):
        if not self.is_kept:
            return
        self.is_kept = False
        try:
            os.close(os.open(self.path, os.O_CREAT | os.O_APPEND | os.O_WRONLY, 0o600))
            if hasattr(readline, "append_history_file"):
                readline.append_history_file(readline.get_current_history_length() - self.had, self.path)
            else:
                readline.write_history_file(self.path)
        except OSError:
            pass


def _close(store):
    """Closes the store, and says whether that was done."""
    try:
        store.close()
        return True
    except (cola.Error, OSError) as error:
        print(f"{sentence(error, store.path)} The store may not be closed: if it is refused from now on, go back to a copy of it.", file=sys.stderr)
        return False


def _close_at_signals(store, history):
    """A process that is told to end closes the store first, also while it waits for a line: a thread waits for the signals, as
    Python runs no handler while readline waits."""
    ends = {signal.SIGTERM, signal.SIGHUP}
    modes = termios.tcgetattr(0) if sys.stdin.isatty() else None

    def wait():
        signal.pthread_sigmask(signal.SIG_BLOCK, {signal.SIGINT})  # (Ctrl-C is for the thread that reads lines)
        number = signal.sigwait(ends)
        history.save()
        _close(store)
        if modes is not None:
            try:
                termios.tcsetattr(0, termios.TCSANOW, modes)
            except termios.error:
                pass  # (the terminal is gone)
        os._exit(128 + number)

    signal.pthread_sigmask(signal.SIG_BLOCK, ends)
    threading.Thread(target=wait, daemon=True).start()


def _hear_ctrl_c(shell):
    """One Ctrl-C drops a line, also where it comes just before readline waits for the next sign, which would then be waited for first: a
    thread that is told of each signal ends such a wait, by a signal that does nothing else."""
    told, tell = os.pipe()
    os.set_blocking(tell, False)
    signal.set_wakeup_fd(tell, warn_on_full_buffer=False)
    signal.signal(signal.SIGURG, lambda *_: None)
    reader = threading.get_ident()

    def wake():
        while True:
            if signal.SIGINT in os.read(told, 64):
                for pause in 0.02, 0.1, 0.4, 1.6:
                    time.sleep(pause)
                    if shell.is_waiting:
                        signal.pthread_kill(reader, signal.SIGURG)

    before = signal.pthread_sigmask(signal.SIG_BLOCK, {signal.SIGINT})  # (the thread has it so too)
    threading.Thread(target=wake, daemon=True).start()
    signal.pthread_sigmask(signal.SIG_SETMASK, before)


def _serve(shell):
    """Runs the commands of the input."""
    if not shell.is_terminal:
        shell.use_rawinput = False
        shell.stdin = sys.stdin
        shell.cmdloop()
        return
    limits = shell.store.limits
    print(f"{shell.name} has {len(shell.store):,} of at most {limits['keys']:,} keys. help shows the commands; Ctrl-D closes it and ends.")
    while True:
        try:
            return shell.cmdloop()
        except KeyboardInterrupt:
            print()  # (a line that was begun is dropped)


def _words_of(arguments):
    parser = argparse.ArgumentParser(prog="cola-shell", description="Commands on a store in a file, for people. help shows them.")
    parser.add_argument("file", metavar="FILE", help="the file of a store")
    parser.add_argument("--read-only", action="store_true", help="read it alone, beside others that read it")
    parser.add_argument("--create", metavar="KEYS", type=int, help="make the file first, for so many keys, where there is none")
    parser.add_argument("--block", type=int, help="with --create: blocks of 2^BLOCK cells (5)")
    parser.add_argument("--version", type=int, help="with --create: the version of the file, 1 or 2 (1)")
    words = parser.parse_args(arguments)
    if words.create is None and (words.block is not None or words.version is not None):
        parser.error("--block and --version are those of a file that is made: add --create KEYS")
    return words


def _open(words):
    """The store, or None where it is refused, which is said."""
    try:
        if words.create is None:
            return cola.open(words.file, read_only=words.read_only)
        return cola.open(words.file, create=True, keys=words.create, block=5 if words.block is None else words.block,
                         version=1 if words.version is None else words.version, read_only=words.read_only)
    except FileNotFoundError:
        text = f"There is no file {words.file}: look at the name, or make a store there with --create KEYS."
    except PermissionError:
        text = f"{words.file} may not be opened" + (": ask its owner." if words.read_only else " to be written: start with --read-only, or ask its owner.")
    except ValueError as error:
        text = sentence(error, words.file)
    except (cola.Error, OSError, MemoryError) as error:
        text = sentence(error, words.file)
    print(text, file=sys.stderr)
    return None


def main(arguments=None):
    """The status of the process: 0, 1 where something was refused, 2 where the words are wrong, 130 at Ctrl-C in a pipe."""
    words = _words_of(arguments)
    sys.stdin.reconfigure(errors="surrogateescape")
    sys.stdout.reconfigure(errors="backslashreplace")
    store = _open(words)
    if store is None:
        return 1
    shell = Shell(store)
    history = _History(shell.is_terminal)
    _close_at_signals(store, history)
    if shell.is_terminal:
        _hear_ctrl_c(shell)
    status = 1
    try:
        _serve(shell)
        sys.stdout.flush()
        status = 0 if shell.is_terminal or shell.refusals == 0 else 1
    except KeyboardInterrupt:
        status = 130
    except OSError:  # (nobody reads what is written any more)
        os.dup2(os.open(os.devnull, os.O_WRONLY), sys.stdout.fileno())
    finally:
        signal.signal(signal.SIGINT, signal.SIG_IGN)
        history.save()
        if not _close(store):
            status = 1
    return status
