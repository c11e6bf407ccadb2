#!/usr/bin/env python3
"""Tries the edits: wrong bodies and wrong definitions, each of which the prover must refuse.

    tests/edits.sh [--jobs N] [CRATE..]              those of these crates, or all
    tests/edits.sh --control [--jobs N] [CRATE..]    the functions that refuse, each with its own body: none may be refused

An edit is a file crates/CRATE/edits/NAME.edit: a line 'by: FUNCTION' with the function or law that must not be proved any more,
by its path in the crate, or with the file of worked examples (proofs/..) that is refused; a line 'file: PATH' below src/ or specs/;
and pairs of lines 'old: TEXT' and 'new: TEXT', where the old text stands in that file exactly once.

A crate's wrong bodies of different functions are tried in one check: a body is none of another function's contract. The bodies of all
other functions are emptied and their proofs left open, so that a function is judged by the contracts of those that it calls, which are
not proved again; 'refused' is what the prover says of the function itself. An edit elsewhere (a clause, a definition, a constant) is
tried alone. Where a proof was written by hand, a refusal may be that it no longer fits, which says less of the contract.

The libraries below are those that the gate's proofs left in crates/*/out, or rt lib builds them. The last line is 'N passed, M
failed', and the status is 0 only where none failed.
"""

import concurrent.futures
import json
import os
import re
import shutil
import subprocess
import sys
import tempfile
import threading

ROOT = os.path.dirname(os.path.dirname(os.path.realpath(__file__)))
KIT = os.path.dirname(os.path.dirname(os.path.realpath(shutil.which("rt") or sys.exit("edits: there is no rt"))))
PARTS = ("src", "specs", "proofs")
# What a check may take, for as many side by side as memory has room for.
ROOM = 3 << 30
# An older toolchain checks a crate whole.
IS_ONE_ENOUGH = "--only" in subprocess.run([f"{KIT}/bin/rattle", "check", "--help"], stdout=subprocess.PIPE, text=True).stdout
says = threading.Lock()
# A function with its clauses and its body, as rt fmt sets them.
BODY = re.compile(r'''(?m)^(?P<head>(?P<indent>[ ]*)(?:pub(?:\(\w+\))? )?(?:unsafe )?(?:extern "C" )?fn (?P<name>\w+)(?:(?!.*;$).*\n(?!.*\bfn ))*?)'''
                  r'''(?P<open>(?P=indent)\{|(?P=indent)\).* \{|[<(].* \{)\n(?:(?!(?P=indent)\}).*\n)*(?P=indent)\}$''')


def text_of(path):
    with open(path, encoding="utf-8") as file:
        return file.read()


def crates():
    """Of each crate of crates.txt, lowest first, its kind ('', 'staticlib') and the libraries that it names."""
    found = {}
    for line in text_of(f"{ROOT}/crates.txt").split("\n"):
        head, colon, names = line.partition("#")[0].partition(":")
        if colon:
            name, *kind = head.split()
            found[name] = ("".join(kind), names.split())
    return found


def below(name, every):
    """The repository's libraries below a crate, itself left out, lowest first."""
    found = []
    for it in every[name][1]:
        if it in every:
            found += [low for low in (*below(it, every), it) if low not in found]
    return found


def newest(name):
    """When the texts of a crate last changed."""
    times = [0.0]
    for part in PARTS:
        for at, _, files in os.walk(f"{ROOT}/crates/{name}/{part}"):
            times += [os.path.getmtime(f"{at}/{file}") for file in files]
    return max(times)


def build(name, every):
    """Builds the libraries below a crate where one is not there, or older than a text that it is made from."""
    for it in every[name][1]:
        if it in every:
            rlib = f"{ROOT}/crates/{it}/out/rlib/{it}.rlib"
            texts = max(newest(low) for low in (*below(it, every), it))
            if not os.path.isdir(rlib) or os.path.getmtime(rlib) < texts:
                ran = subprocess.run(["rt", "lib"], cwd=f"{ROOT}/crates/{it}", stdout=subprocess.PIPE, stderr=subprocess.STDOUT, text=True)
                if ran.returncode:
                    sys.exit(f"{ran.stdout}edits: {it} is not built")


def words(name, every):
    """The words by which rattle reads the crate."""
    kind, names = every[name]
    root = "src/main.rt" if os.path.isfile(f"{ROOT}/crates/{name}/src/main.rt") else "src/lib.rt"
    found = ["--crate-name", name, root, "--extern", f"std={KIT}/rlibs/std.rlib", "-L", f"dependency={KIT}/rlibs"]
    for it in names:
        found += ["--extern", f"{it}={ROOT}/crates/{it}/out/rlib/{it}.rlib" if it in every else f"{it}={KIT}/rlibs/{it}.rlib"]
    for it in below(name, every):
        found += ["-L", f"dependency={ROOT}/crates/{it}/out/rlib"]
    found += ["--antt-project", f"{KIT}/rattle/logic/antt-project.json", "--logic-built", f"{KIT}/logic_built", "--links", f"{name}="]
    return found + ["--crate-type", kind] * bool(kind) + ["--jobs", "1"]


class Edit:
    def __init__(self, crate, path):
        self.crate, self.name = crate, f"{crate}/{os.path.basename(path)[: -len('.edit')]}"
        self.by, self.changes, self.alone, self.why = "", [], False, ""
        file = old = None
        for line in text_of(path).split("\n"):
            word, _, rest = line.partition(": ") if ": " in line else line.partition(":")
            if word == "by":
                self.by = rest
            elif word == "file":
                file = rest
            elif word == "old":
                old = rest
            elif word == "new" and file and old:
                self.changes.append((file, old, rest))
                self.alone = self.alone or not self.is_of_body(file, old)
            elif line:
                self.why = f"a line that is not read: {line[:60]}"
        self.by_file = self.by.startswith("proofs/")
        self.alone = self.alone or self.by_file
        if not self.by or not self.changes:
            self.why = self.why or "no function is named, or no text"

    def is_of_body(self, file, old):
        """Whether the old text lies in the body of a function, and stands in the file once."""
        path = f"{ROOT}/crates/{self.crate}/{file}"
        text = text_of(path) if os.path.isfile(path) else ""
        if text.count(old) != 1:
            self.why = f"the old text stands in {file} {text.count(old)} times"
            return False
        if not file.startswith("src/"):
            return False
        at = text.index(old)
        heads = [it for it in re.finditer(r"(?m)^([ \t]*)(?:pub(?:\(\w+\))? )?(?:extern \"C\" )?fn \w+", text) if it.start() < at]
        if not heads:
            return False
        indent, after = heads[-1][1], text[heads[-1].start() :]
        body = re.search(rf"(?m)(?:^{indent}\{{| \{{)$", after)
        end = re.search(rf"(?m)^{indent}\}}", after)
        return bool(body and end and body.end() <= at - heads[-1].start() < end.start())

    def apply(self, room):
        for file, old, new in self.changes:
            text = text_of(f"{room}/{file}")
            with open(f"{room}/{file}", "w", encoding="utf-8") as it:
                it.write(text.replace(old, new))


def rounds(edits):
    """Parts the edits of a crate: those of one round change bodies of different functions, or one stands alone."""
    found, left = [[it] for it in edits if it.alone], [it for it in edits if not it.alone]
    while left:
        now = []
        for it in left:
            if it.by not in [one.by for one in now]:
                now.append(it)
        found.append(now)
        left = [it for it in left if it not in now]
    return found


def proved(name):
    """The functions that the library has which the gate built of the crate, by their paths; none where there is no such library."""
    code = f"{ROOT}/crates/{name}/out/rlib/{name}.rlib/toolchain/mir.json"
    found = [it[0] for it in json.loads(text_of(code))] if os.path.isfile(code) else []
    return [it[len(name) + 2:] for it in found if it.startswith(f"{name}::") and "+" not in it]


def leave_out(name, functions, kept, room):
    """Empties the bodies of these functions, but for those of the names that are kept, and puts a hole in the place of each proof."""
    for at, _, files in os.walk(f"{room}/src"):
        for file in files:
            text = text_of(f"{at}/{file}")
            emptied = BODY.sub(lambda it: it[0] if it["name"] in kept else f"{it['head']}{it['open']}\n{it['indent']}    loop {{}}\n{it['indent']}}}", text)
            if emptied != text:
                with open(f"{at}/{file}", "w", encoding="utf-8") as it:
                    it.write(emptied)
    for path in functions:
        *above, last = path.split("::")
        if last in kept:
            continue
        at = "/".join([room, "proofs", *above])
        # (a function that called itself has a folder of another name)
        shutil.rmtree(f"{at}/+{last}", ignore_errors=True)
        os.makedirs(f"{at}/{last}", exist_ok=True)
        for file in ("Invariants.antt", "Answers.antt"):
            if os.path.isfile(f"{at}/{last}/{file}"):
                os.remove(f"{at}/{last}/{file}")
        with open(f"{at}/{last}/Proof.antt", "w", encoding="utf-8") as file:
            file.write(f"use Rattle.{name}.proofs.{'.'.join([*above, last])}.Statement.{{statement}}\n\n"
                       f"pub {last}_spec : {{M : Type 1}} → statement M\n{last}_spec = ?\n")


def attempt(name, edits, every, kept, is_control=False):
    """What the prover says of the functions, each with its edit, or as they are: a verdict for each edit, and what it printed."""
    with tempfile.TemporaryDirectory(prefix="edits-") as room:
        for part in PARTS:
            if os.path.isdir(f"{ROOT}/crates/{name}/{part}"):
                shutil.copytree(f"{ROOT}/crates/{name}/{part}", f"{room}/{part}")
        for it in edits * (not is_control):
            it.apply(room)
        only = [word for it in edits for word in ("--only", it.by)] if IS_ONE_ENOUGH and not edits[0].by_file else []
        others = proved(name) if only else []
        if others:
            only += ["--allow-holes"]
            leave_out(name, others, [it.by.split("::")[-1] for it in edits], room)
        command = [f"{KIT}/bin/rattle", "check", *words(name, every), "--incremental", kept, *only]
        ran = subprocess.run(command, cwd=room, stdin=subprocess.DEVNULL, stdout=subprocess.PIPE, stderr=subprocess.STDOUT, text=True, errors="replace")
    said = dict(re.findall(rf"(?m)^\w+ {name}::(\S+): (.*)", ran.stdout))
    said.update({file: "not proved" for file in re.findall(r"(?m)^\./(proofs/\S+?):\d+:\d+: error", ran.stdout)})
    return [said.get(it.by, "") for it in edits], ran.stdout


def is_refused(verdict):
    """Whether the prover refuses the function itself."""
    return verdict.startswith("not proved") or "did not prove" in verdict


def tell(edit, why):
    with says:
        print(f"FAILED: {edit.name}: {why}", flush=True)


def try_round(name, edits, every, kept):
    """How many of the edits are refused by the functions that they name."""
    verdicts, printed = attempt(name, edits, every, kept)
    if not any(verdicts) and len(edits) > 1:
        # (one of them cannot be read: each by itself shows which)
        return sum(try_round(name, [it], every, kept) for it in edits)
    refused = 0
    for it, verdict in zip(edits, verdicts):
        if is_refused(verdict):
            refused += 1
        elif verdict:
            tell(it, f"{it.by}: {verdict}")
        else:
            wrong = [line for line in printed.split("\n") if "error" in line] or [printed[-200:]]
            tell(it, f"the prover says nothing of {it.by}: {wrong[0][:300]}")
    return refused


def try_crate(name, edits, every):
    """How many edits of the crate are refused."""
    refused = 0
    good = [it for it in edits if not it.why]
    for it in edits:
        if it.why:
            tell(it, it.why)
    with tempfile.TemporaryDirectory(prefix="edits-kept-") as kept:
        for it in rounds(good):
            refused += try_round(name, it, every, kept)
    with says:
        print(f"{name}: {refused} of {len(edits)} refused", flush=True)
    return refused


def control(name, edits, every):
    """How many of the functions that refuse an edit are not refused with their own bodies."""
    one = list({it.by: it for it in edits if not it.why and not it.by_file}.values())
    with tempfile.TemporaryDirectory(prefix="edits-kept-") as kept:
        verdicts, _ = attempt(name, one, every, kept, is_control=True) if one else ([], "")
    fine = 0
    for it, verdict in zip(one, verdicts):
        if verdict and not is_refused(verdict):
            fine += 1
        else:
            tell(it, f"{it.by} with its own body: {verdict or 'the prover says nothing of it'}")
    with says:
        print(f"{name}: {fine} of {len(one)} functions are not refused", flush=True)
    return fine, len(one)


def edits_of(name):
    folder = f"{ROOT}/crates/{name}/edits"
    files = sorted(os.listdir(folder)) if os.path.isdir(folder) else []
    return [Edit(name, f"{folder}/{it}") for it in files]


def size_of(name):
    """The lines of a crate's proofs and programs, by which the longest goes first."""
    count = 0
    for part in PARTS:
        for at, _, files in os.walk(f"{ROOT}/crates/{name}/{part}"):
            count += sum(text_of(f"{at}/{it}").count("\n") for it in files)
    return count


def main(args):
    jobs, is_control = 0, args[:1] == ["--control"]
    args = args[is_control:]
    if args[:1] == ["--jobs"]:
        jobs, args = int(args[1]), args[2:]
    every = crates()
    lacking = [it for it in args if it not in every]
    if lacking:
        sys.exit(f"edits: {lacking[0]} is no crate")
    todo = {it: edits_of(it) for it in (args or every)}
    todo = {it: edits for it, edits in todo.items() if edits}
    for it in todo:
        build(it, every)
    if not jobs:
        pages = os.sysconf("SC_AVPHYS_PAGES") * os.sysconf("SC_PAGE_SIZE")
        jobs = max(1, min(len(os.sched_getaffinity(0)), pages // ROOM))
    order = sorted(todo, key=size_of, reverse=True)
    with concurrent.futures.ThreadPoolExecutor(jobs) as pool:
        if is_control:
            found = list(pool.map(lambda it: control(it, todo[it], every), order))
            refused, wanted = sum(it[0] for it in found), sum(it[1] for it in found)
        else:
            refused = sum(pool.map(lambda it: try_crate(it, todo[it], every), order))
            wanted = sum(len(it) for it in todo.values())
    print(f"{refused} passed, {wanted - refused} failed")
    return 0 if refused == wanted else 1


if __name__ == "__main__":
    sys.exit(main(sys.argv[1:]))
