#!/usr/bin/env python3
"""Tries edits in a copy of the checkout and holds each refusal against the head of its edit, a line
`# breaks: FUNCTION CLAUSE`. FUNCTION is its path in the crate. CLAUSE is the label of what it ensures, or
`ensures` where that has none; `invariant` of a loop, which carries such a clause; or the goal of what a
call requires. An edit fails that is proved, that cannot be made or read, or that is refused while that
clause holds. It measures nothing. What a check has kept in out/ is taken over. bench/edits.sh calls it.

usage: edits.py SCRATCH [--gate | --all] [--logs FOLDER] [NAME..]
       --gate: the edits of crates/NAME/must-fail/; --all: these and those of bench/edits/; else the latter
       --logs: keeps what the prover printed, a file for each edit
       NAME: a crate, or CRATE/EDIT for one edit; where none is given all
       edits.py --read LOG
       tries nothing, and holds the heads against what `rt ci` or `rt must-fail` printed, which is one goal
       of each edit; those that it does not settle are to be tried
"""
import argparse
import os
import re
import shutil
import subprocess
import sys

TOP = os.path.dirname(os.path.dirname(os.path.abspath(__file__)))
PARTS = ("src", "specs", "proofs")
HEAD = re.compile(r"# breaks: ([\w:+]+) ([\w+-]+)$")
OPEN = re.compile(r"fn (\S+): no proof: .*? did not prove (.*)")
NOTE = re.compile(r"note: (src/\S+\.rt):(\d+):\d+: .*\(`([^`]+)`\)")
WRONG = re.compile(r"(?:\./)?proofs/(\S+)/(?:Answers|Proof|Invariants)\.antt:\d+:\d+: error: `([^`]+)`")
UNREAD = re.compile(r"^(?:\./)?(?:src|specs)/\S+: error", re.M)
TOLD = re.compile(r"must-fail (\w+)/([\w.-]+)\.edit: (.*)")
# What a proof file says where it names what an edit took away: that tells nothing of a clause.
GONE = re.compile(r"has no field|is not in scope|has no `|was not admitted")


class BadEdit(Exception):
    """Why an edit says nothing."""


def clause_of(goal):
    """The clause that a goal is of."""
    if goal.startswith("loop-"):
        return "variant" if goal.endswith("-smaller") else "invariant"
    if goal.startswith("returns"):
        return goal.rpartition("-clause-")[2] if "-clause-" in goal else "ensures"
    return goal


class Edit:
    """A mistake: the clause that it breaks, and what it replaces in which file."""

    def __init__(self, path):
        self.path = path
        self.name = os.path.basename(path).removesuffix(".edit")
        self.breaks, self.changes = None, []
        file = old = None
        with open(path, encoding="utf8") as text:
            lines = text.read().split("\n")
        for line in lines:
            head = HEAD.match(line)
            if head:
                self.breaks = head.groups()
            word, _, rest = line.partition(": ")
            if word == "file":
                file = rest
            elif word == "old":
                old = rest
            elif word in ("new", "new:"):
                self.changes.append((file, old, rest))

    def changed(self, folder):
        """The texts that the mistake makes of files of the crate in that folder, by their paths there."""
        texts = {}
        for file, old, new in self.changes:
            if file not in texts:
                with open(os.path.join(folder, file), encoding="utf8") as text:
                    texts[file] = text.read()
            if texts[file].count(old) != 1:
                raise BadEdit(f"its old text stands {texts[file].count(old)} times in {file}")
            texts[file] = texts[file].replace(old, new)
        if not texts:
            raise BadEdit("it changes nothing")
        return texts

    def make(self, folder):
        """Makes the mistake there."""
        for file, text in self.changed(folder).items():
            with open(os.path.join(folder, file), "w", encoding="utf8") as made:
                made.write(text)


def function_at(path, line):
    """The name of the function that has this line of a file, or ends before it."""
    with open(path, encoding="utf8") as text:
        lines = text.read().split("\n")[:int(line)]
    names = [found[1] for found in map(re.compile(r"\s*(?:pub(?:\(.*?\))? )?fn (\w+)").match, lines) if found]
    return names[-1] if names else ""


class Refusal:
    """The clauses that a check did not prove, each with its function, or the last part of its path, by
    what the check of the crate in that folder printed."""

    def __init__(self, crate, log, folder):
        self.clauses = []
        for line in log.split("\n"):
            found = OPEN.match(line)
            if found:
                function = found[1].removeprefix(crate + "::")
                for goal in re.findall(r"`([^`]+)`", found[2]):
                    self.add(function, goal)
            found = NOTE.match(line)
            if found:
                self.add(function_at(os.path.join(folder, found[1]), found[2]), found[3])
            found = WRONG.match(line)
            if found and not GONE.search(line):
                self.add(found[1].replace("/", "::"), found[2])
        self.is_unread = not self.clauses and bool(UNREAD.search(log))

    def add(self, function, goal):
        clause = function, clause_of(goal)
        if not self.has(clause):
            self.clauses.append(clause)

    def has(self, clause):
        """Whether the clause is not proved."""
        names = clause[0], clause[0].rpartition("::")[2]
        return any(one[0] in names and one[1] == clause[1] for one in self.clauses)

    def __str__(self):
        return ", ".join(" ".join(clause) for clause in self.clauses) or "no clause"


def taken_over(folder, to):
    """Copies what a build or a check has left, by links where these can be made: a later check replaces
    a file of a proof and changes none."""

    def copy(one, other):
        try:
            if one.endswith(".oantt") or "/rlib/" in one:
                return os.link(one, other)
        except OSError:
            pass
        return shutil.copy2(one, other)

    if os.path.isdir(folder):
        shutil.copytree(folder, to, copy_function=copy)


class Scratch:
    """A copy of the crates, in which edits are tried."""

    def __init__(self, folder):
        self.folder = folder
        for file in ("crates.txt", "HANDLES"):
            shutil.copy(os.path.join(TOP, file), folder)
        for crate in os.listdir(os.path.join(TOP, "crates")):
            self.restore(crate)
            taken_over(os.path.join(TOP, "crates", crate, "out", "rlib"), self.of(crate, "out", "rlib"))

    def of(self, crate, *parts):
        return os.path.join(self.folder, "crates", crate, *parts)

    def restore(self, crate):
        """Makes the texts of the crate those of the checkout."""
        for part in PARTS:
            shutil.rmtree(self.of(crate, part), ignore_errors=True)
            if os.path.isdir(os.path.join(TOP, "crates", crate, part)):
                shutil.copytree(os.path.join(TOP, "crates", crate, part), self.of(crate, part))

    def check(self, crate):
        """Checks the crate, and returns the status and what was printed."""
        ran = subprocess.run(["rt", "check"], cwd=self.of(crate), stdin=subprocess.DEVNULL, errors="replace",
                             stdout=subprocess.PIPE, stderr=subprocess.STDOUT)
        return ran.returncode, ran.stdout

    def start(self, crate):
        """Proves the crate as it stands, and sets aside what the check kept."""
        taken_over(os.path.join(TOP, "crates", crate, "out", "incremental"), self.of(crate, "out", "incremental"))
        status, log = self.check(crate)
        if status:
            sys.exit(f"{crate} is not proved as it stands:\n{log}")
        os.rename(self.of(crate, "out", "incremental"), self.of(crate, "kept"))

    def end(self, crate):
        shutil.rmtree(self.of(crate, "kept"))
        self.restore(crate)

    def judge(self, crate, edit, logs):
        """Tries an edit, and returns whether it is refused as its head says, and what to say."""
        self.restore(crate)
        try:
            edit.make(self.of(crate))
        except (BadEdit, OSError) as why:
            return False, f"cannot be made: {why}"
        shutil.rmtree(self.of(crate, "out", "incremental"), ignore_errors=True)
        taken_over(self.of(crate, "kept"), self.of(crate, "out", "incremental"))
        status, log = self.check(crate)
        if logs:
            with open(os.path.join(logs, f"{crate}.{edit.name}.log"), "w", encoding="utf8") as kept:
                kept.write(log)
        refusal = Refusal(crate, log, self.of(crate))
        if status == 0:
            return False, "is proved"
        if refusal.is_unread or status != 1:
            return False, f"cannot be read, or was not judged (status {status})"
        if edit.breaks is None:
            return True, f"is refused by {refusal}; its head names no clause"
        if refusal.has(edit.breaks):
            return True, f"is refused by {' '.join(edit.breaks)}"
        return False, f"breaks {' '.join(edit.breaks)}, says its head, and is refused by {refusal}"


def edits_of(crate, gate, others):
    """The edits of a crate, of the gate or others."""
    folders = [os.path.join(TOP, "crates", crate, "must-fail")] if gate else []
    folders += [os.path.join(TOP, "bench", "edits", crate)] if others else []
    files = [os.path.join(folder, file) for folder in folders if os.path.isdir(folder)
             for file in os.listdir(folder)]
    return [Edit(file) for file in sorted(files) if file.endswith(".edit")]


def read(log):
    """Holds the heads of the edits of the gate against a log of it, and says which are not settled."""
    heads = {(crate, edit.name): edit for crate in os.listdir(os.path.join(TOP, "crates"))
             for edit in edits_of(crate, True, False)}
    with open(log, encoding="utf8", errors="replace") as lines:
        told = [found.groups() for found in map(TOLD.search, lines) if found]
    settled = 0
    for crate, name, said in told:
        edit = heads.get((crate, name))
        refusal = Refusal(crate, re.sub(r"^.*?(?=note: |\./|src/|specs/)", "", said), os.path.join(TOP, "crates", crate))
        if edit and edit.breaks and refusal.has(edit.breaks):
            settled += 1
        else:
            print(f"{crate}/{name}: {' '.join(edit.breaks) if edit and edit.breaks else 'no head'}: {said}")
    print(f"{len(told)} edits, {settled} refused as their heads say")


def main():
    if sys.argv[1:2] == ["--read"] and len(sys.argv) == 3:
        return read(sys.argv[2])
    words = argparse.ArgumentParser(usage=__doc__)
    words.add_argument("scratch")
    words.add_argument("--gate", action="store_true")
    words.add_argument("--all", action="store_true")
    words.add_argument("--logs")
    words.add_argument("names", nargs="*")
    words = words.parse_intermixed_args()
    gate, others = words.gate or words.all, words.all or not words.gate
    wanted = {}
    for crate in sorted(os.listdir(os.path.join(TOP, "crates"))):
        ones = [name.partition("/")[2] for name in words.names if name.partition("/")[0] == crate]
        edits = [edit for edit in edits_of(crate, gate, others)
                 if not words.names or "" in ones or edit.name in ones]
        if edits:
            wanted[crate] = edits
    lacking = {name.partition("/")[0] for name in words.names} - set(wanted)
    if lacking:
        sys.exit(f"no such edits: {', '.join(sorted(lacking))}")
    if words.logs:
        os.makedirs(words.logs, exist_ok=True)
    scratch, failed = Scratch(words.scratch), 0
    for crate, edits in wanted.items():
        scratch.start(crate)
        for edit in edits:
            well, said = scratch.judge(crate, edit, words.logs)
            failed += not well
            print(f"{'ok' if well else 'FAILED'}: {crate}/{edit.name} {said}", flush=True)
        scratch.end(crate)
    print(f"{sum(map(len, wanted.values()))} edits, {failed} failed")
    sys.exit(1 if failed else 0)


if __name__ == "__main__":
    main()
