#!/usr/bin/env python3
"""Holds the pages (README.md, docs/*.md, bench/README.md) against the tree: links and their anchors,
the names of files, functions, clauses, definitions and edits that they cite, the counts that a script
can tell, the order of the crates, that each edit can be made and has a head, and that docs/STATEMENT.md
is what the sources say. It counts words, as `wc -w` does, and wants at most 43,100 in all and 1,000 in
the README. It measures nothing.

usage: pages.py            says what is wrong; the status is 1 where something is
       pages.py --words    prints the words of each page too
       pages.py --marks    first marks in docs/PROOFS.md the edits that the gate does not try
"""
import os
import re
import subprocess
import sys

from edits import BadEdit, Edit

TOP = os.path.dirname(os.path.dirname(os.path.abspath(__file__)))
MOST, MOST_OF_README, MOST_OF_BENCH = 43_100, 1_000, 4_000
KINDS = (".rt", ".antt", ".py", ".sh", ".hpp", ".cpp", ".toml", ".edit", ".ili", ".itf", ".txt", ".svg")
FENCE = re.compile(r"^```.*?^```$", re.M | re.S)
LINK = re.compile(r"\[[^\]]*\]\(([^()\s]+)\)")
CODE = re.compile(r"`([^`\n]+)`")
EDIT = re.compile(r"`(\w+)`°?")
NAME = re.compile(r"[A-Za-z_][A-Za-z_0-9]*(?:(?:::|\.)[A-Za-z_][A-Za-z_0-9]*)*$")
FOLDERS = ("crates/", "bench/", "tools/", "docs/", ".ci/", "specs/", "proofs/", "src/")
# Names that a page gives as an example, or that a program makes.
KNOWN = {"src/a/b.rt", "Parcel_7", "table_attribute", "ITFCHECK_OUTSIDE", "ITFCHECK_RANGE", "RT_JOBS"}


def read(*path):
    with open(os.path.join(TOP, *path), encoding="utf8", errors="replace") as file:
        return file.read()


def pages():
    """The pages by their paths from the top."""
    docs = sorted(f"docs/{name}" for name in os.listdir(os.path.join(TOP, "docs")) if name.endswith(".md"))
    return {path: read(path) for path in ["README.md", *docs, "bench/README.md"]}


def tree():
    """The paths of the files of the checkout from the top, without what a build leaves."""
    found = []
    for folder, folders, files in os.walk(TOP):
        folders[:] = [one for one in folders if one not in ("out", ".git", "__pycache__")]
        found += [os.path.relpath(os.path.join(folder, file), TOP) for file in files]
    return found


def slugs(text):
    """The anchors of the headings of a page."""
    found = set()
    for heading in re.findall(r"^#+ (.*)$", FENCE.sub("", text), re.M):
        plain = re.sub(r"\[([^\]]*)\]\([^)]*\)", r"\1", heading).replace("`", "")
        slug = re.sub(r"[^\w\- ]", "", plain.lower()).replace(" ", "-")
        number = 1
        while slug in found:
            slug, number = f"{slug}-{number}", number + 1
        found.add(slug)
    return found


def bad_links(path, text, texts):
    """Links to a file that is not there, or to a heading that its page has not."""
    for target in LINK.findall(FENCE.sub("", text)):
        if re.match(r"https?:", target):
            continue
        file, _, anchor = target.partition("#")
        name = os.path.normpath(os.path.join(os.path.dirname(path), file)) if file else path
        if not os.path.exists(os.path.join(TOP, name)):
            yield f"{path}: no file {target}"
        elif anchor and anchor not in slugs(texts.get(name) or read(name)):
            yield f"{path}: no heading {target}"


def longest_chain(depends):
    """How many crates the longest chain has, in which each stands on the one before it."""
    length = {}
    for name, below in depends.items():
        length[name] = 1 + max((length[one] for one in below if one in length), default=0)
    return max(length.values())


class Tree:
    """The files of the checkout, the crates, and the words of each crate and of everything."""

    def __init__(self):
        self.paths = tree()
        self.names = {os.path.basename(path) for path in self.paths}
        lines = [line.split(":") for line in read("crates.txt").splitlines() if line and line[0] != "#"]
        self.depends = {name: below.split() for name, below in lines}
        self.crates = list(self.depends)
        self.words, self.of_crate = set(), {name: set() for name in self.crates}
        for path in self.paths:
            parts = path.split(os.sep)
            if path.endswith(KINDS) or path in ("itfcheck", "HANDLES") or parts[-1] == "stdout":
                words = set(re.findall(r"\w+", read(path))) | set(re.findall(r"\w+", path))
                self.words |= words
                if parts[0] == "crates":
                    self.of_crate[parts[1]] |= words

    def edits(self, gate):
        """The edits of the gate by crate and name, or those outside of it."""
        for path in self.edit_files(gate):
            parts = path.split(os.sep)
            yield parts[1 if gate else 2], parts[-1].removesuffix(".edit")

    def edit_files(self, gate):
        """The paths of these."""
        for path in self.paths:
            parts = path.split(os.sep)
            inside = parts[0] == "crates" and "must-fail" in parts
            if path.endswith(".edit") and inside == gate:
                yield path

    def has(self, path):
        """Whether a file or a folder ends so, where its parts are a path of the tree."""
        ends = ("/" + path.rstrip("/"), "/" + path + ".antt", "/" + path + ".rt")
        return any(("/" + one).endswith(ends) or "/" + path.rstrip("/") + "/" in "/" + one
                   for one in self.paths)


def bad_names(path, text, here):
    """Files and names in code that the tree has not."""
    for code in CODE.findall(FENCE.sub("", text)):
        first = code.split(" ")[0]
        if first in KNOWN or first.endswith("_") or "/out/" in first or "NAME" in first or ".." in first:
            continue
        if first.startswith(FOLDERS):
            if not here.has(first):
                yield f"{path}: no file {first}"
        elif re.fullmatch(r"[\w-]+\.(sh|py|cpp|rt|antt|toml|edit)", first):
            if first not in here.names:
                yield f"{path}: no file {first}"
        elif NAME.fullmatch(code) and ("_" in code or "::" in code or re.search(r"[a-z][A-Z]", code)):
            for part in re.split(r"::|\.", code):
                if part not in here.words:
                    yield f"{path}: nothing is named {code}"


def bad_proofs(text, here):
    """Edits that the page of proofs does not name, or that are not there; clauses and functions that the
    crate of their section has not; crates without a section."""
    edits = {(crate, name) for gate in (True, False) for crate, name in here.edits(gate)}
    names = {name for _, name in edits}
    for name in sorted(names - set(CODE.findall(text))):
        yield f"docs/PROOFS.md: the edit {name} is not named"
    section = None
    for line in text.splitlines():
        heading = re.match(r"#+ `(\w+)", line)
        if heading:
            section = heading.group(1)
        elif line.startswith("#"):
            section = None
        if section not in here.of_crate or not line.startswith("- "):
            continue
        claim, _, edits = line.partition("*Refused*")
        clauses = claim.split(". ")[0]
        for name in CODE.findall(edits):
            if name not in names and name not in here.of_crate:
                yield f"docs/PROOFS.md, {section}: no edit {name}"
        crates = [section] + [name for name in CODE.findall(clauses) if name in here.of_crate]
        for code in CODE.findall(clauses):
            for part in re.split(r"::|\.|/", code):
                if NAME.fullmatch(part) and not any(part in here.of_crate[one] for one in crates):
                    yield f"docs/PROOFS.md, {section}: nothing is named {code}"
    for name in here.crates:
        if not name.endswith("_tests") and name not in ("itfcheck", "worked_rows"):
            if not re.search(rf"^### `{name}`", text, re.M):
                yield f"docs/PROOFS.md: no section on {name}"


def with_marks(text, here):
    """The page of proofs with a mark behind each edit that the gate does not try."""
    outside = {name for _, name in here.edits(False)}

    def marked(found):
        return f"`{found[1]}`" + ("°" if found[1] in outside else "")

    lines = [line.partition("*Refused*") for line in text.split("\n")]
    return "\n".join(claim + word + EDIT.sub(marked, edits) for claim, word, edits in lines)


def bad_marks(text, here):
    """Whether an edit of the gate has a mark, or another one has none."""
    lines = zip(text.split("\n"), with_marks(text, here).split("\n"))
    number = sum(line != marked for line, marked in lines)
    if number:
        yield f"docs/PROOFS.md: {number} lines lack marks of edits, or have too many: pages.py --marks"


def bad_edits(here):
    """Edits that cannot be made, or whose head does not name a clause."""
    for gate in (True, False):
        for path, (crate, _) in zip(here.edit_files(gate), here.edits(gate)):
            edit = Edit(os.path.join(TOP, path))
            try:
                edit.changed(os.path.join(TOP, "crates", crate))
            except (BadEdit, OSError) as why:
                yield f"{path}: {why}"
            if edit.breaks is None:
                yield f"{path}: its head names no clause"


def bad_order(text, here):
    """Crates without a row in the table of crates, or rows in another order than crates.txt."""
    rows = [name for name in re.findall(r"^\| `(\w+)` \|", text, re.M) if name in here.crates]
    rows = list(dict.fromkeys(rows))
    if rows != here.crates:
        yield f"docs/ARCHITECTURE.md: the crates are {', '.join(rows)}, in crates.txt {', '.join(here.crates)}"


def bad_scripts(text, here):
    """Scripts of bench/ that its page does not name."""
    for path in here.paths:
        folder, name = os.path.split(path)
        if folder == "bench" and name != "README.md" and name not in text:
            yield f"bench/README.md: {name} is not named"


def counts(here):
    """The numbers that pages say, by what is to stand before and behind them."""
    rows = dict(re.findall(r"^(\w+)\.toml: (\d+) of", read("crates/worked_rows/stdout"), re.M))
    rows = {name: int(number) for name, number in rows.items()}
    inside, outside = (list(here.edits(gate)) for gate in (True, False))
    dear = {crate for crate, _ in outside} - {crate for crate, _ in inside}
    laws = [path for path in here.paths if path.endswith("proofs/PlaneLaws.antt")]
    limit = int(re.search(r"limit_of Certificate = (\d+)", read("crates/commands/specs/Commands.antt")).group(1))
    changed = rows["changed_certificates"] + rows["changed_arc_certificates"]
    return [
        ("README.md", r"(\d+) mistakes that must be refused", len(inside)),
        ("README.md", r"tries (\d+) more", len(outside)),
        ("docs/DECISIONS.md", r"The gate tries (\d+) edits", len(inside)),
        ("docs/DECISIONS.md", r"(\d+) more are in `bench/edits/`", len(outside)),
        ("docs/DECISIONS.md", r"all of (\d+) dear crates", len(dear)),
        ("docs/PROOFS.md", r"The (\d+) rows of `worked_rows`", sum(rows.values())),
        ("docs/PROOFS.md", r"(\d+) rows with changed ones", changed),
        ("docs/verdict.md", r"limit of ([\d,]+) bytes", limit),
        ("docs/CONTRIBUTING.md", r"words\.toml: (\d+) of", rows["words"]),
        ("docs/CONTRIBUTING.md", r"(\d+) crates have it", len(laws)),
        ("docs/ARCHITECTURE.md", r"(\d+) crates of `crates.txt`", len(here.crates)),
        ("docs/ARCHITECTURE.md", r"longest chain of crates has (\d+)", longest_chain(here.depends)),
    ]


def bad_counts(texts, here):
    for path, pattern, number in counts(here):
        found = re.findall(pattern, texts[path])
        if not found:
            yield f"{path}: no text {pattern}"
        for one in found:
            if int(one.replace(",", "")) != number:
                yield f"{path}: {pattern} says {one}, and there are {number}"


def bad_trust(text, here):
    """Crates of the kit that the README does not name as trusted, but for that of the rows."""
    trusted = text.partition("Trusted: ")[2].partition("\n")[0]
    outside = {one for name, below in here.depends.items() if name != "worked_rows" for one in below}
    for name in sorted(outside - set(here.crates) - set(CODE.findall(trusted))):
        yield f"README.md: {name} is not named as trusted"


def bad_words(words):
    for what, number, most in [("all pages", sum(words.values()), MOST),
                               ("README.md", words["README.md"], MOST_OF_README),
                               ("bench/README.md", words["bench/README.md"], MOST_OF_BENCH)]:
        if number > most:
            yield f"{what}: {number:,} words, where {most:,} are the most"


def main():
    if sys.argv[1:] not in ([], ["--words"], ["--marks"]):
        sys.exit(__doc__)
    texts, here = pages(), Tree()
    if sys.argv[1:] == ["--marks"]:
        texts["docs/PROOFS.md"] = with_marks(texts["docs/PROOFS.md"], here)
        with open(os.path.join(TOP, "docs", "PROOFS.md"), "w", encoding="utf8") as page:
            page.write(texts["docs/PROOFS.md"])
    words = {path: len(text.split()) for path, text in texts.items()}
    if sys.argv[1:] == ["--words"]:
        for path, number in words.items():
            print(f"{number:7,} {path}")
    wrong = [one for path, text in texts.items() for one in bad_links(path, text, texts)]
    wrong += [one for path, text in texts.items() for one in bad_names(path, text, here)]
    wrong += bad_proofs(texts["docs/PROOFS.md"], here)
    wrong += bad_marks(texts["docs/PROOFS.md"], here)
    wrong += bad_edits(here)
    wrong += bad_order(texts["docs/ARCHITECTURE.md"], here)
    wrong += bad_scripts(texts["bench/README.md"], here)
    wrong += bad_counts(texts, here)
    wrong += bad_trust(texts["README.md"], here)
    wrong += bad_words(words)
    for one in wrong:
        print(one)
    statement = subprocess.run([sys.executable, os.path.join(TOP, "bench", "statement.py"), "--check"])
    print(f"{len(texts)} pages, {sum(words.values()):,} words, {len(wrong)} faults")
    sys.exit(1 if wrong or statement.returncode else 0)


main()
