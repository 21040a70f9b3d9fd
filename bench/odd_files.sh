#!/usr/bin/env bash
# Runs the built programs on files that misbehave: folders, pipes and devices in place of files,
# names that are too long, files without permission, files at and above their limits, transfers
# that change while they are read, outputs and disks that take no more. Each answer is held against
# the page of the report, and what is left against what was there before. It measures nothing, and
# stops at the first answer that is another one. As root it also has files without permission and a
# full disk.
#
# usage: bench/odd_files.sh [ITFCHECK ITFFAULTS]      (crates/NAME/out/NAME where none is given)
. "$(dirname "${BASH_SOURCE[0]}")/begin.sh"
itfcheck=$(built_program "$@")
itffaults=$(built_faults "$@")
cd "$work"
chmod 755 .
cp "$itfcheck" itfcheck
cp "$itffaults" itffaults
cp "$top/crates/itfcheck/data/parcels.ili" M
cp "$top/crates/itfcheck/data/parcels.itf" T
chmod 644 M T

cat > change.c <<'C'
/* The file named by CHANGED becomes the file named by BECOMES when it is opened the N-th time, where
   N stands in CHANGES_AT. */
#define _GNU_SOURCE
#include <dlfcn.h>
#include <fcntl.h>
#include <stdarg.h>
#include <stdio.h>
#include <stdlib.h>
#include <string.h>

static void count(const char *name) {
    static long opened;
    const char *changed = getenv("CHANGED");
    if (changed && !strcmp(name, changed) && ++opened == atol(getenv("CHANGES_AT")))
        rename(getenv("BECOMES"), changed);
}

#define OPENS(call)                                                          \
    int call(const char *name, int flags, ...) {                             \
        va_list more;                                                        \
        va_start(more, flags);                                               \
        int mode = va_arg(more, int);                                        \
        va_end(more);                                                        \
        count(name);                                                         \
        return ((int (*)(const char *, int, int))dlsym(RTLD_NEXT, #call))(name, flags, mode); \
    }
OPENS(open)
OPENS(open64)

#define OPENS_AT(call)                                                       \
    int call(int folder, const char *name, int flags, ...) {                 \
        va_list more;                                                        \
        va_start(more, flags);                                               \
        int mode = va_arg(more, int);                                        \
        va_end(more);                                                        \
        count(name);                                                         \
        return ((int (*)(int, const char *, int, int))dlsym(RTLD_NEXT, #call))(folder, name, flags, mode); \
    }
OPENS_AT(openat)
OPENS_AT(openat64)
C
cc -O2 -shared -fPIC -o change.so change.c -ldl

PYTHONPATH="$top/bench" python3 - <<'PY'
import os, subprocess, sys
from runs import held, put

CERTIFICATE_LIMIT, TRANSFER_LIMIT, MODEL_LIMIT = 1 << 30, 256 << 20, 4 << 20
PIECE = 65536
with open("M", "rb") as file:
    MODEL = file.read()
with open("T", "rb") as file:
    TRANSFER = file.read()
PROVED = b"AREA Cover Parcel Form PROVED 0 4 1\nVERDICT ACCEPTED 2\n"
OUTSIDE = TRANSFER.replace(b" 150.000 150.000", b" 300.000 300.000")
KEPT = b"as before"
DONE = 0


def longer(name, content, size):
    """The content, and zeros that take no room, up to the size."""
    put(name, content)
    os.truncate(name, size)


def run(words, as_nobody=False, program="./itfcheck", **how):
    """The status and the output."""
    if as_nobody:
        how.update(user=65534, group=65534, extra_groups=[])
    how.setdefault("stdout", subprocess.PIPE)
    how.setdefault("stdin", subprocess.DEVNULL)
    done = subprocess.run([program, *words], timeout=300, check=False, **how)
    return done.returncode, done.stdout


def told(what, got, wanted, left=None, wanted_left=None):
    global DONE
    if got != wanted or left != wanted_left:
        sys.exit("%s: %s, and %.80s is left; wanted %s, and %.80s" % (
            what, got, left, wanted, wanted_left))
    DONE += 1
    line = (wanted[1] or b"nothing").split(b"\n")[0].decode()
    print("%s: status %d, %s" % (what, wanted[0], line), flush=True)


def check(what, words, status, report, before=KEPT, after=KEPT, **how):
    put("C", before)
    told(what, run(words, **how), (status, report), held("C"), after)


def fault(file):
    return b"FAULT READ %s\n" % file


put("C", None)
wanted = run(["check", "M", "T", "C"])
told("files as they should be", wanted, (0, PROVED))
FILED = held("C")

# ---- what is no file

os.mkdir("folder")
check("a folder as the model", ["compile", "folder"], 5, fault(b"model"))
check("a folder as the transfer", ["check", "M", "folder", "C"], 5, fault(b"transfer"))
check("a folder as the certificates to verify", ["verify", "M", "T", "folder"], 5, fault(b"certificate"))
check("a folder for the certificates", ["check", "M", "T", "folder"], 6, b"")
check("a name in a folder that is not there", ["check", "M", "T", "none/C"], 6, b"")
check("a file as a folder", ["compile", "M/M"], 5, fault(b"model"))
check("a name of 4,096 bytes", ["compile", "n" * 4096], 5, fault(b"model"))
check("a name of 131,071 bytes", ["compile", "n" * 131071], 5, fault(b"model"))
check("a name of 4,096 bytes for the certificates", ["check", "M", "T", "n" * 4096], 6, b"")
check("a name that is not UTF-8", ["check", "M", b"\xff", "C"], 4, run([])[1])
pipe = subprocess.Popen(["cat", "M"], stdout=subprocess.PIPE)
check("a pipe as the model", ["compile", "/dev/stdin"], 5, fault(b"model"), stdin=pipe.stdout)
pipe.stdout.close()
pipe.wait()
with open("T", "rb") as file:
    check("standard input that is a file", ["check", "M", "/dev/stdin", "C"], 0, PROVED, after=FILED, stdin=file)
check("/dev/null as the model", ["compile", "/dev/null"], 3, b"FAULT MODEL expected 1 1 -\n")
check("/dev/null as the transfer", ["check", "M", "/dev/null", "C"], 1, b"STRUCTURE 1 end\nVERDICT REJECTED\n")
check("/dev/null for the certificates", ["check", "M", "T", "/dev/null"], 0, PROVED)
check("/dev/zero as the model", ["compile", "/dev/zero"], 7, b"FAULT LIMIT model\n")
check("/dev/zero as the transfer", ["check", "M", "/dev/zero", "C"], 7, b"FAULT LIMIT transfer\n")
check("/dev/zero as the certificates to verify", ["verify", "M", "T", "/dev/zero"], 7, b"FAULT LIMIT certificate\n")

# ---- the limits

longer("long", MODEL, MODEL_LIMIT)
line = MODEL.count(b"\n") + 1
check("a model of 4 MiB that ends in zeros", ["compile", "long"], 3, b"FAULT MODEL badbyte %d 1 -\n" % line)
longer("long", MODEL, MODEL_LIMIT + 1)
check("a byte more", ["compile", "long"], 7, b"FAULT LIMIT model\n")
put("long", TRANSFER + b"\n" * (TRANSFER_LIMIT - len(TRANSFER)))
check("a transfer of 256 MiB that ends in empty lines", ["check", "M", "long", "C"], 0, PROVED, after=FILED)
with open("long", "ab") as file:
    file.write(b"\n")
check("a byte more", ["check", "M", "long", "C"], 7, b"FAULT LIMIT transfer\n")
longer("long", FILED, CERTIFICATE_LIMIT)
check("certificates of 1 GiB that end in zeros", ["verify", "M", "T", "long"], 9, b"NOTPROVED 0 0 15\nVERDICT NOTPROVED\n")
longer("long", FILED, CERTIFICATE_LIMIT + 1)
check("a byte more", ["verify", "M", "T", "long"], 7, b"FAULT LIMIT certificate\n")
put("long", None)


# ---- a transfer that changes while it is read: the answer is that of what the reads gave


def filled(text, size):
    """The transfer, with free lines in its head up to the size."""
    first = b"SCNT\n"
    return first + b"free\n" * ((size - len(text)) // 5) + text[len(first):]


one = filled(TRANSFER, 3 * PIECE + 100)
for what, other in [
    ("the transfer becomes another one", filled(OUTSIDE, 3 * PIECE + 100)),
    ("the transfer becomes another one, which is longer", filled(OUTSIDE, 5 * PIECE)),
    ("the transfer becomes another one, which is shorter", filled(OUTSIDE, PIECE + 700)),
    ("the transfer becomes empty", b""),
    ("the transfer becomes a file of zeros", b"\0" * (4 * PIECE)),
]:
    for at in range(1, 6):
        seen = one[: PIECE * (at - 1)]
        put("mixed", seen + other[len(seen):])
        put("C", KEPT)
        wanted = run(["check", "M", "mixed", "C"])
        put("changing", one)
        put("other", other)
        changes = {"LD_PRELOAD": "./change.so", "CHANGED": "changing", "BECOMES": "other", "CHANGES_AT": str(at)}
        left = held("C")
        check("%s before read %d" % (what, at), ["check", "M", "changing", "C"], *wanted, after=left, env=changes)

# ---- outputs that take nothing, and what is then left

with open("/dev/full", "wb") as full:
    check("an output that is full, accepted", ["check", "M", "T", "C"], 6, None, after=FILED, stdout=full)
    put("wrong", OUTSIDE)
    check("an output that is full, rejected", ["check", "M", "wrong", "C"], 6, None, stdout=full)
    check("an output that is full, no command", ["check"], 6, None, stdout=full)
out, into = os.pipe()
os.close(out)
check("an output that nobody reads", ["check", "M", "T", "C"], 6, None, after=FILED, stdout=into)
os.close(into)
put("C", KEPT)
closed = subprocess.run(["sh", "-c", "./itfcheck check M T C >&-"], check=False).returncode
told("an output that is closed, accepted", (closed, None), (6, None), held("C"), FILED)
put("C", KEPT)
closed = subprocess.run(["sh", "-c", "./itfcheck check M wrong C >&-"], check=False).returncode
told("an output that is closed, rejected", (closed, None), (6, None), held("C"), KEPT)
check("a device that is full for the certificates", ["check", "M", "T", "/dev/full"], 6, b"")

# ---- the files of the other commands

LINKED = PROVED.replace(b"VERDICT", b"LINKS 0 0\nVERDICT")
check("a folder as the links", ["points", "M", "T", "folder"], 5, fault(b"links"))
check("links that are not there", ["points", "M", "T", "none"], 5, fault(b"links"))
check("/dev/null as the links", ["points", "M", "T", "/dev/null"], 0, LINKED)
check("/dev/zero as the links", ["points", "M", "T", "/dev/zero"], 7, b"FAULT LIMIT links\n")
put("long", b"\n" * PIECE)
check("links of 64 KiB without a word", ["points", "M", "T", "long"], 0, LINKED)
put("long", b" " * PIECE + b"\n")
check("a byte more", ["points", "M", "T", "long"], 7, b"FAULT LIMIT links\n")
put("long", b"LINK" * (PIECE // 4))
check("links of one word of 64 KiB", ["points", "M", "T", "long"], 1, b"LINKLINE 1\nVERDICT REJECTED\n")
put("long", None)

FAULTS = b"AREA Cover Parcel Form 0 0 0 0 0 0 0 0\nVERDICT CLEAN 2\n"
REWRITTEN = b"VERDICT ACCEPTED 2\n"
LINE_FAULT = b"ITFFAULTS 1\nSTRUCTURE 1 word\nEND\n"
for words, report, how in [
    (["polygons", "M", "T"], PROVED, {}),
    (["canonical", "M", "T"], REWRITTEN, {}),
    (["M", "T"], FAULTS, {"program": "./itffaults"}),
]:
    what = words[0] if words[1:2] == ["M"] else "itffaults"
    put("C", None)
    told("%s: files as they should be" % what, run([*words, "C"], **how), (0, report))
    text = held("C")
    check("%s: a folder for its file" % what, [*words, "folder"], 6, b"", **how)
    check("%s: its file in a folder that is not there" % what, [*words, "none/C"], 6, b"", **how)
    check("%s: a device that is full for its file" % what, [*words, "/dev/full"], 6, b"", **how)
    check("%s: a folder as the transfer" % what, [*words[:-1], "folder", "C"], 5, fault(b"transfer"), **how)
    left = KEPT if what != "itffaults" else LINE_FAULT
    check("%s: the model as the transfer" % what, [*words[:-1], "M", "C"], 1, b"STRUCTURE 1 word\nVERDICT REJECTED\n", after=left, **how)
    check("%s: no file" % what, words, 4, run([], **how)[1], **how)
    with open("/dev/full", "wb") as full:
        check("%s: an output that is full" % what, [*words, "C"], 6, None, after=text, stdout=full, **how)

# ---- itffaults of a transfer that is rejected before its areas are drawn

TWICE = b"OBJE 1 77 150.000 150.000\n"
put("found", TRANSFER.replace(TWICE, TWICE.replace(b"150", b"1x0", 1) + TWICE))
number = TRANSFER[: TRANSFER.index(TWICE)].count(b"\n") + 1
FOUND = b"FINDING %d number 2\nFINDING %d tid 0 %d\nFINDING %d ident 1 %d\n" % (
    number, number + 1, number, number + 1, number)
TOLD = FOUND + b"VERDICT REJECTED\n"
faults = {"program": "./itffaults"}
check("itffaults: three findings", ["M", "found", "C"], 1, TOLD, after=b"ITFFAULTS 1\nFINDINGS 3\n" + FOUND + b"END\n", **faults)
for what, name in (("a line at fault", "M"), ("findings", "found")):
    check("itffaults: %s, a device that is full for its file" % what, ["M", name, "/dev/full"], 6, b"", **faults)
    check("itffaults: %s, its file in a folder that is not there" % what, ["M", name, "none/C"], 6, b"", **faults)
with open("/dev/full", "wb") as full:
    check("itffaults: a line at fault, an output that is full", ["M", "M", "C"], 6, None, after=LINE_FAULT, stdout=full, **faults)

# ---- permission, and a disk that is full

if os.getuid() == 0:
    for name, mode in (("M", 0o644), ("T", 0o644)):
        os.chmod(name, 0o600)
        word = b"model" if name == "M" else b"transfer"
        check("no permission to read the %s" % word.decode(), ["check", "M", "T", "C"], 5, fault(word), as_nobody=True)
        os.chmod(name, mode)
    put("C", KEPT)
    os.chmod("C", 0o644)
    told("no permission to write the certificates", run(["check", "M", "T", "C"], as_nobody=True), (6, b""), held("C"), KEPT)
    told("no permission to make their file", run(["check", "M", "T", "new"], as_nobody=True), (6, b""), held("new"))
    run(["trial", "60", "whole"])
    whole = held("whole")
    os.mkdir("disk")
    subprocess.run(["mount", "-t", "tmpfs", "-o", "size=64k", "tmpfs", "disk"], check=True)
    try:
        got = run(["trial", "60", "disk/C"])
        left = held("disk/C")
        told("a disk of 64 KiB for %d bytes of certificates" % len(whole), got, (6, b""), left, whole[: len(left)])
        print("    %d bytes are left, a front of the text" % len(left))
        put("disk/C", None)
        with open("disk/rest", "wb", buffering=0) as file:
            try:
                while True:
                    file.write(b"x" * 4096)
            except OSError:
                pass
        got = run(["check", "M", "T", "disk/C"])
        told("a disk that is full", got, (6, b""), held("disk/C"), b"")
    finally:
        subprocess.run(["umount", "disk"], check=True)
print("%d runs" % DONE)
PY
