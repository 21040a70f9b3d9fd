"""Runs a command and measures the run, or limits its memory; makes and reads files.

The Python parts of measure.sh, bad_texts.sh, limits.sh, models.sh, models_names.sh, growths.sh and
odd_files.sh import it.
"""
import os
import resource
import sys


def once(words, output=os.devnull, limit=None):
    """Runs a command with its output in a file: its status, CPU seconds and peak bytes.

    With a limit it has so many bytes of address space. The status of a command that a signal ended
    is below 0. The peak is no less than what the process that calls this has in memory.
    """
    pid = os.fork()
    if pid == 0:
        os.dup2(os.open(output, os.O_WRONLY | os.O_CREAT | os.O_TRUNC), 1)
        if limit is not None:
            resource.setrlimit(resource.RLIMIT_AS, (limit, limit))
        os.execvp(words[0], words)
    _, status, usage = os.wait4(pid, 0)
    spent = usage.ru_utime + usage.ru_stime
    return os.waitstatus_to_exitcode(status), spent, usage.ru_maxrss * 1024


def put(name, content):
    """Makes a file anew with the bytes, or only removes the old one where they are None."""
    if os.path.exists(name):
        os.unlink(name)
    if content is not None:
        with open(name, "wb") as file:
            file.write(content)


def held(name):
    """The bytes of a file, or None where there is none."""
    if not os.path.isfile(name):
        return None
    with open(name, "rb") as file:
        return file.read()


# Address space that the program takes before it reads anything, rounded up.
AT_START = 16 << 20


def within(times, words, status, report):
    """Runs a command of the program with so many bytes of address space for each byte of the files
    that it reads.

    It has to end with this status and this report, or with status 8, no report and the file of the
    certificates as it was; ends this script where it does not. Says which of the two came.
    """
    names = words[2:5] if words[1] == "verify" else words[2:4]
    size = sum(os.path.getsize(name) for name in names)
    before = held(words[4]) if words[1] == "check" else None
    got, _, _ = once(words, "report.within", AT_START + times * size)
    if (got, held("report.within")) == (status, report):
        return "answered within %d times" % times
    after = held(words[4]) if words[1] == "check" else None
    if (got, held("report.within"), after) == (8, b"", before):
        return "status 8 within %d times" % times
    sys.exit("%s within %d times its files: status %d" % (" ".join(words[1:]), times, got))
