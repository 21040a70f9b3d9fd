#!/usr/bin/env python3
"""The tests of script.sh, which sets TOP, and ITFCHECK and ITFFAULTS where programs are given."""
import concurrent.futures
import os
import pathlib
import pty
import resource
import shutil
import signal
import stat
import subprocess
import tempfile
import time
import unittest

TOP = pathlib.Path(os.environ["TOP"])
LOGIC = "logic " + (TOP / "README.md").read_text().split("the logic `")[1].split("`")[0]
KIT = "rattle-kit-0 " + LOGIC

# Counts its calls, prints lines of the form of a build's, and builds the stand-in of the program.
RT = r"""#!/usr/bin/env bash
echo "$*" >> "$WORK/calls"
case $1 in
version) echo "$RT_SAYS"; exit ;;
run)
    echo "so far: 0 of 2 functions checked; the verdict comes last"
    echo "checked ports::read, 1 of 2"
    echo "checked ports::put, 2 of 2" >&2
    echo "checked plane::cross::turn, 1 of 1"
    folders=$PWD ;;
ci)
    [ ! -e crates/itfcheck/must-fail ] || [ -e .ci ] || { echo "rt: an edit is tried"; exit 2; }
    for name in $(sed -n 's/:.*//p' crates.txt); do echo "rt: $name proved"; done
    folders=$(ls -d "$PWD"/crates/itf*) ;;
esac
[ -z "${WAITS-}" ] || sleep 60
[ -z "${BREAKS-}" ] || { echo "error: a clause is not proved"; exit 1; }
for one in $folders; do
    mkdir -p "$one/out"
    cp "$WORK/programs/${one##*/}" "$one/out"
done
[ "$1" = run ] || echo "3 passed, 0 failed"
"""

# Prints its arguments, ends with the status in the file `status`, and before it writes the last file in
# pieces where the real program does.
PROGRAM = r"""#!/usr/bin/env bash
case $# in 0) exit 4 ;; esac
case ${!#} in '' | -*) exit 4 ;; esac
status=$(cat "$WORK/status" 2> /dev/null || echo 0)
case ${0##*/}:$1:$status in
itfcheck:check:0 | itfcheck:trial:0 | itfcheck:polygons:0 | itfcheck:canonical:0 | itffaults:*:[012] | *:*:6)
    : > "${!#}" || exit 6
    for piece in $(seq ${PIECES:-2}); do
        printf '%0100d\n' $piece >> "${!#}" || exit 6
        [ -z "${PAUSE-}" ] || sleep "$PAUSE"
    done ;;
esac 2> /dev/null
[ "$1" != cat ] || cat
echo ran "$@"
exit $status
"""


def text(pieces=2):
    """What the stand-in writes."""
    return "".join("%0100d\n" % piece for piece in range(1, pieces + 1))


class Scratch(unittest.TestCase):
    """A scratch checkout, its folder `bin` on the path, and a folder to work in."""

    def setUp(self):
        self.work = pathlib.Path(tempfile.mkdtemp())
        self.addCleanup(shutil.rmtree, self.work, ignore_errors=True)
        self.checkout, self.here = self.work / "checkout", self.work / "here"
        for folder in ("bin", "here", "checkout/tools", "checkout/.ci", "checkout/crates/itfcheck/must-fail"):
            (self.work / folder).mkdir(parents=True)
        for name in ("itfcheck", "itffaults", "README.md", "VERSION", "HANDLES", "tools/release.sh", ".ci/run"):
            shutil.copy(TOP / name, self.checkout / name)
        self.put("checkout/crates.txt", "# One line a crate.\nports:\nitfcheck: ports itoa\nitffaults: ports\nrows: ports\n")
        for name in ("ports", "itfcheck", "itffaults", "rows"):
            self.put(f"checkout/crates/{name}/src/main.rt", f"// {name}\n")
        self.put("checkout/crates/itfcheck/data/parcels.ili", "")
        self.put("checkout/.gitignore", "/out/\ncrates/*/out/\n")
        self.put("bin/rt", RT, 0o755)
        for name in ("itfcheck", "itffaults"):
            self.put(f"programs/{name}", PROGRAM, 0o755)
            (self.work / "bin" / name).symlink_to(self.checkout / name)
        subprocess.run("git init -q && git add -A && git -c user.name=x -c user.email=x@x commit -qm x",
                       shell=True, cwd=self.checkout, check=True)
        self.environment = {**os.environ, "PATH": f"{self.work}/bin:{os.environ['PATH']}", "WORK": str(self.work),
                            "RT_SAYS": KIT, "TMPDIR": str(self.work)}

    def put(self, name, held, mode=0o644):
        path = self.work / name
        path.parent.mkdir(parents=True, exist_ok=True)
        path.write_text(held)
        path.chmod(mode)

    def calls(self, word):
        """How often the stand-in of rt was called with that first word."""
        log = self.work / "calls"
        return [line.split()[0] for line in log.read_text().splitlines()].count(word) if log.exists() else 0

    def without_rt(self):
        (self.work / "bin/rt").unlink()
        folder = self.work / "tools"
        folder.mkdir()
        for tool in ("awk bash cat chmod cp cut date dirname env find git grep head ln ls mkdir mktemp mv nproc paste python3 "
                     "readlink rm sed seq sha256sum sleep sort stat sync tail touch tr xargs").split():
            (folder / tool).symlink_to(shutil.which(tool))
        self.environment["PATH"] = f"{folder}:{self.work}/bin"

    def run_in(self, folder, words, **environment):
        return subprocess.run(words, cwd=folder, capture_output=True, text=True, stdin=subprocess.DEVNULL,
                              env={**self.environment, **environment}, timeout=600)

    def held(self, words, status, out, err, script="itfcheck", **environment):
        """Runs the script by its link; out and err have to stand in what it says, and nothing where they are empty."""
        done = self.run_in(self.here, [script, *words], **environment)
        got = done.returncode, done.stdout, done.stderr
        self.assertEqual(done.returncode, status, got)
        for wanted, said in ((out, done.stdout), (err, done.stderr)):
            self.assertTrue(wanted in said if wanted else not said, got)
        return done

    def build(self):
        self.held(["compile", "M"], 0, "ran compile M\n", "proving and building")

    def release(self):
        done = self.run_in(self.work, [self.checkout / "tools/release.sh"])
        self.assertEqual(done.returncode, 0, done.stderr)
        return done

    def change(self, name, held=b"x", at=2):
        """Changes one byte of a file."""
        path = self.checkout / name
        whole = path.read_bytes()
        path.write_bytes(whole[:at] + held + whole[at + 1:])


class AtOnce(Scratch):
    """What is answered without a build."""

    def test_help(self):
        for word in ("--help", "-h", "help"):
            self.held([word], 0, "usage: itfcheck compile MODEL", "")
        self.held([], 4, "", "usage: itfcheck compile MODEL")
        self.held(["--help"], 0, "usage: itffaults MODEL TRANSFER FAULTS", "", script="itffaults")

    def test_words_that_are_no_command(self):
        for words in (["chek", "M"], ["check", "M", "T"], ["points", "M", "T"]):
            self.held(words, 4, "", "--help")
        self.assertEqual(self.calls("run"), 0)

    def test_version(self):
        commit = self.run_in(self.checkout, ["git", "describe", "--always"]).stdout.strip()
        version = (TOP / "VERSION").read_text().strip()
        self.held(["--version"], 0, f"itfcheck {version}, commit {commit}, {LOGIC}; no program yet: there is no released", "")
        self.release()
        self.held(["--version"], 0, "; the released program\n", "")
        self.held(["--version"], 0, f"itffaults {version}, ", "", script="itffaults")
        self.build_after_a_change()
        self.held(["--version"], 0, "; the program that was built in this checkout\n", "")

    def test_the_path_of_the_program(self):
        self.held(["--program"], 70, "", "there is no released program")
        self.release()
        self.held(["--program"], 0, f"{self.checkout}/released/itfcheck\n", "")
        self.held(["--program"], 0, f"{self.checkout}/released/itffaults\n", "", script="itffaults")
        self.build_after_a_change()
        self.held(["--program"], 0, f"{self.checkout}/crates/itfcheck/out/itfcheck\n", "")
        self.assertEqual(self.calls("run"), 1)

    def build_after_a_change(self):
        self.change("crates/ports/src/main.rt")
        self.build()


class Builds(Scratch):
    """What a build needs and says."""

    def test_other_kits(self):
        self.held(["compile", "M"], 70, "", "rattle-kit-1 logic 00", RT_SAYS="rattle-kit-1 logic 00")
        self.held(["compile", "M"], 70, "", "status 70", RT_SAYS=f"k {LOGIC}0")
        self.without_rt()
        self.held(["compile", "M"], 70, "", "rt, to prove and build it, is not on the path")

    def test_a_build_that_fails(self):
        self.held(["compile", "M"], 70, "", "error: a clause is not proved", BREAKS="1")
        self.held(["compile", "M"], 70, "", "could not be built", BREAKS="1")

    def test_builds_once(self):
        self.build()
        self.held(["compile", "M"], 0, "ran compile M\n", "")
        self.held(["compile", "a b"], 0, "ran compile a b\n", "")
        self.held(["chek"], 0, "ran chek\n", "")
        self.assertEqual(self.calls("run"), 1)

    def test_a_newer_source(self):
        self.build()
        for name in ("crates/ports/src/main.rt", "crates/ports/proofs/Lib.antt", "crates.txt"):
            self.put(f"checkout/{name}", "ports:\n")
            os.utime(self.checkout / name, (2**31, 2**31))
            self.held(["compile", "M"], 0, "ran", "a source is newer than the built program")
            os.utime(self.checkout / name, (0, 0))
            self.held(["compile", "M"], 0, "ran", "")

    def test_on_a_terminal(self):
        told, (pid, terminal) = [], pty.fork()
        if pid == 0:
            os.chdir(self.here)
            os.execvpe("itfcheck", ["itfcheck", "compile", "M"], self.environment)
        try:
            while piece := os.read(terminal, 4096):
                told.append(piece.decode())
        except OSError:
            pass
        os.waitpid(pid, 0)
        for wanted in ("  0:00  ports: 2 of 2 functions\r\n", "  0:00  plane: 1 of 1 functions\r\n", "ran compile M"):
            self.assertIn(wanted, "".join(told))

    def test_an_interrupted_build_leaves_the_program_of_before(self):
        self.build()
        os.utime(self.checkout / "crates/ports/src/main.rt", (2**31, 2**31))
        waiting = subprocess.Popen(["itfcheck", "compile", "M"], cwd=self.here, start_new_session=True,
                                   stderr=subprocess.DEVNULL, env={**self.environment, "WAITS": "1"},
                                   preexec_fn=lambda: signal.signal(signal.SIGINT, signal.SIG_DFL))
        while self.calls("run") < 2:
            time.sleep(0.05)
        os.killpg(waiting.pid, signal.SIGINT)
        self.assertEqual(waiting.wait(), 130)
        self.assertEqual(os.listdir(self.checkout / "crates/itfcheck/out"), ["itfcheck"])


class Released(Scratch):
    """Which program answers, and what a release needs."""

    def setUp(self):
        super().setUp()
        self.release()

    def check(self, err):
        done = self.run_in(self.work, [self.checkout / "tools/release.sh", "--check"])
        self.assertEqual((done.returncode, done.stdout), (1 if err else 0, ""), done.stderr)
        self.assertIn(err, done.stderr)
        self.assertEqual(len(done.stderr.splitlines()), 1 if err else 0)

    def prove(self, out, err, **environment):
        done = self.held(["--prove"], 0 if out == "SAME" else 1, out, err, **environment)
        self.assertEqual(done.stdout, out + "\n")

    def test_answers_without_rt(self):
        self.without_rt()
        for _ in range(2):
            self.held(["compile", "M"], 0, "ran compile M\n", "")
            self.held(["M", "T", "/dev/null"], 0, "ran M T /dev/null\n", "", script="itffaults")
        self.check("")

    def test_the_own_build_comes_first(self):
        self.change("crates/itfcheck/src/main.rt")
        self.build()
        self.change("crates/itfcheck/src/main.rt", b" ")
        self.release()
        os.utime(self.checkout / "crates/itfcheck/out/itfcheck")
        self.held(["--version"], 0, "the program that was built in this checkout", "")

    def test_a_changed_source(self):
        self.without_rt()
        self.held(["compile", "M"], 0, "ran", "")
        self.change("crates/rows/src/main.rt")
        os.utime(self.checkout / "crates/rows/src/main.rt", (0, 0))
        self.held(["compile", "M"], 70, "", "the released program is of other sources")
        self.check("is not the hash of these sources")
        self.change("crates/rows/src/main.rt", b" ")
        self.held(["compile", "M"], 0, "ran", "")

    def test_a_new_or_removed_or_renamed_source(self):
        self.without_rt()
        source = self.checkout / "crates/rows/src/main.rt"
        for change, back in ((lambda: self.put("checkout/crates/rows/specs/A.antt", ""), lambda: shutil.rmtree(self.checkout / "crates/rows/specs")),
                             (lambda: source.rename(source.parent / "lib.rt"), lambda: (source.parent / "lib.rt").rename(source)),
                             (lambda: source.rename(self.work / "kept"), lambda: (self.work / "kept").rename(source))):
            self.held(["compile", "M"], 0, "ran", "")
            change()
            self.held(["compile", "M"], 70, "", "of other sources")
            back()

    def test_a_changed_program_is_not_run(self):
        self.held(["compile", "M"], 0, "ran", "")
        self.put("checkout/released/itfcheck", f"#!/bin/sh\ntouch {self.work}/was_run\nexit 4\n", 0o755)
        self.without_rt()
        self.held(["compile", "M"], 70, "", "it is not run")
        self.held(["--version"], 0, "the sum of released/itfcheck is not that of released/SHA256SUMS", "")
        self.assertFalse((self.work / "was_run").exists())
        self.check("has not the sums")

    def test_a_changed_program_gives_way_to_a_build(self):
        self.change("released/itfcheck", at=40)
        self.held(["compile", "M"], 0, "ran", "so that it is not run: proving and building")

    def test_a_program_that_does_not_run_here(self):
        self.put("checkout/released/itfcheck", "#!/nowhere\n", 0o755)
        self.put("checkout/released/SHA256SUMS", self.sums())
        self.without_rt()
        self.held(["compile", "M"], 70, "", "does not run on this machine")

    def sums(self):
        return subprocess.run(["sha256sum", "itfcheck", "itffaults"], cwd=self.checkout / "released",
                              capture_output=True, text=True).stdout

    def test_what_is_missing(self):
        self.without_rt()
        for name in ("itfcheck", "SHA256SUMS", "SOURCES"):
            (self.checkout / "released" / name).rename(self.work / "kept")
            self.held(["compile", "M"], 70, "", "released")
            self.check("run tools/release.sh")
            (self.work / "kept").rename(self.checkout / "released" / name)
            self.held(["compile", "M"], 0, "ran", "")

    def test_prove(self):
        self.prove("SAME", "itffaults is proved, 3 of 3")
        self.assertEqual((self.work / "calls").read_text().splitlines()[-1], "ci --anew")
        self.held(["--version"], 0, "the program that was built in this checkout", "")
        self.prove("SAME", "names the kit 'rattle-kit-0", RT_SAYS=KIT.replace("0", "1", 1))
        self.change("released/itffaults", at=40)
        self.put("checkout/released/SHA256SUMS", self.sums())
        self.prove("DIFFERS", "not what these sources give: released/itffaults\n")
        self.assertIn("3 crates are to be proved", self.held(["--prove"], 70, "", "not proved", BREAKS="1").stderr)
        self.without_rt()
        self.held(["--prove"], 70, "", "is not on the path")

    def test_prove_other_sources(self):
        self.change("crates/rows/src/main.rt")
        self.prove("SAME", "is the hash of other sources")

    def test_a_failed_release_leaves_the_old_one(self):
        before = sorted((path.name, path.read_bytes()) for path in (self.checkout / "released").iterdir())
        done = self.run_in(self.work, [self.checkout / "tools/release.sh"], BREAKS="1")
        self.assertEqual(done.returncode, 70)
        self.assertEqual(before, sorted((path.name, path.read_bytes()) for path in (self.checkout / "released").iterdir()))

    def test_a_release_takes_no_program_that_lies_there(self):
        for name in ("itfcheck", "itffaults"):
            self.put(f"checkout/crates/{name}/out/{name}", "unproved", 0o755)
        self.release()
        self.assertEqual((self.checkout / "released/itfcheck").read_text(), PROGRAM)

    def test_the_archive(self):
        archive = self.checkout / "out" / f"itfcheck-{(TOP / 'VERSION').read_text().strip()}-linux-x86_64.tar.gz"
        first = archive.read_bytes()
        self.release()
        self.assertEqual(archive.read_bytes(), first)
        subprocess.run(["tar", "-xzf", archive], cwd=self.work, check=True)
        top = self.work / archive.name.removesuffix(".tar.gz")
        self.without_rt()
        for script, words in (("itfcheck", ["compile", "M"]), ("itffaults", ["M", "T", "/dev/null"])):
            done = self.run_in(self.here, [top / script, *words])
            self.assertEqual((done.returncode, done.stdout, done.stderr), (0, f"ran {' '.join(words)}\n", ""))
        done = self.run_in(self.here, [top / "itfcheck", "--version"])
        self.assertNotIn("commit", done.stdout)

    def test_a_folder_that_cannot_be_written(self):
        shutil.rmtree(self.checkout / "out")
        self.put("checkout/out", "")
        self.held(["compile", "M"], 0, "ran", "")


class Gate(Scratch):
    """.ci/run."""

    def gate(self, status, err, **environment):
        done = self.run_in(self.work, [self.checkout / ".ci/run"], **environment)
        self.assertEqual(done.returncode, status, (done.stdout, done.stderr))
        self.assertTrue(err in done.stderr if err else not done.stderr, done.stderr)
        if not environment:
            self.assertEqual(done.stdout.splitlines()[-1], "3 passed, 0 failed")
        self.assertEqual((self.work / "calls").read_text().splitlines()[-1], "ci")
        return done

    def test_what_is_released(self):
        self.gate(0, "")
        (self.checkout / "released").mkdir()
        self.gate(1, "there is no released program")
        self.release()
        self.assertEqual(self.gate(0, "").stderr, "")
        self.gate(1, "", BREAKS="1")

    def test_a_changed_source(self):
        self.release()
        self.change("crates/ports/src/main.rt")
        done = self.gate(1, "is not the hash of these sources")
        self.assertEqual(len(done.stderr.splitlines()), 1)

    def test_another_program_with_its_sum(self):
        self.release()
        self.change("released/itfcheck", at=40)
        sums = subprocess.run(["sha256sum", "itfcheck", "itffaults"], cwd=self.checkout / "released", capture_output=True, text=True)
        self.put("checkout/released/SHA256SUMS", sums.stdout)
        self.gate(1, "not what these sources give: released/itfcheck\n")

    def test_the_tests_of_the_tools(self):
        self.release()
        test = ("import os, unittest\nclass T(unittest.TestCase):\n    def test(self):\n        for name in ('ITFCHECK', 'ITFFAULTS'):\n"
                "            assert os.access(os.environ[name], os.X_OK)\n        assert os.environ['ITF_NEEDS_PROGRAMS'] == '1'\n")
        self.put("checkout/tools/tests/test_one.py", test)
        self.gate(0, "")
        self.put("checkout/tools/tests/test_one.py", test + "        assert 0, 'a tool is wrong'\n")
        self.gate(1, "a tool is wrong")


class Statuses(Scratch):
    """Statuses in words."""

    def setUp(self):
        super().setUp()
        self.release()

    def test_statuses(self):
        for status, words in ((1, ""), (5, ""), (6, "do not use it"), (8, "memory ran out"), (137, "killed")):
            self.put("status", str(status))
            self.held(["compile", "M"], status, "ran", words)

    def test_standard_input(self):
        done = subprocess.run(["itfcheck", "cat", "M"], cwd=self.here, input="of the caller\n", capture_output=True, text=True,
                              env=self.environment)
        self.assertEqual(done.stdout, "of the caller\nran cat M\n")
        closed = self.run_in(self.here, ["bash", "-c", "itfcheck compile M <&-"])
        self.assertEqual((closed.returncode, closed.stdout, closed.stderr), (0, "ran compile M\n", ""))


WRITES = [("itfcheck", ["check", "M", "T"]), ("itfcheck", ["trial", "60"]), ("itfcheck", ["polygons", "M", "T"]),
          ("itfcheck", ["canonical", "M", "T"]), ("itffaults", ["M", "T"])]
HEADS = {"check": "ITFCERT 2\n", "trial": "ITFCERT 2\n", "polygons": "ITFPOLY 1\n", "M": "ITFFAULTS 1\n"}


class Files(Scratch):
    """Which files are replaced, and how."""

    def setUp(self):
        super().setUp()
        self.release()

    def see(self, name):
        return (self.here / name).read_text()

    def test_files_of_another_kind(self):
        for script, words in WRITES:
            for held in ("SCNT\n////\n", "\0\0", "ITFCERT 1\n", "ITFPOLY 1\n", "ITFFAULTS 1\n"):
                self.put("here/other", held)
                if held[:7] == HEADS.get(words[0], "none")[:7]:
                    self.held([*words, "other"], 0, "ran", "", script=script)
                    continue
                self.held([*words, "other"], 73, "", "--replace", script=script)
                self.assertEqual(self.see("other"), held)
                self.held(["--replace", *words, "other"], 0, "ran", "", script=script)
                self.assertEqual(self.see("other"), text())

    def test_a_link_to_another_kind(self):
        self.put("here/delivery.itf", "SCNT\n////\n")
        (self.here / "link").symlink_to("delivery.itf")
        self.held(["check", "M", "T", "link"], 73, "", "status 73")

    def test_the_transfer_itself(self):
        self.put("here/T", "SCNT\n////\n")
        self.put("here/other.itf", "SCNT\n////\n")
        self.held(["canonical", "M", "T", "other.itf"], 73, "", "is not the transfer itself")
        self.held(["canonical", "M", "T", "T"], 0, "ran canonical M T T.unfinished-", "")
        self.assertEqual(self.see("T"), text())

    def test_statuses_that_file_nothing(self):
        for script, words in WRITES:
            for status in (1, 2, 3, 5, 6, 7, 8, 137):
                held = HEADS.get(words[0], "")
                self.put("here/file", held)
                self.put("status", str(status))
                done = self.run_in(self.here, [script, *words, "file"])
                self.assertEqual(done.returncode, status)
                self.assertEqual(self.see("file"), text() if script == "itffaults" and status < 3 else held)
                self.assertEqual(os.listdir(self.here), ["file"])

    def test_no_file_was_there(self):
        os.umask(0o027)
        self.addCleanup(os.umask, 0o022)
        for script, words in WRITES:
            self.held([*words, "new"], 0, "ran", "", script=script)
            self.assertEqual(self.see("new"), text())
            self.assertEqual(stat.S_IMODE((self.here / "new").stat().st_mode), 0o640)
            self.assertEqual(os.listdir(self.here), ["new"])
            (self.here / "new").unlink()
            self.put("status", "8")
            self.held([*words, "new"], 8, "ran", "new is as it was", script=script)
            self.assertEqual(os.listdir(self.here), [])
            (self.work / "status").unlink()

    def test_mode_and_links(self):
        (self.here / "deep").mkdir()
        self.put("here/deep/file", HEADS["check"], 0o604)
        (self.here / "one").symlink_to("deep/two")
        (self.here / "deep/two").symlink_to(self.here / "deep/file")
        (self.here / "dangling").symlink_to("deep/new")
        self.held(["check", "M", "T", "one"], 0, "deep/file.unfinished-", "")
        self.assertTrue((self.here / "one").is_symlink() and (self.here / "deep/two").is_symlink())
        self.assertEqual(self.see("deep/file"), text())
        self.assertEqual(stat.S_IMODE((self.here / "deep/file").stat().st_mode), 0o604)
        self.held(["check", "M", "T", "dangling"], 0, "deep/new.unfinished-", "")
        self.assertEqual(self.see("deep/new"), text())
        (self.here / "ring").symlink_to("ring")
        self.held(["check", "M", "T", "ring"], 6, "", "do not use it")

    def test_what_is_no_regular_file(self):
        (self.here / "folder").mkdir()
        os.mkfifo(self.here / "pipe")
        self.held(["check", "M", "T", "/dev/null"], 0, "ran check M T /dev/null\n", "")
        for name in ("-x", ""):
            self.held(["check", "M", "T", name], 4, "", "")
        self.held(["check", "M", "T", "folder"], 6, "", "do not use it")
        reading = os.open(self.here / "pipe", os.O_RDWR)
        self.held(["check", "M", "T", "pipe"], 0, "ran check M T pipe\n", "")
        self.assertEqual(os.read(reading, 1000).decode(), text())
        os.close(reading)
        done = self.run_in(self.here, ["bash", "-c", "PIECES=1 itfcheck check M T >(cat > got) && itfcheck trial 60 /dev/stdout | cat"])
        self.assertIn("ran trial 60 /dev/stdout", done.stdout)

    def test_an_open_file(self):
        self.put("here/log", "of before\n")
        done = self.run_in(self.here, ["bash", "-c", "itfcheck trial 5 /dev/stdout >> log"])
        self.assertEqual((done.returncode, self.see("log")), (73, "of before\n"))
        done = self.run_in(self.here, ["bash", "-c", "exec 3<> log; itfcheck --replace trial 5 /dev/fd/3"])
        self.assertEqual((done.returncode, self.see("log")), (73, "of before\n"))

    def test_names(self):
        for name in ("a b", "ü.cert", "n\n", "x" * 255, "*", "$x", "'", "deep/../y"):
            (self.here / "deep").mkdir(exist_ok=True)
            self.held(["check", "M", "T", name], 0, "ran", "")
            self.assertEqual(self.see(name), text())

    def test_a_leftover_of_the_same_number(self):
        done = self.run_in(self.here, ["bash", "-c", "echo kept > new.unfinished-$$; exec itfcheck check M T new"])
        self.assertEqual(done.returncode, 0, done.stderr)
        self.assertEqual(sorted(path.read_text() for path in self.here.iterdir()), [text(), "kept\n"])

    @unittest.skipIf(os.geteuid(), "as root, it becomes nobody")
    def test_what_nobody_must_not_write(self):
        for folder in (self.work, self.work.parent):
            folder.chmod(0o755)
        for folder in ("here", "closed"):
            (self.work / folder).mkdir(exist_ok=True)
        for name, mode in (("here/readonly", 0o444), ("closed/file", 0o666), ("closed/empty", 0o666)):
            self.put(name, HEADS["check"] if "empty" not in name else "", mode)
        (self.work / "here").chmod(0o777)
        (self.work / "closed").chmod(0o755)
        (self.here / "link").symlink_to(self.work / "closed/file")
        nobody = ["setpriv", "--reuid=65534", "--regid=65534", "--clear-groups"]
        for name, status, words in (("readonly", 6, "readonly must not be written, or no file can be made beside it, and"),
                                    ("../closed/file", 6, "as it was"), ("link", 6, "as it was"),
                                    ("../closed/new", 6, "could not be written"), ("../closed/empty", 0, "")):
            done = self.run_in(self.here, [*nobody, "itfcheck", "check", "M", "T", name])
            self.assertEqual(done.returncode, status, (name, done.stderr))
            self.assertIn(words, done.stderr)
        self.assertEqual(self.see("readonly"), HEADS["check"])
        self.assertEqual(self.see("link"), HEADS["check"])
        self.assertEqual((self.work / "closed/empty").read_text(), text())
        self.put("status", "1")
        done = self.run_in(self.here, [*nobody, "itfcheck", "check", "M", "T", "readonly"])
        self.assertEqual((done.returncode, done.stderr), (1, ""))


class Interrupted(Scratch):
    """However a run ends, the old file is whole or the new one is."""

    MOMENTS, PIECES, LARGE = 20, 12, WRITES
    ENDED = {"INT": {-signal.SIGINT, 0}, "TERM": {-signal.SIGTERM, 0}, "KILL": {-signal.SIGKILL, 0}, "program": {137, 0}}

    def setUp(self):
        super().setUp()
        self.environment.update(PIECES=str(self.PIECES), PAUSE="0.02")
        self.transfer, self.model = "SCNT\n////\n", ""
        self.prepare()
        self.release()

    def prepare(self):
        """What is run in place of the stand-in, and on what."""

    def folder(self, name, words):
        """A folder with the files of a run, the name of the one that it writes, and what that holds."""
        folder = self.here / name
        folder.mkdir(parents=True)
        (folder / "M").write_text(self.model)
        (folder / "T").write_text(self.transfer)
        (folder / "file").write_text(HEADS.get(words[0], "") + "of before\n")
        target = "T" if words[0] == "canonical" else "file"
        return folder, target, (folder / target).read_text()

    def whole(self, script, words):
        """What a run writes that nothing ends, and its seconds."""
        folder, target, _ = self.folder(f"{words[0]}-whole", words)
        begun = time.time()
        done = self.run_in(folder, [script, *words, target])
        self.assertEqual((done.returncode, done.stderr), (0, ""))
        return (folder / target).read_text(), time.time() - begun

    def one(self, script, words, sent, number, moment):
        """Ends a run after so many seconds. Returns what the file held and holds, other names, the status."""
        folder, target, old = self.folder(f"{words[0]}-{sent}-{number}", words)
        running = subprocess.Popen([script, *words, target], cwd=folder, start_new_session=True, stdout=subprocess.DEVNULL,
                                   stderr=subprocess.DEVNULL, env=self.environment,
                                   preexec_fn=lambda: signal.signal(signal.SIGINT, signal.SIG_DFL))
        time.sleep(moment)
        try:
            if sent == "INT":
                os.killpg(running.pid, signal.SIGINT)
            elif sent == "program":
                for child in pathlib.Path(f"/proc/{running.pid}/task/{running.pid}/children").read_text().split():
                    if b"/released/" in pathlib.Path(f"/proc/{child}/cmdline").read_bytes():
                        os.kill(int(child), signal.SIGKILL)
            else:
                running.send_signal(getattr(signal, "SIG" + sent))
        except (ProcessLookupError, FileNotFoundError):
            pass
        status = running.wait()
        while sent == "KILL" and self.lives(running.pid):
            # (the program of a script that was killed runs on)
            time.sleep(0.02)
        names = set(os.listdir(folder)) - {"M", "T", "file"}
        return old, (folder / target).read_text(), names, status

    def lives(self, session):
        return subprocess.run(["pgrep", "-s", str(session)], stdout=subprocess.DEVNULL).returncode == 0

    def test_kills(self):
        jobs = []
        with concurrent.futures.ThreadPoolExecutor(4) as pool:
            for script, words in WRITES:
                new, seconds = self.whole(script, words)
                for sent in self.ENDED:
                    for number in range(self.MOMENTS):
                        moment = seconds * 1.1 * number / (self.MOMENTS - 1)
                        jobs.append((words[0], sent, new, pool.submit(self.one, script, words, sent, number, moment)))
        kept = replaced = 0
        for word, sent, new, job in jobs:
            old, now, names, status = job.result()
            self.assertTrue(now == new or now == old and status, (word, sent))
            self.assertIn(status, self.ENDED[sent], (word, sent))
            self.assertTrue(all(".unfinished-" in name for name in names) if sent == "KILL" else not names, (word, sent, names))
            kept, replaced = kept + (now == old), replaced + (now == new)
        print(f"{type(self).__name__}: {kept} of {len(jobs)} ended runs left the old file, {replaced} the new one")
        self.assertTrue(kept > len(jobs) / 4 and replaced)

    def stays(self, folder, target, old, words, statuses, **environment):
        """Runs a command in a place in which its file cannot be written."""
        done = self.run_in(folder, words, **environment)
        self.assertIn(done.returncode, statuses, done)
        self.assertIn(f"{target} is as it was", done.stderr)
        self.assertEqual((folder / target).read_text(), old)
        self.assertEqual(set(os.listdir(folder)), {"M", "T", "file"})

    def test_a_limit_of_file_size(self):
        for script, words in self.LARGE:
            folder, target, old = self.folder(words[0], words)
            limited = ["bash", "-c", f'ulimit -f 1; exec {script} "$@"', "", *words, target]
            self.stays(folder, target, old, limited, (6, 153), PAUSE="")

    @unittest.skipIf(os.geteuid(), "it takes root to mount a disk")
    def test_a_full_disk(self):
        for script, words in self.LARGE:
            folder, target, old = self.folder(words[0], words)
            disk = self.work / "disk"
            disk.mkdir(exist_ok=True)
            much = 4 * ((sum(path.stat().st_size for path in folder.iterdir()) >> 12) + 4)
            subprocess.run(["mount", "-t", "tmpfs", "-o", f"size={much}k", "tmpfs", disk], check=True)
            try:
                for path in folder.iterdir():
                    shutil.copy(path, disk)
                self.stays(disk, target, old, [script, *words, target], (6,), PIECES="1000", PAUSE="")
            finally:
                subprocess.run(["umount", disk], check=True)


@unittest.skipUnless(os.environ.get("ITFCHECK"), "no programs are given")
class InterruptedPrograms(Interrupted):
    """The same with the programs themselves, on the files of a trial, whose file of faults is small."""

    LARGE = [(script, words) for script, words in WRITES if script == "itfcheck"]

    def prepare(self):
        for name in ("itfcheck", "itffaults"):
            shutil.copy(os.environ[name.upper()], self.work / "programs" / name)
        subprocess.run(["python3", TOP / "bench/trial_files.py", "60", "M", "T"], cwd=self.work, check=True)
        self.model, self.transfer = (self.work / "M").read_text(), (self.work / "T").read_text()


class Speed(Scratch):
    """How long a clone of this repository takes to find the released program, in processor time."""

    def test_the_first_second(self):
        self.release()
        clone = self.work / "clone"
        subprocess.run(["git", "clone", "-q", TOP, clone], check=True)
        for name in ("itfcheck", "itffaults", "tools/release.sh", "VERSION"):
            shutil.copy(TOP / name, clone / name)
        shutil.copytree(self.checkout / "released", clone / "released", dirs_exist_ok=True)
        hashed = self.run_in(clone, ["tools/release.sh", "--sources"]).stdout
        (clone / "released/SOURCES").write_text(f"sources {hashed}kit x\n")
        words = [clone / "itfcheck", "compile", "M"]
        alone = min(self.seconds([clone / "released/itfcheck", *words[1:]]) for _ in range(5))
        first = self.seconds(words) - alone
        then = min(self.seconds(words) for _ in range(5)) - alone
        print(f"the first call takes {first:.3f} s of processor time more than the program, further ones {then:.3f} s")
        self.assertLess(first, 0.5)
        self.assertLess(then, 0.05)

    def seconds(self, words):
        before = resource.getrusage(resource.RUSAGE_CHILDREN)
        done = self.run_in(self.here, words)
        after = resource.getrusage(resource.RUSAGE_CHILDREN)
        self.assertEqual(done.stdout, "ran compile M\n", done.stderr)
        return after.ru_utime + after.ru_stime - before.ru_utime - before.ru_stime


if __name__ == "__main__":
    unittest.main()
