"""Tries the launcher `./qecode` in a small checkout of its own, in which a fake program and a fake kit stand: nothing is
proved here, and no real program is needed. The parts for a terminal are tried on a pseudo-terminal."""
import fcntl
import os
import pty
import re
import shutil
import signal
import struct
import subprocess
import sys
import tempfile
import termios
import threading
import time
import unittest

TOP = os.path.dirname(os.path.dirname(os.path.dirname(os.path.realpath(__file__))))
sys.path.insert(0, os.path.join(TOP, "tools"))

from launcher import prove, programs  # noqa: E402

CERTIFICATE = b"qcert 2\ntrue 26\nv 1\nn\n"
# A long answer, such that it doesn't fit into a pipe.
LONG = CERTIFICATE + b"".join(b"r %d\n" % it for it in range(300_000))
# It notes that it ran, and does what the text of the problem says, whose words are those of a shell.
PROGRAM = """#!/bin/sh
echo "$0 $*" >> "{top}/runs"
command=$1
problem=$2
case $problem in */*) ;; *) problem=./$problem ;; esac
. "$problem" || exit 7
"""
# Proves nothing; what it was called with is noted, and the crates that `rt ci` found, of which it makes the program. A crate
# with a file `wrong` fails, and one with a file `kept` was proved before.
RT = """#!/bin/sh
echo "$*" >> "{top}/proofs"
case $1 in
version) echo "fake kit" ;;
ci) status=0
    for name in $(sed 's/:.*//' crates.txt); do
        [ -e "crates/$name/out" ] && exit 2
        if [ -e "crates/$name/wrong" ]; then echo "rt: $name NOT PROVED"; status=1
        elif [ -e "crates/$name/kept" ]; then echo "rt: $name is kept: an earlier run proved it"
        else echo "== $name"; echo "fn $name::it: proved"; echo "rt: $name proved"; fi
        echo "  $name" >> "{top}/proofs"
    done
    mkdir crates/qc_program/out && cp "{top}/program" crates/qc_program/out/qc_program
    exit $status ;;
try) folder=$(mktemp -d) && cd "$folder" || exit 1
    echo short > module.bc; "$(dirname "$0")/../toolchain/bin/clang" module.bc -o tried
    cp "{top}/module.bc" module.bc; "$(dirname "$0")/../toolchain/bin/clang" module.bc -o program
    rm -rf "$folder"; exit 2 ;;
esac
"""
# Takes the last word of its input as its output, as each step of the build without proofs does.
CLANG = """#!/bin/sh
while [ $# -gt 1 ]; do case $1 in -x) in=$3; shift 2 ;; -o) out=$2 ;; esac; shift; done
[ -z "$in" ] || cp "$in" "$out"
"""
LINKER = """#!/bin/sh
for it in "$@"; do case $it in *.new) out=$it ;; */plain.o) in=$it ;; esac; done
cp "$in" "$out" && chmod +x "$out"
"""


def write(path, text, mode=0o644):
    os.makedirs(os.path.dirname(path), exist_ok=True)
    with open(path, "wb") as file:
        file.write(text if isinstance(text, bytes) else text.encode())
    os.chmod(path, mode)
    return path


def read(path):
    with open(path, "rb") as file:
        return file.read()


class Terminal:
    """A terminal of 400 columns, and what is written to it."""

    def __init__(self):
        self.ours, self.theirs = pty.openpty()
        fcntl.ioctl(self.theirs, termios.TIOCSWINSZ, struct.pack("HHHH", 24, 400, 0, 0))
        self.data = b""
        self.reader = threading.Thread(target=self.collect)
        self.reader.start()

    def collect(self):
        while True:
            try:
                piece = os.read(self.ours, 65_536)
            except OSError:
                return
            if not piece:
                return
            self.data += piece

    def text(self):
        """What was written to it, once all is over."""
        os.close(self.theirs)
        self.reader.join()
        os.close(self.ours)
        return self.data.replace(b"\r\n", b"\n")


class LauncherCase(unittest.TestCase):
    def setUp(self):
        self.top = os.path.realpath(tempfile.mkdtemp(prefix="launcher-test-"))
        self.addCleanup(shutil.rmtree, self.top)
        shutil.copytree(os.path.join(TOP, "tools", "launcher"), os.path.join(self.top, "tools", "launcher"))
        for name in ("qecode", "tools/build", "tools/where", "tools/play"):
            shutil.copy(os.path.join(TOP, name), os.path.join(self.top, name))
        write(self.at("HANDLES"), "Handles allowed: none.\n")
        write(self.at("crates.txt"), "# a comment\nqc_io: thiserror\nqc_program: qc_io thiserror\n")
        for name in ("qc_io/src/lib.rt", "qc_program/src/main.rt", "qc_program/proofs/Main.antt"):
            write(self.at("crates", name), "one\ntwo\n")
        for name in ("qc_io", "qc_program"):
            os.makedirs(self.at("crates", name, "out"))
        os.makedirs(self.at("tmp"))
        self.program = PROGRAM.format(top=self.top)
        self.make_kit()
        self.built = write(self.at("crates/qc_program/out/qc_program"), self.program, 0o755)
        write(self.at("answer"), CERTIFICATE)
        write(self.at("long"), LONG)
        self.game = self.problem('cat "{top}/answer"')

    def make_kit(self):
        write(self.at("program"), self.program, 0o755)
        write(self.at("module.bc"), self.program + "#" * 100_001 + "\n")
        write(self.at("kit/bin/rt"), RT.format(top=self.top), 0o755)
        write(self.at("kit/toolchain/bin/clang"), CLANG, 0o755)
        write(self.at("kit/toolchain/bin/ld.lld"), LINKER, 0o755)
        os.makedirs(self.at("kit/toolchain/lib"))

    def at(self, *names):
        return os.path.join(self.top, *names)

    def problem(self, does, name="game.qc"):
        return write(self.at(name), does.format(top=self.top) + "\n")

    def environment(self, **more):
        kit = os.path.join(self.at("kit"), "bin")
        return {**os.environ, "PATH": kit + os.pathsep + os.environ["PATH"], "TMPDIR": self.at("tmp"), **more}

    def start(self, *words, **how):
        how.setdefault("env", self.environment())
        how.setdefault("stdin", subprocess.DEVNULL)
        return subprocess.Popen([self.at("qecode"), *words], cwd=self.top, **how)

    def run_plain(self, *words, **how):
        """How it ends where nothing is a terminal: the status, the output, and standard error."""
        with self.start(*words, stdout=subprocess.PIPE, stderr=subprocess.PIPE, **how) as child:
            out, err = child.communicate(timeout=60)
        return child.returncode, out, err

    def run_on_terminal(self, *words, **how):
        """The same where standard error is a terminal."""
        terminal = Terminal()
        how.setdefault("stdout", subprocess.PIPE)
        with self.start(*words, stderr=terminal.theirs, **how) as child:
            out = child.communicate(timeout=60)[0]
        return child.returncode, out, terminal.text()

    def runs(self):
        return read(self.at("runs")).decode().splitlines() if os.path.exists(self.at("runs")) else []

    def proofs(self):
        return read(self.at("proofs")).decode().splitlines() if os.path.exists(self.at("proofs")) else []

    def assert_nothing_left(self):
        self.assertEqual(os.listdir(self.at("tmp")), [])


class Pages(LauncherCase):
    def test_help_without_anything(self):
        os.remove(self.built)
        os.remove(self.at("kit/bin/rt"))
        status, out, err = self.run_plain("--help")
        self.assertEqual((status, err), (0, b""))
        for command in programs.QECODE.commands:
            self.assertIn(f"\n  {command.words}\n".encode(), out)
            self.assertIn(f"./qecode {command.example}\n".encode(), out)
        self.assertTrue(all(len(line) <= 130 for line in out.splitlines()))
        self.assertEqual(self.runs(), [])

    def test_examples_and_pages_of_help_are_there(self):
        for program in programs.PROGRAMS.values():
            for name in re.findall(r"(?:docs|examples|crates)/[\w/.-]+\w|README\.md", program.page()):
                self.assertTrue(os.path.exists(os.path.join(TOP, name)), name)

    def test_help_names_the_commands_of_the_program(self):
        for program, page in ((programs.QECODE, "command.md"), (programs.QTELL, "tell.md"), (programs.QDENSE, "command.md"), (programs.QPART, "command.md")):
            table = read(os.path.join(TOP, "docs", page)).decode()
            told = {it.name for it in program.commands}
            self.assertEqual(told, set(re.findall(rf"^\| `{program.name} (\w+)", table, re.M)))

    def test_each_program_has_its_launcher(self):
        for name in programs.PROGRAMS:
            done = subprocess.run([os.path.join(TOP, name), "--help"], check=False, stdout=subprocess.PIPE)
            self.assertEqual((done.returncode, done.stdout.decode()), (0, programs.PROGRAMS[name].page()))

    def test_version_without_git_and_kit(self):
        os.makedirs(self.at("bin"))
        for name in ("env", "sh"):
            os.symlink(shutil.which(name), self.at("bin", name))
        os.symlink(sys.executable, self.at("bin/python3"))
        status, out, err = self.run_plain("--version", env={"PATH": self.at("bin")})
        self.assertEqual((status, err), (0, b""))
        self.assertIn(b"qecode commit unknown: git isn't there\nkit unknown: rt isn't there\nthe proved program is built\n", out)

    def test_version(self):
        os.utime(self.at("crates/qc_io/src/lib.rt"), (time.time() + 9, time.time() + 9))
        status, out, _ = self.run_plain("--version")
        self.assertEqual(status, 0)
        self.assertIn(b"commit unknown", out)
        self.assertIn(b"kit fake kit\nthe proved program is not built yet, or older than its sources\n", out)


class Handing(LauncherCase):
    def test_statuses_are_the_programs(self):
        for number in (0, 1, 2, 3, 4, 5, 6, 10, 11, 12, 137):
            self.problem(f"echo told; exit {number}")
            self.assertEqual(self.run_plain("print", self.game), (number, b"told\n", b""))
            status, out, err = self.run_on_terminal("print", self.game)
            self.assertEqual((status, out), (number, b"told\n"))
            self.assertEqual(b"./qecode --help" in err, number == 3)

    def test_faults_are_told(self):
        for number, part in ((8, b"could not be written"), (9, b"too little memory"), (20, b"isn't text")):
            self.problem(f"exit {number}")
            status, out, err = self.run_plain("print", self.game)
            self.assertEqual((status, out), (number, b""))
            self.assertIn(part, err)

    def test_a_file_that_isnt_there(self):
        status, out, err = self.run_plain("check", self.game, "nowhere")
        self.assertEqual((status, err), (0, b""))  # the fake program doesn't read it
        self.problem("exit 7")
        self.assertEqual(self.run_plain("check", self.game, "nowhere")[2], b"qecode: nowhere: no such file\n")
        self.assertEqual(self.run_plain("check", self.game, "tools")[2], b"qecode: tools: is a directory\n")

    def test_words_are_handed_on_as_they_are(self):
        self.problem('printf "%s|" "$@"')
        words = ["solve", self.game, b"\xff", "", "two words", "--help", "--now", "-"]
        self.assertEqual(self.run_plain(*words)[1], b"|".join(os.fsencode(it) for it in words) + b"|")

    def test_output_stays_to_the_byte(self):
        self.problem('cat "{top}/long"'.replace("{top}", self.top))
        self.assertEqual(self.run_plain("solve", self.game)[:2], (0, LONG))
        status, out, err = self.run_on_terminal("solve", self.game)
        self.assertEqual((status, out), (0, LONG))
        self.assertIn(b"true, the best value 26; certificate of 2.6 MB", err)
        for mode in ("wb", "ab"):
            write(self.at("out.cert"), b"before\n")
            with open(self.at("out.cert"), mode) as file:
                status, _, err = self.run_on_terminal("solve", self.game, stdout=file)
            self.assertEqual((status, read(self.at("out.cert"))), (0, (b"before\n" if mode == "ab" else b"") + LONG))
            self.assertIn(b"certificate of 2.6 MB", err)
        self.assertEqual(len(self.runs()), 4)

    def test_output_on_the_terminal_itself(self):
        terminal = Terminal()
        with self.start("solve", self.game, stdout=terminal.theirs, stderr=terminal.theirs) as child:
            self.assertEqual(child.wait(), 0)
        text = terminal.text()
        self.assertTrue(text.startswith(CERTIFICATE + b"qecode: true, the best value 26; certificate of 22 bytes; kept in a file"), text)

    def test_nobody_reads(self):
        self.problem('trap "" PIPE; cat "{top}/long" 2>/dev/null || exit 8'.replace("{top}", self.top))
        for on_terminal in (False, True):
            terminal = Terminal()
            ours, theirs = os.pipe()
            os.close(ours)
            with self.start("solve", self.game, stdout=theirs, stderr=terminal.theirs if on_terminal else subprocess.DEVNULL) as child:
                os.close(theirs)
                self.assertEqual(child.wait(), 8)
            self.assertEqual(b"could not be written" in terminal.text(), on_terminal)

    def test_a_full_disk(self):
        with open("/dev/full", "wb") as full:
            status, _, err = self.run_on_terminal("solve", self.game, stdout=full)
        self.assertEqual(status, 8)
        self.assertIn(b"could not be written", err)
        self.assertNotIn(b"best value", err)

    def test_no_output_at_all(self):
        self.problem("cat game.qc 2>/dev/null || exit 8")
        terminal = Terminal()
        words = f'exec "{self.at("qecode")}" solve "{self.game}" >&-'
        with subprocess.Popen(["sh", "-c", words], cwd=self.top, env=self.environment(), stderr=terminal.theirs) as child:
            self.assertEqual(child.wait(), 8)
        terminal.text()


class Pipes(LauncherCase):
    def writer(self, data):
        """A pipe to read from, in which this will be."""
        ours, theirs = os.pipe()

        def put():
            try:
                with open(theirs, "wb") as file:
                    file.write(data)
            except BrokenPipeError:
                pass

        thread = threading.Thread(target=put)
        thread.start()
        self.addCleanup(thread.join)
        return ours

    def test_two_pipes(self):
        problem, certificate = self.writer(b'cat "$2" "$3"; test -f "$2"\n'), self.writer(LONG)
        words = [f"/dev/fd/{problem}", f"/dev/fd/{certificate}"]
        status, out, err = self.run_plain("check", *words, pass_fds=(problem, certificate))
        self.assertEqual((status, err), (0, b""))
        self.assertEqual(out, b'cat "$2" "$3"; test -f "$2"\n' + LONG)
        os.close(problem)
        os.close(certificate)
        self.assert_nothing_left()

    def test_standard_input(self):
        status, out, _ = self.run_plain("solve", "/dev/stdin", "--turns", "5", stdin=self.writer(b'echo "$#$3"\n'))
        self.assertEqual((status, out), (0, b"4--turns\n"))
        self.assert_nothing_left()

    def test_a_named_pipe_of_moves(self):
        os.mkfifo(self.at("moves"))
        self.problem('test -f "$4" && cat "$4"')
        thread = threading.Thread(target=write, args=(self.at("moves"), b"1 2 3\n"))
        thread.start()
        status, out, _ = self.run_plain("play", self.game, self.game, "moves")
        thread.join()
        self.assertEqual((status, out), (0, b"1 2 3\n"))

    def test_a_long_pipe_is_cut(self):
        self.problem('wc -c < "$4"')
        moves = self.writer(b"1" * 1_000_000)
        self.assertEqual(self.run_plain("play", self.game, self.game, "/dev/stdin", stdin=moves)[1].strip(), b"65537")
        os.close(moves)

    def test_a_place_in_a_pipe(self):
        words = b"echo 'bad problem: 5 UnknownName at 3'; exit 4\n"
        status, out, err = self.run_on_terminal("print", "/dev/stdin", stdin=self.writer(words))
        self.assertEqual((status, out), (4, b"bad problem: 5 UnknownName at 3\n"))
        self.assertTrue(err.startswith(b"/dev/stdin: line 1, column 4\n"), err)
        self.assert_nothing_left()

    def test_a_pipe_that_cant_be_copied(self):
        status, out, err = self.run_plain("print", "/dev/stdin", stdin=self.writer(b"exit 0\n"), env=self.environment(TMPDIR=self.top, HOME="/"))
        self.assertEqual((status, out, err), (0, b"", b""))
        with open(self.at("tools/launcher/pipes.py"), "a", encoding="ascii") as file:
            file.write("\ndef copy(path, place, most):\n    raise OSError(28, 'No space left on device')\n")
        status, out, err = self.run_plain("print", "/dev/stdin", stdin=self.writer(b"exit 0\n"))
        self.assertEqual((status, out), (21, b""))
        self.assertIn(b"/dev/stdin: this pipe could not be copied to a file: [Errno 28] No space left on device", err)
        self.assert_nothing_left()


class OnATerminal(LauncherCase):
    def setUp(self):
        super().setUp()
        # The seconds are shown a second earlier, so that the tests take less.
        path = self.at("tools/launcher/run.py")
        write(path, read(path).replace(b"PATIENCE = 2", b"PATIENCE = 1"))

    def test_the_line_after_solve(self):
        with open(self.at("two words.cert"), "wb") as file:
            _, _, err = self.run_on_terminal("solve", "game.qc", stdout=file)
        both = "game.qc 'two words.cert'"
        self.assertEqual(err.decode(), "qecode: true, the best value 26; certificate of 22 bytes; "
                         f"check: ./qecode check {both}; play: tools/play {both}\n")

    def test_other_answers(self):
        for states, part in (("true", "true; "), ("false", "false; "), ("open 1000000", "open, not settled within 1,000,000 turns (more with --turns N); ")):
            self.problem(f"printf 'qcert 2\\n{states}\\no\\n.\\n'; exit {2 if 'open' in states else 0}")
            _, _, err = self.run_on_terminal("solve", self.game)
            self.assertTrue(err.decode().startswith("qecode: " + part), err)

    def test_the_line_where_the_problem_came_from_a_pipe(self):
        with open(self.game, "rb") as text, subprocess.Popen(["cat"], stdin=text, stdout=subprocess.PIPE) as cat:
            _, _, err = self.run_on_terminal("solve", "/dev/stdin", stdin=cat.stdout)
        self.assertIn(b"check: ./qecode check PROBLEM CERTIFICATE; play: tools/play PROBLEM CERTIFICATE\n", err)

    def test_no_line_elsewhere(self):
        self.assertEqual(self.run_plain("solve", self.game), (0, CERTIFICATE, b""))
        for command in ("check", "print", "generate", "worst"):
            self.assertEqual(self.run_on_terminal(command, self.game), (0, CERTIFICATE, b""))
        self.problem("echo yes true; exit 1")
        self.assertEqual(self.run_on_terminal("solve", self.game), (1, b"yes true\n", b""))

    def test_a_refusal_shows_its_place_and_runs_once(self):
        for status, command, place in ((4, "solve", 1), (11, "qbf", 1), (5, "check", 2), (10, "play", 3)):
            self.problem(f"echo 'bad thing at 7'; exit {status}")
            files = [self.game, write(self.at("second"), b"abc\ndef\tghi\n"), write(self.at("third"), b"x\ny\nz = 7\n")]
            before = len(self.runs())
            ended, out, err = self.run_on_terminal(command, *files[:max(place, 1)])
            self.assertEqual((ended, out), (status, b"bad thing at 7\n"))
            self.assertTrue(err.decode().startswith(f"{files[place - 1]}: line "), err)
            self.assertEqual(len(self.runs()) - before, 1)
            self.assertEqual(self.run_plain(command, *files[:max(place, 1)])[2], b"")

    def test_the_seconds_are_shown_and_removed(self):
        self.problem('sleep 2.5; cat "{top}/answer"'.replace("{top}", self.top))
        _, out, err = self.run_on_terminal("solve", self.game)
        self.assertEqual(out, CERTIFICATE)
        told, cleared, last = err.decode().rpartition("\r\x1b[K")
        self.assertIn("\r\x1b[Kqecode: 1 s", told)
        self.assertTrue(cleared and last.startswith("qecode: true, the best value 26"), err)
        with open(self.at("out"), "wb") as file:
            _, _, err = self.run_on_terminal("check", self.game, "x", stdout=file)
        self.assertIn(b"qecode: 1 s", err)
        self.assertTrue(err.endswith(b"\r\x1b[K"), err)

    def test_nothing_in_the_midst_of_output(self):
        self.problem("printf 'qcert 2'; sleep 2.5; printf '\\nfalse\\nend'")
        terminal = Terminal()
        with self.start("solve", self.game, stdout=terminal.theirs, stderr=terminal.theirs) as child:
            self.assertEqual(child.wait(), 0)
        self.assertTrue(terminal.text().startswith(b"qcert 2\nfalse\nendqecode: false"))


def has_ended(number):
    """Whether a process has ended, also where nobody has asked yet how."""
    try:
        return "Z" in read(f"/proc/{number}/stat").decode().rpartition(")")[2].split()[0]
    except (FileNotFoundError, ProcessLookupError):
        return True


class Ended(LauncherCase):
    def end_by(self, number, stdin=None):
        """Ends the launcher while the program runs, and gives how it ended."""
        self.problem('echo $$ > "{top}/number"; exec sleep 50'.replace("{top}", self.top), "text")
        with open(self.at("text"), "rb") as text, subprocess.Popen(["cat"], stdin=text, stdout=subprocess.PIPE) as cat:
            with self.start("solve", "/dev/stdin", stdin=cat.stdout, start_new_session=True) as child:
                until = time.monotonic() + 30
                while not (os.path.exists(self.at("number")) and read(self.at("number"))) and time.monotonic() < until:
                    time.sleep(0.02)
                program = int(read(self.at("number")))
                if number == signal.SIGINT:
                    os.killpg(child.pid, number)  # as a terminal does
                else:
                    child.send_signal(number)
                status = child.wait(timeout=30)
        until = time.monotonic() + 10
        while not has_ended(program) and time.monotonic() < until:
            time.sleep(0.02)
        self.assertTrue(has_ended(program))
        self.assert_nothing_left()
        return status

    def test_by_a_terminal(self):
        self.assertEqual(self.end_by(signal.SIGINT), -signal.SIGINT)

    def test_by_a_request(self):
        self.assertEqual(self.end_by(signal.SIGTERM), 128 + signal.SIGTERM)


class Building(LauncherCase):
    def make_stale(self):
        late = time.time() - 5
        os.utime(self.built, (late, late))

    def test_it_is_built_where_it_isnt_there(self):
        os.remove(self.built)
        status, out, err = self.run_plain("solve", self.game)
        self.assertEqual((status, out), (0, CERTIFICATE))
        self.assertEqual(self.proofs(), ["ci", "  qc_io", "  qc_program"])
        self.assertRegex(err.decode(), r"qecode: 1 of 2: qc_io; 0 s gone, about \d+ s left\nqecode: 2 of 2: qc_program; 0 s gone, about 0 s left\n$")
        self.assertEqual(self.run_plain("solve", self.game), (0, CERTIFICATE, b""))
        self.assertEqual(len(self.proofs()), 3)
        self.assert_nothing_left()

    def test_it_is_built_where_it_is_older(self):
        self.make_stale()
        write(self.at("crates/qc_io/kept"), b"")
        self.assertEqual(self.run_plain("solve", self.game)[0], 0)
        self.assertEqual(len(self.proofs()), 3)
        self.assertFalse(os.path.exists(self.built + ".before"))

    def test_it_is_as_old_as_the_sources_that_were_read(self):
        """What changes while it is proved makes it stale."""
        self.make_stale()
        changing = read(self.at("kit/bin/rt")).replace(b"ci) ", f'ci) sleep 0.05; touch "{self.at("crates/qc_io/src/lib.rt")}"; '.encode())
        write(self.at("kit/bin/rt"), changing, 0o755)
        self.assertEqual(self.run_plain("solve", self.game)[0], 0)
        self.assertEqual(self.run_plain("solve", self.game)[0], 0)
        self.assertEqual(len(self.proofs()), 6)

    def test_a_crate_that_isnt_proved(self):
        self.make_stale()
        write(self.at("crates/qc_io/wrong"), b"")
        status, out, err = self.run_plain("solve", self.game)
        self.assertEqual((status, out), (21, b""))
        self.assertIn(b"qecode: qc_io could not be proved\n", err)
        self.assertEqual(self.runs(), [])
        self.assertTrue(os.path.exists(self.built))

    def test_without_the_kit(self):
        self.make_stale()
        os.remove(self.at("kit/bin/rt"))
        path = os.pathsep.join(it for it in os.environ["PATH"].split(os.pathsep) if not os.path.exists(os.path.join(it, "rt")))
        for words in (("solve", self.game), ("--now", "solve", self.game)):
            status, out, err = self.run_plain(*words, env=self.environment(PATH=path))
            self.assertEqual((status, out), (21, b""))
            self.assertIn(b"the command rt of the Rattle kit isn't on the PATH", err)

    def test_what_is_gone_and_what_is_left(self):
        now = [0.0]
        progress = prove.Progress.__new__(prove.Progress)
        progress.weights, progress.clock, progress.began = {"a": 1.0, "b": 2.0, "c": 7.0}, lambda: now[0], 0.0
        progress.spent = progress.took = progress.now_since = 0.0
        self.assertAlmostEqual(progress.left(), 10 * prove.PACE * 60)
        now[0] = 10.0
        self.assertAlmostEqual(progress.left(), 10 * prove.PACE * 60 - 10)
        now[0] = 10_000.0
        self.assertEqual(progress.left(), 0.0)  # never less than nothing
        progress.finish("a")
        slower = progress.left()
        self.assertGreater(slower, 9 * prove.PACE * 60)
        progress.finish("b", was_kept=True)  # it was proved before, so the pace stays
        self.assertAlmostEqual(progress.left(), slower * 7 / 9)
        progress.finish("c")
        self.assertEqual(progress.left(), 0.0)

    def test_every_crate_has_a_weight(self):
        from launcher.crates import order_of

        order = order_of("qc_program")
        self.assertTrue(all(prove.weight(name) > 0 for name in order))
        self.assertEqual([name for name in prove.MEASURED if name not in order], [])


class Now(LauncherCase):
    def setUp(self):
        super().setUp()
        os.remove(self.built)
        self.unproved = self.at("crates/qc_program/out/unproved/qecode")

    def test_it_answers_without_proofs(self):
        status, out, err = self.run_plain("--now", "solve", self.game)
        self.assertEqual((status, out), (0, CERTIFICATE), err)
        self.assertIn(b"building without proofs", err)
        self.assertTrue(err.endswith(b"qecode: nothing is proved of the build that answers now\n"))
        self.assertEqual(self.proofs(), ["try --"])
        self.assertEqual(self.runs(), [f"{self.unproved} solve {self.game}"])
        status, out, err = self.run_plain("--now", "solve", self.game)
        self.assertEqual((status, out, err), (0, CERTIFICATE, b"qecode: nothing is proved of the build that answers now\n"))
        self.assertEqual(len(self.proofs()), 1)
        late = time.time() + 5
        os.utime(self.at("crates/qc_io/src/lib.rt"), (late, late))
        self.assertEqual(self.run_plain("--now", "solve", self.game)[0], 0)
        self.assertEqual(len(self.proofs()), 2)
        self.assert_nothing_left()

    def test_only_where_it_is_asked_for(self):
        self.run_plain("--now", "solve", self.game)
        status, out, err = self.run_plain("solve", self.game)
        self.assertEqual((status, out), (0, CERTIFICATE))
        self.assertNotIn(b"nothing is proved of the build", err)
        self.assertEqual(self.runs()[-1].split()[0], self.built)
        self.assertEqual(self.run_plain("--now", "solve", self.game), (0, CERTIFICATE, b""))
        self.assertEqual(self.runs()[-1].split()[0], self.built)

    def test_the_line_after_solve(self):
        with open(self.at("c"), "wb") as file:
            _, _, err = self.run_on_terminal("--now", "solve", "game.qc", stdout=file)
        last = err.decode().splitlines()[-1]
        self.assertIn("check: ./qecode --now check game.qc c; play: QECODE=crates/qc_program/out/unproved/qecode tools/play game.qc c", last)

    def test_a_kit_that_works_otherwise(self):
        os.remove(self.at("module.bc"))
        status, out, err = self.run_plain("--now", "solve", self.game)
        self.assertEqual((status, out), (21, b""))
        self.assertIn(b"the build without proofs could not be made: rt try made no module", err)
        self.assertFalse(os.path.exists(self.unproved))
        self.assert_nothing_left()


if __name__ == "__main__":
    unittest.main()
