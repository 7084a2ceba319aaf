"""Builds a program without proving anything, in some two minutes where the proofs of all crates take up to an hour.

Nothing is known of what is built: it is for a first answer that is told to be without proof, for measuring a change before its
proof is written, and for profiles. `rt try` translates the sources and adds checks; its module is caught before it is
compiled, the checks go, inline hints are put back, and the kit's own compiler compiles it as it does a proved program. Times
came out within a tenth of those of the proved build.

`rt try` alone wouldn't do: it translates and compiles anew for each call (more than a minute), ends the program after two
minutes, gives it no files but those below the folder in which it is called, and writes lines of its own. On the other hand
this goes by how the kit works inside, so another kit may need changes; where a step fails, it is told which one, and nothing
is kept.
"""
import fcntl
import glob
import os
import re
import shutil
import subprocess
import tempfile
import threading
import time

from .crates import TOP, is_current, order_of
from .terminal import LiveLine, duration, say

FLAGS = ["--target=x86_64-unknown-linux-gnu", "-march=x86-64-v2", "--no-default-config"]
AS_IT_IS = ["-S", "-emit-llvm", "-O0", "-Xclang", "-disable-llvm-passes"]
OPTIMISED = ["-c", "-fPIE", "-O3", "-ffunction-sections", "-fdata-sections", "-mllvm", "-trap-unreachable"]
LINKED = ["-m", "elf_x86_64", "-pie", "-dynamic-linker", "/lib64/ld-linux-x86-64.so.2", "-z", "relro", "-z", "now", "--as-needed", "--gc-sections"]
# What stands before and after the program's own code in the linker's words.
BEFORE = ("Scrt1.o", "crti.o", "crtbeginS.o")
AFTER = ("libm.so.6", "libc.so.6", "libc_nonshared.a", "libgcc.a", "libgcc_s.so.1", "crtendS.o", "crtn.o")
DROPPED = re.compile(r'memset\.p0\.i64\(ptr %r\d+, i8 -86|call void @"rattle-(llvm-checks::|try::site-)')
HINT = re.compile(r"#\[inline(?:\((always|never)\))?\]\s*\n(?:\s*#\[[^\n]*\n)*\s*(?:pub(?:\([a-z]+\))? )?fn ([a-z_0-9]+)")
WORDS = {"always": "alwaysinline", "never": "noinline", None: "inlinehint"}
# A stand-in for the compiler, which keeps the program's module; the short one before it is the compiler's own test.
CATCHER = """#!/bin/sh
if [ "$(/usr/bin/stat -c %s module.bc 2>/dev/null || echo 0)" -gt 100000 ]; then /bin/cp module.bc "{folder}/module.bc"; exit 1; fi
exec "{clang}" "$@"
"""


class Failed(Exception):
    """A build that could not be made, and why."""


def stand_in(kit, folder):
    """A kit like this one whose compiler keeps the module."""
    own = os.path.join(folder, "kit")
    os.makedirs(os.path.join(own, "toolchain", "bin"))
    for name in os.listdir(kit):
        if name == "bin":
            shutil.copytree(os.path.join(kit, name), os.path.join(own, name))
        elif name != "toolchain":
            os.symlink(os.path.join(kit, name), os.path.join(own, name))
    os.symlink(os.path.join(kit, "toolchain", "lib"), os.path.join(own, "toolchain", "lib"))
    for name in os.listdir(os.path.join(kit, "toolchain", "bin")):
        tool = os.path.join(kit, "toolchain", "bin", name)
        place = os.path.join(own, "toolchain", "bin", name)
        if name == "clang":
            with open(place, "w", encoding="utf-8") as it:
                it.write(CATCHER.format(folder=folder, clang=tool))
            os.chmod(place, 0o755)
        else:
            os.symlink(tool, place)
    return own


def inline_hints(checkout):
    """The hint of each function that has one, by its crate and its name."""
    hints = {}
    for path in glob.glob(os.path.join(checkout, "crates", "*", "src", "**", "*.rt"), recursive=True):
        crate = os.path.relpath(path, os.path.join(checkout, "crates")).split(os.sep)[0]
        with open(path, encoding="utf-8") as it:
            hints.update({(crate, name): WORDS[word or None] for word, name in HINT.findall(it.read())})
    return hints


def plain(line, hints):
    """A line of the module without its checks, and with its function's hint; None where it goes."""
    if DROPPED.search(line):
        return None
    if line.startswith("attributes"):
        line = line.replace(" sanitize_address", "").replace(' "frame-pointer"="all"', "")
        line = line.replace('"target-cpu"="x86-64"', '"target-cpu"="x86-64-v2"')
        return re.sub(r"= \{\s*\}", "= { nounwind }", line)
    if line.startswith("define "):
        name = re.search(r'@"?([^"(]+)"?\(', line)
        parts = re.sub(r"::<.*", "", name.group(1)).split("::") if name else [""]
        hint = hints.get((parts[0], parts[-1]))
        return re.sub(r" #0 \{", f" {hint} #0 {{", line) if hint else line
    return line


def run(step, words, **how):
    ran = subprocess.run(words, stdin=subprocess.DEVNULL, capture_output=True, text=True, errors="replace", check=False, **how)
    if ran.returncode != 0:
        raise Failed(f"{step} failed: {(ran.stderr + ran.stdout).strip()[-2000:]}")


def kit_folder():
    rt = shutil.which("rt")
    if rt is None:
        raise Failed("the command rt of the Rattle kit isn't on the PATH")
    return os.path.dirname(os.path.dirname(os.path.realpath(rt)))


def catch_module(kit, crate_folder, folder):
    """The program's module as `rt try` makes it. The kit's own complaint that its compiler failed is how the catch ends."""
    own = stand_in(kit, folder)
    words = [os.path.join(own, "bin", "rt"), "try", "--"]
    how = {"stdin": subprocess.DEVNULL, "stdout": subprocess.PIPE, "stderr": subprocess.STDOUT, "text": True, "errors": "replace"}
    with subprocess.Popen(words, cwd=crate_folder, **how) as work:
        try:
            said = work.communicate()[0]
        except BaseException:
            work.terminate()  # it ends what it has started, which it couldn't if it were killed
            raise
    module = os.path.join(folder, "module.bc")
    if not os.path.exists(module):
        raise Failed(f"rt try made no module: {said.strip()[-2000:]}")
    return module


def build(checkout, crate, program):
    """Builds the program of this crate of a checkout. It stands at its place only once it is whole."""
    kit = kit_folder()
    tools, libraries = os.path.join(kit, "toolchain", "bin"), os.path.join(kit, "toolchain", "lib")
    clang = [os.path.join(tools, "clang"), *FLAGS, "--sysroot=" + os.path.join(kit, "toolchain")]
    with tempfile.TemporaryDirectory(prefix="unproved-") as folder:
        text, bare, code = (os.path.join(folder, it) for it in ("module.ll", "plain.ll", "plain.o"))
        module = catch_module(kit, os.path.join(checkout, "crates", crate), folder)
        run("reading the module", [*clang, *AS_IT_IS, "-x", "ir", module, "-o", text])
        hints = inline_hints(checkout)
        with open(text, encoding="utf-8") as lines, open(bare, "w", encoding="utf-8") as kept:
            kept.writelines(it for it in (plain(line, hints) for line in lines) if it is not None)
        run("compiling", [*clang, *OPTIMISED, "-x", "ir", bare, "-o", code])
        of_kit = [os.path.join(kit, "c", it) for it in ("libos_c.a", "liblibc_c.a")]
        before, after = ([os.path.join(libraries, it) for it in names] for names in (BEFORE, AFTER))
        made = program + ".new"
        run("linking", [os.path.join(tools, "ld.lld"), *LINKED, "-o", made, *before, code, *of_kit, *after])
        os.replace(made, program)


class Seconds:
    """Shows the seconds gone, on a terminal, while something is done."""

    def __init__(self, program, text):
        self.line, self.text, self.ended = LiveLine(program), text, threading.Event()
        self.began = time.monotonic()
        self.shows = threading.Thread(target=self.show, daemon=True)

    def show(self):
        while not self.ended.wait(1):
            self.line.show(f"{self.text}: {time.monotonic() - self.began:.0f} s")

    def __enter__(self):
        self.shows.start()
        return self

    def __exit__(self, *_):
        self.ended.set()
        self.shows.join()
        self.line.remove()


def ensure(program):
    """Whether the build without proofs is there and current, which is made for where it isn't."""
    order = order_of(program.crate)
    place = program.unproved
    if is_current(place, order):
        return True
    os.makedirs(os.path.dirname(place), exist_ok=True)
    with open(os.path.join(os.path.dirname(place), "build.lock"), "w", encoding="ascii") as lock:
        fcntl.flock(lock, fcntl.LOCK_EX)
        if is_current(place, order):
            return True
        say(program.name, "building without proofs, which takes some two minutes")
        began, newest = time.monotonic(), time.time()
        try:
            with Seconds(program.name, "building without proofs"):
                build(TOP, program.crate, place)
        except (Failed, OSError) as error:
            say(program.name, f"the build without proofs could not be made: {error}")
            return False
        # What is edited meanwhile isn't in it.
        os.utime(place, (newest, newest))
        say(program.name, f"built without proofs in {duration(time.monotonic() - began)}")
        return True
