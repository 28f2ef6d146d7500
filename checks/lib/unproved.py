"""Runs the kit's `rt try` so that what it builds is kept: optimized, and without the watch for bad memory accesses.

`rt try` keeps no program. So it is run here in a folder of links to the kit, which has two tools of its own. The
compiler keeps the module of the program for the linker. The linker compiles that module by up to four
processors, and leaves the program where it is wanted. The program still stops if an index, a sum or a cast goes
wrong."""
from __future__ import annotations

import os
import shlex
import shutil
import signal
import subprocess
from typing import NamedTuple, NoReturn, Optional, Sequence

import kit

CURRENT = os.path.join(os.path.dirname(os.path.abspath(__file__)), "current")
NO_ARCHIVE = b"!<arch>\n"
MODULE = "module.bc"
ENDING = (signal.SIGINT, signal.SIGTERM, signal.SIGHUP)
# How many characters are shown if something could not be built.
TOLD = 3000
# The program's module is the only one to be watched for bad accesses. It is kept, and an empty one is compiled.
# (The tools are started with no environment.)
CLANG = """#!/bin/sh
case " $* " in *' -fsanitize=address '*)
  /bin/mv module.bc {module}
  echo 'target triple = "x86_64-unknown-linux-gnu"' >module.bc
  exec {tool} -c -x ir module.bc -o module.o ;;
esac
exec {tool} "$@"
"""
LINKER = """#!/bin/sh
{tool} "$@" {module} {files} --threads=4 --lto-partitions=4 --lto-{level} --lto-CGO2 --disable-verify \
  -mllvm -trap-unreachable -mllvm -inline-max-stacksize={frame} || exit
/bin/cp program {program}
{then}
"""
# No function with more bytes of local variables is inlined. Without this limit each function that is called once is
# inlined, a few callers grow so large that the optimizer takes 1.4 times as long, and the program saves 3 % of its
# instructions.
FRAME = 256
NO_PROGRAM = "exec /bin/cp /bin/true program"
NO_LINKER = f"#!/bin/sh\n{NO_PROGRAM}\n"


class Wanted(NamedTuple):
    """What a build leaves: the program, at this path, with these object files of C; or without a path its module."""
    program: Optional[str] = os.devnull
    files: Sequence[str] = ()
    # Whether what is built is run, and whether it is optimized, which takes half as long again.
    runs: bool = True
    is_optimized: bool = False


def _break_off(*_: object) -> NoReturn:
    kit.stop("the build was broken off, and nothing is left of it: the next call builds anew")


def break_off_in_words() -> None:
    """Says what is left of the build if a signal ends it."""
    for number in ENDING:
        signal.signal(number, _break_off)


def _may_end() -> None:
    signal.pthread_sigmask(signal.SIG_UNBLOCK, ENDING)


def linked(real: str, place: str, *but: str) -> str:
    """A folder of links to what is in the real one, but for these names."""
    os.makedirs(place)
    for name in set(os.listdir(real)) - set(but):
        os.symlink(os.path.join(real, name), os.path.join(place, name))
    return place


def copied(top: str, crate: str, room: str) -> str:
    """The crate in a copy of the repository that is made of links, but for its own sources, which are to be changed."""
    place = linked(top, os.path.join(room, "top"), ".git", "crates", "crates.txt")
    shutil.copy(os.path.join(top, "crates.txt"), place)
    for name in os.listdir(os.path.join(top, "crates")):
        but = ("out", "src") if name == crate else ("out",)
        linked(os.path.join(top, "crates", name), os.path.join(place, "crates", name), *but)
    folder = os.path.join(place, "crates", crate)
    shutil.copytree(os.path.join(top, "crates", crate, "src"), os.path.join(folder, "src"))
    return folder


def _write_tool(place: str, text: str) -> None:
    with open(place, "w", encoding="utf-8") as file:
        file.write(text)
    os.chmod(place, 0o755)


def _kit_of_links(real: str, place: str) -> str:
    """A copy of the kit made of links, without compiler and linker. Returns its tools. (`rt` looks for the kit where
    it is itself.)"""
    linked(real, place, "bin", "c", "toolchain")
    tools = linked(os.path.join(real, "bin"), os.path.join(place, "bin"), "rt", "rtlib.py", "rattle")
    for name in ("rt", "rtlib.py"):
        shutil.copy(os.path.join(real, "bin", name), tools)
    # `rattle` would only warn of names that a check refuses.
    os.symlink("/bin/true", os.path.join(tools, "rattle"))
    libraries = linked(os.path.join(real, "c"), os.path.join(place, "c"), "asan.a")
    with open(os.path.join(libraries, "asan.a"), "wb") as file:
        file.write(NO_ARCHIVE)
    linked(os.path.join(real, "toolchain"), os.path.join(place, "toolchain"), "bin")
    linked(os.path.join(real, "toolchain", "bin"), os.path.join(place, "toolchain", "bin"), "clang", "ld.lld")
    return tools


def _stand_in(room: str, wanted: Wanted) -> str:
    """The `rt` of a kit that leaves what is wanted."""
    real, place = kit.place(), os.path.join(room, "kit")
    tools = _kit_of_links(real, place)
    given = {"program": shlex.quote(wanted.program or ""), "files": shlex.join(wanted.files),
             "module": shlex.quote(os.path.join(room, MODULE)), "then": "" if wanted.runs else NO_PROGRAM,
             "level": "O2" if wanted.is_optimized else "O0", "frame": FRAME}
    for name, text in (("clang", CLANG), ("ld.lld", LINKER if wanted.program else NO_LINKER)):
        tool = shlex.quote(os.path.join(real, "toolchain", "bin", name))
        _write_tool(os.path.join(place, "toolchain", "bin", name), text.format(tool=tool, **given))
    return os.path.join(tools, "rt")


def tried(crate: str, room: str, wanted: Wanted, *words: str,
          tests: bool = False) -> subprocess.CompletedProcess[str]:
    """What `rt try` says about the crate in that folder, run with these words. If it is broken off, what it started
    ends too."""
    asked = [_stand_in(room, wanted), "try", *["--test"] * tests, "--steps", "1", "--seconds", "60"]
    asked += ["--", *words] if words else []
    streams = {"stdin": subprocess.DEVNULL, "stdout": subprocess.PIPE, "stderr": subprocess.PIPE}
    environment = {**os.environ, "TMPDIR": room}
    # It isn't broken off before there is a child that can be ended.
    signal.pthread_sigmask(signal.SIG_BLOCK, ENDING)
    with subprocess.Popen(asked, cwd=crate, env=environment, text=True, errors="replace", preexec_fn=_may_end,
                          **streams) as child:
        try:
            _may_end()
            said, errors = child.communicate()
        except BaseException:
            child.terminate()
            raise
    if not os.path.exists(wanted.program or os.path.join(room, MODULE)):
        kit.stop(f"{os.path.basename(crate)} could not be built unproved\n{(said + errors)[-TOLD:]}")
    return subprocess.CompletedProcess(asked, child.returncode, said, errors)


def current(crate: str, *programs: str) -> str:
    """The first of these that is made from the crate's sources as they are; empty if none is."""
    asked = [CURRENT, f"--of={crate}", *programs]
    return subprocess.run(asked, capture_output=True, text=True, check=False).stdout.strip()


class Made:
    """What a program is made from, taken before it is built."""

    def __init__(self, crate: str) -> None:
        self.crate, self.words = crate, current(crate, "--made").split()

    def note(self, program: str) -> None:
        subprocess.run([CURRENT, f"--of={self.crate}", "--note", program, *self.words], check=True)
