"""Calls of the program: finding it, reading what it writes, raising the fault that it ends with."""

from __future__ import annotations

import os
import platform
import re
import shutil
import subprocess
import tempfile
from contextlib import contextmanager
from pathlib import Path
from typing import IO, Iterator, Optional, Sequence

from .faults import Fault, fault

F_SETPIPE_SZ = 1031  # of Linux; the module fcntl names it from Python 3.10 on
ANSWERS = {  # what the answer to a command has in it, by which a foreign program is known
    "check": rb"^ok: \d+ terms?, \d+ columns?\n$",
    "fmt": rb"^pipeline \d;\n",
    "plan": rb"(^|\n)reach=\d+ bound=\d+\n$",
    "explain": rb"^(seen|value) ",
    "verify": rb"^(yes|no \d+)\n$",
    "payouts": rb"^record,",
    "cut": rb"^(\d{4}-\d\d-\d\d\n|sid,|name,|id,)",
}


def find() -> str:
    """Path of the program: what TOHMERIL names, else the one inside the package, else `tohmeril` on the path, else the
    one built in this checkout.

    A release has the program inside the package (tools/release). It goes before the path, since it was tried with this
    package, and a program on the path may be of another version. A worker of an executor finds its own, by its own
    environment.
    """
    inside = Path(__file__).with_name("bin") / "tohmeril"
    built = Path(__file__).resolve().parents[2] / "crates/pl_main/out/pl_main"
    named = os.environ.get("TOHMERIL")
    places: list[Optional[str]] = [named] if named else [str(inside), shutil.which("tohmeril"), str(built)]
    for program in places:
        if program and os.access(program, os.X_OK):
            return program
    raise FileNotFoundError(
        f"there is no program {named or 'tohmeril'} on {platform.node()}: set TOHMERIL to its path, put it "
        "on the path as tohmeril, or build it with ./tohmeril in the checkout"
    )


def _widen(pipe: IO[bytes]) -> None:
    """Make a pipe of 64 KB one of 1 MB, without which the program and pandas' parser take turns."""
    try:
        import fcntl

        fcntl.fcntl(pipe, F_SETPIPE_SZ, 1 << 20)
    except (ImportError, OSError):  # not Linux, or no more pages for pipes
        pass


def foreign(path: str, answer: bytes) -> Fault:
    """The fault of a program that answers what no program of this version does."""
    shown = repr(answer[:60].decode(errors="replace")) if answer else "nothing"
    return Fault(
        f"the program {path} wrote {shown}",
        "so it is no tohmeril, or one of another version than this package: let TOHMERIL name the one that belongs "
        "to it, which ./tohmeril builds in the checkout",
    )


class Unreadable(ValueError):
    """What was read is not what was asked for."""

    def __init__(self, answer: bytes):
        super().__init__(answer)
        self.answer = answer


@contextmanager
def stream(words: Sequence[str]) -> Iterator[IO[bytes]]:
    """Output of a command while it is written; its fault is raised once all of it is read.

    Where the reader can't read it, that fault comes first; without one an `Unreadable` is the fault of a foreign
    program.
    """
    path = find()
    process = subprocess.Popen([path, *words], stdout=subprocess.PIPE, stderr=subprocess.PIPE)
    assert process.stdout is not None and process.stderr is not None
    _widen(process.stdout)
    broken: Optional[ValueError] = None
    killed = False
    try:
        yield process.stdout
    except ValueError as error:
        broken = error
        try:
            process.wait(timeout=1)  # it has ended, unless it goes on with something else
        except subprocess.TimeoutExpired:
            process.kill()
            killed = True
    except BaseException:
        process.kill()
        raise
    finally:
        process.stdout.close()
        line = process.stderr.read().decode(errors="replace")
        process.stderr.close()
        status = process.wait()
    if status and not killed:
        raise fault(status, line, " ".join(words) if status == 2 else "")
    if broken is not None:
        raise foreign(path, broken.answer) if isinstance(broken, Unreadable) else broken


def call(*words: str) -> bytes:
    """Output of a command as a whole."""
    with stream(words) as out:
        answer = out.read()
    if not re.search(ANSWERS.get(words[0], b""), answer):
        raise foreign(find(), answer)
    return answer


@contextmanager
def file(text: str, suffix: str = ".pl") -> Iterator[str]:
    """Name of a temporary file that holds a text."""
    with tempfile.NamedTemporaryFile("w", suffix=suffix, encoding="utf-8", newline="") as named:
        named.write(text)
        named.flush()
        yield named.name
