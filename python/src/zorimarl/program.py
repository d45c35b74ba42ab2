"""The program: where it stands, and the lock on a journal that its launcher holds, and this package in its stead.

It is looked for in this order: the name that a call gives; the variable SPECTRE; `bin/spectre` of the checkout
that this package stands in; the installed `spectre` on the PATH. A launcher (bin/spectre, and what it installs)
locks the journal itself. The program alone doesn't, so this package takes the same lock for it.
"""

from __future__ import annotations

import fcntl
import os
import pathlib
import shutil
import subprocess
from typing import List, NamedTuple, Optional, Sequence, Set, Union

from .errors import InUse, NoProgram, NoRequest, ended

Path = Union[str, "os.PathLike[str]"]

ROOT = pathlib.Path(__file__).resolve().parents[3] if len(pathlib.Path(__file__).resolve().parents) > 3 else None
# What stands in a launcher, and in no program.
MARK = b'hold_file "$@"'
LONGEST_LAUNCHER = 100_000
_ready: Set[str] = set()


class Program(NamedTuple):
    """A program that can be started. A launcher holds a lock itself."""

    path: str
    is_launcher: bool


def find(named: Optional[Path] = None) -> Program:
    """The program that runs. `NoProgram` where there is none, with each place that was looked at."""
    for name, origin in ((named, "the call"), (os.environ.get("SPECTRE"), "the variable SPECTRE")):
        if name:
            path = shutil.which(file_name(name))
            if path is None:
                raise NoProgram(f"{origin} names {os.fspath(name)}, which is no program that can be started")
            return Program(path, is_launcher(path))
    looked = ["the variable SPECTRE isn't set"]
    launcher = beside()
    if launcher is None:
        looked.append("this package stands in no checkout of the repository")
    elif os.access(launcher, os.X_OK):
        return Program(launcher, True)
    else:
        looked.append(f"{launcher} can't be started")
    path = shutil.which("spectre")
    if path is None:
        looked.append(f"no folder of the PATH has spectre: {os.environ.get('PATH', '')}")
        raise NoProgram("there is no program spectre: " + "; ".join(looked))
    return Program(path, is_launcher(path))


def beside() -> Optional[str]:
    """`bin/spectre` of the checkout that this package stands in, if it stands in one."""
    if ROOT is None or not (ROOT / "crates.txt").is_file() or not (ROOT / "bin" / "spectre").is_file():
        return None
    return str(ROOT / "bin" / "spectre")


def is_launcher(path: str) -> bool:
    """Whether it is a script that locks a journal before it starts the program."""
    try:
        with open(path, "rb") as opened:
            return opened.read(2) == b"#!" and MARK in opened.read(LONGEST_LAUNCHER)
    except OSError:
        return False


def ready(named: Optional[Path] = None) -> Program:
    """The program, once it is built: where that is a launcher's to do, it says on standard error how far it is."""
    found = find(named)
    if found.is_launcher and found.path not in _ready:
        words = [found.path, "make", "0", "0", "1"]
        code = subprocess.run(words, stdin=subprocess.DEVNULL, stdout=subprocess.DEVNULL, check=False).returncode
        if code:
            raise ended(code, said=f"{found.path} couldn't start the program")
        _ready.add(found.path)
    return found


def hold(file: Path, alone: bool = True) -> int:
    """Opens a file and takes the lock that a launcher takes: alone as for `node`, or with others as for
    `show`. Answers the open file; the lock lasts until it and all that inherit it are closed."""
    flags = os.O_RDWR | os.O_CREAT | os.O_APPEND if alone else os.O_RDONLY
    opened = os.open(file, flags | os.O_CLOEXEC, 0o666)
    try:
        fcntl.flock(opened, (fcntl.LOCK_EX if alone else fcntl.LOCK_SH) | fcntl.LOCK_NB)
    except BlockingIOError:
        os.close(opened)
        raise InUse(124, said=f"{os.fspath(file)} is in use by another call") from None
    except OSError:  # a file system that knows no locks, as the launcher goes on there, too
        pass
    return opened


def file_name(file: Path) -> str:
    """A file's name as text, which has no byte 0."""
    name = os.fspath(file) if isinstance(file, (str, os.PathLike)) else file
    if not isinstance(name, str) or "\0" in name:
        raise NoRequest(f"a file's name is text without a byte 0, and `{file!r:.80}` was given")
    return name


def is_file(file: Path) -> bool:
    """Whether a name is that of a file, or of none yet: what a launcher locks."""
    name = os.fspath(file)
    return bool(name) and not name.startswith("-") and (os.path.isfile(name) or not os.path.exists(name))


def held(file: Path, program: Program) -> List[int]:
    """The file, opened and locked where that is this package's to do; none where it can't be opened, which is
    the program's to tell."""
    if program.is_launcher or not is_file(file):
        return []
    try:
        return [hold(file)]
    except OSError:
        return []


def name_of(file: Path, opened: Sequence[int]) -> str:
    """A name of the very file that is held, where one is: a link of the other name may lead elsewhere by now."""
    own = f"/dev/fd/{opened[0]}" if opened else ""
    return own if own and os.path.exists(own) else os.fspath(file)
