"""What the crates are built to, where every tool looks for it: the two log programs and the archive of the library.

`rt` works in a crate's folder and leaves what it builds in that folder's out/. What is whole there is copied below target/ and put in
its place at once: a program that runs, or a build that is broken off, never leaves half a file there.
"""
import contextlib
import fcntl
import os
import shutil
import subprocess
import sys
from pathlib import Path
from typing import NamedTuple

ROOT = Path(__file__).resolve().parents[2]


class Build(NamedTuple):
    """How a crate is built."""

    verb: str  # of rt, which proves first: lib builds a library, run a program, which it then runs, here on no input at all
    made: str  # what it leaves in the crate's folder
    place: Path  # of the copy


BUILDS = {
    "chemlog": Build("run", "out/chemlog", ROOT / "target/bin/chemlog"),
    "atlaslog": Build("run", "out/atlaslog", ROOT / "target/bin/atlaslog"),
    "chemread": Build("lib", "out/libchemread.a", ROOT / "target/staticlib/libchemread.a"),
}
PROGRAMS = [name for name, build in BUILDS.items() if build.verb == "run"]


@contextlib.contextmanager
def build_lock(say):
    """Only one process at a time builds in target/. The system lets go of the lock with the process: none is left behind."""
    (ROOT / "target").mkdir(exist_ok=True)
    with open(ROOT / "target/build.lock", "a") as lock:
        try:
            fcntl.flock(lock, fcntl.LOCK_EX | fcntl.LOCK_NB)
        except BlockingIOError:
            say("waiting for another build in target/")
            fcntl.flock(lock, fcntl.LOCK_EX)
        yield


def is_new(*files):
    """Whether all files are there and no source is newer."""
    sources = max(file.stat().st_mtime for file in (ROOT / "crates").glob("*/src/*.rt"))
    return all(file.exists() and file.stat().st_mtime >= sources for file in files)


def put(name):
    """Puts a copy of what rt made of a crate in its place, whole."""
    build = BUILDS[name]
    part = build.place.with_suffix(f".{os.getpid()}")
    build.place.parent.mkdir(parents=True, exist_ok=True)
    shutil.copy(ROOT / "crates" / name / build.made, part)
    os.replace(part, build.place)


def build(name):
    """Proves and builds a crate, and gives whether that went well. What rt and the program that it runs write goes to standard error."""
    words = ["rt", BUILDS[name].verb, name]
    done = subprocess.run(words, cwd=ROOT / "crates" / name, stdin=subprocess.DEVNULL, stdout=sys.stderr)
    if done.returncode != 0:
        return False
    put(name)
    return True
