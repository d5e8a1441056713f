"""Logs of runs, made by the proved log programs, one for each reading: what tools/log-run and `press volume` share.

The lines of a log are counted here, and its first and last ones read, so that no log is taken for whole that is not. What it says
of a run is the program's.
"""
import hashlib
import os
import re
import shutil
import signal
import struct
import subprocess
import tempfile
import threading
from concurrent.futures import FIRST_COMPLETED, wait
from typing import NamedTuple, Optional

from chemstation.answers import NO_ATLAS, SUMMED
from press import builds
from press.cli import GiveUp

BLOCK = 1 << 20  # bytes
TAIL = 300  # bytes; the last three lines of a log are shorter
ANSWERS = [*map(str, range(15)), str(NO_ATLAS), "m"]  # those that close a log
HEADER = re.compile(rb"h \d+ \d+\n")
SUM = rb"t (-|0|-?[1-9]\d{0,18})"
CLOSING = re.compile(rb"(?:^|\n)(?:r ([0-9A-F]{16}|nan) [^\n]*\n)?(?:" + SUM + rb"\n)?(e (\d+|m) (0|[1-9]\d*))\n\Z")


class Failed(Exception):
    """There is no whole log of a run: why, and what the log program said on standard error."""

    def __init__(self, reason, said=""):
        super().__init__(reason)
        self.said = said


class CannotRead(Failed):
    """The run file cannot be read to its end."""


class BrokenOff(Exception):
    """The tool is ending, and what it had started was ended."""


# ---- signals

SIGNALS = [signal.SIGINT, signal.SIGTERM, signal.SIGHUP]


def break_off(number, frame):
    """Ends the work at a signal. Those that follow are not heard, so that it can be ended in order."""
    for each in SIGNALS:
        signal.signal(each, signal.SIG_IGN)
    raise KeyboardInterrupt(number)


def heed_signals():
    for each in SIGNALS:
        if signal.getsignal(each) != signal.SIG_IGN:  # by nohup, for one
            signal.signal(each, break_off)


def as_they_end(futures):
    """Futures in the order in which they end; those that are found ended at once, in their own. A signal that comes just before a
    wait begins does not end it, so none is long."""
    waiting = list(futures)
    while waiting:
        done = wait(waiting, timeout=0.2, return_when=FIRST_COMPLETED).done
        yield from (future for future in waiting if future in done)
        waiting = [future for future in waiting if future not in done]


# ---- the log programs

def is_program(path):
    return os.access(path, os.X_OK) and not os.path.isdir(path)


def build(name, program, say):
    """Proves and builds a log program of the repository, if it is not there by the time that no other process builds."""
    if not shutil.which("rt"):
        raise GiveUp(f"target/bin/{name} is not there, and neither is rt, which builds it")
    with builds.build_lock(say):
        if is_program(program):
            return
        say(f"proving and building {name}")
        if not builds.build(name):
            raise GiveUp(f"rt run {name} failed")


def find_program(say, atlas=False):
    """The log program of a reading: the one that CHEMLOG, or ATLASLOG, names, or the repository's own, which is built first if it
    is not there."""
    name = "atlaslog" if atlas else "chemlog"
    named = os.environ.get(name.upper())
    program = os.path.abspath(named or builds.BUILDS[name].place)
    if not named and not is_program(program):
        build(name, program, say)
    if not is_program(program):
        raise GiveUp(f"{named or program} is not a program")
    return program


class Children:
    """Programs that were started. Each has a session of its own: Ctrl-C comes to this process alone, which then ends them."""

    def __init__(self):
        self.guard, self.running, self.stopping = threading.Lock(), set(), False

    def run(self, words, **streams):
        """Runs a program to its end and gives its status."""
        with self.guard:
            if self.stopping:
                raise BrokenOff
            child = subprocess.Popen(words, start_new_session=True, **streams)
            self.running.add(child)
        try:
            status = child.wait()
        finally:
            child.kill()
            child.wait()
            with self.guard:
                self.running.discard(child)
        if self.stopping:
            raise BrokenOff
        return status

    def stop(self):
        """Ends all of them; no other will start."""
        with self.guard:
            self.stopping = True
            for child in self.running:
                child.kill()


# ---- files

class Sum(NamedTuple):
    """A file's size in bytes and its SHA-256."""

    size: int
    sha256: str


def blocks(path):
    """The bytes of a file, block by block."""
    try:
        with open(path, "rb") as file:
            while block := file.read(BLOCK):
                yield block
    except OSError:
        raise CannotRead("cannot be read to its end") from None


def summed(path, take=lambda block: None):
    """The sum of a file, each block of which is also given to `take`."""
    size, checksum = 0, hashlib.sha256()
    for block in blocks(path):
        size += len(block)
        checksum.update(block)
        take(block)
    return Sum(size, checksum.hexdigest())


# ---- logs

class Log(NamedTuple):
    """What a whole log says in its first and last lines."""

    first: str
    last: str
    answer: str
    records: int
    last_time: Optional[float]  # of the last record, in minutes
    total: Optional[str]  # of the unscaled values, or '-' where it is refused; None where the log has no line for it
    sum: Sum


class Ends:
    """The first and the last bytes of a log, and how many lines it has in all, of records and of sums."""

    def __init__(self):
        self.head, self.tail, self.lines, self.records, self.sums = b"", b"", 0, 0, 0

    def take(self, block):
        self.head = (self.head + block[:TAIL])[:TAIL]
        self.tail = (self.tail + block[-TAIL:])[-TAIL:]
        self.lines += block.count(b"\n")
        self.records += block.count(b"r")  # no other line has this letter
        self.sums += block.count(b"t")


def minutes(bits):
    """A number of a log."""
    return float("nan") if bits == b"nan" else struct.unpack(">d", bytes.fromhex(bits.decode()))[0]


def sum_fault(ends, total, due):
    """What is wrong with the line t of a log, where one is due or none is."""
    if due and total is None:
        return "no line t with a sum stands before it"
    if ends.sums > due:
        return "a line t stands where none is due"
    whole = total in (None, b"-") or -(2**63) <= int(total) < 2**63
    return "" if whole else f"{total.decode()} is no sum in 64 bits"


def lines_fault(ends, header, kind, closing):
    """What is wrong with the lines of a log of this kind that has a closing line; empty where it is whole."""
    _, total, last, _, records = closing.groups()
    count, due = int(records), bool(header) and kind in SUMMED
    whole = (ends.lines, ends.records) == (count + 2 + due, count) if header else ends.head == last + b"\n" and count == 0
    fault = sum_fault(ends, total, due)
    lines = f"{ends.lines} lines {'with' if header else 'without'} a header line, closed by '{last.decode()}'"
    return "" if whole and not fault else f"{lines}; {fault}" if fault else lines


def read_log(path, kind):
    """A log of a run of this kind that is whole. Its lines are counted too, since a full disk may cut a log anywhere."""
    ends = Ends()
    checksum = summed(path, ends.take)
    closing, header = CLOSING.search(ends.tail), HEADER.match(ends.head)
    if not closing or closing[4].decode() not in ANSWERS:
        raise Failed("the log has no closing line: the program stopped")
    fault = lines_fault(ends, header, kind, closing)
    if fault:
        raise Failed(f"the log is not whole: {fault}")
    time, total, last, answer, records = closing.groups()
    first = ends.head.split(b"\n")[0]
    return Log(first.decode(), last.decode(), answer.decode(), int(records), minutes(time) if time else None,
               total and total.decode(), checksum)


class Made(NamedTuple):
    """A log that was made: its file's sum, the log, and what the program said on standard error."""

    run: Sum
    log: Log
    said: str


def logged(children, program, copy, path):
    """Runs the program over a copy of a run, and gives what it says on standard error. The log goes to `path`."""
    with tempfile.TemporaryFile() as errors, open(path, "wb") as log:
        copy.seek(0)
        status = children.run([program], stdin=copy, stdout=log, stderr=errors)
        errors.seek(0)
        said = os.fsdecode(errors.read())
    if status != 0:
        raise Failed(f"the program stopped with {'status' if status > 0 else 'signal'} {abs(status)}", said)
    return said


def make_log(children, program, kind, file, path):
    """Writes the log of a run to `path`. The run is copied first, so that a file that cannot be read to its end is never
    logged as a shorter one, and so that its sum is that of the bytes that were logged."""
    try:
        with tempfile.TemporaryFile() as copy:
            copy.write(b"%d" % kind)
            run = summed(file, copy.write)
            said = logged(children, program, copy, path)
    except OSError as error:
        raise Failed(f"its log cannot be made: {error.strerror}") from None
    try:
        return Made(run, read_log(path, kind), said)
    except Failed as error:
        raise Failed(str(error), said) from None
