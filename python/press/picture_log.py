"""A log (README.md) as what a picture is made from. A log may be cut, damaged or no log at all."""
import re
import sys
from array import array

from chemstation.answers import KINDS, SUMMED, meaning
from press import advice
from press.picture_numbers import counted
from press.picture_parts import AXES, CannotDraw, Source
from press.picture_sums import added, in_log

NUMBER = rb"(?:[0-9A-F]{16}|nan)"
# By the numbers in a record: 3 without an axis, 4 with one.
RECORDS = {3: re.compile(rb"(?:r N - N N\n)+".replace(b"N", NUMBER)),
           4: re.compile(rb"(?:r N N N N\n)+".replace(b"N", NUMBER))}
HEADER = re.compile(rb"h (0|[1-9][0-9]{0,9}) (0|[1-9][0-9]{0,9})\n")
SUM = re.compile(rb"t (-|0|-?[1-9][0-9]{0,18})\n")
CLOSING = re.compile(rb"e (1[0-68]|[0-9]|m) (0|[1-9][0-9]{0,18})\n")
BLOCK = 1 << 20  # bytes
LONG = 1000  # bytes; no line of a log is so long


class Log:
    def __init__(self):
        self.lines = 0
        self.header = None  # edition and size
        self.closing = None  # answer and count
        self.form = None  # numbers in a record
        self.sum, self.sum_at = None, 0  # what the line t has, just before the closing line, and its number
        self.total = 0  # of the unscaled values, or None where it is refused
        self.times, self.axes, self.values = array("d"), array("d"), array("d")
        self.strange = []  # numbers of the lines that are none of a log, or out of place
        self.behind = 0  # number of the first line behind the closing line
        self.breaks = set()  # records that have a strange line before them
        self.unended = False  # the last line has no end

    def __len__(self):
        return len(self.values)

    def feed(self, block):
        """Takes whole lines, records in bulk."""
        at = 0
        while at < len(block):
            found = None
            if self.closing is None:
                forms = [self.form] if self.form else RECORDS
                found = next(filter(None, (RECORDS[form].match(block, at) for form in forms)), None)
            end = found.end() if found else block.index(b"\n", at) + 1
            if self.sum is not None and self.closing is None and not CLOSING.fullmatch(block, at, end):
                self.misplaced_sum()
            if found:
                self.take(block[at:end])
            else:
                self.other(block[at:end])
            at = end

    def misplaced_sum(self):
        """The line t that came before is none of a log: another line than the closing one follows it."""
        self.sum = None
        self.strange.append(self.lines)
        self.breaks.add(len(self))

    def take(self, text):
        if self.form is None:
            self.form = 3 if b" - " in text[:24] else 4
        self.lines += text.count(b"\n")
        digits = text.replace(b"nan", b"7FF8000000000000").replace(b"r", b"").replace(b"-", b"")
        numbers = array("d", bytes.fromhex(digits.decode("ascii")))
        if sys.byteorder == "little":
            numbers.byteswap()
        self.times.extend(numbers[0 :: self.form])
        if self.form == 4:
            self.axes.extend(numbers[1::4])
        self.values.extend(numbers[self.form - 1 :: self.form])
        self.total = added(self.total, numbers[self.form - 2 :: self.form])

    def other(self, line):
        """A line that is no record of this log."""
        self.lines += 1
        header, closing, total = (form.fullmatch(line) for form in (HEADER, CLOSING, SUM))
        if self.closing is not None:
            self.behind = self.behind or self.lines
        elif header and self.lines == 1:
            self.header = tuple(map(int, header.groups()))
        elif closing:
            self.closing = closing[1].decode(), int(closing[2])
        elif total:
            self.sum, self.sum_at = total[1].decode(), self.lines
        else:
            self.strange.append(self.lines)
            self.breaks.add(len(self))


def read_log(stream):
    log, rest = Log(), b""
    while True:
        block = stream.read(BLOCK)
        if not block:
            break
        end = block.rfind(b"\n") + 1
        if end:
            log.feed(rest + block[:end])
            rest = b""
        rest = (rest + block[end:])[:LONG]
    log.unended = bool(rest)
    return log


def ending_faults(log):
    """What is wrong with how a log ends."""
    if log.closing is None and log.unended:
        return [f"CUT: line {log.lines + 1:,}, the last, has no end, and there is no closing line: make the log again"]
    if log.closing is None:
        return ["CUT: the log has no closing line: make it again"]
    if log.closing[0] != "0":
        return [refusal(len(log), log.closing[0])]
    return []


def refusal(count, answer):
    return f"REFUSED after {counted(count, 'record')}, closed with {answer}: {meaning(answer)}"


def sum_faults(log, kind):
    """What is wrong with the line t of a log that has a closing line: whether there is one, and the sum in it."""
    if log.sum is None:
        missing = "NOT WHOLE: no line t with the sum of the unscaled values stands before the closing line"
        return [missing] if log.header and kind in SUMMED else []
    if kind not in SUMMED or not (log.header or len(log)):
        whose = "a refused opening" if kind in SUMMED else f"an {KINDS[kind]} run"
        return [f"DAMAGED: line {log.sum_at:,} is a line t, and the log of {whose} has none"]
    total = in_log(log.total)
    return [] if log.sum == total else [f"DAMAGED: the log says t {log.sum}, but its records add up to t {total}"]


def faults_of(log, kind):
    """What is wrong with a log, a sentence each, the gravest first."""
    found = ending_faults(log)
    if log.closing and log.closing[1] != len(log):
        records = counted(log.closing[1], "record")
        found.append(f"NOT WHOLE: the closing line counts {records}, but the log has {len(log):,}")
    if log.header is None and (log.closing is None or log.closing[0] == "0" or len(log)):
        found.append("NOT WHOLE: the log does not begin with a header line")
    if log.strange:
        more = f", nor are {len(log.strange) - 1:,} more" if len(log.strange) > 1 else ""
        found.append(f"DAMAGED: line {log.strange[0]:,} is not a line of this log{more}")
    behind = log.behind or (log.closing and log.unended and log.lines + 1)
    if behind:
        found.append(f"DAMAGED: line {behind:,} stands behind the closing line; nothing is drawn from there on")
    return found + (sum_faults(log, kind) if log.closing else [])


def source_of_log(stream, name, kind):
    """What a log in a binary stream has to show, as the log of a run of that kind."""
    log = read_log(stream)
    if not (log.header or log.closing or len(log)):
        raise CannotDraw("is no log: not one line of it is a line of a log")
    if len(log) and (log.form == 4) != (kind in AXES):
        raise CannotDraw(f"its records have {'an' if log.form == 4 else 'no'} axis, unlike those of {KINDS[kind]}")
    return Source(name, kind, log.times, log.axes if kind in AXES else None, log.values, log.closing and log.closing[0],
                  log.header, breaks=frozenset(log.breaks), faults=faults_of(log, kind), advice=advice.of_sum(log.sum))
