"""What the tests share: checks that are counted, scripts as modules, tools that are run, and headers of small runs.

The tools are run with the log programs target/bin/chemlog and target/bin/atlaslog, or those that CHEMLOG and ATLASLOG name.
"""
import os
import shutil
import struct
import subprocess
import sys
import time
from importlib.machinery import SourceFileLoader
from importlib.util import module_from_spec, spec_from_loader
from itertools import accumulate
from pathlib import Path
from typing import NamedTuple

sys.dont_write_bytecode = True
ROOT = Path(__file__).resolve().parent.parent
PROGRAM = os.path.abspath(os.environ.get("CHEMLOG") or ROOT / "target/bin/chemlog")
ATLASLOG = os.path.abspath(os.environ.get("ATLASLOG") or ROOT / "target/bin/atlaslog")
os.environ.update(CHEMLOG=PROGRAM, ATLASLOG=ATLASLOG)  # the tools run in other folders

PATIENCE = 20  # seconds


def help_asked(text):
    """Where a test was asked for help: what it is, and nothing is tested."""
    if {"-h", "--help"} & set(sys.argv[1:]):
        print(text.strip(), "\n\nThe kinds of run: 1 FID, 2 MS, 3 MWD, 4 DAD, 5 UV, 6 array.", sep="")
        sys.exit(0)


passed, failed = 0, []


def loaded(path):
    loader = SourceFileLoader(path.stem.replace("-", "_"), str(path))
    module = module_from_spec(spec_from_loader(loader.name, loader))
    loader.exec_module(module)
    return module


samples = loaded(ROOT / "tools/make-samples")
header, sized, be, le = samples.header, samples.sized, samples.be, samples.le


def shown(value):
    text = repr(value)
    return text if len(text) <= 600 else text[:200] + " .. " + text[-400:]


def check(name, got, want):
    global passed
    if got == want:
        passed += 1
    else:
        failed.append(name)
        print(f"FAILED {name}\n  due:  {shown(want)}\n  came: {shown(got)}")


def end(name):
    """Says how many checks there were, and ends with the status of the tests."""
    print(f"{name}: {passed} passed, {len(failed)} failed")
    sys.exit(1 if failed else 0)


def plain(kind, size=None, scans=10**6, edition=2, fields=()):
    """A header that opens, zeros but for its fields: for MS, DAD and UV with so many scans due, for an array 10 minutes of 0.1
    seconds."""
    size = size or (4608 if kind == 6 else 512)
    times = [(286, be("i", 600000)), (4122, be("HH", 1, 10))] if kind == 6 else []
    scans = [(278, be("I", scans))] if kind in (2, 4, 5) else []
    return sized(header(size, edition, [*times, *scans, *fields]), ms=kind == 2)


def leaving():
    """Runs that close with 0: what each is, its kind, its bytes, and how many of these are left of the last scan and behind the run;
    from docs/FORMAT.md, section 5. All are smaller than the log program's buffer."""
    made = {name: make() for name, (_, make) in samples.RUNS.items()}
    yield "FID", 1, made["fid"], (0, 0)
    yield "MS", 2, made["ms"], (0, 0)
    yield "MS and 5 bytes", 2, made["ms"] + bytes(5), (0, 5)
    empty = be("HI", 14, 60000) + bytes(22)
    more = made["ms"][:278] + be("I", 5) + made["ms"][282:]  # two scans more than the 3 of the sample
    yield "MS with two empty scans at its end", 2, more + empty * 2, (0, 0)
    yield "MS with two empty scans at its end and 7 bytes", 2, more + empty * 2 + bytes(7), (0, 7)
    yield "MS without scans", 2, made["ms"][:278] + bytes(4) + made["ms"][282:], (0, len(made["ms"]) - 512)
    yield "MWD", 3, made["mwd"], (0, 0)
    yield "MWD and an empty group", 3, made["mwd"] + be("H", 0x1000), (0, 0)
    yield "MWD, an empty group and 6 bytes", 3, made["mwd"] + be("H", 0x1000) + bytes(6), (0, 6)
    yield "DAD", 4, made["dad"], (2, 0)
    yield "DAD and 9 bytes", 4, made["dad"] + bytes(9), (2, 9)
    yield "DAD, its last point cut", 4, made["dad"][:-1], (1, 0)
    more = made["dad"][:278] + be("I", 9) + made["dad"][282:]
    yield "DAD, a scan of another type", 4, more + le("H", 66), (0, 0)
    yield "DAD, a scan of another type and 20 bytes", 4, more + le("H", 66) + bytes(20), (0, 20)
    yield "DAD, an empty scan and 3 bytes", 4, more + le("HH", 67, 22) + bytes(18 + 3), (0, 3)
    yield "UV", 5, made["uv"], (0, 0)
    yield "UV and 4 bytes", 5, made["uv"] + bytes(4), (0, 4)
    yield "array", 6, made["array"], (0, 0)
    yield "array and 8 bytes", 6, made["array"] + bytes(8), (0, 8)


def left_line(last_scan, behind):
    """What the log program says on standard error where it leaves so many bytes, and all those behind the run stand in its buffer."""
    scan, rest = f"{last_scan} bytes of the last scan", f"{behind} bytes in the buffer behind the end of the run"
    parts = [scan] * bool(last_scan) + [rest] * bool(behind)
    return f"chemlog: left: {', '.join(parts)}\n" if parts else ""


def stored(name):
    """The log of a sample: its lines h, r and e were made by the original."""
    return (ROOT / "samples" / (name + ".log")).read_text()


# ---- sums

SUMMED = (1, 2, 3, 4, 5)  # the kinds whose logs have a line t

# The sums of the samples, worked by hand from the numbers in tools/make-samples.
SUMS = {"printed.1": 5 + 12, "fid.1": 3 + 11 + 28 + 49 + 64 + 65 + 58 + 53 + 53 - 130968 - 2 * 130961, "ms.2": 12 + 24 + 16383 * 512 + 9000,
        "mwd.3": 120 - 70000 - 69985 - 69988 - 69985, "dad.4": 100 + 60 + 90, "uv.5": 1000 + 1020 + 1005 + 100000 + 100005 + 100000}


def value(number):
    """A FID record of this value."""
    return be("hiH", 32767, number // 65534, number % 65534)


def beyond_64_bits(**header):
    """A FID run of 65,539 records of the smallest value: the sum before the last is above -2^63, that with it below."""
    return plain(1, edition=102, **header) + value(-(2**31) * 65534) + bytes(2 * 65538)


def number_of(bits):
    """A number of a log."""
    return float("nan") if bits == "nan" else struct.unpack(">d", bytes.fromhex(bits))[0]


def bits_of(number):
    """A number, but no NaN, as a log has it."""
    return struct.pack(">d", number).hex().upper()


def sum_of(values):
    """What a line t has of these unscaled values: their sum, one by one in whole numbers, or - where it is refused."""
    total = 0
    for value in values:
        if not (abs(value) < 2**53 and value.is_integer()):
            return "-"
        total += int(value)
        if not -(2**63) <= total < 2**63:
            return "-"
    return str(total)


def with_sum(kind, log):
    """A log of lines h, r and e with the line t that its r lines give; an array's and that of a refused opening have none."""
    lines = log.splitlines(True)
    if kind not in SUMMED or not lines[0].startswith("h "):
        return log
    total = sum_of(number_of(line.split()[3]) for line in lines[1:-1])
    return "".join([*lines[:-1], f"t {total}\n", lines[-1]])


# ---- texts

TEXTS = ["sample", "description", "operator", "instrument", "method", "signal name", "y units", "run date"]

# Where the texts stand in edition 81, the one that has all eight, and in 179, by docs/FORMAT.md, 4.3. They do not overlap as long
# as none is long: in 81 the instrument has 19 bytes, the method 15 and the units 3.
TEXT_PLACES = {81: (24, 86, 148, 208, 228, 596, 244, 178), 179: (858, None, 1880, 2492, 2574, 4213, 4172, 2391)}


def titled(*texts, kind=1, edition=81):
    """A header with these texts, in the order of their numbers."""
    form, size = (samples.pascal, 1024) if edition == 81 else (samples.wide, 5120)
    return plain(kind, size, edition=edition, fields=[(at, form(text)) for at, text in zip(TEXT_PLACES[edition], texts) if at])


# ---- replaced letters

# Where the texts of the new editions stand.
NEW_PLACES = {130: TEXT_PLACES[179], 179: TEXT_PLACES[179], 131: (858, None, 1880, 2492, 2574, None, 3093, 2391)}
HIGH, LOW = 0xD834, 0xDD1E  # the halves of U+1D11E

# Units of UTF-16: what they are, the text that comes of them, and how many of them are replaced, by hand.
UNITS = {
    "none": ((), "", 0), "letters": ((0x61, 0xEF, 0x20AC), "aï€", 0), "a pair": ((HIGH, LOW), "𝄞", 0),
    "two pairs": ((HIGH, LOW) * 2, "𝄞𝄞", 0), "the first pair": ((0xD800, 0xDC00), "\U00010000", 0),
    "the last pair": ((0xDBFF, 0xDFFF), "\U0010FFFF", 0), "the units beside surrogates": ((0xD7FF, 0xE000), "\uD7FF\uE000", 0),
    "a stored U+FFFD": ((0x61, 0xFFFD, 0x62), "a\uFFFDb", 0), "stored ones alone": ((0xFFFD,) * 3, "\uFFFD" * 3, 0),
    "the last units": ((0xFEFF, 0xFFFE, 0xFFFF), "\uFEFF\uFFFE\uFFFF", 0),
    "a high": ((HIGH,), "\uFFFD", 1), "a low": ((LOW,), "\uFFFD", 1),
    "the first high": ((0xD800, 0x61), "\uFFFDa", 1), "the last high": ((0xDBFF, 0x61), "\uFFFDa", 1),
    "the first low": ((0x61, 0xDC00), "a\uFFFD", 1), "the last low": ((0xDFFF, 0x61), "\uFFFDa", 1),
    "low, high": ((LOW, HIGH), "\uFFFD\uFFFD", 2), "high, high": ((HIGH, HIGH), "\uFFFD\uFFFD", 2),
    "low, low": ((LOW, LOW), "\uFFFD\uFFFD", 2), "high, high, low": ((HIGH, HIGH, LOW), "\uFFFD𝄞", 1),
    "high, low, low": ((HIGH, LOW, LOW), "𝄞\uFFFD", 1), "high, low, high": ((HIGH, LOW, HIGH), "𝄞\uFFFD", 1),
    "low, high, low": ((LOW, HIGH, LOW), "\uFFFD𝄞", 1), "a high at the end": ((0x61, HIGH), "a\uFFFD", 1),
    "a letter between halves": ((HIGH, 0x61, LOW), "\uFFFDa\uFFFD", 2),
    "a high before a stored U+FFFD": ((HIGH, 0xFFFD), "\uFFFD\uFFFD", 1), "a low behind one": ((0xFFFD, LOW), "\uFFFD\uFFFD", 1),
    "pairs between halves": ((HIGH, *(HIGH, LOW) * 3, LOW), "\uFFFD𝄞𝄞𝄞\uFFFD", 2),
    "255 highs": ((HIGH,) * 255, "\uFFFD" * 255, 255), "255 lows": ((LOW,) * 255, "\uFFFD" * 255, 255),
    "127 pairs and a high": ((HIGH, LOW) * 127 + (HIGH,), "𝄞" * 127 + "\uFFFD", 1),
    "a high and 127 pairs": ((HIGH,) + (HIGH, LOW) * 127, "\uFFFD" + "𝄞" * 127, 1),
    "a low and 127 pairs": ((LOW,) + (HIGH, LOW) * 127, "\uFFFD" + "𝄞" * 127, 1),
    "low, high, 127 times": ((LOW, HIGH) * 127, "\uFFFD" + "𝄞" * 126 + "\uFFFD", 2),
}


def of_units(*units):
    """A text of a new edition, behind its length."""
    return bytes([len(units)]) + le(f"{len(units)}H", *units)


def replaced_of(stored):
    """How many units of a text are replaced. Python's decoder, told to let surrogates pass, leaves those that are unpaired."""
    return sum("\uD800" <= letter <= "\uDFFF" for letter in stored.decode("utf-16-le", "surrogatepass"))


def replaced_in(data):
    """The same of the eight texts of a header that opens."""
    places = NEW_PLACES.get(int.from_bytes(data[248:252], "big"), [None] * 8)
    return [replaced_of(data[at + 1 : at + 1 + 2 * data[at]]) if at else 0 for at in places]


def halved(counts, kind=5, edition=131):
    """A header of a new edition; each text has a letter, so many halves and a stored U+FFFD, which is not counted. Of UV or DAD without
    scans it is a run to which nothing else is to be said."""
    fields = [(at, of_units(0x61, *[LOW] * count, 0xFFFD)) for at, count in zip(NEW_PLACES[edition], counts) if at]
    return plain(kind, 5120, scans=0, edition=edition, fields=fields)


def half_text(count):
    """Such a text."""
    return "a" + "\uFFFD" * (count + 1)


OLDER = """#include <stddef.h>
unsigned char chemstation_open(void) { return 1; }
#ifdef ATLAS
unsigned char chemstation_open_atlas(void) { return 1; }
#endif
unsigned char chemstation_text(void) { return 1; }
unsigned char chemstation_fill(void) { return 1; }
unsigned char chemstation_sum(void) { return 1; }
unsigned char chemstation_texts(unsigned char kind, const unsigned char *bytes, size_t length, unsigned char *texts, size_t room,
                                size_t *starts, size_t *lengths%s) { %s return 1; }
"""
WRITES = "for (int i = 0; i < %d; i++) replaced[i] = 0;"


def older_library(file, written=None, atlas=False):
    """A library whose refusals write so many counts; None: one from before there were any. `atlas`: it opens atlas readings."""
    source = OLDER % (("", "") if written is None else (", size_t *replaced", WRITES % written))
    words = ["cc", "-shared", "-fPIC", *["-DATLAS"] * atlas, "-o", str(file), "-x", "c", "-"]
    subprocess.run(words, input=source.encode(), check=True)
    return file


# ---- stored times

# Times as they are stored, in milliseconds, and their whole minutes and leftover milliseconds, by hand.
TIMES = {0: (0, 0), 1: (0, 1), 59999: (0, 59999), 60000: (1, 0), 60001: (1, 1), 119999: (1, 59999), 4294967295: (71582, 47295)}

# A scan with its stored time and so many points; the bytes that no rule reads are EE.
SCANS = {
    2: lambda time, points: be("HI", 14 + 2 * points, time) + b"\xEE" * 12 + be("HH", 1000, 5) * points + b"\xEE" * 10,
    4: lambda time, points: le("HHIHHH", 67, 22 + 2 * points, time, 4000, 0xEEEE, 40) + b"\xEE" * 8 + le("h", 5) * points,
    5: lambda time, points: b"\xEE" * 4 + le("IHHH", time, 4000, 4000 + 20 * (points - 1), 20) + b"\xEE" * 8 + le("h", 5) * points,
}


def timed(kind, scans):
    """An MS, DAD or UV run of scans: the stored time and the points of each. It closes with 0 unless UV has a scan of one point."""
    return plain(kind, scans=len(scans)) + b"".join(SCANS[kind](*scan) for scan in scans)


def pairs_of(kind, scans):
    """The whole minutes and leftovers of such a run's records, a pair each. Of DAD's last scan only the first point comes."""
    pairs = [TIMES[time] for time, points in scans for _ in range(points)]
    return pairs[: 1 - scans[-1][1]] if kind == 4 and scans[-1][1] > 1 else pairs


def timed_runs():
    """Such runs: what each is, its kind, and its scans."""
    for kind in SCANS:
        yield "the stored times", kind, [(time, 3) for time in TIMES]
        yield "the stored times backward", kind, [(time, 2) for time in reversed(TIMES)]
        yield "a long run of the stored times", kind, [(time, 70) for time in TIMES] * 20
    yield "empty scans of other times", 2, [(1, 0), (119999, 0), (60001, 2), (4294967295, 0), (59999, 1), (60000, 0)]


def pair_of(line):
    """The whole minutes and the leftover of a line r whose record has an axis: its double gives the stored time again. Else nothing."""
    words = line.split(" ")
    return divmod(round(number_of(words[1]) * 60000), 60000) if words[2] != "-" else ()


# ---- the atlas reading

class Spectrum(NamedTuple):
    """A scan of a DAD or UV run: its stored time, and its points, each added to the one before or, beyond an i16, absolute; and the
    first wavelength and the step, in twentieths of a nanometre."""

    time: int
    points: tuple
    first: int = 4000
    step: int = 40


def point_bytes(points):
    return b"".join(le("h", d) if -32768 < d < 32768 else le("hi", -32768, d) for d in points)


def spectrum_bytes(kind, scan):
    """The scan in a file; the bytes that no rule reads are EE."""
    points, last = point_bytes(scan.points), scan.first + scan.step * (len(scan.points) - 1)
    if kind == 4:
        return le("HHIHHH", 67, 22 + len(points), scan.time, scan.first, 0xEEEE, scan.step) + b"\xEE" * 8 + points
    return b"\xEE" * 4 + le("IHHH", scan.time, scan.first, last, scan.step) + b"\xEE" * 8 + points


def wavelengths(kind, scan):
    """In nanometres: DAD divides whole numbers, UV adds the step to a double for each point."""
    if kind == 4:
        return [(scan.first + n * scan.step) / 20 for n in range(len(scan.points))]
    step = scan.step / 20
    return list(accumulate([step] * len(scan.points), initial=scan.first / 20 - step))[1:]


def spectrum_rows(kind, scan):
    """The records of a scan: time, wavelength, unscaled and scaled, by docs/FORMAT.md, 5.4 and 5.5, without a multiplier."""
    value, rows = 0, []
    for wavelength, d in zip(wavelengths(kind, scan), scan.points):
        value = value + d if -32768 < d < 32768 else d
        rows.append((scan.time / 60000, wavelength, float(value), value / 2000 if kind == 4 else float(value)))
    return rows


class AtlasRun(NamedTuple):
    """A DAD or UV run, and what the atlas reading gives of it."""

    name: str
    kind: int
    data: bytes
    rows: list  # its records
    ends: list = []  # how many bytes behind the header each record ends
    closing: int = 0
    behind: int = 0  # bytes behind the end, where it closes with 0

    @property
    def log(self):
        lines = [f"r {' '.join(map(bits_of, row))}\n" for row in self.rows]
        return "".join(["h 2 512\n", *lines, f"t {sum_of(row[2] for row in self.rows)}\n", f"e {self.closing} {len(lines)}\n"])


def spectra(name, kind, scans, due=None, rest=b"", count=None, **more):
    """A run of scans, of which so many are due, if not all, with other bytes behind them. Its records are those of the scans due, or
    the first `count` of these."""
    due = len(scans) if due is None else due
    data = plain(kind, scans=due) + b"".join(spectrum_bytes(kind, scan) for scan in scans) + rest
    rows = [row for scan in scans[:due] for row in spectrum_rows(kind, scan)]
    sizes = [len(point_bytes([d])) + 22 * (n == 0) for scan in scans[:due] for n, d in enumerate(scan.points)]
    return AtlasRun(name, kind, data, rows[:count], list(accumulate(sizes))[:count], **more)


def atlas_runs():
    """Runs and what the atlas reading gives of them: a scan is spent when its last point has been given, and DAD ends when no scans
    and no bytes are due, at another type, or at a scan without points. All are smaller than the log program's buffer."""
    def one(d, time=600):
        return Spectrum(time, (d,))

    pair, more = Spectrum(0, (10, -10)), Spectrum(60001, (100, 70000, -5, -70000, 8))
    last = Spectrum(4294967295, tuple(range(-20, 20)))
    for kind in (4, 5):
        name = {4: "DAD", 5: "UV"}[kind]
        size = len(spectrum_bytes(kind, pair))
        yield spectra(f"{name}, two points, one scan due", kind, [pair])
        yield spectra(f"{name}, three scans", kind, [pair, more, last])
        yield spectra(f"{name}, three scans and 9 bytes", kind, [pair, more, last], rest=bytes(9), behind=9)
        yield spectra(f"{name}, two due of three scans", kind, [more, last, pair], due=2, behind=size)
        yield spectra(f"{name}, one due of two alike", kind, [pair, pair], due=1, behind=size)
        yield spectra(f"{name}, no scan due", kind, [pair], due=0, behind=size)
        yield spectra(f"{name}, no scan due and no bytes", kind, [], due=0)
        yield spectra(f"{name}, three due of two scans", kind, [more, pair], due=3, closing=14)
        yield spectra(f"{name}, one wavelength", kind, [one(5), one(-7), one(9)])
        yield spectra(f"{name}, one wavelength, two due of three", kind, [one(5), one(-7), one(9)], due=2, behind=size - 2)
        yield spectra(f"{name}, one wavelength, four due of three", kind, [one(5), one(-7), one(9)], due=4, closing=14)
        yield spectra(f"{name}, scans of one point and more", kind, [one(1), pair, one(70000), more, one(2)])
        yield spectra(f"{name}, an absolute point alone", kind, [one(-70000), one(2**31 - 1)])
        for lost in range(1, 4):
            whole = spectra(f"{name}, the last scan cut by {lost}", kind, [more, last], closing=14, count=44 if lost < 3 else 43)
            yield whole._replace(data=whole.data[:-lost])
        cut = spectra(f"{name}, cut in an absolute point", kind, [pair, more], closing=14, count=3)
        yield cut._replace(data=cut.data[: 512 + size + 22 + 2 + 5])
    yield from atlas_ends(pair, one(5))


def atlas_ends(pair, one):
    """Runs that end otherwise, and lengths of DAD scans that the points do not fill."""
    yield spectra("DAD, another type", 4, [pair], due=9, rest=le("H", 66))
    yield spectra("DAD, another type and 20 bytes", 4, [pair], due=9, rest=le("H", 66) + bytes(20), behind=20)
    yield spectra("DAD, another type at once", 4, [], due=1, rest=le("H", 68) + bytes(7), behind=7)
    yield spectra("DAD, an empty scan and 3 bytes", 4, [pair], due=9, rest=le("HH", 67, 22) + bytes(18 + 3), behind=3)
    yield spectra("DAD, a scan of length 0", 4, [one], due=9, rest=le("HH", 67, 0) + bytes(18))
    yield spectra("DAD, a cut type", 4, [pair], due=9, rest=b"C", closing=14)
    odd = spectra("DAD, an odd length", 4, [pair, pair])  # of 3 bytes two points of 2 bytes are due
    yield odd._replace(data=odd.data[:-24] + le("H", 25) + odd.data[-22:])
    short = spectra("DAD, a length within an absolute point", 4, [pair, Spectrum(0, (70000,))], rest=bytes(5), behind=5)
    yield short._replace(data=short.data[:-31] + le("H", 24) + short.data[-29:])
    yield spectra("UV, a start above its end", 5, [one, pair], due=9, rest=bytes(8) + le("HH", 2, 1), closing=12)
    yield spectra("UV, a step of 0", 5, [one, one], due=9, rest=bytes(8) + le("HHH", 1, 1, 0), closing=13)
    yield spectra("UV, a bad scan behind the last", 5, [one, one], rest=bytes(8) + le("HHH", 1, 1, 0), behind=14)


def atlas_sample():
    """samples/dad.4 by the atlas reading, from the numbers in tools/make-samples: its log."""
    rows = [row for scan in (Spectrum(0, (100, -40)), Spectrum(400, (90, -30))) for row in spectrum_rows(4, scan)]
    return AtlasRun("", 4, b"", rows).log.replace("h 2 512\n", "h 131 4096\n")


def changed(env):
    """The environment with these variables."""
    return {**os.environ, **{name: str(value) for name, value in env.items()}}


def tool(name, *words, cwd, root=ROOT, **env):
    """Status, standard output and standard error of a tool."""
    ran = subprocess.run([str(root / "tools" / name), *map(str, words)], cwd=cwd, capture_output=True, timeout=60,
                         stdin=subprocess.DEVNULL, env=changed(env))
    return ran.returncode, ran.stdout.decode("latin-1"), ran.stderr.decode("latin-1")


def until(test):
    """Waits for what another process does."""
    deadline = time.monotonic() + PATIENCE
    while not test():
        if time.monotonic() > deadline:
            raise TimeoutError
        time.sleep(0.01)


def number_in(path):
    """The number that another process writes to a file, as soon as it is there."""
    until(lambda: path.exists() and path.read_text().endswith("\n"))
    return int(path.read_text())


def runs(number):
    """Whether there is a process of this number."""
    try:
        os.kill(number, 0)
        return True
    except ProcessLookupError:
        return False


def script(path, text):
    path.parent.mkdir(parents=True, exist_ok=True)
    path.write_text("#!/bin/sh\n" + text)
    path.chmod(0o755)
    return path


def copied_tools(root):
    """A repository's root with the tools, the folders in which rt builds and no target/, as in a fresh clone."""
    for folder in ("tools", "python"):
        shutil.copytree(ROOT / folder, root / folder, ignore=shutil.ignore_patterns("oracle", "__pycache__"))
    for crate in ("chemlog", "atlaslog", "chemread"):
        (root / "crates" / crate).mkdir(parents=True)
    return root


# What programs that break off print.
BROKEN = {
    "no closing line": "h 2 512\\nt 0\\n",
    "nothing": "",
    "a cut closing line": "h 2 512\\nt 0\\ne 0 ",
    "a closing line without its end": "h 2 512\\nt 0\\ne 0 0",
    "a record too few": "h 2 512\\nt 0\\ne 0 1\\n",
    "a record too many": "h 2 512\\nr\\nt 0\\ne 0 0\\n",
    "another line in the place of a record": "h 2 512\\nx\\nt 0\\ne 0 1\\n",
    "no header": "r\\ne 0 1\\nr\\ne 0 3\\n",
    "an answer that no log has": "e 15 0\\n",
    "more behind the closing line": "e 1 0\\nr\\n",
    "no sum": "h 2 512\\ne 0 0\\n",
    "no sum before another answer": "h 2 512\\ne 14 0\\n",
    "a sum behind a refused opening": "t 0\\ne 4 0\\n",
    "the answer of a sum as the closing one": "h 2 512\\nt -\\ne 17 0\\n",
    "two sums": "h 2 512\\nt 0\\nt 0\\ne 0 0\\n",
    "a sum in the place of a record": "h 2 512\\nt 0\\nt 0\\ne 0 1\\n",
    "a sum before the last record": "h 2 512\\nt 0\\nr nan - nan nan\\ne 0 1\\n",
    "a sum behind the closing line": "h 2 512\\ne 0 0\\nt 0\\n",
    "a sum above 64 bits": "h 2 512\\nt 9223372036854775808\\ne 0 0\\n",
    "a sum below 64 bits": "h 2 512\\nt -9223372036854775809\\ne 0 0\\n",
    **{f"the sum '{word}'": f"h 2 512\\n{word}\\ne 0 0\\n" for word in ("t", "t ", "t 00", "t -0", "t +1", "t 1.0", "t --", "t 1 ", "T 0")},
}


def broken_programs(folder):
    """Log programs that break off: what each does, itself, and what it prints."""
    programs = {name: (f"cat >/dev/null; printf '{text}'\n", text) for name, text in BROKEN.items()}
    programs["a status"] = ("printf 'e 1 0\\n'; exit 3\n", "e 1 0\\n")
    programs["killed"] = ("printf 'h 2 512\\n'; kill -9 $$\n", "h 2 512\\n")
    for number, (name, (text, printed)) in enumerate(programs.items()):
        yield name, script(folder / f"program{number}", text), printed.replace("\\n", "\n")
