"""One line of a volume: its log is kept or made, its picture drawn, and what there is to look at is gathered.

Beside each log stands a text with the ending .made that says what it was made of. A log is kept only where that text is the
one that would be written now; any other is made again.
"""
import os
import subprocess
import sys
import tempfile
from pathlib import Path
from typing import NamedTuple

import chemstation
from chemstation.answers import ATLAS
from press import advice, builds, cli, logs
from press.volume_list import Line
from press.words import meaning

PICTURE = ".pdf"
ENDINGS = (".log", ".made", ".part", PICTURE)  # of a line's files in the volume's folder


class Result(NamedTuple):
    """What became of a line."""

    line: Line
    closed: str  # the answer that closed its log; 'bad' for a line that is no run, 'failed' for a run without a whole log
    words: str  # the same in a sentence
    records: int = 0
    said: str = ""  # by the log program
    left: bool = False  # whether bytes stand behind the end of the run
    replaced: bool = False  # whether letters of its texts were replaced
    kept: bool = False
    drawn: bool = False
    look: tuple = ()  # sentences about what is to be looked at

    @property
    def notes(self):
        """The result, where it is not well, and what is to be looked at."""
        words = [] if self.closed == "0" else [self.words]
        return [f"line {self.line.number}: {text}" for text in words + [f"{self.line.name}: {text}" for text in self.look]]


def by_atlas(line, atlas):
    """Whether a line's run is logged by the atlas reading, if that is asked for: the other kinds have none."""
    return atlas and line.kind in ATLAS


def made_of(line, run, program, log, atlas):
    """The text beside a log, up to what the log program said. Of the plain reading it says nothing, as when there was no other: logs
    from then are kept."""
    reading = "reading: atlas\n" if atlas else ""
    return (
        f"list line: {line.text}\n"
        f"file: {run.size} bytes, SHA-256 {run.sha256}\n"
        f"log program: {program.size} bytes, SHA-256 {program.sha256}\n{reading}"
        f"log: {log.size} bytes, SHA-256 {log.sha256}\n"
        "the log program said:\n"
    )


def in_words(line, log):
    if log.answer == "0":
        return f"{line.name}: {log.records} records"
    return f"{line.name}: REFUSED after {log.records} records, {log.answer}: {meaning(log.answer)}"


def opened(line):
    """The run of a line, by the library; None where it is refused, or where there is no library."""
    try:
        return chemstation.open(line.path, line.kind)
    except (chemstation.NoLibrary, chemstation.Refused, OSError):
        return None


def of_texts(run):
    """Advice on the texts of a run, where it is opened."""
    return advice.of_replaced(run.replaced) if run else []


def failed(line, words, said=""):
    """A run without a whole log; its texts are looked at all the same."""
    replaced = of_texts(opened(line))
    return Result(line, "failed", f"{line.name}: FAILED: {words}", said=said, replaced=bool(replaced), look=tuple(replaced))


class Folder:
    """A volume's folder, and the programs that fill it; the log programs by whether they are of the atlas reading."""

    def __init__(self, path, programs, plots, atlas):
        self.path, self.programs, self.plots, self.atlas, self.children = Path(path), programs, plots, atlas, logs.Children()

    def file(self, line, ending):
        return self.path / (line.stem + ending)

    def program(self, line):
        """The log program of a line, and whether it is of the atlas reading."""
        atlas = by_atlas(line, self.atlas)
        return self.programs[atlas], atlas

    def kept(self, line):
        """The log of a line if it can be kept, else None."""
        log, text, (program, atlas) = self.file(line, ".log"), self.file(line, ".made"), self.program(line)
        try:
            beside = os.fsdecode(text.read_bytes())
            run, whole = logs.summed(line.path), logs.read_log(log, line.kind)
            begin = made_of(line, run, logs.summed(program), whole.sum, atlas)
        except (logs.Failed, OSError):
            return None
        return logs.Made(run, whole, beside[len(begin) :]) if beside.startswith(begin) else None

    def make(self, line):
        """The log of a line, made anew. What stood there goes first, so that no old log is taken for this one."""
        for ending in ENDINGS:
            self.file(line, ending).unlink(missing_ok=True)
        part, (program, atlas) = self.file(line, ".part"), self.program(line)
        checksum = logs.summed(program)
        try:
            made = logs.make_log(self.children, program, line.kind, line.path, part)
        except (logs.BrokenOff, logs.CannotRead):
            part.unlink(missing_ok=True)
            raise
        with cli.replacing(self.file(line, ".made")) as text:
            text.write_bytes(os.fsencode(made_of(line, made.run, checksum, made.log.sum, atlas) + made.said))
        os.replace(part, self.file(line, ".log"))
        return made

    def draw(self, line):
        """Why there is no picture of a run; empty where there is one."""
        picture = self.file(line, PICTURE)
        if picture.exists():
            return []
        reading = ["--atlas"] * by_atlas(line, self.atlas)
        words = [sys.executable, builds.ROOT / "tools/press", "plot", *reading, str(line.kind), os.path.abspath(line.path), picture]
        with tempfile.TemporaryFile() as errors:
            status = self.children.run(words, stdin=subprocess.DEVNULL, stdout=errors, stderr=errors)
            errors.seek(0)
            said = os.fsdecode(errors.read()).strip()
        return [] if picture.exists() else [f"NO PICTURE, status {status}: {said}"]

    def result(self, line, made, kept):
        left = [sentence for said in made.said.splitlines() for sentence in advice.of_left(said)]
        look = advice.of_log(line.kind, line.name, made.run.size, made.log.first, made.log.last, made.log.total) + left
        run = opened(line)
        if run and made.log.last_time is not None:
            look += advice.of_times(line.kind, made.log.last_time, run.end)
        replaced = of_texts(run)
        undrawn = self.draw(line) if self.plots else []
        answer, records, drawn = made.log.answer, made.log.records, self.plots and not undrawn
        return Result(line, answer, in_words(line, made.log), records, made.said, bool(left), bool(replaced), kept, drawn,
                      (*look, *replaced, *undrawn))

    def take(self, line):
        """What becomes of a line; None where it was broken off."""
        if line.fault:
            return Result(line, "bad", line.fault)
        try:
            kept = self.kept(line)
            return self.result(line, kept or self.make(line), kept is not None)
        except logs.BrokenOff:
            return None
        except logs.Failed as error:
            return failed(line, error, error.said)
        except OSError as error:
            return failed(line, f"its log cannot be written: {error.strerror}")
