"""The list of a volume: a run on each line, 'KIND FILE'."""
import codecs
import os
import re
from pathlib import Path
from typing import NamedTuple, Optional

from chemstation.answers import kind_number
from press.cli import GiveUp, why_not

RUN = re.compile(r"(\S+)[ \t]+([^ \t].*)", re.DOTALL)


class Line(NamedTuple):
    """A line of a list that is no comment."""

    number: int
    text: str  # as it is written, without its indentation
    kind: Optional[int] = None
    name: str = ""  # of the file, as it is written
    path: str = ""  # of the file, where it was found
    fault: str = ""  # why it is no run, in words

    @property
    def stem(self):
        """What the names of its files in the volume's folder begin with."""
        return f"{self.number:04}-{os.path.basename(self.name)}"


def text_lines(path):
    """The lines of a list: UTF-8 with or without a byte order mark, or UTF-16 with one. They may end with CR LF."""
    try:
        data = Path(path).read_bytes()
        if data.startswith((codecs.BOM_UTF16_LE, codecs.BOM_UTF16_BE)):
            data = data.decode("utf-16").encode("utf-8")
    except (OSError, UnicodeDecodeError) as error:
        raise GiveUp(f"{path} cannot be read: {error}") from None
    if data.startswith(codecs.BOM_UTF8):
        data = data[len(codecs.BOM_UTF8) :]
    return [os.fsdecode(line[:-1] if line.endswith(b"\r") else line) for line in data.split(b"\n")]


def found(name, folder):
    """Where a listed name is: from the folder that you are in, or else from the list's own."""
    other = os.path.join(folder, name)
    return other if os.path.exists(other) and not os.path.exists(name) else name


def parsed(number, text, folder):
    run = RUN.fullmatch(text)
    try:
        kind = kind_number(run[1]) if run else None
    except ValueError:
        kind = None
    if kind is None:
        return Line(number, text, fault=f"BAD LINE, not 'KIND FILE': '{text}'")
    path = found(run[2], folder)
    reason = why_not(path)
    return Line(number, text, kind, run[2], path, f"BAD LINE, '{run[2]}': {reason}" if reason else "")


def read(path):
    """The lines of the list at a path that are no comments."""
    reason = why_not(path)
    if reason:
        raise GiveUp(f"{path}: {reason}")
    numbered = ((number, text.lstrip(" \t")) for number, text in enumerate(text_lines(path), 1))
    folder = os.path.dirname(path)
    lines = [parsed(number, text, folder) for number, text in numbered if text and not text.startswith("#")]
    if not lines:
        raise GiveUp(f"{path} names no run")
    return lines
