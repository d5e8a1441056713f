"""What to look at: where a kind and a file disagree, where the unscaled values do not add up, and where letters of a text were
replaced. Advice: it refuses nothing, and no log has it. docs/ANSWERS.md says what each means.

Each function gives a list of sentences, empty where there is nothing to say. None needs the library.
"""
import math
import re
from pathlib import PurePath

from chemstation.answers import ARRAY, DAD, FID, KINDS, MS, MWD, NO_SUM, UV, meaning

# The usual kinds of an ending of a name, and of an edition. Others are not spoken of.
USUAL_ENDINGS = {".ms": [MS], ".uv": [DAD, UV], ".ch": [FID, MWD, ARRAY]}
USUAL_EDITIONS = {2: [MS], 30: [MWD], 31: [DAD, UV], 81: [FID], 130: [MWD], 131: [DAD, UV], 179: [ARRAY]}

# A log program's line, where bytes stand behind the end of a run.
BEHIND = re.compile(r"(?:chem|atlas)log: left: (?:\d+ bytes of the last scan, )?(\d+) bytes in the buffer behind the end of the run")


def named(kinds):
    names = [KINDS[kind] for kind in kinds]
    return names[0] if len(names) == 1 else f"{', '.join(names[:-1])} or {names[-1]}"


def unusual(kind, what, usual):
    """`usual` are the kinds that usually have this, or None. A kind that there is not is refused elsewhere."""
    if usual is None or kind in usual or kind not in KINDS:
        return []
    return [f"{what}, usual for {named(usual)}, but it was read as {KINDS[kind]}"]


def of_name(kind, name):
    ending = PurePath(name).suffix.lower()
    return unusual(kind, f"the name ends in {ending}", USUAL_ENDINGS.get(ending))


def of_edition(kind, edition):
    return unusual(kind, f"the header's edition is {edition}", USUAL_EDITIONS.get(edition))


def of_records(count, bytes_behind_header):
    if count > 0 or bytes_behind_header <= 0:
        return []
    return [f"no record at all, though {bytes_behind_header:,} bytes follow the header"]


def of_bytes_behind(count, at_least=""):
    """Of so many bytes behind the end of a run that closed with 0."""
    return [f"{at_least}{count:,} bytes stand behind the end of the run and are not in it"] if count else []


def of_left(line):
    """Of a line of the log program: of bytes that a run left behind its end. They were counted in its buffer when it saw them, so there
    may be more. Bytes of the last scan alone, which nearly every plain reading of a DAD run leaves, are no thing to look at."""
    found = BEHIND.fullmatch(line)
    return of_bytes_behind(int(found[1]), "at least ") if found else []


def of_times(kind, last_time, header_end):
    """Of the time of the last record beside the header's end, in minutes. Far is more than a minute and more than a tenth."""
    if kind not in (FID, MWD) or math.isclose(last_time, header_end, rel_tol=0.1, abs_tol=1.0):
        return []
    axis = f"the time axis of {KINDS[kind]} grows by 0.2 minutes a record, whatever the header says (docs/DIFFERENCES.md, 13)"
    return [f"the last record is at {last_time:.6g} minutes, but the header's end is {header_end:.6g}: {axis}"]


def of_sum(total):
    """Of what a log has in its line t, or None."""
    return [f"the log has t - in the place of a sum, {NO_SUM}: {meaning(NO_SUM)}"] if total == "-" else []


def of_replaced(replaced):
    """Of the counts of replaced letters, by the names of the texts: a sentence for each text that has some."""
    def sentence(text, count):
        if count == 1:
            return f"1 letter of the {text} was replaced by U+FFFD: the header has an unpaired surrogate there"
        return f"{count} letters of the {text} were replaced by U+FFFD: the header has unpaired surrogates there"
    return [sentence(name.replace("_", " "), count) for name, count in replaced.items() if count]


def of_run(run, name):
    """Of a run that was opened by the module, and of its file's name."""
    columns = run.columns()
    sentences = of_name(run.kind, name) + of_edition(run.kind, run.edition) + of_records(columns.count, run.length - run.size)
    if columns.left:
        sentences += of_bytes_behind(columns.left.behind)
    if columns.count:
        sentences += of_times(run.kind, columns.time[-1], run.end)
    return sentences + of_replaced(run.replaced)


def of_log(kind, name, length, first, last, total=None):
    """What needs no library: of the file's name and length in bytes, the first and last line of its log, and the sum in it."""
    sentences = of_name(kind, name)
    if first.startswith("h "):
        edition, size = map(int, first.split()[1:])
        count = int(last.split()[2])
        sentences += of_edition(kind, edition) + of_records(count, length - size)
    return sentences + of_sum(total)
