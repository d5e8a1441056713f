"""`press volume`: the logs of a volume of runs, and a table of how they closed."""
import contextlib
import fcntl
import os
import re
import sys
from concurrent.futures import ThreadPoolExecutor
from pathlib import Path

from chemstation import NoLibrary
from chemstation.answers import kinds_in_words
from chemstation.library import library
from press import logs, volume_list
from press.cli import ATLAS_HELP, GiveUp, add_atlas, added, say
from press.plot import between, drawing
from press.volume_runs import ENDINGS, Folder, by_atlas
from press.volume_table import table

MARK = ".volume"  # in a volume's folder; locked while one is at work there
VOLUMES = re.compile(r"\d{4,}-.*(" + "|".join(map(re.escape, ENDINGS)) + ")", re.DOTALL)
HALF_WRITTEN = re.compile(r"\.\d{4,}-.*", re.DOTALL)  # the names that cli.replacing writes to

HELP = "the logs of a list of runs, and a table of how they closed"
DESCRIPTION = f"""The logs of a list of runs, and a table of how they closed. LIST has a run on each line, 'KIND FILE': the
kind by number or name ({kinds_in_words()}), blanks, and the file's name to the end of the line, which may hold spaces; it is
looked for from the folder that you are in, then from the list's own. Blank lines and lines that begin with # are comments. The
log of the run on line 12 is OUT/0012-NAME.log; OUT/0012-NAME.made says what it was made of; where the log program stopped,
what there is of a log is OUT/0012-NAME.part. The same command goes on where it was broken off: a log is kept where its line,
file and log program are those that it was made of, and a picture with its log; what has changed is made again. Files of lines
that the list no longer has, or whose run is gone, are moved to OUT/old. Where letters of a run's texts were replaced by U+FFFD
(unpaired surrogates in the header), the table has a row for such runs, 'replaced', and names each below 'To look at'. With --atlas
the logs of DAD and UV runs are those of the atlas reading, the other kinds' are as ever, and the table counts the former in a row
'atlas'; in a volume that was begun without it these logs are made again, and no others. Pictures (--plots) are those of `press
plot`, which draws DAD runs by the atlas reading in any case. CHEMLOG may name another log program than target/bin/chemlog,
ATLASLOG another than target/bin/atlaslog; each of the two is proved and built the first time that it is needed."""
STATUS = """Progress is on standard error, the table on standard output. Status: 0 every log closes with 0; 1 a run was refused
or failed, a line was bad, or a picture is missing; 2 wrong usage, or a list or folder that cannot be used; 130 broken off by
Ctrl-C."""


def add(subparsers):
    parser = added(subparsers, "volume", run, HELP, DESCRIPTION, STATUS)
    parser.add_argument("--jobs", metavar="N", type=between(1, 1000, int), default=os.cpu_count() or 1,
                        help="runs at a time; as many as there are processors, if not given")
    parser.add_argument("--plots", action="store_true", help="also draw each run, as OUT/0012-NAME.pdf")
    add_atlas(parser, f"{ATLAS_HELP}; the runs of other kinds are logged as ever")
    parser.add_argument("list", metavar="LIST", help="a text file with a run on each line")
    parser.add_argument("out", metavar="OUT", help="a new or empty folder, or one that a volume was begun in")


# ---- the folder

@contextlib.contextmanager
def volume_folder(path):
    """Makes the folder, and keeps other volumes out of it."""
    mark = Path(path, MARK)
    try:
        os.makedirs(path, exist_ok=True)
        if os.listdir(path) and not mark.exists():
            raise GiveUp(f"{path} is not empty, and no volume was begun in it: its files could be taken for this list's")
        lock = open(mark, "a")
    except OSError as error:
        raise GiveUp(f"{path} cannot be made or written to: {error.strerror}") from None
    with lock:
        try:
            fcntl.flock(lock, fcntl.LOCK_EX | fcntl.LOCK_NB)
        except BlockingIOError:
            raise GiveUp(f"another volume is at work in {path}") from None
        yield


def tidy(folder, lines):
    """Moves the files of lines that the list no longer has, or whose run is gone, to a folder of their own, so that nobody takes
    them for this list's, and removes what a volume that was killed left half written."""
    own = {line.stem + ending for line in lines if not line.fault for ending in ENDINGS}
    aside = folder / "old"
    for name in os.listdir(folder):
        if HALF_WRITTEN.fullmatch(name):
            (folder / name).unlink()
        elif VOLUMES.fullmatch(name) and name not in own:
            say(f"{name} is of no run of this list: moved to {aside}")
            aside.mkdir(exist_ok=True)
            os.replace(folder / name, aside / name)


# ---- the work

def programs_for(lines, atlas):
    """The log programs that the lines need, by whether they are of the atlas reading; the plain one where no line is a run."""
    needed = {by_atlas(line, atlas) for line in lines if not line.fault} or {False}
    return {reading: logs.find_program(say, reading) for reading in sorted(needed)}


def progress(at, total, result):
    """Says what became of a line; what the log program said is handed on."""
    say(f"{at}/{total}, line {result.line.number}: {result.words}{', kept' if result.kept else ''}")
    for text in [*result.said.splitlines(), *(f"to look at: {sentence}" for sentence in result.look)]:
        say(f"line {result.line.number}: {result.line.name}: {text}")


def worked(folder, lines, jobs):
    """What became of the lines, in their order, and the number of the signal that broke them off, or 0."""
    futures, broken, pool = [], 0, ThreadPoolExecutor(jobs)
    try:
        futures.extend(pool.submit(folder.take, line) for line in lines)
        for at, future in enumerate(logs.as_they_end(futures), 1):
            progress(at, len(lines), future.result())
    except KeyboardInterrupt as interrupt:
        broken = interrupt.args[0]
        folder.children.stop()
    pool.shutdown(cancel_futures=True)
    results = [future.result() for future in futures if not future.cancelled()]
    return [result for result in results if result], broken


def missing_library():
    """What is not looked at without the library."""
    try:
        library()
        return []
    except NoLibrary as error:
        return [f"no times were compared with the headers' ends, and no texts looked at for replaced letters: {error}"]


def run(arguments):
    lines = volume_list.read(arguments.list)
    if arguments.plots:
        drawing()
        library()
    logs.heed_signals()
    with volume_folder(arguments.out):
        programs = programs_for(lines, arguments.atlas)
        tidy(Path(arguments.out), lines)
        folder = Folder(arguments.out, programs, arguments.plots, arguments.atlas)
        results, broken = worked(folder, lines, arguments.jobs)
    sys.stdout.buffer.write(os.fsencode(table(results, len(lines), arguments.plots, arguments.atlas, missing_library())))
    if broken:
        say("broken off; the same command goes on where it stopped")
        return 128 + broken
    well = all(result.closed == "0" and (result.drawn or not arguments.plots) for result in results)
    return 0 if well else 1
