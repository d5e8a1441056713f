"""The kinds of runs by number and by name, and the answers that close a run with their words. Needs no library."""

KINDS = {1: "FID", 2: "MS", 3: "MWD", 4: "DAD", 5: "UV", 6: "array"}
FID, MS, MWD, DAD, UV, ARRAY = KINDS
AXES = {MS: "m/z", DAD: "wavelength", UV: "wavelength"}  # what the axis of a record is, where the kind has one
TIMED = [MS, DAD, UV]  # the kinds whose files store a time with each scan
SUMMED = [FID, MS, MWD, DAD, UV]  # the kinds whose unscaled values are added up: their logs have a line `t`
ATLAS = [DAD, UV]  # the kinds that have an atlas reading
NO_SUM = 17  # the answer to a column that does not add up; it closes no run
NO_ATLAS = 18  # the answer to an atlas reading of another kind

# The words of docs/ANSWERS.md.
MEANINGS = {
    0: "the run ends by the rules of its kind",
    1: "no such kind; kinds are 1 to 6",
    2: "the header's size word is 0",
    3: "the header's size is below 512 bytes",
    4: "the header's size is above 20,000 bytes",
    5: "the edition is unknown",
    6: "the header is too small for its edition",
    7: "a text of the header is too long for its field",
    8: "a text of the header is not UTF-8",
    9: "the header is too small for an array run",
    10: "an array run with 2^53 scans or more",
    11: "an MS scan's count is below 14",
    12: "a UV scan's start is above its end",
    13: "a UV scan's step is 0",
    14: "the file ends inside its header or a record",
    15: "a lent buffer or column has the wrong length",
    16: "no such text; texts are 1 to 8",
    17: "the unscaled values do not add up in 64 bits: one is no whole number of a size below 2^53, or a sum leaves the range",
    18: "no atlas reading of this kind; it is for DAD and UV",
    "m": "too many empty MS scans in a row for the program's buffer",
}


def kind_number(kind):
    """The number of a kind that is given by its number or, in any case, by its name. ValueError for another name."""
    if not isinstance(kind, str):
        return int(kind)
    if kind in set("0123456789"):
        return int(kind)
    for number, name in KINDS.items():
        if kind.lower() == name.lower():
            return number
    raise ValueError(f"no such kind: '{kind}'; kinds are {kinds_in_words()}")


def kinds_in_words():
    return ", ".join(f"{number} {name}" for number, name in KINDS.items())


def meaning(answer):
    """The words of an answer: a number, its digits as a log has them, or 'm'. ValueError for what is none."""
    number = int(answer) if isinstance(answer, str) and answer.isdecimal() and str(int(answer)) == answer else answer
    if number not in MEANINGS:
        raise ValueError(f"no such answer: {answer}")
    return MEANINGS[number]


class Answer:
    """What closed a run: its `number` (an int, or 'm' in a log where more bytes are needed) and its `words`."""

    def __init__(self, number):
        self.number, self.words = number, meaning(number)

    def __eq__(self, other):
        return isinstance(other, Answer) and self.number == other.number

    def __hash__(self):
        return hash(self.number)

    def __repr__(self):
        return f"Answer({self.number!r})"

    def __str__(self):
        return f"closed with {self.number}: {self.words}"


class Refused(Exception):
    """A run that cannot be opened, or values that do not add up (17): the `number` of the refusal and its `words`."""

    def __init__(self, number):
        self.number, self.words = number, meaning(number)
        super().__init__(f"no sum, {number}: {self.words}" if number == NO_SUM else str(Answer(number)))
