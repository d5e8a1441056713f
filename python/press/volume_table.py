"""The table of a volume: how many runs there are, how they closed, and what is to be looked at."""
from press.logs import ANSWERS
from press.volume_runs import by_atlas
from press.words import meaning

ROW = "{:<12}{:>12}"


def counted(results, total, plots, atlas):
    """Names and numbers. Rows that speak of replaced letters, of kept logs, of pictures or of lines not done come where there are some,
    one of the atlas reading where that was asked for."""
    def runs(test):
        return sum(map(test, results))

    bad, failed = runs(lambda r: r.closed == "bad"), runs(lambda r: r.closed == "failed")
    rows = {
        "runs": len(results) - bad,
        "records": sum(result.records for result in results),
        "refused": runs(lambda r: r.closed in ANSWERS and r.closed != "0"),
        "failed": failed,
        "bad lines": bad,
        "bytes left": runs(lambda r: r.left),
        **({"atlas": runs(lambda r: r.closed != "bad" and by_atlas(r.line, atlas))} if atlas else {}),
    }
    more = {"replaced": runs(lambda r: r.replaced), "logs kept": runs(lambda r: r.kept), "not done": total - len(results)}
    rows.update((name, number) for name, number in more.items() if number)
    return {**rows, "pictures": runs(lambda r: r.drawn)} if plots else rows


def table(results, total, plots, atlas, notes):
    """The table of the results, of so many lines in all; `notes` are of no line."""
    lines = [ROW.format(*row) for row in counted(results, total, plots, atlas).items()]
    lines += ["", ROW.format("closed with", "runs") + "   meaning"]
    for answer in ANSWERS:
        closed = sum(result.closed == answer for result in results)
        if closed:
            lines.append(f"{ROW.format(answer, closed)}   {meaning(answer)}")
    look = [note for result in results for note in result.notes] + notes
    if look:
        lines += ["", "To look at (docs/ANSWERS.md):", *look]
    return "\n".join(lines) + "\n"
