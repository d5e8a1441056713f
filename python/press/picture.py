"""What a picture of a run shows, in plain Python: lines, cells, gaps, marks, peaks, title and caption. `drawing.py` puts it on
paper.

A run without an axis (FID, MWD, array) is a line over time. One with an axis (MS, DAD, UV) is a map over time and m/z or
wavelength, the total of its scans over time, one m/z or wavelength over time, or one scan as a spectrum. It is the scaled
intensity that is drawn.
"""
from chemstation.answers import KINDS
from press.picture_map import map_picture
from press.picture_parts import MS, CannotDraw, begun
from press.picture_traces import axis_picture, line_picture, spectrum_picture, total_picture


def refuse_axis(source, wish):
    """A run without an axis has one picture only."""
    asked = [f"--{name}" for name in ("total", "map", "axis", "time") if getattr(wish, name) not in (None, False)]
    if asked:
        raise CannotDraw(f"{asked[0]} is for runs with an m/z or a wavelength, and {KINDS[source.kind]} has none")


def empty_picture(source):
    picture = begun(source)
    picture.message = "no records"
    return picture


def picture_of(source, wish):
    """The picture of a Source that a Wish asks for; CannotDraw where there is none."""
    if source.axes is None:
        refuse_axis(source, wish)
        return line_picture(source, wish)
    if not len(source.values):
        return empty_picture(source)
    if wish.time is not None:
        return spectrum_picture(source, wish)
    if wish.axis is not None:
        return axis_picture(source, wish)
    if wish.map or source.kind != MS and not wish.total:
        return map_picture(source, wish)
    return total_picture(source, wish)
