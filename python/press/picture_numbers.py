"""Numbers as a person writes them, and limits for axes."""
from math import floor

MINUS = "\u2212"
RAISED = str.maketrans("-0123456789", "⁻⁰¹²³⁴⁵⁶⁷⁸⁹")


def counted(number, noun):
    return f"{number:,} {noun}{'' if number == 1 else 's'}"


def ten_to(power):
    """A power of ten to multiply with, as text."""
    return f"×10{str(power).translate(RAISED)}"


def order(number):
    """The power of ten of a number's first digit; 0 for 0."""
    return int(f"{abs(number):e}".split("e")[1]) if number else 0


def trimmed(text):
    """A decimal without zeros at its end."""
    return text.rstrip("0").rstrip(".") if "." in text else text


def signed(number, text):
    return MINUS + text if number < 0 and text != "0" else text


def written(number, digits=6):
    """So many significant digits, but never fewer than the whole part has; very large and very small numbers by a power of
    ten."""
    if number == 0 or 1e-4 <= abs(number) < 1e9:
        return signed(number, trimmed(f"{abs(number):,.{max(0, digits - 1 - order(number))}f}"))
    mantissa, power = f"{abs(number):.{digits - 1}e}".split("e")
    return signed(number, trimmed(mantissa) + ten_to(int(power)))


def placed(number, span):
    """A place on an axis that spans so much: to a thousandth of the span, or finer."""
    if not (1e-6 < span < 1e9 and abs(number) < 1e9):
        return written(number)
    return signed(number, trimmed(f"{abs(number):,.{max(0, 3 - order(span))}f}"))


def power_for(largest):
    """The power of ten to take out of numbers up to this size so that an axis can show them; 0 where it can as they are."""
    return 0 if largest == 0 or 1e-3 <= largest < 1e6 else 3 * floor(order(largest) / 3)


def without(power, number):
    """A number divided by a power of ten; in two steps where the power itself is too small for a double."""
    if power < -300:
        return number * 1e200 * 10.0 ** (-power - 200)
    return number / 10.0**power


def limits(low, high, share):
    """Room for a share of the range at both ends; around a single number, or numbers nearly one, room too."""
    least = max(abs(low), abs(high)) * 1e-12
    room = (high - low) * share if high - low > least else abs(low) / 10 or 1.0
    return low - room, high + room


def value_limits(low, high, share=0.05):
    """Limits for intensities; 0 is on the axis if that takes at most half of it."""
    if 0 < low <= high - low:
        low = 0.0
    elif 0 > high >= low - high:
        high = 0.0
    return limits(low, high, share)
