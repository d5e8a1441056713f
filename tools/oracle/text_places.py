"""Where a header's eight texts stand, from document 01's words on the description, beside texts.py."""

import texts

WHITE = ''.join(map(chr, texts.WHITE))


def of(header):
    """Starts and lengths, in bytes as stored, after trimming; 0 and 0 for an empty text. The header is one that Open accepts."""
    edition, found = texts.be(header, 248, 4), []
    for number in texts.NUMBERS:
        start = length = 0
        if texts.lacks(edition, number):
            pass
        elif edition <= 102:
            at = texts.OLD[number][0] + 1
            text = header[at:at + header[at - 1]].decode()
            start, length = at + len(text.encode()) - len(text.lstrip(WHITE).encode()), len(text.strip(WHITE).encode())
        else:
            at = texts.UNITS_131 if (number, edition) == (7, 131) else texts.NEW[number]
            start, length = at + 1, 2 * header[at]
        found.append((start, length) if length else (0, 0))
    return [start for start, _ in found], [length for _, length in found]
