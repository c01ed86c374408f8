"""The line of its file below a finding, as `check --format full` prints it, read plainly from `docs/SPECIFICATION.md`."""
import re

from model import spelling

MOST_BYTES = 1_048_576
# The columns of a line, of what stands before the word in a longer one, and of the points on both sides.
COLUMNS, BEFORE, POINTS = 72, 20, 4
# The bytes of a name that are looked at.
MOST_OF_NAME = 292
UNSEEN = re.compile(rb"%s|[\x00-\x1f\x7f]" % spelling.UNSEEN)


def character(data, at):
    """The bytes of the character at a place that can be seen, or none."""
    for length in range(1, 5):
        one = data[at:at + length]
        try:
            one.decode()
        except UnicodeDecodeError:
            continue
        return b"" if UNSEEN.fullmatch(one) else one
    return b""


def cells(data):
    """What is shown of bytes, and in how many columns, piece by piece."""
    shown, at = [], 0
    while at < len(data):
        seen = character(data, at)
        if seen:
            shown.append((seen, 1))
        elif data[at:at + 1] == b"\t":
            shown.append((b" ", 1))
        else:
            shown.append((b"\\x%02x" % data[at], 4))
        at += max(1, len(seen))
    return shown


def width(shown):
    return sum(columns for _, columns in shown)


def fitting(shown, room):
    """The first pieces that fit into a number of columns."""
    kept = []
    for piece in shown:
        room -= piece[1]
        if room < 0:
            break
        kept.append(piece)
    return kept


def excerpt(number, line, column, length):
    """The line with this number, and carets below the bytes from a column on, if one is told."""
    start = (column or 1) - 1
    front, rest = cells(line[:start]), cells(line[start:])
    whole = width(front + rest) <= COLUMNS
    before = front if whole else fitting(front[::-1], BEFORE)[::-1]
    room = (COLUMNS if whole else COLUMNS - POINTS) - width(before)
    after = fitting(rest, room)
    cut_before, cut_after = b".." * (before != front), b".." * (after != rest)
    edge = b" " * len(b"%d" % number)
    pieces = b"".join(piece for piece, _ in before + after)
    text = [b"%s |\n" % edge, b"%d | %s%s%s\n" % (number, cut_before, pieces, cut_after)]
    if column is not None:
        carets = max(1, min(room, width(cells(line[start:start + length]))))
        text.append(b"%s | %s%s\n" % (edge, b" " * (len(cut_before) + width(before)), b"^" * carets))
    return b"".join(text) + b"\n"


def name_cell(name):
    """What is shown of a name, and the columns of it."""
    pieces = cells(name[:MOST_OF_NAME])
    return b"".join(piece for piece, _ in fitting(pieces, COLUMNS)), min(COLUMNS, width(pieces))


def number_cell(number):
    return b"%d" % number, len(b"%d" % number)


def table(paths, rows):
    """The modules of a way in, each with its number, the place of its rule, its name and its answer."""
    lines = []
    for file, line, number, name, code in rows:
        (path, path_columns), (at, at_columns) = name_cell(paths[file]), number_cell(line)
        lines.append([number_cell(number), (path + b":" + at, path_columns + 1 + at_columns), name_cell(name), (code, 0)])
    widest = [max(columns for _, columns in column) for column in zip(*lines)]
    padded = [[text + b" " * (most - columns) for (text, columns), most in zip(line, widest)] for line in lines]
    return b"".join(b"  %s\n" % b"  ".join(line) for line in padded) + b"\n" * bool(rows)


def below(host, paths, file, line, word, rows):
    """What stands below a finding: the line of its file, or the modules of the way in of S2."""
    return excerpt_below(host, file, line, word) + table(paths, rows)


def excerpt_below(host, file, line, word):
    """What stands below a finding at a line of a file, which is about a word with its line, its column and its length, or about none."""
    if file is None or not line or file in host.outside or b"\0" in host.data[file] or len(host.data[file]) > MOST_BYTES:
        return b""
    number, column, length = word or (line, None, 0)
    left = host.data[file].split(b"\n")[number - 1:]
    return excerpt(number, left[0], column, length) if b"\n".join(left) else b""
