"""Outside the proof. Reads a journal that is kept in a folder, in numbered pieces that may be compressed with gzip."""
import gzip
import os
import re
import shutil
import zlib
from bisect import bisect_right

from errors import BadInput, Failed

NUMBER = re.compile(r".*?(\d+)\D*")
# This many bytes are copied at a time.
BLOCK = 1 << 20


def listed(folder):
    """Returns the paths of the pieces in order. Raises BadInput if a name has no number, or a number is missing or there twice."""
    try:
        names = sorted(it for it in os.listdir(folder) if not it.startswith("."))
    except OSError as error:
        raise Failed(f"{folder}: cannot be read: {error.strerror}") from None
    found = {}
    for name in names:
        path = os.path.join(folder, name)
        match = NUMBER.fullmatch(name.removesuffix(".gz"))
        if match is None or not os.path.isfile(path):
            raise BadInput(f"{path}: not a piece of a journal; expected files with a number in their names, such as journal.0001 or journal.0002.gz")
        number = int(match[1])
        if number in found:
            raise BadInput(f"{path}: has the same number as {found[number]}")
        found[number] = path
    if not found:
        raise BadInput(f"{folder}: no pieces of a journal")
    numbers = sorted(found)
    for before, number in zip(numbers, numbers[1:]):
        if number != before + 1:
            raise BadInput(f"{found[number]}: piece {before + 1} is missing; the one before is {found[before]}")
    return [found[it] for it in numbers]


class Pieces:
    """Where the lines of a journal come from: a file, or pieces that are joined."""

    def __init__(self, name):
        self.name, self.first_lines, self.paths, self.state = name, [], [], None

    def join(self, paths, target):
        """Writes pieces to an open file, one after the other."""
        lines = 0
        for path in paths:
            self.first_lines.append(lines)
            self.paths.append(path)
            try:
                with (gzip.open if path.endswith(".gz") else open)(path, "rb") as piece:
                    while block := piece.read(BLOCK):
                        lines += block.count(b"\n")
                        target.write(block)
            except (EOFError, zlib.error, gzip.BadGzipFile) as error:
                raise BadInput(f"{path}: damaged: {error}") from None
            except OSError as error:
                raise Failed(f"{path}: cannot be read: {error.strerror or error}") from None

    def piece_of(self, line):
        """Returns the place of the piece that has a line. A line after the last one is in the last piece."""
        return bisect_right(self.first_lines, line - 1) - 1

    def place(self, line):
        """Returns the place of a line that is counted from 1 over all pieces, such as `day.journal line 82`."""
        if not self.paths:
            return f"{self.name} line {line}"
        piece = self.piece_of(line)
        return f"{self.paths[piece]} line {line - self.first_lines[piece]}"
