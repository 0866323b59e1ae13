"""Outside the proof. Reads the archive of a service: segments that each have a part of the journal, and form a chain of digests. The format is that
of serve/internal/archive."""
import hashlib
import json
import os
import re

from errors import BadInput, Failed
from pieces import Pieces

FORMAT = 1
NAME = re.compile(r"\d{8}\.segment")
# The header has a shortened digest of each chunk of this many bytes, which shows where damage is.
CHUNK = 64 << 10
NUMBERS = ("archive", "segment", "kept", "state_bytes", "audit_bytes", "journal_bytes")
PLACES = ("messages", "lines", "bytes")


def name_of(number):
    return f"{number:08d}.segment"


def numbers_in(folder):
    """Returns the numbers of the segments in a folder, in order."""
    try:
        return sorted(int(it[:8]) for it in os.listdir(folder) if NAME.fullmatch(it))
    except OSError as error:
        raise Failed(f"{folder}: cannot be read: {error.strerror}") from None


class Segment:
    """A segment whose digests are right."""

    def __init__(self, folder, number):
        self.path, self.number = os.path.join(folder, name_of(number)), number
        try:
            with open(self.path, "rb") as file:
                text = file.read()
        except FileNotFoundError:
            raise BadInput(f"{self.path}: missing") from None
        except OSError as error:
            raise Failed(f"{self.path}: cannot be read: {error.strerror}") from None
        self.digest = hashlib.sha256(text).hexdigest()
        head, _, rest = text.partition(b"\n")
        try:
            self.header = json.loads(head)
            sizes = [self.header[it] for it in NUMBERS]
            places = [self.header[end][it] for end in ("from", "to") for it in PLACES]
            if not all(isinstance(it, int) and it >= 0 for it in sizes + places):
                raise ValueError("a number is missing")
        except (ValueError, KeyError, TypeError) as error:
            raise BadInput(f"{self.path} line 1: the header cannot be read: {error}") from None
        if self.header["archive"] != FORMAT:
            raise BadInput(f"{self.path} line 1: the format {self.header['archive']} is not known; expected {FORMAT}")
        state, audit, journal = (self.header[f"{it}_bytes"] for it in ("state", "audit", "journal"))
        body, last = rest[:state + audit + journal], rest[state + audit + journal:]
        self._check(text, len(head) + 1, body, last)
        self.state, self.journal = body[:state], body[state + audit:]
        self.lines_before = 1 + body[:state + audit].count(b"\n")
        self.begin, self.end = ({it: self.header[end][it] for it in PLACES} for end in ("from", "to"))
        if (len(self.journal), self.journal.count(b"\n")) != (self.end["bytes"] - self.begin["bytes"], 2 * (self.end["lines"] - self.begin["lines"])):
            raise BadInput(f"{self.path} line 1: the header says other events than the segment has")

    def _check(self, text, start, body, last):
        """Raises BadInput unless the digests are right."""
        if self.header["segment"] != self.number:
            raise BadInput(f"{self.path} line 1: it is segment {self.header['segment']}: its file was renamed")
        if last == b'{"sha256":"' + hashlib.sha256(text[:len(text) - len(last)]).hexdigest().encode() + b'"}\n':
            return
        chunks = self.header.get("chunks") or []
        for place in range(0, max(len(body), 1), CHUNK):
            found = hashlib.sha256(body[place:place + CHUNK]).hexdigest()[:8]
            if place // CHUNK >= len(chunks) or found != chunks[place // CHUNK]:
                raise BadInput(f"{self.path}: damaged or cut at byte {start + place}, or up to {CHUNK} bytes after it")
        raise BadInput(f"{self.path}: damaged in its header or its last line")


def chosen(folder, choice):
    """Returns the numbers of the segments to read. A choice is (first, last), where None is the first or the last one that there is."""
    numbers = numbers_in(folder)
    first, last = choice or (None, None)
    first, last = numbers[0] if first is None else first, numbers[-1] if last is None else last
    if first > last or first < numbers[0] or last > numbers[-1]:
        raise BadInput(f"{folder}: has the segments {numbers[0]} to {numbers[-1]}, not {first} to {last}")
    newest = Segment(folder, numbers[-1])
    if newest.header["kept"] < numbers[0]:
        raise BadInput(f"{os.path.join(folder, name_of(newest.header['kept']))}: missing: the archive was kept from it on when segment {newest.number} was written")
    return range(first, last + 1)


class Archive(Pieces):
    """Where the lines of an archive's journal come from. `state` is the state before them, or None at the beginning of the journal."""

    def __init__(self, folder):
        super().__init__(folder)
        self.before = []

    def join(self, choice, target):
        """Writes the journal of the chosen segments to an open file. Raises BadInput unless they are a chain, without a gap and in one epoch."""
        previous, lines = None, 0
        for number in chosen(self.name, choice):
            segment = Segment(self.name, number)
            if previous is None:
                self._begin(segment)
            else:
                self._follow(previous, segment)
            self.paths.append(segment.path)
            self.first_lines.append(lines)
            self.before.append(segment.lines_before)
            lines += segment.journal.count(b"\n")
            target.write(segment.journal)
            segment.state = segment.journal = None
            previous = segment

    def _begin(self, segment):
        if segment.state:
            self.state = segment.state
        elif segment.begin["bytes"]:
            raise BadInput(f"{segment.path}: begins without a state; begin at another one with --segments FIRST-LAST")

    @staticmethod
    def _follow(previous, segment):
        if segment.header.get("previous") != previous.digest:
            raise BadInput(f"{segment.path} line 1: does not follow {previous.path}: that has another SHA-256")
        if segment.begin != previous.end:
            raise BadInput(f"{segment.path} line 1: messages {previous.end['messages'] + 1} to {segment.begin['messages']} were never archived; "
                           "replay the segments before or after them with --segments FIRST-LAST")
        if previous.header.get("ends_epoch"):
            raise BadInput(f"{segment.path} line 1: an epoch begins; replay the segments before it, or from it on, with --segments FIRST-LAST")

    def place(self, line):
        piece = self.piece_of(line)
        return f"{self.paths[piece]} line {line - self.first_lines[piece] + self.before[piece]}"
