"""Outside the proof. Reads and writes resource texts such as `cpus:1.5;ports:[31000-31999];disk(eng):{sda}` (docs/REFERENCE.md)."""
from functools import lru_cache

# The first letter of an amount's key: ranges and sets are counted by their members.
RANGES, SET = "[", "{"


def thousandths(text):
    """Returns an amount such as `1.5` in thousandths, rounded half up as the allocator rounds it."""
    whole, _, part = text.strip().partition(".")
    digits = (part + "0000")[:4]
    return int(whole or "0") * 1000 + int(digits[:3]) + (digits[3] >= "5")


def written(amount):
    """Returns an amount of thousandths as text, without needless zeros."""
    whole, part = divmod(amount, 1000)
    return f"{whole}.{part:03d}".rstrip("0") if part else str(whole)


def united(ranges):
    """Returns sorted ranges, with overlapping and adjacent ones merged."""
    merged = []
    for low, high in sorted(ranges):
        if merged and low <= merged[-1][1] + 1:
            merged[-1] = merged[-1][0], max(merged[-1][1], high)
        else:
            merged.append((low, high))
    return tuple(merged)


def without(ranges, taken):
    """Returns the ranges less those in `taken`."""
    rest = []
    for low, high in ranges:
        for start, end in taken:
            if end < low or start > high:
                continue
            if low < start:
                rest.append((low, start - 1))
            low = end + 1
        if low <= high:
            rest.append((low, high))
    return tuple(rest)


def size_of(value):
    """Returns the amount of a scalar in thousandths, or the number of members of ranges or of a set."""
    if isinstance(value, int):
        return value
    if isinstance(value, tuple):
        return sum(high - low + 1 for low, high in value)
    return len(value)


def key_of(name, value):
    """Returns the key under which amounts of this name and kind are counted."""
    return name if isinstance(value, int) else (RANGES if isinstance(value, tuple) else SET) + name


def scalars_of(amounts):
    """Returns the (name, amount) of the scalars in amounts by key that are not 0."""
    return [it for it in amounts.items() if it[1] and it[0][0] != RANGES and it[0][0] != SET]


class Bundle:
    """The pieces of a resource text by (name, role), with the role "" for unreserved; the amounts by key over all reservations; those of
    the scalars as pairs; and whether all pieces are unreserved scalars."""

    __slots__ = ("pieces", "amounts", "scalars", "is_plain")

    def __init__(self, pieces):
        self.pieces = pieces
        self.amounts = {}
        for (name, _), value in pieces.items():
            key = key_of(name, value)
            self.amounts[key] = self.amounts.get(key, 0) + size_of(value)
        self.scalars = scalars_of(self.amounts)
        self.is_plain = len(self.scalars) == len(pieces) and not any(role for _, role in pieces)


@lru_cache(maxsize=1 << 16)
def read(text):
    """Returns the bundle of a resource text that the allocator has accepted. The bundle is shared: do not change it."""
    pieces = {}
    for piece in text.split(";"):
        name, colon, value = piece.partition(":")
        if not colon:
            continue
        role = ""
        if "(" in name:
            name, _, role = name.partition("(")
            role = role.strip().removesuffix(")").strip()
            role = "" if role == "*" else role
        place, value = (name.strip(), role), value.strip()
        if value[0] == "[":
            pairs = (it.split("-") for it in value[1:-1].split(",") if it.strip())
            pieces[place] = united([*pieces.get(place, ()), *((int(low), int(high)) for low, high in pairs)])
        elif value[0] == "{":
            pieces[place] = pieces.get(place, frozenset()) | {it.strip() for it in value[1:-1].split(",") if it.strip()}
        else:
            pieces[place] = pieces.get(place, 0) + thousandths(value)
    return Bundle({place: value for place, value in pieces.items() if value})


def text_of(pieces):
    """Returns the resource text of pieces by (name, role)."""
    parts = []
    for (name, role), value in sorted(pieces.items()):
        if isinstance(value, int):
            value = written(value)
        elif isinstance(value, tuple):
            value = "[" + ",".join(f"{low}-{high}" for low, high in value) + "]"
        else:
            value = "{" + ",".join(sorted(value)) + "}"
        parts.append(f"{name}({role}):{value}" if role else f"{name}:{value}")
    return ";".join(parts)


def fits(demand, amounts):
    """Returns whether amounts by key cover a demand by key."""
    for key, amount in demand.items():
        if amounts.get(key, 0) < amount:
            return False
    return True


def covers(pieces, wanted):
    """Returns whether pieces have all that is wanted, under the same reservations."""
    for place, value in wanted.items():
        there = pieces.get(place)
        if there is None or type(there) is not type(value):
            return False
        if isinstance(value, int):
            if there < value:
                return False
        elif isinstance(value, tuple):
            if without(value, there):
                return False
        elif not value <= there:
            return False
    return True


def some_of(value, amount):
    """Returns a part of a value of the given size: the lowest numbers of ranges, the first names of a set."""
    if isinstance(value, int):
        return amount
    if isinstance(value, frozenset):
        return frozenset(sorted(value)[:amount])
    part = []
    for low, high in value:
        if amount <= 0:
            break
        high = min(high, low + amount - 1)
        part.append((low, high))
        amount -= high - low + 1
    return tuple(part)


def take(left, bundle):
    """Takes a bundle's resources out of the pieces `left` (a dictionary, which is changed) and returns the pieces taken.

    The pieces are those of the bundle where `left` has them all. Otherwise only the amounts count: reserved resources are taken first,
    then unreserved ones. `left` must cover the amounts."""
    taken = dict(bundle.pieces) if covers(left, bundle.pieces) else {}
    if not taken:
        for key, amount in bundle.amounts.items():
            for place in sorted((it for it in left if key_of(it[0], left[it]) == key), key=lambda it: (it[1] == "", it[1])):
                part = min(amount, size_of(left[place]))
                if part:
                    taken[place] = some_of(left[place], part)
                    amount -= part
    for place, value in taken.items():
        there = left[place]
        if isinstance(value, int):
            rest = there - value
        elif isinstance(value, tuple):
            rest = without(there, value)
        else:
            rest = there - value
        if rest:
            left[place] = rest
        else:
            del left[place]
    return taken
