"""Changes of an opening, as data: where, what, and with which value.

An opening is a JSON value. A change is written `PATH OPERATION` or `PATH OPERATION VALUE`; a path
is a JSON pointer (RFC 6901): names and places, a slash before each.

    keep     nothing                         raise    a number, by one
    cut      a list, its last entry          zero     a number, to 0
    repeat   a list, its last entry twice    order    a number, to the field's order
    empty    a list, all entries             turn     a byte, its lowest bit
    swap     a list, its first two entries   set      anything, to the value
    add      a list, the value at its end    next     a byte, by one, and 255 to 0
"""

import copy
import json
from dataclasses import dataclass

import field
import tree


OPERATIONS = (
    "keep", "cut", "repeat", "empty", "swap", "add", "raise", "zero", "order", "turn", "next",
    "set",
)


@dataclass(frozen=True)
class Change:
    path: tuple
    operation: str
    value: str = ""

    def text(self):
        words = ["".join(f"/{word}" for word in self.path), self.operation]
        return " ".join(words + ([self.value] if self.value else []))


def changed(document, change):
    """The document with this change; the given one stays as it is, and shares what is kept."""
    return changed_at(document, change.path, change)


def changed_at(value, path, change):
    if not path:
        return new_value(value, change)
    holder = copy.copy(value)
    holder[path[0]] = changed_at(value[path[0]], path[1:], change)
    return holder


def new_value(old, change):
    match change.operation:
        case "keep":
            return old
        case "cut":
            return old[:-1]
        case "repeat":
            return old + old[-1:]
        case "empty":
            return []
        case "swap":
            return [old[1], old[0], *old[2:]]
        case "add":
            return [*old, json.loads(change.value)]
        case "raise":
            return old + 1
        case "zero":
            return 0
        case "order":
            return field.ORDER
        case "turn":
            return old ^ 1
        case "next":
            return (old + 1) % 256
        case "set":
            return json.loads(change.value)
    raise ValueError(change.operation)


def compact(value):
    return json.dumps(value, separators=(",", ":"))


# What can stand at a place of an opening. Each has a `sample` and tells the `changes` below a path.


class Number:
    """A number, and the further values to which it is set."""

    def __init__(self, *settings):
        self.settings, self.sample = settings, 0

    def changes(self, value, path):
        yield Change(path, "raise")
        if value != 0:
            yield Change(path, "zero")
        for setting in self.settings:
            if setting != value:
                yield Change(path, "set", compact(setting))


class Plain(Number):
    """A number that is to be an element, and needn't be one."""

    def changes(self, value, path):
        yield from super().changes(value, path)
        yield Change(path, "order")


class Canonical(Number):
    """A number that is an element, and stays one."""

    def changes(self, value, path):
        changes = super().changes(value, path)
        return (change for change in changes
                if change.operation != "raise" or value + 1 < field.ORDER)


class Shift(Canonical):
    """A coset's shift, which is never zero."""

    def __init__(self):
        super().__init__(31)
        self.sample = 1

    def changes(self, value, path):
        return (change for change in super().changes(value, path) if change.operation != "zero")


class Index(Number):
    """The place of an entry, or none: set to each up to one past the last of so many."""

    may_be_missing = True

    def changes(self, value, path):
        for setting in (None, *range(3)):
            if setting != value:
                yield Change(path, "set", compact(setting))


class Digest:
    """Bytes: a whole digest has 32. `has_length` where no other length can be said."""

    def __init__(self, has_length=False, sample=bytes(32)):
        self.has_length, self.sample = has_length, list(sample)

    def changes(self, value, path):
        yield Change((*path, sum(map(len, map(str, path))) % len(value)), "turn")
        yield from (Change((*path, place), "next") for place in range(len(value)))
        if not self.has_length:
            yield from (Change(path, operation) for operation in ("cut", "repeat", "empty"))


class List:
    """Entries of one kind, with further entries to be added at the end."""

    def __init__(self, entry, *additions):
        self.entry, self.additions = entry, additions
        self.sample = []

    def changes(self, value, path):
        if value:
            yield from (Change(path, operation) for operation in ("cut", "repeat"))
        if len(value) > 1:
            yield Change(path, "empty")
            if value[0] != value[1]:
                yield Change(path, "swap")
        if not value:
            yield Change(path, "add", compact(self.entry.sample))
        for addition in self.additions:
            yield Change(path, "add", compact(addition))
        for place, entry in enumerate(value):
            yield from self.entry.changes(entry, (*path, place))


class Element(List):
    """Four coefficients. `has_length` where no other number of them can be said."""

    def __init__(self, has_length=False):
        super().__init__(Canonical() if has_length else Plain())
        self.has_length, self.sample = has_length, [1, 0, 0, 0]

    def changes(self, value, path):
        if not self.has_length:
            yield from (Change(path, operation) for operation in ("cut", "repeat", "empty"))
        for place, entry in enumerate(value):
            yield from self.entry.changes(entry, (*path, place))


class Record:
    def __init__(self, **entries):
        self.entries = entries
        self.sample = {name: entry.sample for name, entry in entries.items()}

    def changes(self, value, path):
        for name, entry in self.entries.items():
            if value.get(name) is not None or getattr(entry, "may_be_missing", False):
                yield from entry.changes(value[name], (*path, name))


GREATEST_NUMBER = 2**64 - 1
WITNESS = Plain(GREATEST_NUMBER)
PATHS = List(List(Digest()))

PROOF = Record(
    batch_pow_witness=WITNESS,
    commit_phase_commits=List(Digest()),
    commit_pow_witnesses=List(WITNESS),
    input_openings=List(Record(opened_values=List(List(List(Plain()))), paths=PATHS)),
    commit_phase_openings=List(Record(sibling_values=List(List(Element())), paths=PATHS)),
    final_poly=List(Element()),
    query_pow_witness=WITNESS,
)

PARAMETERS = Record(
    log_blowup=Number(),
    log_final_poly_len=Number(),
    max_log_arity=Number(),
    num_queries=Number(),
    batch_proof_of_work_bits=Number(),
    commit_proof_of_work_bits=Number(),
    query_proof_of_work_bits=Number(),
)

RANDOM_VALUES = List(List(List(List(Element()))))

CLAIMED_POINT = Record(point=Element(has_length=True), values=List(Element(has_length=True)))
CLAIMED_MATRIX = Record(
    log_size=Number(26, 27), shift=Shift(), points=List(CLAIMED_POINT, CLAIMED_POINT.sample))
CLAIM = Record(
    commitment=Digest(has_length=True, sample=tree.EMPTY_ROOT),
    matrices=List(CLAIMED_MATRIX, CLAIMED_MATRIX.sample))

OPENING = Record(
    parameters=PARAMETERS,
    claims=List(CLAIM, CLAIM.sample),
    hiding=Record(
        num_random_codewords=Number(3, 5),
        random_values=RANDOM_VALUES,
        preprocessing=Index(),
    ),
    proof=PROOF,
)


def all_changes(document):
    """Every change of an opening, the one that keeps it first."""
    yield Change((), "keep")
    yield from OPENING.changes(document, ())
