"""Constraint systems: what nodes mean, degrees, and why a system or a trace is refused.

A node is a kind and what it names. Six kinds name an entry of what is seen at a row, or at a point:
a `window` has a list of entries for each of them.
"""

from collections import defaultdict
from dataclasses import dataclass
from dataclasses import field as record_field
from typing import Callable, NamedTuple

import field
from relation import named

ENTRIES = ("local", "next", "preprocessed", "preprocessed_next", "public", "periodic")
KINDS = ("constant", *ENTRIES, "add", "sub", "mul", "neg")
ROWS = ("all", "first", "last", "transition")

UNKNOWN = {
    "local": ("UnknownColumn", "column"),
    "next": ("UnknownColumn", "column"),
    "preprocessed": ("UnknownPreprocessedColumn", "column"),
    "preprocessed_next": ("UnknownPreprocessedColumn", "column"),
    "public": ("UnknownPublicValue", "index"),
    "periodic": ("UnknownPeriodicColumn", "column"),
}


@dataclass(frozen=True)
class Node:
    kind: str
    names: tuple


@dataclass(frozen=True)
class Constraint:
    rows: str
    node: int


@dataclass
class Air:
    """How many columns of each kind and public values there are to speak of, nodes, constraints."""

    width: int
    preprocessed_width: int
    num_public_values: int
    num_periodic_columns: int
    nodes: list
    constraints: list

    def entry_counts(self):
        """How many entries a window has of each kind."""
        return dict(zip(ENTRIES, (
            self.width, self.width, self.preprocessed_width, self.preprocessed_width,
            self.num_public_values, self.num_periodic_columns)))


@dataclass
class Assignment:
    """What a system is held against: rows, public values, and columns that repeat."""

    trace: list
    preprocessed: list = record_field(default_factory=list)
    public_values: list = record_field(default_factory=list)
    periodic: list = record_field(default_factory=list)


# What nodes mean


class Meaning(NamedTuple):
    constant: Callable
    add: Callable
    sub: Callable
    mul: Callable
    neg: Callable


OVER_BASE = Meaning(
    constant=lambda number: number,
    add=lambda a, b: (a + b) % field.ORDER,
    sub=lambda a, b: (a - b) % field.ORDER,
    mul=lambda a, b: a * b % field.ORDER,
    neg=lambda a: -a % field.ORDER,
)

OVER_EXTENSION = Meaning(
    constant=field.lift,
    add=field.add,
    sub=field.subtract,
    mul=field.multiply,
    neg=lambda a: field.subtract(field.ZERO, a),
)

DEGREES = Meaning(
    constant=lambda number: 0,
    add=max,
    sub=max,
    mul=lambda a, b: a + b,
    neg=lambda a: a,
)


def meanings(air, window, meaning):
    """What all nodes mean, each by those before it."""
    found = []
    for node in air.nodes:
        if node.kind == "constant":
            found.append(meaning.constant(*node.names))
        elif node.kind in ENTRIES:
            found.append(window[node.kind][node.names[0]])
        else:
            found.append(getattr(meaning, node.kind)(*(found[name] for name in node.names)))
    return found


def degrees(air):
    """The degree of each node in the columns; public values and constants count nothing."""
    one, none = defaultdict(lambda: 1), defaultdict(int)
    window = {kind: none if kind == "public" else one for kind in ENTRIES}
    return meanings(air, window, DEGREES)


# Why a system is malformed


def node_fault(air, at, node):
    """The fault of node number `at`, or None."""
    if node.kind == "constant":
        return None
    if node.kind in ENTRIES:
        place = node.names[0]
        if place < air.entry_counts()[node.kind]:
            return None
        name, place_name = UNKNOWN[node.kind]
        return named(name, node=at, **{place_name: place})
    later = [operand for operand in node.names if operand >= at]
    return named("LaterOperand", node=at, operand=later[0]) if later else None


def air_fault(air):
    """The fault of the first node, or else of the first constraint, that has one; or None."""
    for at, node in enumerate(air.nodes):
        fault = node_fault(air, at, node)
        if fault:
            return fault
    for at, constraint in enumerate(air.constraints):
        if constraint.node >= len(air.nodes):
            return named("UnknownNode", constraint=at, node=constraint.node)
    return None


# Why a trace doesn't satisfy a system


def is_among(rows, row, height):
    """Whether a constraint on these rows speaks of this one."""
    return {
        "all": True, "first": row == 0, "last": row == height - 1, "transition": row < height - 1,
    }[rows]


def window_at(given, row):
    """What constraints see at a row; the row after the last is the first."""
    after = (row + 1) % len(given.trace)
    preprocessed = given.preprocessed or [[]] * len(given.trace)
    return {
        "local": given.trace[row],
        "next": given.trace[after],
        "preprocessed": preprocessed[row],
        "preprocessed_next": preprocessed[after],
        "public": given.public_values,
        "periodic": [column[row % len(column)] for column in given.periodic],
    }


def width_fault(name, rows, width):
    for row, entries in enumerate(rows):
        if len(entries) != width:
            return named(name, row=row, entries=len(entries), width=width)
    return None


def shape_fault(air, given):
    """Why what is given hasn't the sizes that the system speaks of, or None: rows come first."""
    if not given.trace:
        return "NoRows"
    fault = width_fault("Width", given.trace, air.width)
    if fault:
        return fault
    if air.preprocessed_width and len(given.preprocessed) != len(given.trace):
        return named("PreprocessedHeight", rows=len(given.preprocessed), height=len(given.trace))
    fault = width_fault("PreprocessedWidth", given.preprocessed, air.preprocessed_width)
    if fault:
        return fault
    counts = {
        "PublicValues": (len(given.public_values), air.num_public_values),
        "PeriodicColumns": (len(given.periodic), air.num_periodic_columns),
    }
    for name, (found, expected) in counts.items():
        if found != expected:
            return named(name, found=found, expected=expected)
    for column, entries in enumerate(given.periodic):
        if not entries:
            return named("EmptyPeriodicColumn", column=column)
    return None


def trace_fault(air, given):
    """Why a trace doesn't satisfy a well-formed system, or None.

    After its shape it is the first row, and there the first constraint, that isn't zero.
    """
    fault = shape_fault(air, given)
    if fault:
        return fault
    height = len(given.trace)
    for row in range(height):
        values = meanings(air, window_at(given, row), OVER_BASE)
        for at, constraint in enumerate(air.constraints):
            if is_among(constraint.rows, row, height) and values[constraint.node]:
                return named("Unsatisfied", row=row, constraint=at)
    return None


# Periodic columns


def period_fault(columns, height):
    """Why the first column that doesn't repeat along so many rows doesn't, or None."""
    for column, entries in enumerate(columns):
        length = len(entries)
        if length == 0 or length & (length - 1):
            return named("NotPowerOfTwo", column=column, length=length)
        if height % length:
            return named("DoesNotDivide", column=column, length=length, trace_height=height)
    return None


def periodic_value(column, log_height, point):
    """The value at a point of a column that repeats along the trace.

    It is that of the polynomial with the column's values on the subgroup of its length, at the
    point's power that takes the trace's subgroup to that one.
    """
    coefficients = field.coefficients_on_coset(column)
    inner = field.power(point, (1 << log_height) // len(column))
    return field.value([field.lift(c) for c in coefficients], inner)
