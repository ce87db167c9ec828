"""Constraint systems with traces that satisfy them, and the schemes in which they are proved."""

import field
from air import Air, Assignment, Constraint, Node
from plain_form import Parameters
from stark_relation import Scheme


def nodes(*texts):
    """Nodes from texts: a kind, and what it names."""
    split = [text.split() for text in texts]
    return [Node(kind, tuple(map(int, names))) for kind, *names in split]


def constraints(*pairs):
    return [Constraint(rows, node) for rows, node in pairs]


# The entries of a column are bits.
BITS = Air(1, 0, 0, 0, nodes("local 0", "mul 0 0", "sub 1 0"), constraints(("all", 2)))

# The first row is the first two public values, each next row has the second entry and the sum of
# both, and the last entry is the third public value.
FIBONACCI = Air(
    2, 0, 3, 0,
    nodes("local 0", "local 1", "public 0", "public 1", "sub 0 2", "sub 1 3", "next 0", "next 1",
          "add 0 1", "sub 6 1", "sub 7 8", "public 2", "sub 1 11"),
    constraints(("first", 4), ("first", 5), ("transition", 9), ("transition", 10), ("last", 12)))

# The first entry is the number below four whose bits are the other two, the lower one first.
RANGE_CHECK = Air(
    3, 0, 0, 0,
    nodes("local 0", "local 1", "local 2", "mul 1 1", "sub 3 1", "mul 2 2", "sub 5 2", "add 2 2",
          "add 1 7", "sub 0 8"),
    constraints(("all", 4), ("all", 6), ("all", 9)))

# The first entry is the first public value, and each next one is the cube of this one, a periodic
# column's entry and, where the preprocessed column is one, the second public value.
CUBES = Air(
    1, 1, 2, 1,
    nodes("local 0", "public 0", "sub 0 1", "next 0", "mul 0 0", "mul 4 0", "preprocessed 0",
          "public 1", "mul 6 7", "add 5 8", "periodic 0", "add 9 10", "sub 3 11"),
    constraints(("first", 2), ("transition", 12)))

# Each entry is the seventh power of the one before it plus one, the first comes after the last,
# and the next row of the preprocessed column has its negative: so degrees of all kinds stand.
POWERS = Air(
    1, 1, 0, 0,
    nodes("local 0", "mul 0 0", "mul 1 1", "mul 2 1", "mul 3 0", "constant 1", "add 4 5", "next 0",
          "sub 7 6", "preprocessed_next 0", "neg 9", "sub 10 7"),
    constraints(("transition", 8), ("all", 11)))

# Nodes and rows of all kinds. The first entry is the first public value, the last the second one.
# Each next one is the cube of this one, a periodic column's entry and the preprocessed column's,
# of which each next entry is a bit.
MIXED = Air(
    1, 1, 2, 1,
    nodes("local 0", "public 0", "sub 0 1", "next 0", "mul 0 0", "mul 4 0", "periodic 0",
          "add 5 6", "preprocessed 0", "add 7 8", "sub 3 9", "public 1", "sub 0 11",
          "preprocessed_next 0", "neg 13", "constant 1", "add 15 14", "mul 16 13"),
    constraints(("first", 2), ("transition", 10), ("last", 12), ("all", 17)))

NO_CONSTRAINTS = Air(1, 0, 0, 0, [], [])


def fibonacci(height, first=1, second=1):
    trace = [[first, second]]
    while len(trace) < height:
        left, right = trace[-1]
        trace.append([right, (left + right) % field.ORDER])
    return Assignment(trace, public_values=[first, second, trace[-1][1]])


def range_check(height):
    numbers = [3 * row % 4 for row in range(height)]
    return Assignment([[number, number % 2, number // 2] for number in numbers])


def cubes(height):
    summand, periodic = 7, [3, 5]
    selected = [[int(row % 3 == 0)] for row in range(height)]
    trace = [[2]]
    while len(trace) < height:
        row = len(trace) - 1
        entry = trace[-1][0] ** 3 + selected[row][0] * summand + periodic[row % 2]
        trace.append([entry % field.ORDER])
    return Assignment(trace, selected, [2, summand], [periodic])


def powers(height):
    trace = [[3]]
    while len(trace) < height:
        trace.append([(trace[-1][0] ** 7 + 1) % field.ORDER])
    return Assignment(trace, [[-entry % field.ORDER] for entry, in trace])


def mixed(height, slip=None, bits=()):
    """Where there is a row `slip`, the next one isn't what follows it."""
    column = list(bits) or [int(row % 3 == 0) for row in range(height)]
    periodic, trace = [3, 5], [2]
    while len(trace) < height:
        row = len(trace) - 1
        entry = trace[-1] ** 3 + periodic[row % 2] + column[row] + int(row == slip)
        trace.append(entry % field.ORDER)
    return Assignment([[entry] for entry in trace], [[entry] for entry in column],
                      [trace[0], trace[-1]], [periodic])


def mixed_without(rows, height):
    """A trace that breaks the constraint on these rows alone, and at one row, with that row."""
    given, row = mixed(height), height // 2
    match rows:
        case "first":
            given.public_values[0] += 1
            return given, 0
        case "last":
            given.public_values[1] += 1
            return given, height - 1
        case "transition":
            return mixed(height, slip=row), row
        case "all":
            return mixed(height, bits=[2 * int(at == row + 1) for at in range(height)]), row
    raise ValueError(rows)


def unconstrained(height):
    return Assignment([[row] for row in range(height)])


PLAIN = Scheme(Parameters(1, 0, 1, 2))
WORKING = Scheme(Parameters(2, 1, 2, 3, 2, 1, 2))
HIDING = Scheme(Parameters(1, 0, 2, 1), 4)
WIDER_HIDING = Scheme(Parameters(2, 1, 2, 2, 1, 1, 1), 5)

PROVEN = [
    ("one row", PLAIN, BITS, Assignment([[1]])),
    ("bits", PLAIN, BITS, Assignment([[0], [1]])),
    ("no constraints", PLAIN, NO_CONSTRAINTS, Assignment([[5], [7]])),
    ("Fibonacci numbers", PLAIN, FIBONACCI, fibonacci(8)),
    ("Fibonacci numbers, with proofs of work", WORKING, FIBONACCI, fibonacci(8, 5, 9)),
    ("cubes", PLAIN, CUBES, cubes(4)),
    ("cubes, with proofs of work", WORKING, CUBES, cubes(8)),
    ("powers", PLAIN, POWERS, powers(4)),
    ("nodes of all kinds", PLAIN, MIXED, mixed(4)),
    ("hidden Fibonacci numbers", HIDING, FIBONACCI, fibonacci(32)),
    ("hidden cubes", WIDER_HIDING, CUBES, cubes(32)),
    ("hidden nodes of all kinds", HIDING, MIXED, mixed(32)),
]
