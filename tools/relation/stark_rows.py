"""Changes of STARKs with a name: what comes from outside, and is refused by what it names."""

from alterations import GREATEST_NUMBER, compact
from rows import REFUSED, change

SHAPE = "Refused(InvalidProofShape)"


def node(place, plain, fault):
    """Another node at this place of `bits`, which makes the system malformed."""
    name = f"node {place} as {compact(plain)}"
    return name, change(f"/system/air/nodes/{place}", "set", compact(plain)), f"Air({fault})"


def malformed(place, plain, fault, **names):
    inside = "".join(f", {name}: {value}" for name, value in names.items())
    return node(place, plain, f"Malformed({fault} {{ node: {place}{inside} }})")


def squares(count):
    """A column squared so many times is to be zero: a constraint of degree `2^count`."""
    nodes = [{"local": 0}, *({"mul": [place, place]} for place in range(count))]
    layout = {"width": 1, "preprocessed_width": 0, "num_public_values": 0,
              "num_periodic_columns": 0}
    system = {"layout": layout, "nodes": nodes, "constraints": [{"rows": "all", "node": count}]}
    return change("/system/air", "set", compact(system))


def height(log_height):
    return change("/proof/log_height", "set", compact(log_height))


def width(name, count):
    return change(f"/system/air/layout/{name}", "set", compact(count))


BITS_ROWS = [
    malformed(1, {"mul": [1, 0]}, "LaterOperand", operand=1),
    malformed(1, {"mul": [0, 2]}, "LaterOperand", operand=2),
    malformed(0, {"neg": 0}, "LaterOperand", operand=0),
    malformed(1, {"add": [0, GREATEST_NUMBER]}, "LaterOperand", operand=GREATEST_NUMBER),
    malformed(0, {"local": 1}, "UnknownColumn", column=1),
    malformed(0, {"next": GREATEST_NUMBER}, "UnknownColumn", column=GREATEST_NUMBER),
    malformed(0, {"preprocessed": 0}, "UnknownPreprocessedColumn", column=0),
    malformed(0, {"preprocessed_next": 0}, "UnknownPreprocessedColumn", column=0),
    malformed(0, {"public": 0}, "UnknownPublicValue", index=0),
    malformed(0, {"periodic": 0}, "UnknownPeriodicColumn", column=0),
    node(0, {"constant": GREATEST_NUMBER}, "ConstantOutOfRange { node: 0 }"),
    ("a constraint of the greatest number",
     change("/system/air/constraints/0/node", "set", compact(GREATEST_NUMBER)),
     f"Air(Malformed(UnknownNode {{ constraint: 0, node: {GREATEST_NUMBER} }}))"),
    ("no nodes", change("/system/air/nodes", "set", "[]"),
     "Air(Malformed(UnknownNode { constraint: 0, node: 2 }))"),
    ("no constraints", change("/system/air/constraints", "set", "[]"), REFUSED),
    ("a degree that asks for too many chunks", squares(62), SHAPE),
    ("a degree past the verifier's", squares(63), "Refused(DegreeTooLarge)"),
    ("a degree past usize", squares(64), "Air(DegreeTooLarge)"),
    ("a degree past usize many times over", squares(200), "Air(DegreeTooLarge)"),
    ("a height past the two-adicity", height(28), SHAPE),
    ("a height past usize", height(64), SHAPE),
    ("the greatest height", height(GREATEST_NUMBER), SHAPE),
    ("as many columns as there can be", width("width", GREATEST_NUMBER), SHAPE),
    ("as many public values as there can be", width("num_public_values", GREATEST_NUMBER),
     "Refused(InvalidPublicValues)"),
    ("as many periodic columns as there can be", width("num_periodic_columns", GREATEST_NUMBER),
     "Refused(InvalidPeriodicCount)"),
]

MIXED_ROWS = [
    ("a public value past the order",
     change("/public_values/1", "set", compact(GREATEST_NUMBER)),
     "Element(OutOfRange { part: PublicValues, row: 0, entry: 1 })"),
    ("a periodic entry past the order",
     change("/system/periodic/0/1", "set", compact(GREATEST_NUMBER)),
     "Element(OutOfRange { part: Periodic, row: 0, entry: 1 })"),
    ("preprocessed columns of the greatest height",
     change("/system/preprocessed/log_height", "set", compact(GREATEST_NUMBER)), SHAPE),
]


def stark_rows_of(name):
    """The named changes of the STARK of that name."""
    return {"bits": BITS_ROWS, "mixed": MIXED_ROWS, "hidden_mixed": MIXED_ROWS}.get(name, [])
