"""Prints what comes of the cases of `crates/p3_uni_stark_prover_tests`, in the words of its tables.

    python3 tools/relation/stark_cases.py

Each line has the system, the height, what is changed, and what comes of it in the plain scheme and
in the hiding one. Of a proof that is accepted the next 63 bits that the challenger draws are told:
they depend on all that was absorbed, so on commitments, opened values and the final polynomial.
"""

from dataclasses import dataclass

import air
import field
import stark_prover
from chacha import Generator
from challenger import GREATEST_WIDTH, Challenger
from plain_form import Parameters
from stark_relation import Scheme, stark_verdict
from starks import (
    CUBES,
    FIBONACCI,
    NO_CONSTRAINTS,
    POWERS,
    RANGE_CHECK,
    cubes,
    fibonacci,
    powers,
    range_check,
    unconstrained,
)

PARAMETERS = Parameters(1, 0, 2, 2, 1, 1, 2)
SCHEMES = (Scheme(PARAMETERS), Scheme(PARAMETERS, 4))
SEED = bytes([8] * 32)

SYSTEMS = {
    "Fibonacci": (FIBONACCI, fibonacci),
    "RangeCheck": (RANGE_CHECK, range_check),
    "Cubes": (CUBES, cubes),
    "Powers": (POWERS, powers),
    "Empty": (NO_CONSTRAINTS, unconstrained),
}


@dataclass(frozen=True)
class Change:
    """What is changed, by one, and where."""

    kind: str = "Nothing"
    place: tuple = ()

    def __str__(self):
        return f"{self.kind}({', '.join(map(str, self.place))})" if self.place else self.kind

    def change_given(self, given):
        """Of what the prover is given."""
        if self.kind == "Entry":
            row, column = self.place
            given.trace[row][column] += 1
        if self.kind == "Period":
            for column in given.periodic:
                column.append(1)

    def change_shown(self, statement, proof):
        """Of what the verifier is given."""
        if self.kind == "PublicValue":
            statement.public_values[self.place[0]] += 1
        if self.kind == "OpenedValue":
            values = proof.opened_values.trace_local
            values[0] = field.add(values[0], field.ONE)


HEIGHT = 32

CASES = [
    *((system, HEIGHT, Change()) for system in SYSTEMS),
    ("Empty", 1, Change()),
    ("RangeCheck", 1, Change()),
    ("Fibonacci", 2, Change()),
    ("RangeCheck", 8, Change()),
    ("Fibonacci", 16, Change()),
    ("Empty", 0, Change()),
    ("Fibonacci", 3, Change()),
    ("Fibonacci", HEIGHT, Change("Entry", (7, 0))),
    ("RangeCheck", HEIGHT, Change("Entry", (31, 2))),
    ("Cubes", HEIGHT, Change("Entry", (0, 0))),
    ("Powers", HEIGHT, Change("Entry", (31, 0))),
    ("Cubes", HEIGHT, Change("Period")),
    ("Fibonacci", HEIGHT, Change("PublicValue", (2,))),
    ("Cubes", HEIGHT, Change("PublicValue", (1,))),
    ("RangeCheck", HEIGHT, Change("OpenedValue")),
]


def refused_for(faults, reason):
    """Whether this reason is a true one, alone or with what is found where."""
    return any(fault == reason or fault.startswith(f"{reason}(") for fault in faults)


def unhidden(height):
    """Where a prover stops that has too few rows to hide: at the trace's commitment, where they
    can't hide one opening, or where it is opened at two points. The masks are as high as the trace.
    """
    one_opening = 2 * (PARAMETERS.num_queries + field.DEGREE)
    return "NotCommitted" if height < one_opening else "NotOpened"


def outcome(scheme, name, height, change):
    system, trace = SYSTEMS[name]
    if height == 0 or height & (height - 1):
        return "NoRoom"
    given = trace(height)
    change.change_given(given)
    if air.period_fault(given.periodic, height):
        return "NotPeriodic"
    unsatisfied = air.trace_fault(system, given)
    prover = Challenger()
    statement, proof = stark_prover.prove(scheme, system, given, prover, Generator(SEED))
    change.change_shown(statement, proof)
    found = stark_verdict(scheme, statement, proof, Challenger())
    if not found.faults:
        assert unsatisfied is None and found.challenger.state == prover.state
        return f"Accepted({prover.draw_bits(GREATEST_WIDTH):#x})"
    if unsatisfied:
        assert found.faults == {"OodEvaluationMismatch"}
        return unsatisfied
    assert refused_for(found.faults, "InvalidOpeningArgument")
    return "OpeningRefused" if change.kind != "Nothing" else unhidden(height)


if __name__ == "__main__":
    for name, height, change in CASES:
        print(name, height, change, *(outcome(scheme, name, height, change) for scheme in SCHEMES),
              sep=", ")
