"""A STARK's files in JSON, as records: what `docs/FORMATS.md` says of them."""

from dataclasses import dataclass

import air
import field
from air import Air, Assignment, Constraint, Node
from alterations import compact
from documents import (
    DIGEST,
    FAULTS_OF_PROOFS,
    HIDING_PROOF,
    NUMBERS,
    PARAMETERS,
    PROOF,
    Fields,
    Malformed,
    count,
    demand,
    demand_difficulties,
    fault,
    json_value,
    listed,
    optional,
    places,
    record,
    shape,
)
from plain_form import (
    Parameters,
    Reader,
    Refused,
    plain_digests,
    plain_elements,
    plain_from_proof,
)
from stark_relation import Commitments, OpenedValues, Scheme, StarkProof


def pair(plain):
    numbers = NUMBERS(plain)
    shape(len(numbers) == 2)
    return tuple(numbers)


def one(plain):
    return (count(plain),)


NODES = {kind: pair if kind in ("add", "sub", "mul") else one for kind in air.KINDS}


def node(plain):
    """A record of one field: the kind, and what it names."""
    shape(isinstance(plain, Fields) and len(plain) == 1)
    (kind, names), = plain
    shape(kind in NODES)
    return Node(kind, NODES[kind](names))


def rows_name(plain):
    shape(isinstance(plain, str) and plain in air.ROWS)
    return plain


LAYOUT_NAMES = ("width", "preprocessed_width", "num_public_values", "num_periodic_columns")
LAYOUT = record(**{name: count for name in LAYOUT_NAMES})

SYSTEM = record(
    {"num_random_codewords": 0, "preprocessed": [], "periodic": []},
    parameters=PARAMETERS,
    num_random_codewords=count,
    air=record(layout=LAYOUT, nodes=listed(node),
               constraints=listed(record(rows=rows_name, node=count))),
    preprocessed=listed(NUMBERS),
    periodic=listed(NUMBERS),
)

PUBLIC_VALUES = record(public_values=NUMBERS)
TRACE = record(public_values=NUMBERS, trace=listed(NUMBERS))

VALUES = listed(NUMBERS)
OPENED_VALUES = record(
    trace_local=VALUES, trace_next=VALUES, preprocessed_local=VALUES, preprocessed_next=VALUES,
    quotient_chunks=listed(VALUES), random=VALUES)


def proof_shape(hides):
    return record(
        commitments=record(trace=DIGEST, quotient_chunks=DIGEST, random=optional(DIGEST)),
        opened_values=OPENED_VALUES,
        opening_proof=HIDING_PROOF if hides else PROOF,
        log_height=count,
    )


@dataclass
class System:
    """The verifier's own file: all that is believed, beside the public values."""

    scheme: Scheme
    air: Air
    preprocessed: list
    periodic: list

    def given(self, public_values, trace=()):
        return Assignment(list(trace), self.preprocessed, public_values, self.periodic)


def demand_elements(name, numbers, *place):
    for at, number in places(name, numbers, *place):
        demand(number < field.ORDER, "Element", *at)
    return numbers


def demand_rows(name, rows):
    for place, row in places(name, rows):
        demand_elements("number", row, *place)
    return rows


def air_form_fault(system):
    """The first fault of a system's form, or None: of a constant, of what is named, of a degree."""
    for at, each in enumerate(system.nodes):
        if each.kind == "constant" and each.names[0] >= field.ORDER:
            return f"ConstantOutOfRange {{ node: {at} }}"
    malformed = air.air_fault(system)
    if malformed:
        return f"Malformed({malformed})"
    return "DegreeTooLarge" if max(air.degrees(system), default=0) >= 1 << 64 else None


def air_of(plain):
    """The constraint system of a JSON value of the right shape, well formed or not."""
    nodes = []
    for each in plain["nodes"]:
        (kind, names), = each.items()
        nodes.append(Node(kind, tuple(names) if isinstance(names, list) else (names,)))
    constraints = [Constraint(**constraint) for constraint in plain["constraints"]]
    return Air(**plain["layout"], nodes=nodes, constraints=constraints)


def air_from(plain):
    """A well-formed constraint system."""
    constraints = [Constraint(**constraint) for constraint in plain["constraints"]]
    system = Air(**plain["layout"], nodes=plain["nodes"], constraints=constraints)
    malformed = air_form_fault(system)
    if malformed:
        raise Malformed(malformed)
    return system


def system_from(text, hides):
    plain = SYSTEM(json_value(text))
    parameters = Parameters(**plain["parameters"])
    demand(parameters.log_final_height < 64, "LogFinalPolyLen")
    demand_difficulties(parameters)
    return System(
        Scheme(parameters, plain["num_random_codewords"] if hides else None),
        air_from(plain["air"]),
        demand_rows("preprocessed row", plain["preprocessed"]),
        demand_rows("periodic column", plain["periodic"]),
    )


def provable_system_from(text, hides):
    """The same, with parameters by which a prover can commit and fold."""
    system = system_from(text, hides)
    parameters = system.scheme.parameters
    demand(1 <= parameters.log_blowup <= field.TWO_ADICITY, "LogBlowup")
    demand(parameters.max_log_arity > 0, "MaxLogArity")
    demand(parameters.num_queries > 0, "NumQueries")
    return system


def public_values_from(text):
    plain = PUBLIC_VALUES(json_value(text))
    return demand_elements("public value", plain["public_values"])


def trace_from(text):
    """Public values and the trace."""
    plain = TRACE(json_value(text))
    return (demand_elements("public value", plain["public_values"]),
            demand_rows("row", plain["trace"]))


def stark_proof_from(text, hides):
    try:
        return stark_proof_of(proof_shape(hides)(json_value(text)), hides)
    except Refused as refused:
        raise fault(FAULTS_OF_PROOFS[min(refused.faults)], "proof") from None


def stark_proof_of(plain, hides):
    """The proof of a JSON value of the right shape, else `Refused`."""
    reader = Reader()
    commitments = {name: optional(reader.digest)(digest)
                   for name, digest in plain["commitments"].items()}
    opened = {name: [reader.element(value) for value in values]
              for name, values in plain["opened_values"].items() if name != "quotient_chunks"}
    chunks = [[reader.element(value) for value in values]
              for values in plain["opened_values"]["quotient_chunks"]]
    opening = plain["opening_proof"]
    random_values = reader.random_values(opening["random_values"]) if hides else None
    proof = reader.proof(opening["proof"] if hides else opening)
    if reader.faults:
        raise Refused(reader.faults)
    return StarkProof(Commitments(**commitments), OpenedValues(quotient_chunks=chunks, **opened),
                      proof, plain["log_height"], random_values)


def plain_node(each):
    return {each.kind: list(each.names) if len(each.names) == 2 else each.names[0]}


def plain_system(scheme, system, given):
    """What the file AIR has."""
    layout = {name: getattr(system, name) for name in LAYOUT_NAMES}
    return {
        "parameters": vars(scheme.parameters),
        "num_random_codewords": scheme.num_random_codewords or 0,
        "air": {
            "layout": layout,
            "nodes": [plain_node(each) for each in system.nodes],
            "constraints": [vars(constraint) for constraint in system.constraints],
        },
        "preprocessed": given.preprocessed,
        "periodic": given.periodic,
    }


def plain_opening(proof):
    opening = plain_from_proof(proof.opening_proof)
    if proof.random_values is None:
        return opening
    random_values = [[[plain_elements(point) for point in matrix] for matrix in claim]
                     for claim in proof.random_values]
    return {"random_values": random_values, "proof": opening}


def plain_stark_proof(proof):
    commitments = proof.commitments
    opened = proof.opened_values
    trace, chunks = plain_digests([commitments.trace, commitments.quotient_chunks])
    return {
        "commitments": {
            "trace": trace,
            "quotient_chunks": chunks,
            "random": optional(list)(commitments.random),
        },
        "opened_values": {
            name: [plain_elements(values) for values in getattr(opened, name)]
            if name == "quotient_chunks" else plain_elements(getattr(opened, name))
            for name in OpenedValues.__dataclass_fields__
        },
        "opening_proof": plain_opening(proof),
        "log_height": proof.log_height,
    }


def stark_proof_text(proof):
    """A proof on one line."""
    return compact(plain_stark_proof(proof))
