"""Requests, statements and answers in JSON, as records: what `docs/FORMATS.md` says of them.

What isn't of the form is `Malformed`, with the name of the fault and its place.
"""

import json
import re
from dataclasses import dataclass

import field
from alterations import compact
from plain_form import (
    Claim,
    MatrixClaim,
    Parameters,
    PointClaim,
    Refused,
    plain_elements,
    plain_from_proof,
    proof_from_plain,
)
from relation import Hiding

GREATEST_DIFFICULTY = 63

EXPECTED = {
    "LogBlowup": "log_blowup from 1 to {two_adicity}",
    "LogFinalPolyLen": "log_blowup and log_final_poly_len below 64 together",
    "MaxLogArity": "max_log_arity above 0",
    "NumQueries": "num_queries above 0",
    "ProofOfWorkBits": "proofs of work of at most 63 bits",
    "Matrices": "some matrix",
    "LogSize": "a log_size up to {two_adicity}, with log_blowup where it is committed to",
    "Shift": "a shift from 1 to {greatest}",
    "Width": "a width above 0",
    "Values": "as many values as the domain has points, times the width",
    "Points": "some point",
    "Element": "a number below {order}",
    "ExtensionElement": "{degree} numbers below {order}",
    "Commitment": "64 hex digits",
    "Digest": "digests of 32 bytes",
    "Context": "an even number of hex digits",
    "Seed": "64 hex digits",
    "Preprocessed": "at most one preprocessed commitment",
}

FAULTS_OF_PROOFS = {
    "ElementOutOfRange": "Element", "ElementLength": "ExtensionElement", "DigestLength": "Digest",
}


class Malformed(Exception):
    """A text that isn't of the form."""


def expected(name):
    """What stands in the place of a fault, over the field."""
    return EXPECTED[name].format(
        order=field.ORDER, greatest=field.ORDER - 1, two_adicity=field.TWO_ADICITY,
        degree={2: "two", 4: "four"}[field.DEGREE])


def fault(name, *place):
    """The fault at this place, each level of which is a text such as `commitment 0`."""
    return Malformed(f"{name}: " + "".join(f"{level}, " for level in place)
                     + f"expected {expected(name)}")


def demand(condition, name, *place):
    if not condition:
        raise fault(name, *place)


# JSON values of a known shape


class Fields(list):
    """A JSON object: its names and values in order, doubled ones too."""


NO_COUNT = object()


def whole(token):
    """A number without a sign that fits into 64 bits; else nothing that a field may hold."""
    if token.startswith("-") or len(token) > 20 or int(token) >= 1 << 64:
        return NO_COUNT
    return int(token)


def no_value(token):
    raise Malformed(f"Json: {token} is no value")


def json_value(text):
    try:
        return json.loads(text, object_pairs_hook=Fields, parse_int=whole,
                          parse_float=lambda _: NO_COUNT, parse_constant=no_value)
    except json.JSONDecodeError as error:
        raise Malformed(f"Json: {error.msg} at line {error.lineno} column {error.colno}") from None
    except RecursionError:
        raise Malformed("Json: nested too deeply") from None


def shape(condition):
    if not condition:
        raise Malformed("Json: invalid type")


def count(plain):
    shape(type(plain) is int)
    return plain


def byte(plain):
    shape(type(plain) is int and plain < 256)
    return plain


def text_value(plain):
    shape(isinstance(plain, str))
    return plain


def listed(entry):
    def read(plain):
        shape(isinstance(plain, list) and not isinstance(plain, Fields))
        return [entry(value) for value in plain]
    return read


def flag(plain):
    shape(isinstance(plain, bool))
    return plain


def field_name(plain):
    shape(text_value(plain) in field.FIELDS)
    return plain


def optional(entry):
    """The same of what there may be."""
    return lambda plain: None if plain is None else entry(plain)


def record(defaults=(), **entries):
    """Fields in any order; unknown ones are passed over, doubled and missing ones refused."""
    def read(plain):
        shape(isinstance(plain, Fields))
        found = {}
        for name, value in plain:
            if name in found:
                raise Malformed(f"Json: duplicate field `{name}`")
            if name in entries:
                found[name] = entries[name](value)
        for name in entries:
            if name not in found and name not in dict(defaults):
                raise Malformed(f"Json: missing field `{name}`")
        return dict(defaults) | found
    return read


NUMBERS = listed(count)
DIGEST = listed(byte)
PATHS = listed(listed(DIGEST))
DOMAIN = record(shift=count, log_size=count)
PARAMETERS = record(**{name: count for name in Parameters.__dataclass_fields__})

PROOF = record(
    batch_pow_witness=count,
    commit_phase_commits=listed(DIGEST),
    commit_pow_witnesses=NUMBERS,
    input_openings=listed(record(opened_values=listed(listed(NUMBERS)), paths=PATHS)),
    commit_phase_openings=listed(record(sibling_values=listed(listed(NUMBERS)), paths=PATHS)),
    final_poly=listed(NUMBERS),
    query_pow_witness=count,
)

HIDING_PROOF = record(random_values=listed(listed(listed(listed(NUMBERS)))), proof=PROOF)

REQUEST = record(
    {"field": "BabyBear", "context": "", "hiding": None},
    field=field_name,
    context=text_value,
    parameters=PARAMETERS,
    hiding=optional(record(num_random_codewords=count, seed=text_value)),
    commitments=listed(record({"preprocessed": False}, preprocessed=flag, matrices=listed(record(
        domain=DOMAIN, width=count, values=NUMBERS, points=listed(NUMBERS))))),
)

# a statement's fields but its proof, which is read by the scheme
HEAD = {
    "field": field_name,
    "context": text_value,
    "parameters": PARAMETERS,
    "hiding": optional(record({"preprocessing": None}, num_random_codewords=count,
                              preprocessing=optional(count))),
    "claims": listed(record(commitment=text_value, matrices=listed(record(
        domain=DOMAIN, points=listed(record(point=NUMBERS, values=listed(NUMBERS))))))),
}


def statement_shape(hides):
    return record({"field": "BabyBear", "context": "", "hiding": None}, **HEAD, proof=HIDING_PROOF if hides else PROOF)


# Their records


@dataclass
class RequestedMatrix:
    log_size: int
    shift: int
    rows: list
    points: list


@dataclass
class Masking:
    """By what the hiding scheme hides: how many random columns, and the seed of their values."""

    num_random_codewords: int
    seed: bytes


@dataclass
class Request:
    """What is to be committed to and opened; matrices nest by commitment."""

    context: bytes
    parameters: Parameters
    commitments: list
    masking: Masking = None
    preprocessing: int = None


@dataclass
class Statement:
    context: bytes
    parameters: Parameters
    claims: list
    proof: object
    hiding: Hiding = None


def hex_bytes(text, name, *place):
    demand(re.fullmatch("([0-9a-fA-F]{2})*", text), name, *place)
    return bytes.fromhex(text)


def digest(text, *place):
    demand(len(text) == 64, "Commitment", *place)
    return hex_bytes(text, "Commitment", *place)


def extension_element(numbers, *place):
    demand(len(numbers) == field.DEGREE, "ExtensionElement", *place)
    demand(all(number < field.ORDER for number in numbers), "Element", *place)
    return tuple(numbers)


def demand_domain(domain, most, *place):
    demand(domain["log_size"] <= most, "LogSize", *place)
    demand(0 < domain["shift"] < field.ORDER, "Shift", *place)


def demand_difficulties(parameters):
    demand(max(parameters.batch_proof_of_work_bits, parameters.commit_proof_of_work_bits,
               parameters.query_proof_of_work_bits) <= GREATEST_DIFFICULTY, "ProofOfWorkBits")


def places(name, plain, *outer):
    """Each entry of a list with its place."""
    return [((*outer, f"{name} {index}"), entry) for index, entry in enumerate(plain)]


def claims_from(plain):
    return [
        Claim(digest(claim["commitment"], *place), [
            matrix_claim(matrix, *at) for at, matrix in places("matrix", claim["matrices"], *place)
        ])
        for place, claim in places("commitment", plain)
    ]


def matrix_claim(plain, *place):
    demand_domain(plain["domain"], field.TWO_ADICITY, *place)
    points = [
        PointClaim(extension_element(claimed["point"], *at),
                   [extension_element(value, *there)
                    for there, value in places("number", claimed["values"], *at)])
        for at, claimed in places("point", plain["points"], *place)
    ]
    return MatrixClaim(plain["domain"]["log_size"], plain["domain"]["shift"], points)


def hides(value):
    """Whether a JSON value is of the hiding scheme."""
    return isinstance(value, Fields) and dict(value).get("hiding") is not None


def hiding_proof(plain, hiding):
    """A proof and what hides, if something does."""
    try:
        if hiding is None:
            return proof_from_plain(plain)[0], None
        proof, random_values = proof_from_plain(plain["proof"], plain["random_values"])
    except Refused as refused:
        raise fault(FAULTS_OF_PROOFS[min(refused.faults)], "proof") from None
    return proof, Hiding(hiding["num_random_codewords"], random_values, hiding["preprocessing"])


def statement_from(text):
    value = json_value(text)
    plain = statement_shape(hides(value))(value)
    field.use(plain["field"])
    context = hex_bytes(plain["context"], "Context")
    proof, hiding = hiding_proof(plain["proof"], plain["hiding"])
    parameters = Parameters(**plain["parameters"])
    demand(parameters.log_final_height < 64, "LogFinalPolyLen")
    demand_difficulties(parameters)
    return Statement(context, parameters, claims_from(plain["claims"]), proof, hiding)


def masking_from(plain):
    if plain is None:
        return None
    demand(len(plain["seed"]) == 64, "Seed")
    return Masking(plain["num_random_codewords"], hex_bytes(plain["seed"], "Seed"))


def requested_matrix(plain, most, *place):
    demand_domain(plain["domain"], most, *place)
    width, values, height = plain["width"], plain["values"], 1 << plain["domain"]["log_size"]
    demand(width > 0, "Width", *place)
    demand(len(values) == width * height, "Values", *place)
    for at, value in places("number", values, *place):
        demand(value < field.ORDER, "Element", *at)
    demand(plain["points"], "Points", *place)
    points = [extension_element(point, *at)
              for at, point in places("point", plain["points"], *place)]
    rows = [values[start:start + width] for start in range(0, len(values), width)]
    return RequestedMatrix(plain["domain"]["log_size"], plain["domain"]["shift"], rows, points)


def request_from(text):
    plain = REQUEST(json_value(text))
    field.use(plain["field"])
    context = hex_bytes(plain["context"], "Context")
    parameters = Parameters(**plain["parameters"])
    demand(1 <= parameters.log_blowup <= field.TWO_ADICITY, "LogBlowup")
    demand(parameters.max_log_arity > 0, "MaxLogArity")
    demand(parameters.num_queries > 0, "NumQueries")
    demand_difficulties(parameters)
    masking = masking_from(plain["hiding"])
    preprocessed = [index for index, batch in enumerate(plain["commitments"])
                    if batch["preprocessed"]]
    demand(len(preprocessed) < 2, "Preprocessed")
    most = field.TWO_ADICITY - parameters.log_blowup - (masking is not None)
    commitments = [
        [requested_matrix(matrix, most, *at)
         for at, matrix in places("matrix", batch["matrices"], *place)]
        for place, batch in places("commitment", plain["commitments"])
    ]
    demand(any(commitments), "Matrices")
    return Request(context, parameters, commitments, masking, next(iter(preprocessed), None))


def plain_claims(claims):
    """Claims as they stand in a statement."""
    return [
        {
            "commitment": claim.commitment.hex(),
            "matrices": [
                {
                    "domain": {"shift": matrix.shift, "log_size": matrix.log_size},
                    "points": [
                        {"point": list(claimed.point), "values": plain_elements(claimed.values)}
                        for claimed in matrix.points
                    ],
                }
                for matrix in claim.matrices
            ],
        }
        for claim in claims
    ]


def plain_random_values(random_values):
    return [[[plain_elements(values) for values in points] for points in matrices]
            for matrices in random_values]


def plain_statement(statement):
    over = {} if field.NAME == "BabyBear" else {"field": field.NAME}
    head = over | {"context": statement.context.hex(), "parameters": vars(statement.parameters)}
    claims, proof = plain_claims(statement.claims), plain_from_proof(statement.proof)
    hiding = statement.hiding
    if hiding is None:
        return head | {"claims": claims, "proof": proof}
    return head | {
        "hiding": {
            "num_random_codewords": hiding.num_random_codewords,
            "preprocessing": hiding.preprocessing,
        },
        "claims": claims,
        "proof": {"random_values": plain_random_values(hiding.random_values), "proof": proof},
    }


def statement_text(statement):
    """A statement on one line."""
    return compact(plain_statement(statement))


def answer_text(statement, next_challenge):
    """A statement with what is drawn after its proof, on one line."""
    return compact(plain_statement(statement) | {"next_challenge": list(next_challenge)})
