"""Openings as plain numbers and lists, as they stand in JSON, and as records.

An opening is what a verifier is asked about: parameters, claims, a proof and, of the hiding scheme,
random values and which commitment is preprocessing.
"""

from dataclasses import dataclass

import field


@dataclass
class Parameters:
    log_blowup: int
    log_final_poly_len: int
    max_log_arity: int
    num_queries: int
    batch_proof_of_work_bits: int = 0
    commit_proof_of_work_bits: int = 0
    query_proof_of_work_bits: int = 0

    @property
    def log_final_height(self):
        return self.log_blowup + self.log_final_poly_len


@dataclass
class PointClaim:
    point: tuple
    values: list


@dataclass
class MatrixClaim:
    log_size: int
    shift: int
    points: list

    @property
    def width(self):
        return len(self.points[0].values)


@dataclass
class Claim:
    commitment: bytes
    matrices: list


@dataclass
class InputOpening:
    opened_values: list
    paths: list


@dataclass
class RoundOpening:
    sibling_values: list
    paths: list


@dataclass
class Proof:
    batch_pow_witness: int
    commit_phase_commits: list
    commit_pow_witnesses: list
    input_openings: list
    commit_phase_openings: list
    final_poly: list
    query_pow_witness: int


class Refused(Exception):
    """Plain numbers that are no proof; `faults` names all that stand."""

    def __init__(self, faults):
        super().__init__(", ".join(sorted(faults)))
        self.faults = faults


class Reader:
    """Reads the parts of a plain proof and remembers what is wrong with any of them."""

    def __init__(self):
        self.faults = set()

    def number(self, plain):
        if plain >= field.ORDER:
            self.faults.add("ElementOutOfRange")
        return plain

    def element(self, plain):
        if len(plain) != field.DEGREE:
            self.faults.add("ElementLength")
        return tuple(self.number(coefficient) for coefficient in plain)

    def digest(self, plain):
        if len(plain) != 32:
            self.faults.add("DigestLength")
        return bytes(plain)

    def paths(self, plain):
        return [[self.digest(digest) for digest in path] for path in plain]

    def input_opening(self, plain):
        values = [
            [[self.number(entry) for entry in row] for row in rows]
            for rows in plain["opened_values"]
        ]
        return InputOpening(values, self.paths(plain["paths"]))

    def round_opening(self, plain):
        values = [[self.element(value) for value in row] for row in plain["sibling_values"]]
        return RoundOpening(values, self.paths(plain["paths"]))

    def random_values(self, plain):
        return [
            [[[self.element(value) for value in point] for point in matrix] for matrix in claim]
            for claim in plain
        ]

    def proof(self, plain):
        return Proof(
            self.number(plain["batch_pow_witness"]),
            [self.digest(digest) for digest in plain["commit_phase_commits"]],
            [self.number(witness) for witness in plain["commit_pow_witnesses"]],
            [self.input_opening(opening) for opening in plain["input_openings"]],
            [self.round_opening(opening) for opening in plain["commit_phase_openings"]],
            [self.element(coefficient) for coefficient in plain["final_poly"]],
            self.number(plain["query_pow_witness"]),
        )


def proof_from_plain(plain, random_values=()):
    """The proof, and the random values beside it."""
    reader = Reader()
    proof, values = reader.proof(plain), reader.random_values(random_values)
    if reader.faults:
        raise Refused(reader.faults)
    return proof, values


def plain_digests(digests):
    return [list(digest) for digest in digests]


def plain_elements(elements):
    return [list(element) for element in elements]


def plain_from_proof(proof):
    return {
        "batch_pow_witness": proof.batch_pow_witness,
        "commit_phase_commits": plain_digests(proof.commit_phase_commits),
        "commit_pow_witnesses": proof.commit_pow_witnesses,
        "input_openings": [
            {
                "opened_values": [[list(row) for row in rows] for rows in opening.opened_values],
                "paths": [plain_digests(path) for path in opening.paths],
            }
            for opening in proof.input_openings
        ],
        "commit_phase_openings": [
            {
                "sibling_values": [plain_elements(row) for row in opening.sibling_values],
                "paths": [plain_digests(path) for path in opening.paths],
            }
            for opening in proof.commit_phase_openings
        ],
        "final_poly": plain_elements(proof.final_poly),
        "query_pow_witness": proof.query_pow_witness,
    }


def claims_from_plain(plain):
    return [
        Claim(
            bytes(claim["commitment"]),
            [
                MatrixClaim(
                    matrix["log_size"],
                    matrix["shift"],
                    [
                        PointClaim(tuple(point["point"]), [tuple(v) for v in point["values"]])
                        for point in matrix["points"]
                    ],
                )
                for matrix in claim["matrices"]
            ],
        )
        for claim in plain
    ]


def plain_from_claims(claims):
    return [
        {
            "commitment": list(claim.commitment),
            "matrices": [
                {
                    "log_size": matrix.log_size,
                    "shift": matrix.shift,
                    "points": [
                        {"point": list(point.point), "values": plain_elements(point.values)}
                        for point in matrix.points
                    ],
                }
                for matrix in claim.matrices
            ],
        }
        for claim in claims
    ]
