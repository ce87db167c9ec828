"""What is passed and answered."""
from __future__ import annotations

from dataclasses import dataclass, field
from typing import Sequence, Tuple

# An element of a field: its canonical number, below the field's order.
Element = int

# An element of a field's extension: the numbers of its coefficients, that of one first.
ExtensionElement = Tuple[int, ...]


@dataclass(frozen=True)
class Field:
    """A prime field that a scheme is over, with the extension that challenges are drawn from and points are of.

    Calls take one as `field`, BabyBear where none is named. A verifier chooses it as it chooses its parameters: no bytes name it.
    """

    name: str
    # how many elements there are
    order: int
    # how many coefficients an element of the extension has
    degree: int
    # cosets have at most `2^two_adicity` points
    two_adicity: int
    # by which the library knows it
    number: int

    @property
    def element_bytes(self) -> int:
        """How many bytes of the flat form an element takes."""
        return 4 if self.order < 2**32 else 8


# The extension is modulo X^4 - 11.
BABY_BEAR = Field("BabyBear", 2**31 - 2**27 + 1, degree=4, two_adicity=27, number=0)

# The extension is modulo X^4 - 3.
KOALA_BEAR = Field("KoalaBear", 2**31 - 2**24 + 1, degree=4, two_adicity=24, number=1)

# The extension is modulo X^2 - 7.
GOLDILOCKS = Field("Goldilocks", 2**64 - 2**32 + 1, degree=2, two_adicity=32, number=2)

# The order of BabyBear.
ORDER = BABY_BEAR.order


@dataclass(frozen=True)
class Parameters:
    """The parameters of the scheme. Logarithms are to the base 2. A verifier has its own: it takes none from a prover."""

    # how many times as long words are as what they encode: from 1 to the field's two-adicity
    log_blowup: int
    # the number of coefficients at which folding ends
    log_final_poly_len: int
    # by how much a round folds at most: above 0
    max_log_arity: int
    # above 0
    num_queries: int
    # the difficulties, at most 63 bits each, of the proofs of work: before the challenge that batches the openings, before
    # each round's challenge, and before the queries' indices
    batch_proof_of_work_bits: int = 0
    commit_proof_of_work_bits: int = 0
    query_proof_of_work_bits: int = 0

    @staticmethod
    def toy(num_queries: int = 1) -> Parameters:
        """Parameters for tests and examples, which give no security: a blowup of 2, folds by two to a constant, one query
        where no other number is named, no proofs of work."""
        return Parameters(log_blowup=1, log_final_poly_len=0, max_log_arity=1, num_queries=num_queries)

    def conjectured_soundness_bits(self) -> int:
        """The bits of soundness by the conjecture of ethSTARK (https://eprint.iacr.org/2021/582): `log_blowup` for each query,
        and the proof of work before the queries. What is proved of FRI gives fewer."""
        return self.log_blowup * self.num_queries + self.query_proof_of_work_bits


@dataclass(frozen=True)
class Domain:
    """A coset of `2^log_size` points: the shift, an element that isn't 0, times each power of the root of unity of that
    order."""

    shift: Element
    log_size: int

    @staticmethod
    def subgroup(log_size: int) -> Domain:
        """The subgroup of `2^log_size` points."""
        return Domain(1, log_size)


@dataclass(frozen=True)
class Matrix:
    """Columns of values on a domain, and the points to open them at, which `commit` doesn't read.

    `values` are `width * 2^log_size` elements row by row: a sequence of numbers, or an array of numpy, flat or with a row for
    each point. Row `i` belongs to the point `shift * w^i`, where `w` is the root of unity.
    """

    domain: Domain
    width: int
    values: Sequence[Element]
    points: Sequence[ExtensionElement] = field(default_factory=list)


@dataclass(frozen=True)
class PointClaims:
    """The values claimed at a point, one for each column."""

    point: ExtensionElement
    values: Sequence[ExtensionElement]


@dataclass(frozen=True)
class MatrixClaims:
    """What is claimed of a matrix. Its width is the number of values at its first point."""

    domain: Domain
    points: Sequence[PointClaims]


@dataclass(frozen=True)
class CommitmentClaims:
    """What is claimed of the matrices under one commitment, a digest of 32 bytes, in the order in which they were committed
    to."""

    commitment: bytes
    matrices: Sequence[MatrixClaims]


@dataclass(frozen=True)
class Opening:
    """What comes of opening matrices: the values by commitment, matrix, point and column; their proof, bytes in the flat form
    of docs/FORMATS.md; and what the challenger draws after it, as a verifier's does."""

    claims: Sequence[CommitmentClaims]
    proof: bytes
    next_challenge: ExtensionElement
