"""The flat form of docs/FORMATS.md: a number is four bytes, the lowest first, a digest 32, an element what its field needs."""
from __future__ import annotations

import struct
import sys
from array import array
from typing import Callable, List, Optional, Sequence, TypeVar

from .errors import Error, Malformed
from .types import (
    CommitmentClaims,
    Domain,
    Element,
    ExtensionElement,
    Field,
    Matrix,
    MatrixClaims,
    Opening,
    Parameters,
    PointClaims,
)

T = TypeVar("T")

NUMBERS_OF_PARAMETERS = (
    "log_blowup",
    "log_final_poly_len",
    "max_log_arity",
    "num_queries",
    "batch_proof_of_work_bits",
    "commit_proof_of_work_bits",
    "query_proof_of_work_bits",
)


# The number that stands for no index.
NO_INDEX = 2**32 - 1


def no_number(place: str, size: int = 4) -> Malformed:
    return Malformed(f"NoForm: {place}: expected a number from 0 to {256**size - 1}")


def bytes_of(numbers: Sequence[int], place: str, size: int = 4) -> bytes:
    """The numbers' bytes, so many each. An array of numpy is told by its methods, so that numpy needn't be there."""
    if hasattr(numbers, "astype") and hasattr(numbers, "tobytes"):
        most = int(numbers.max()) if numbers.size else 0
        if numbers.dtype.kind not in "iu" or (numbers.size and not 0 <= int(numbers.min()) <= most < 256**size):
            raise no_number(place, size)
        return numbers.astype(f"<u{size}").tobytes()
    try:
        held = array("I" if size == 4 else "Q", numbers)
    except (OverflowError, TypeError):
        raise no_number(place, size) from None
    if held.itemsize != size:
        return struct.pack(f"<{len(held)}{'I' if size == 4 else 'Q'}", *held)
    if sys.byteorder == "big":
        held.byteswap()
    return held.tobytes()


def coefficients(points: Sequence[ExtensionElement], field: Field, place: str) -> List[int]:
    """The coefficients of elements of the extension, one after another."""
    if any(len(point) != field.degree for point in points):
        raise Malformed(f"ExtensionElement: {place}: expected {field.degree} numbers")
    return [int(number) for point in points for number in point]


def number_of_values(values: Sequence[int]) -> int:
    return values.size if hasattr(values, "astype") else len(values)


def compare_sizes(matrices: Sequence[Matrix], place: str) -> None:
    """That each matrix under a commitment has as many values as its size says: the form takes their number from there."""
    for matrix, it in enumerate(matrices):
        if number_of_values(it.values) != it.width << min(it.domain.log_size, 64):
            raise Malformed(
                f"Values: {place}.matrices[{matrix}].values: expected as many values as the domain has points, times the width"
            )


class Writer:
    """Bytes that grow at their end."""

    def __init__(self, field: Field) -> None:
        self.field = field
        self.parts: List[bytes] = []

    def bytes(self) -> bytes:
        return b"".join(self.parts)

    def numbers(self, numbers: Sequence[int], place: str) -> None:
        self.parts.append(bytes_of(numbers, place))

    def elements(self, elements: Sequence[Element], place: str) -> None:
        self.parts.append(bytes_of(elements, place, self.field.element_bytes))

    def extension_elements(self, points: Sequence[ExtensionElement], place: str) -> None:
        self.elements(coefficients(points, self.field, place), place)

    def parameters(self, parameters: Parameters) -> None:
        self.numbers([getattr(parameters, name) for name in NUMBERS_OF_PARAMETERS], "parameters")

    def context(self, context: bytes) -> None:
        self.numbers([len(context)], "context")
        self.parts.append(bytes(context))

    def hidden(self, num_random_codewords: int, seed: bytes, preprocessed: Optional[int]) -> None:
        """By what a request is hidden, which stands before it, and without a seed by what a statement is."""
        self.numbers([num_random_codewords], "num_random_codewords")
        self.parts.append(seed)
        if preprocessed is None:
            self.numbers([NO_INDEX], "preprocessed")
        elif preprocessed == NO_INDEX:
            raise no_number("preprocessed")
        else:
            self.numbers([preprocessed], "preprocessed")

    def matrix(self, matrix: Matrix, place: str) -> None:
        """A matrix, whose values may be left out where they are kept."""
        self.elements([matrix.domain.shift], place)
        self.numbers([matrix.domain.log_size, matrix.width, len(matrix.points)], place)
        self.elements(matrix.values, place)
        self.extension_elements(matrix.points, place)

    def batch(self, matrices: Sequence[Matrix], place: str) -> None:
        """The matrices under one commitment."""
        self.numbers([len(matrices)], f"{place}.matrices")
        for matrix, it in enumerate(matrices):
            self.matrix(it, f"{place}.matrices[{matrix}]")

    def batches(self, commitments: Sequence[Sequence[Matrix]]) -> None:
        self.numbers([len(commitments)], "commitments")
        for commitment, matrices in enumerate(commitments):
            self.batch(matrices, f"commitments[{commitment}]")

    def request(self, parameters: Parameters, context: bytes, commitments: Sequence[Sequence[Matrix]]) -> None:
        for commitment, matrices in enumerate(commitments):
            compare_sizes(matrices, f"commitments[{commitment}]")
        self.context(context)
        self.parameters(parameters)
        self.batches(commitments)

    def asked(self, context: bytes, commitments: Sequence[Sequence[Matrix]]) -> None:
        """Under which context and at which points what is kept is opened: its values aren't there."""
        self.context(context)
        self.batches(commitments)

    def matrix_claims(self, claims: MatrixClaims, place: str) -> None:
        self.elements([claims.domain.shift], place)
        self.numbers([claims.domain.log_size, len(claims.points)], place)
        for at in claims.points:
            self.extension_elements([at.point], place)
            self.numbers([len(at.values)], place)
            self.extension_elements(at.values, place)

    def statement(
        self, parameters: Parameters, context: bytes, claims: Sequence[CommitmentClaims], proof: bytes
    ) -> None:
        self.context(context)
        self.parameters(parameters)
        self.numbers([len(claims)], "claims")
        for commitment, it in enumerate(claims):
            if len(it.commitment) != 32:
                raise Malformed(f"Digest: claims[{commitment}].commitment: expected 32 bytes")
            self.parts.append(bytes(it.commitment))
            self.numbers([len(it.matrices)], f"claims[{commitment}].matrices")
            for matrix, of_matrix in enumerate(it.matrices):
                self.matrix_claims(of_matrix, f"claims[{commitment}].matrices[{matrix}]")
        self.parts.append(bytes(proof))


class Reader:
    """An answer's bytes, read from the front."""

    def __init__(self, answer: bytes, field: Field) -> None:
        self.answer = answer
        self.field = field
        self.at = 0

    def take(self, count: int) -> bytes:
        taken = self.answer[self.at : self.at + count]
        if len(taken) != count:
            raise Error("Answer: the library's answer isn't in its form")
        self.at += count
        return taken

    def number(self) -> int:
        return struct.unpack("<I", self.take(4))[0]

    def digest(self) -> bytes:
        return self.take(32)

    def elements(self, count: int) -> ExtensionElement:
        size = self.field.element_bytes
        return struct.unpack(f"<{count}{'I' if size == 4 else 'Q'}", self.take(count * size))

    def element(self) -> ExtensionElement:
        """An element of the extension."""
        return self.elements(self.field.degree)

    def counted(self, item: Callable[[], T]) -> List[T]:
        return [item() for _ in range(self.number())]

    def point_claims(self) -> PointClaims:
        point = self.element()
        return PointClaims(point, self.counted(self.element))

    def matrix_claims(self) -> MatrixClaims:
        domain = Domain(self.elements(1)[0], self.number())
        return MatrixClaims(domain, self.counted(self.point_claims))

    def commitment_claims(self) -> CommitmentClaims:
        commitment = self.digest()
        return CommitmentClaims(commitment, self.counted(self.matrix_claims))

    def opening(self, hides: bool = False) -> Opening:
        """What `open` answers. Context and parameters, and by what is hidden, are those that were passed."""
        next_challenge = self.element()
        if hides:
            self.take(8)
        self.take(self.number())
        self.take(4 * len(NUMBERS_OF_PARAMETERS))
        claims = self.counted(self.commitment_claims)
        return Opening(claims, self.answer[self.at :], next_challenge)
