"""The four calls."""
from __future__ import annotations

from typing import List, Sequence

from .flat import Reader, Writer
from .library import ROOM_FOR_TEXT, answer_over
from .types import BABY_BEAR, CommitmentClaims, ExtensionElement, Field, Matrix, Opening, Parameters

# What is set aside for an opening: a longer one is made twice.
ROOM_FOR_OPENING = 1 << 24


def commit(
    parameters: Parameters, commitments: Sequence[Sequence[Matrix]], field: Field = BABY_BEAR
) -> List[bytes]:
    """Commits to matrices over a field, those of each list under one commitment.

    >>> import p3_fri_proved as fri
    >>> column = fri.Matrix(fri.Domain.subgroup(1), width=1, values=[1, 3])
    >>> fri.commit(fri.Parameters.toy(), [[column]])[0].hex()
    '2aa419f58ea1802d8a714e88157918d5c64c948cbbf6d57fa86161ecdece7203'

    Raises `Malformed` where a number is no element, or the parameters, a domain or a width has no place in the scheme, and
    `OutOfMemory`.
    """
    writer = Writer(field)
    writer.request(parameters, b"", commitments)
    reader = Reader(answer_over(field, "commit", writer.bytes(), max(ROOM_FOR_TEXT, 32 * len(commitments))), field)
    return [reader.digest() for _ in commitments]


def open(
    parameters: Parameters, context: bytes, commitments: Sequence[Sequence[Matrix]], field: Field = BABY_BEAR
) -> Opening:
    """Commits to matrices, those of each list under one commitment, and opens each at its points. `verify` accepts what comes
    of it, with these parameters, this context and this field.

    The context is what the application absorbed before, as the bytes of a `Transcript`; it may be empty. Points have to be drawn
    after each commitment was absorbed. An opening takes no commitment that was made before: it commits anew, to the same
    digests where parameters and matrices are the same.

    Raises as `commit`, and `Malformed` where a point is no element or a matrix has none, `Refused` with one of the prover's
    refusals, as where a point lies in a matrix's coset of evaluation.
    """
    writer = Writer(field)
    writer.request(parameters, context, commitments)
    return Reader(answer_over(field, "open", writer.bytes(), ROOM_FOR_OPENING), field).opening()


def verify(
    parameters: Parameters,
    context: bytes,
    claims: Sequence[CommitmentClaims],
    proof: bytes,
    field: Field = BABY_BEAR,
) -> ExtensionElement:
    """Verifies claims and their proof, and returns what the challenger draws next, which is the `next_challenge` of their opening.

    What is verified is what is passed, and all of it but the proof is absorbed before anything is drawn. So a verifier passes
    its own parameters and field, the context that it made by itself, and claims with the commitments, the domains and the points
    that it knows.

    Raises `Refused` where the claims aren't accepted, by a refusal that stands of them; `Malformed` where a number is no element
    or the proof isn't in its form; `OutOfMemory`, which says nothing of the claims.
    """
    writer = Writer(field)
    writer.statement(parameters, context, claims, proof)
    return Reader(answer_over(field, "verify", writer.bytes()), field).element()


def challenge(context: bytes, field: Field = BABY_BEAR) -> ExtensionElement:
    """The element of the field's extension that is drawn after a context, of any bytes. It takes time in proportion to them.

    A `Transcript` draws by it, and sees to it that different calls have different bytes. Whoever makes the bytes in another way
    has to see to that.
    """
    return Reader(answer_over(field, "challenge", bytes(context)), field).element()
