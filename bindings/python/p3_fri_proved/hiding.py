"""The scheme that hides: what is committed to is masked by random columns and rows, so that an opening shows nothing of it beyond
the values that are claimed. That it hides isn't proved; that what is accepted are values of the polynomials committed to, is.

All masks are drawn from the seed of a `Masking`. So it is secret, 32 bytes of a good source that nobody can guess, as
`secrets.token_bytes(32)`, and fresh for each proof. `commit` and `open` of the same matrices take the same seed, and have the
same commitments then: that is one proof. Two openings with one seed of other data, or of the same at other points, show how
their masks belong together, so that what was hidden can be computed from them. Whoever learns the seed can compute it too.

A commitment that comes after a challenge, as one to a quotient, is the last that `commit` answers of all matrices so far, in
order and with the same seed, since masks follow one another. Committed to alone with that seed it would have the masks of the first.

A matrix needs rows enough: with `q` queries and `n` points at least `2 * (q + 4 * n)`, and four random columns. A claim's domain
is the one that was committed to, of twice as many points as the matrix has rows. One commitment may be preprocessed, of public
columns that are the same in each run: it isn't masked, and both sides pass its index.

    >>> import p3_fri_proved as fri
    >>> from p3_fri_proved import hiding
    >>> parameters = fri.Parameters(log_blowup=1, log_final_poly_len=0, max_log_arity=3, num_queries=20)
    >>> column = fri.Matrix(fri.Domain.subgroup(6), width=1, values=range(64), points=[(5, 0, 0, 0)])
    >>> masking = hiding.Masking.random(num_random_codewords=4)
    >>> opening = hiding.open(parameters, b"an example, version 1", masking, [[column]])
    >>> opening.claims[0].matrices[0].domain
    Domain(shift=1, log_size=7)
    >>> verified = hiding.verify(parameters, b"an example, version 1", 4, opening.claims, opening.proof)
    >>> verified == opening.next_challenge
    True
"""
from __future__ import annotations

import dataclasses
import secrets
from dataclasses import dataclass
from typing import List, Optional, Sequence

from .errors import Malformed
from .flat import Reader, Writer
from .library import ROOM_FOR_TEXT, answer_over
from .scheme import ROOM_FOR_OPENING
from .types import BABY_BEAR, CommitmentClaims, ExtensionElement, Field, Matrix, Opening, Parameters

__all__ = ["Masking", "commit", "open", "verify"]


@dataclass(frozen=True)
class Masking:
    """By what a prover hides: the number of random columns by which a matrix is masked, four at least, which the verifier has too,
    and the seed, 32 bytes that are secret and that no other proof had. What it prints doesn't show the seed."""

    num_random_codewords: int
    seed: bytes = dataclasses.field(repr=False)

    @staticmethod
    def random(num_random_codewords: int = 4) -> Masking:
        """With a fresh seed of the system's source."""
        return Masking(num_random_codewords, secrets.token_bytes(32))


def _request(
    parameters: Parameters,
    context: bytes,
    masking: Masking,
    commitments: Sequence[Sequence[Matrix]],
    preprocessed: Optional[int],
    field: Field,
) -> bytes:
    if len(masking.seed) != 32:
        raise Malformed("Seed: expected 32 bytes")
    writer = Writer(field)
    writer.hidden(masking.num_random_codewords, bytes(masking.seed), preprocessed)
    writer.request(parameters, context, commitments)
    return writer.bytes()


def commit(
    parameters: Parameters,
    masking: Masking,
    commitments: Sequence[Sequence[Matrix]],
    preprocessed: Optional[int] = None,
    field: Field = BABY_BEAR,
) -> List[bytes]:
    """Commits to matrices, those of each list under one commitment. The one at the index `preprocessed`, if there is one, isn't
    masked.

    Raises as `commit` of the plain scheme, and `Malformed` by `NoCommitment` where there is no commitment at the index.
    """
    request = _request(parameters, b"", masking, commitments, preprocessed, field)
    reader = Reader(answer_over(field, "hiding_commit", request, max(ROOM_FOR_TEXT, 32 * len(commitments))), field)
    return [reader.digest() for _ in commitments]


def open(
    parameters: Parameters,
    context: bytes,
    masking: Masking,
    commitments: Sequence[Sequence[Matrix]],
    preprocessed: Optional[int] = None,
    field: Field = BABY_BEAR,
) -> Opening:
    """Commits to matrices, those of each list under one commitment, and opens each at its points. The one at the index
    `preprocessed`, if there is one, isn't masked. `verify` accepts what comes of it, with these parameters, this context, this
    number of random columns and this index.

    The context is as of `open` of the plain scheme. Points are drawn after each commitment was absorbed: the commitments are those
    of `commit` with the same seed.

    Raises as `open` of the plain scheme and as `commit`, and `Refused` where the masks can't hide what is opened.
    """
    request = _request(parameters, context, masking, commitments, preprocessed, field)
    return Reader(answer_over(field, "hiding_open", request, ROOM_FOR_OPENING), field).opening(hides=True)


def verify(
    parameters: Parameters,
    context: bytes,
    num_random_codewords: int,
    claims: Sequence[CommitmentClaims],
    proof: bytes,
    preprocessed: Optional[int] = None,
    field: Field = BABY_BEAR,
) -> ExtensionElement:
    """Verifies claims and their proof, and returns what the challenger draws next, which is the `next_challenge` of their opening.

    What is verified is what is passed, and all of it but the proof is absorbed before anything is drawn. The field, the number of
    random columns and the index of the preprocessed commitment are the verifier's own too. It has no seed.

    Raises as `verify` of the plain scheme.
    """
    writer = Writer(field)
    writer.hidden(num_random_codewords, b"", preprocessed)
    writer.statement(parameters, context, claims, proof)
    return Reader(answer_over(field, "hiding_verify", writer.bytes()), field).element()
