"""A prover that keeps what it committed to."""
from __future__ import annotations

import dataclasses
import threading
import weakref
from typing import List, Sequence

from .errors import Malformed
from .flat import Reader, Writer, compare_sizes
from .library import Handle, answer_of, begin, close
from .scheme import ROOM_FOR_OPENING
from .types import BABY_BEAR, ExtensionElement, Field, Matrix, Opening, Parameters


class Prover:
    """A prover of the plain scheme over a field that keeps what it committed to, so that `open` commits to nothing again.

    It has memory of the library, some `2^log_blowup` times what was committed to, until it is closed: at the end of a `with`,
    by `close`, or once nothing has it any more. Threads may share it, one call at a time.

    A `Transcript` absorbs each commitment once it is made, and draws what depends on it: a challenge before the next one, and
    the points. Its bytes are the context.

    >>> import p3_fri_proved as fri
    >>> parameters = fri.Parameters.toy(num_queries=100)
    >>> transcript = fri.Transcript(b"two columns, version 1")
    >>> with fri.Prover(parameters) as prover:
    ...     transcript.absorb(prover.commit([fri.Matrix(fri.Domain.subgroup(1), 1, [1, 3])]))
    ...     drawn, *_ = transcript.challenge()
    ...     transcript.absorb(prover.commit([fri.Matrix(fri.Domain.subgroup(1), 1, [drawn, 7])]))
    ...     point = transcript.challenge()
    ...     opening = prover.open(transcript.context(), [[[point]], [[point]]])
    >>> fri.verify(parameters, transcript.context(), opening.claims, opening.proof) == opening.next_challenge
    True

    Raises `Malformed` where the parameters are no prover's, and `OutOfMemory`.
    """

    def __init__(self, parameters: Parameters, field: Field = BABY_BEAR) -> None:
        writer = Writer(field)
        writer.parameters(parameters)
        self._field = field
        self._kept: List[List[Matrix]] = []
        self._lock = threading.Lock()
        self._handle = Handle()
        begin(field, writer.bytes(), self._handle)
        self._free = weakref.finalize(self, close, self._handle)

    def __enter__(self) -> Prover:
        return self

    def __exit__(self, *_: object) -> None:
        self.close()

    def close(self) -> None:
        """Gives the memory back. What is asked of the prover after it is `Malformed`."""
        with self._lock:
            self._free()

    def commit(self, matrices: Sequence[Matrix]) -> bytes:
        """Commits to matrices, keeps what opens them, and returns the commitment. Their points aren't read, and what is refused
        isn't kept. Raises as `commit` of the package."""
        with self._lock:
            place = f"commitments[{len(self._kept)}]"
            compare_sizes(matrices, place)
            writer = Writer(self._field)
            writer.batch(matrices, place)
            answer = answer_of(self._handle, "prover_commit", writer.bytes())
            self._kept.append([dataclasses.replace(it, values=(), points=()) for it in matrices])
            return Reader(answer, self._field).digest()

    def open(self, context: bytes, points: Sequence[Sequence[Sequence[ExtensionElement]]]) -> Opening:
        """Opens all that was committed to under a context, by commitment and matrix at the points that are listed: what `open` of
        the package returns of the same matrices with these points.

        What is kept stays as it was, also where it isn't opened.

        Raises as `open` of the package, and `Malformed` where there isn't one list of points for each matrix.
        """
        with self._lock:
            if [len(matrices) for matrices in self._kept] != [len(lists) for lists in points]:
                raise Malformed("Points: expected one list of points for each matrix that was committed to")
            asked = [
                [dataclasses.replace(it, points=at) for it, at in zip(matrices, lists)]
                for matrices, lists in zip(self._kept, points)
            ]
            writer = Writer(self._field)
            writer.asked(context, asked)
            answer = answer_of(self._handle, "prover_open", writer.bytes(), ROOM_FOR_OPENING)
            return Reader(answer, self._field).opening()
