"""A STARK: proofs that there is a trace, a table of elements, which satisfies a constraint system.

Systems, traces and public values are the records of docs/FORMATS.md, "A STARK's files", as `json.load` reads them. A proof is a
text in JSON. A column of Fibonacci numbers and one of their successors, whose first row and last entry are public:

    >>> from p3_fri_proved import stark
    >>> nodes = [{"local": 0}, {"local": 1}, {"next": 0}, {"next": 1}, {"public": 0}, {"public": 1}, {"public": 2}]
    >>> nodes += [{"sub": [0, 4]}, {"sub": [1, 5]}, {"sub": [2, 1]}, {"add": [0, 1]}, {"sub": [3, 10]}, {"sub": [1, 6]}]
    >>> zero = [("first", 7), ("first", 8), ("transition", 9), ("transition", 11), ("last", 12)]
    >>> system = {
    ...     "parameters": {
    ...         "log_blowup": 1, "log_final_poly_len": 0, "max_log_arity": 1, "num_queries": 100,
    ...         "batch_proof_of_work_bits": 0, "commit_proof_of_work_bits": 0, "query_proof_of_work_bits": 0,
    ...     },
    ...     "air": {
    ...         "layout": {"width": 2, "preprocessed_width": 0, "num_public_values": 3, "num_periodic_columns": 0},
    ...         "nodes": nodes,
    ...         "constraints": [{"rows": rows, "node": node} for rows, node in zero],
    ...     },
    ... }
    >>> proof = stark.prove(system, [[0, 1], [1, 1], [1, 2], [2, 3]], [0, 1, 3])
    >>> stark.verify(system, [0, 1, 3], proof)
    2

That `verify` accepts means, but for an error that the system's parameters bound, that there is a trace of `2^k` rows, where `k`
is what it returns, which satisfies the system with these public values. The system is the verifier's own. A proof is bound to
nothing else: an application's name or a session belongs into a public value.
"""
from __future__ import annotations

import json
from typing import Any, Mapping, Optional, Sequence

from .library import answer
from .types import Element

# What is set aside for a proof: a longer one is made twice.
ROOM_FOR_PROOF = 1 << 24


def _text(record: Mapping[str, Any]) -> bytes:
    """The record in JSON. An array of numpy is its lists."""
    return json.dumps(record, separators=(",", ":"), default=lambda it: it.tolist()).encode()


def check(system: Mapping[str, Any], trace: Sequence[Sequence[Element]], public_values: Sequence[Element]) -> None:
    """Holds a trace, row by row, against a system.

    Raises `Refused` where it doesn't satisfy it, with the first row and there the first constraint that isn't zero, or where rows,
    public values and columns aren't as many as the system says; `Malformed` where a number is no element or the system isn't well
    formed; and `OutOfMemory`.
    """
    answer("stark_check", _text(system), _text({"public_values": public_values, "trace": trace}))


def prove(
    system: Mapping[str, Any],
    trace: Sequence[Sequence[Element]],
    public_values: Sequence[Element],
    seed: Optional[bytes] = None,
) -> bytes:
    """Proves that a trace of `2^k` rows satisfies a system. With a seed the proof is of the scheme that hides, whose masks are
    drawn from it: 32 bytes of a good source that nobody can guess, as `secrets.token_bytes(32)`, and that no other proof had.

    Raises as `check`, and `Refused` by another of the prover's refusals, `Malformed` where the parameters aren't good.
    """
    texts = [_text(system), _text({"public_values": public_values, "trace": trace})]
    if seed is None:
        return answer("stark_prove", *texts, room=ROOM_FOR_PROOF)
    return answer("stark_prove_hiding", *texts, bytes(seed), room=ROOM_FOR_PROOF)


def verify(
    system: Mapping[str, Any], public_values: Sequence[Element], proof: bytes, hiding: bool = False
) -> int:
    """Verifies a proof, of the scheme that hides if `hiding` says so, and returns the `k` of a trace of `2^k` rows. System and
    public values are the verifier's own.

    Raises `Refused` where the proof isn't accepted, by a refusal that stands of it; `Malformed` where its bytes are no proof's, a
    number is no element, or the system or its parameters aren't good; `OutOfMemory`, which says nothing of the proof.
    """
    call = "stark_verify_hiding" if hiding else "stark_verify"
    answered = answer(call, _text(system), _text({"public_values": public_values}), bytes(proof))
    return int.from_bytes(answered, "little")
