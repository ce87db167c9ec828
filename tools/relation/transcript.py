"""What both sides absorb first: the streams that describe the two transcripts.

Numbers in a stream are eight bytes, the highest first; a text is its length and its bytes.
"""

from functools import lru_cache

import field
from challenger import Challenger

BY_ITSELF, BEGIN, END = 0, 1, 2
MESSAGE, CHALLENGE, PROOF_OF_WORK, BRACKET = 0, 1, 2, 3

OPAQUE = b"\x00"
MARKER = b"\x03"
SCALAR = b"\x00"


def number(count):
    return count.to_bytes(8, "big")


def text(message):
    return number(len(message)) + message


def algebra(degree):
    return b"\x01" + number(degree)


def bits(width):
    return b"\x02" + number(width)


def fixed(count):
    return b"\x01" + number(count)


def step(kind, type_bytes, label, length, hierarchy=BY_ITSELF):
    return bytes([hierarchy, kind]) + type_bytes + text(label) + length


def proof_of_work(label, difficulty):
    """A step for a positive difficulty, none for zero."""
    return [step(PROOF_OF_WORK, algebra(1), label, fixed(difficulty))] if difficulty else []


def bracket(label):
    """Begin and end of a protocol that runs inside."""
    return [step(BRACKET, MARKER, label, SCALAR, hierarchy) for hierarchy in (BEGIN, END)]


def stream(name, steps, labels):
    return (
        b"\x01" + text(name)
        + number(len(steps)) + b"".join(steps)
        + number(len(labels)) + b"".join(map(text, labels))
    )


def test_stream(parameters, log_arities, index_width):
    """The stream of the low-degree test of a schedule."""
    steps = []
    for _ in log_arities:
        steps.append(step(MESSAGE, OPAQUE, b"commit_phase_commitment", SCALAR))
        steps += proof_of_work(b"commit_pow", parameters.commit_proof_of_work_bits)
        steps.append(step(CHALLENGE, algebra(field.DEGREE), b"fold_challenge", SCALAR))
    final_length = 1 << parameters.log_final_poly_len
    steps.append(step(MESSAGE, algebra(field.DEGREE), b"final_poly", fixed(final_length)))
    steps += proof_of_work(b"query_pow", parameters.query_proof_of_work_bits)
    queries = fixed(parameters.num_queries)
    steps.append(step(CHALLENGE, bits(index_width), b"query_indices", queries))
    labels = [parameters.log_blowup, parameters.max_log_arity, *log_arities]
    return stream(b"p3-fri", steps, [number(label) for label in labels])


def opening_stream(counts, batch_bits):
    """The stream of an opening; `counts` nest by commitment, matrix and point."""
    steps = [
        step(MESSAGE, algebra(field.DEGREE), b"claimed_evaluations", fixed(count))
        for matrices in counts
        for points in matrices
        for count in points
    ]
    steps += proof_of_work(b"batch_pow", batch_bits)
    steps.append(step(CHALLENGE, algebra(field.DEGREE), b"alpha", SCALAR))
    steps += bracket(b"low_degree_test")
    labels = [len(counts)]
    for matrices in counts:
        labels += [len(matrices), *(len(points) for points in matrices)]
    return stream(b"p3-fri-pcs", steps, [number(label) for label in labels])


@lru_cache(maxsize=64)
def state_after(state, stream_bytes, field_name):
    """The state once a stream was absorbed over the field in use, whose name tells what was kept of others apart."""
    challenger = Challenger(state)
    for byte in stream_bytes:
        challenger.observe_number(byte)
    return challenger.state


def observe_stream(challenger, stream_bytes):
    """Each byte of a stream is observed as a base field element."""
    challenger.state = state_after(challenger.state, stream_bytes, field.NAME)
