"""What both sides of a STARK absorb and draw before its opening."""

from dataclasses import dataclass

import field
import transcript
from air import KINDS, ROWS
from transcript import number


@dataclass
class Instance:
    """A constraint system and what both sides know of the trace."""

    air: object
    log_height: int
    public_values: list
    periodic: list


def node_numbers(node):
    return [KINDS.index(node.kind), *node.names, *[0] * (2 - len(node.names))]


def instance_numbers(instance):
    air = instance.air
    numbers = [
        air.width, air.preprocessed_width, air.num_public_values, air.num_periodic_columns,
        instance.log_height, len(air.nodes), len(air.constraints),
        len(instance.public_values), len(instance.periodic),
    ]
    for node in air.nodes:
        numbers += node_numbers(node)
    for constraint in air.constraints:
        numbers += [ROWS.index(constraint.rows), constraint.node]
    numbers += instance.public_values
    for column in instance.periodic:
        numbers += [len(column), *column]
    return numbers


def commitment_step(label):
    return transcript.step(transcript.MESSAGE, transcript.OPAQUE, label, transcript.SCALAR)


def challenge_step(label):
    extension = transcript.algebra(field.DEGREE)
    return transcript.step(transcript.CHALLENGE, extension, label, transcript.SCALAR)


def stark_stream(instance, has_preprocessed, hides):
    """The stream that binds the instance."""
    steps = [commitment_step(b"preprocessed")] if has_preprocessed else []
    steps += [commitment_step(b"trace"), challenge_step(b"alpha"), commitment_step(b"quotient")]
    steps += [commitment_step(b"random")] if hides else []
    steps += [challenge_step(b"zeta"), *transcript.bracket(b"opening")]
    label = b"".join(map(number, instance_numbers(instance)))
    return transcript.stream(b"p3-uni-stark", steps, [label])


def draw_alpha(challenger, instance, preprocessed, trace, hides):
    """The challenge after the instance and the commitments to preprocessed columns and trace."""
    stream = stark_stream(instance, preprocessed is not None, hides)
    transcript.observe_stream(challenger, stream)
    if preprocessed is not None:
        challenger.observe_bytes(preprocessed)
    challenger.observe_bytes(trace)
    return challenger.draw_element()


def draw_zeta(challenger, quotient, random):
    """The point after the commitments to the quotient's chunks and to random polynomials."""
    challenger.observe_bytes(quotient)
    if random is not None:
        challenger.observe_bytes(random)
    return challenger.draw_element()
