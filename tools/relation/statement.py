"""What is absorbed before an opening: its context, its parameters, and what is opened, where.

From a fresh challenger the values that are claimed come later than what they are claimed of. So a
proof is bound to its statement, and a commitment that is made after the proof is another statement.
"""

import field
import transcript
from challenger import Challenger
from transcript import number


def numbers(*counts):
    """Numbers one after another, eight bytes each."""
    return b"".join(map(number, counts))


def matrix_label(matrix):
    """Domain, width and points; a matrix without points has no width."""
    width = matrix.width if matrix.points else 0
    coefficients = [coefficient for claimed in matrix.points for coefficient in claimed.point]
    return numbers(matrix.shift, matrix.log_size, width, *coefficients)


def labels_of(context, parameters, claims):
    labels = [context, numbers(*vars(parameters).values())]
    for claim in claims:
        labels.append(claim.commitment + number(len(claim.matrices)))
        labels += [matrix_label(matrix) for matrix in claim.matrices]
    return labels


def statement_stream(context, parameters, claims):
    """The stream of a statement. Claimed values and the proof aren't in it."""
    return transcript.stream(
        b"p3-fri-statement",
        transcript.bracket(b"opening"),
        labels_of(context, parameters, claims))


def hiding_stream(num_random_codewords, preprocessing):
    """The stream that the hiding scheme absorbs before a statement."""
    named = (0,) if preprocessing is None else (1, preprocessing)
    return transcript.stream(b"p3-fri-hiding", transcript.bracket(b"statement"),
                             [numbers(num_random_codewords, *named)])


def statement_challenger(context, parameters, claims, hiding=None):
    """The challenger from which claims are opened and verified; `hiding` are the numbers of random
    columns and of preprocessing, if the scheme hides."""
    challenger = Challenger()
    if hiding:
        transcript.observe_stream(challenger, hiding_stream(*hiding))
    transcript.observe_stream(challenger, statement_stream(context, parameters, claims))
    return challenger


def context_stream(context):
    """The stream that describes a context, after which one challenge is drawn."""
    steps = [transcript.step(
        transcript.CHALLENGE, transcript.algebra(field.DEGREE), b"challenge", transcript.SCALAR)]
    return transcript.stream(b"p3-fri-context", steps, [context])


def challenge_after(context):
    """The extension element that a fresh challenger draws after these bytes."""
    challenger = Challenger()
    transcript.observe_stream(challenger, context_stream(context))
    return challenger.draw_element()
