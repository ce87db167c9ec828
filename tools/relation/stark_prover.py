"""A slow STARK prover over both schemes, for traces of a few rows.

It divides whatever it is given: of a trace that breaks a constraint it makes a proof too, which
`stark_relation` refuses.
"""

from dataclasses import dataclass

import air
import field
import prover
from answer import Unanswered, demand_openable
from stark_relation import (
    Commitments,
    Key,
    OpenedValues,
    StarkProof,
    StarkStatement,
    chunk_shifts,
    folded,
    log_num_chunks,
    vanishing,
    zerofier,
)
from stark_transcript import draw_alpha, draw_zeta


@dataclass
class Columns:
    """What is committed to: preprocessed columns and random polynomials where there are such."""

    preprocessed: object
    trace: object
    quotient: object = None
    random: object = None


# Commitments


def commit_preprocessed(scheme, system, given):
    if system.preprocessed_width == 0:
        return None
    rows = prover.padded(given.preprocessed) if scheme.hides else given.preprocessed
    return prover.commit(scheme.parameters, [rows])


def commit_trace(scheme, given, random):
    rows = given.trace
    if scheme.hides:
        rows = prover.masked(rows, scheme.num_random_codewords, random)
    return prover.commit(scheme.parameters, [rows])


def commit_random(scheme, log_size, random):
    """Random polynomials, as many as an element has coefficients, with random columns as ever."""
    if not scheme.hides:
        return None
    width = field.DEGREE + scheme.num_random_codewords
    rows = [prover.random_row(width, random) for _ in range(1 << log_size)]
    return prover.commit(scheme.parameters, [rows])


def commit_chunks(scheme, log_height, chunks, random):
    """The chunks of a quotient, each on its coset, as rows of coefficients."""
    shifts = chunk_shifts(log_height, len(chunks).bit_length() - 1)
    if not scheme.hides:
        return prover.commit(scheme.parameters, chunks, shifts)
    count = scheme.num_random_codewords
    widened = [[[*row, *prover.random_row(count, random)] for row in rows] for rows in chunks]
    columns = [
        [field.coefficients_on_coset(list(column), shift) for column in zip(*rows)]
        for rows, shift in zip(widened, shifts)
    ]
    masks = quotient_masks(shifts, 1 << log_height, field.DEGREE + count, random)
    masked = [
        [masked_column(column, mask_column, shift) for column, mask_column in zip(each, mask)]
        for each, mask, shift in zip(columns, masks, shifts)
    ]
    return prover.commit_polynomials(
        scheme.parameters, [log_height + 1] * len(chunks), shifts, masked)


def masked_column(column, mask, shift):
    """The coefficients of `q + Z t`, where `Z` is zero on the chunk's coset."""
    scaling = field.inverse(pow(shift, len(column), field.ORDER))
    low = [(q - t) % field.ORDER for q, t in zip(column, mask)]
    return low + [scaling * t % field.ORDER for t in mask]


def chunk_weight(shifts, size, index):
    """The inverse of what vanishes on the other chunks, multiplied, at this one's first point."""
    product = field.ONE
    for other, shift in enumerate(shifts):
        if other != index:
            here = vanishing(shift, size, field.lift(shifts[index]))
            product = field.multiply(product, here)
    return field.invert(product)[0]


def quotient_masks(shifts, size, width, random):
    """For each chunk the coefficients of its mask, column by column.

    All but the last are random. The last is what makes them cancel in the quotient.
    """
    masks = []
    for _ in shifts[:-1]:
        rows = [prover.random_row(width, random) for _ in range(size)]
        masks.append([list(column) for column in zip(*rows)])
    weights = [chunk_weight(shifts, size, index) for index in range(len(shifts))]
    unweighted = field.inverse(weights[-1])
    masks.append([
        [-unweighted * sum(weight * mask[column][row] for weight, mask in zip(weights, masks))
         % field.ORDER for row in range(size)]
        for column in range(width)
    ])
    return masks


# The quotient


def window_on(committed, given, log_height, system, x):
    """What constraints see at a base field point, of committed columns' polynomials."""
    after = x * field.root(log_height) % field.ORDER

    def entries(data, width, point):
        columns = data.columns[0][:width] if data else []
        return [field.lift(field.base_value(column, point)) for column in columns]

    return {
        "local": entries(committed.trace, system.width, x),
        "next": entries(committed.trace, system.width, after),
        "preprocessed": entries(committed.preprocessed, system.preprocessed_width, x),
        "preprocessed_next": entries(committed.preprocessed, system.preprocessed_width, after),
        "public": [field.lift(value) for value in given.public_values],
        "periodic": [air.periodic_value(column, log_height, field.lift(x))
                     for column in given.periodic],
    }


def quotient_chunks(scheme, system, given, committed, log_height, alpha):
    """The quotient's values on the coset of the generator: chunk `i` has every so many-th."""
    log_chunks = log_num_chunks(scheme, system)
    root = field.root(log_height + log_chunks)
    values = []
    for i in range(1 << (log_height + log_chunks)):
        x = field.GENERATOR * pow(root, i, field.ORDER) % field.ORDER
        window, point = window_on(committed, given, log_height, system, x), field.lift(x)
        total = folded(system, window, log_height, alpha, point)
        values.append(field.multiply(total, field.invert(zerofier(log_height, point))))
    step = 1 << log_chunks
    return [[list(value) for value in values[first::step]] for first in range(step)]


# The opening


def opening_requests(committed, num_chunks, point, after):
    """The data with the points of each of its matrices, in the order of the claims."""
    requests = [(committed.trace, [[point, after]]), (committed.quotient, [[point]] * num_chunks)]
    if committed.preprocessed:
        requests.insert(0, (committed.preprocessed, [[point, after]]))
    if committed.random:
        requests.append((committed.random, [[point]]))
    return requests


def open_columns(scheme, committed, requests, challenger):
    """The claims of the requests, the opening's proof, and the random values beside it."""
    parameters = scheme.parameters
    demand_openable(parameters, prover.claims_of(requests))
    if not scheme.hides:
        claims, proof = prover.open_plain(parameters, requests, challenger)
        return claims, proof, None
    claims, hiding, proof = prover.open_hiding(
        parameters, requests, scheme.num_random_codewords,
        0 if committed.preprocessed else None, challenger)
    return claims, proof, hiding.random_values


def opened_values(committed, claims):
    """The claimed values by columns; the claims are used up."""
    def values(claim):
        return [point.values for point in claim.matrices[0].points]

    preprocessed = values(claims.pop(0)) if committed.preprocessed else [[], []]
    random = values(claims.pop())[0] if committed.random else []
    trace, chunks = values(claims[0]), claims[1].matrices
    return OpenedValues(*trace, *preprocessed,
                        [matrix.points[0].values for matrix in chunks], random)


def root_of(data):
    return data and data.commitment


def prove(scheme, system, given, challenger, random=None):
    """The statement and its proof; the challenger is left as the prover leaves it.

    The system is well formed and what is given has its shape; the height is a power of two.
    `random` is asked for numbers below a bound where the scheme hides.
    """
    log_height = len(given.trace).bit_length() - 1
    committed = Columns(commit_preprocessed(scheme, system, given),
                        commit_trace(scheme, given, random))
    key = committed.preprocessed and Key(committed.preprocessed.commitment, log_height)
    statement = StarkStatement(system, given.public_values, given.periodic, key)
    alpha = draw_alpha(challenger, statement.instance(log_height),
                       statement.preprocessed_commitment, committed.trace.commitment, scheme.hides)
    chunks = quotient_chunks(scheme, system, given, committed, log_height, alpha)
    committed.quotient = commit_chunks(scheme, log_height, chunks, random)
    committed.random = commit_random(scheme, log_height + scheme.hiding_bits, random)
    commitments = Commitments(*map(root_of, (
        committed.trace, committed.quotient, committed.random)))
    point = draw_zeta(challenger, commitments.quotient_chunks, commitments.random)
    if zerofier(log_height, point) == field.ZERO:
        raise Unanswered("PointOnTraceDomain")
    after = field.scale(point, field.root(log_height))
    requests = opening_requests(committed, len(chunks), point, after)
    claims, opening, random_values = open_columns(scheme, committed, requests, challenger)
    opened = opened_values(committed, claims)
    return statement, StarkProof(commitments, opened, opening, log_height, random_values)
