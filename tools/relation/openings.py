"""The openings that are altered: of both schemes, each made by the honest prover but the last."""

import json
from random import Random

import field
import prover
from alterations import compact
from challenger import Challenger
from plain_form import (
    Claim,
    MatrixClaim,
    Parameters,
    PointClaim,
    plain_from_claims,
    plain_from_proof,
)
from relation import Draws, replay

LINE = [[1], [3]]
SQUARE = [[1], [field.ORDER - 1], [1], [field.ORDER - 1]]
FIVE, SEVEN = field.lift(5), field.lift(7)
FAR = (2, 3, 5, 7)


def documented(parameters, claims, proof, hiding=None):
    """The opening as a JSON value; of the plain scheme there is nothing that hides."""
    return json.loads(compact({
        "parameters": vars(parameters),
        "claims": plain_from_claims(claims),
        "hiding": hiding and vars(hiding),
        "proof": plain_from_proof(proof),
    }))


def requests_of(parameters, commitments, prepared):
    """Committed data, the points at which each of its matrices is opened beside it."""
    return [
        (prover.commit(parameters, [prepared(rows) for rows, _ in matrices]),
         [points for _, points in matrices])
        for matrices in commitments
    ]


def opened(parameters, *commitments):
    """Commitments to matrices, each matrix with the points at which it is opened."""
    requests = requests_of(parameters, commitments, lambda rows: rows)
    claims, proof = prover.open_plain(parameters, requests, Challenger())
    return documented(parameters, claims, proof)


def opened_hiding(parameters, preprocessed, private, seed):
    """Commitments as of `opened`, the preprocessed ones (one or none) before the private ones."""
    random, codewords = Random(seed), field.DEGREE
    requests = requests_of(parameters, preprocessed, prover.padded)
    requests += requests_of(
        parameters, private, lambda rows: prover.masked(rows, codewords, random))
    claims, hiding, proof = prover.open_hiding(
        parameters, requests, codewords, 0 if preprocessed else None, Challenger())
    return documented(parameters, claims, proof, hiding)


def opened_at_all_points():
    """A matrix claimed at all points of its coset, opened at the indices that are drawn then."""
    parameters = Parameters(1, 0, 1, 2)
    committed = prover.commit(parameters, [LINE])
    points = [field.lift(field.coset_point(index, 2)) for index in range(4)]
    rows = committed.tree.matrices[0]
    claims = [Claim(committed.commitment, [MatrixClaim(1, 1, [
        PointClaim(point, [field.lift(row[0])]) for point, row in zip(points, rows)
    ])])]
    _, proof = prover.open_plain(parameters, [(committed, [[FIVE]])], Challenger())
    draws = replay(parameters, claims, proof, Challenger())
    assert isinstance(draws, Draws)
    proof.input_openings = prover.inputs_for(parameters, [(committed, None)], claims, draws.indices)
    return documented(parameters, claims, proof)


def columns(height, *polynomials):
    """A matrix whose columns are the polynomials' values on the subgroup."""
    step = field.root(height.bit_length() - 1)
    points = [pow(step, i, field.ORDER) for i in range(height)]
    return [[field.base_value(list(c), point) for c in polynomials] for point in points]


def openings():
    """Each opening with its name."""
    simple = Parameters(1, 0, 1, 2)
    trace = [[row * row + 1] for row in range(16)]
    hiding = Parameters(2, 0, 1, 2)
    yield "line", opened(simple, [(LINE, [FIVE])])
    yield "constant", opened(simple, [([[9]], [field.lift(0)])])
    yield "square_by_four", opened(Parameters(1, 0, 2, 2), [(SQUARE, [FIVE])])
    yield "two_heights", opened(Parameters(1, 0, 3, 2), [(SQUARE, [FIVE]), (LINE, [FIVE])])
    yield "two_points", opened(simple, [(LINE, [FIVE, SEVEN])])
    yield "two_commitments", opened(simple, [(LINE, [FIVE])], [(LINE, [FIVE])])
    yield "empty_commitment", opened(simple, [], [(LINE, [FIVE])])
    yield "longer_final_polynomial", opened(
        Parameters(1, 1, 2, 2), [(columns(8, (1, 2, 3, 4, 5, 6, 7, 8)), [FAR])])
    yield "batch_work", opened(Parameters(1, 0, 1, 2, 3, 0, 0), [(LINE, [FIVE])])
    yield "round_work", opened(Parameters(1, 0, 1, 2, 0, 3, 0), [(SQUARE, [FIVE])])
    yield "query_work", opened(Parameters(1, 0, 1, 2, 0, 0, 3), [(LINE, [FIVE])])
    yield "three_heights", opened(
        Parameters(2, 0, 2, 3, 2, 1, 2),
        [(columns(8, (1, 2, 3), (4, 0, 0, 6)), [FAR, SEVEN]), ([[9]], [FAR])],
        [(columns(2, (5, 6)), [FIVE])])
    yield "hiding", opened_hiding(
        hiding, [[(columns(16, (2, 1)), [FIVE])]], [[(trace, [SEVEN])]], seed=1)
    yield "hiding_without_preprocessing", opened_hiding(
        Parameters(1, 1, 3, 1, 1, 1, 1), [], [[(columns(16, (3, 2, 1), (1,)), [FAR])]], seed=2)
    yield "all_points_of_the_coset", opened_at_all_points()
