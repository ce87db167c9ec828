"""An honest prover of both schemes: commits to columns and opens them at points."""

from dataclasses import dataclass

import field
import transcript
import tree
from plain_form import Claim, InputOpening, MatrixClaim, PointClaim, Proof, RoundOpening
from relation import Hiding, log_heights, schedule


@dataclass
class Committed:
    """Committed matrices: for each its domain's log size and shift, its columns' coefficients."""

    log_sizes: list
    shifts: list
    columns: list
    tree: tree.Tree

    @property
    def commitment(self):
        return self.tree.root


def commit(parameters, matrices, shifts=None):
    """Matrices, as lists of rows, on the cosets of these shifts, else on the subgroups."""
    shifts = shifts or [1] * len(matrices)
    log_sizes = [len(matrix).bit_length() - 1 for matrix in matrices]
    columns = [
        [field.coefficients_on_coset(list(column), shift) for column in zip(*matrix)]
        for matrix, shift in zip(matrices, shifts)
    ]
    return commit_polynomials(parameters, log_sizes, shifts, columns)


def commit_polynomials(parameters, log_sizes, shifts, columns):
    """Columns by their coefficients, as many for each as its matrix's domain has points."""
    extended = [
        extension(matrix_columns, log_size + parameters.log_blowup)
        for matrix_columns, log_size in zip(columns, log_sizes)
    ]
    return Committed(log_sizes, shifts, columns, tree.Tree(extended, tree.base_bytes))


def extension(columns, log_height):
    """The rows of the columns' polynomials over the evaluation coset."""
    points = [field.coset_point(index, log_height) for index in range(1 << log_height)]
    return [[field.base_value(column, point) for column in columns] for point in points]


def masked(matrix, codewords, random):
    """Below each row, with random values behind it, a random row."""
    rows = []
    for row in matrix:
        rows.append([*row, *random_row(codewords, random)])
        rows.append(random_row(len(row) + codewords, random))
    return rows


def random_row(width, random):
    return [random.randrange(field.ORDER) for _ in range(width)]


def padded(matrix):
    """Below each row a row of zeros."""
    return [row for kept in matrix for row in (list(kept), [0] * len(kept))]


def claims_of(requests):
    """The claims of data with the points at which each of its matrices is opened."""
    return [
        Claim(data.commitment, [
            MatrixClaim(log_size, shift, [
                PointClaim(point, [field.value(list(map(field.lift, column)), point)
                                   for column in columns])
                for point in points
            ])
            for log_size, shift, columns, points in zip(
                data.log_sizes, data.shifts, data.columns, matrix_points)
        ])
        for data, matrix_points in requests
    ]


def open_plain(parameters, requests, challenger):
    """The claims and their proof; the challenger is left as the prover leaves it."""
    claims = claims_of(requests)
    batch_witness = absorb_claims(parameters, claims, challenger)
    alpha = challenger.draw_element()
    words = quotient_words(parameters, requests, claims, alpha)
    return claims, prove_words(parameters, requests, words, batch_witness, challenger)


def absorb_claims(parameters, claims, challenger):
    counts = [
        [[len(point.values) for point in matrix.points] for matrix in claim.matrices]
        for claim in claims
    ]
    bits = parameters.batch_proof_of_work_bits
    transcript.observe_stream(challenger, transcript.opening_stream(counts, bits))
    for claim in claims:
        for matrix in claim.matrices:
            for point in matrix.points:
                for claimed in point.values:
                    challenger.observe_element(claimed)
    return challenger.grind(bits) if bits else 0


def quotient_words(parameters, requests, claims, alpha):
    """By log height, the word of the quotients of all matrices of it."""
    words, weights = {}, {}
    for (data, _), claim in zip(requests, claims):
        for rows, matrix in zip(data.tree.matrices, claim.matrices):
            height = matrix.log_size + parameters.log_blowup
            word = words.setdefault(height, [field.ZERO] * len(rows))
            weight = weights.get(height, field.ONE)
            for claimed in matrix.points:
                inverses = [
                    field.invert(field.subtract(claimed.point, field.lift(x)))
                    for x in (field.coset_point(i, height) for i in range(len(rows)))
                ]
                for column, y in enumerate(claimed.values):
                    for i, row in enumerate(rows):
                        term = field.multiply(
                            field.subtract(y, field.lift(row[column])), inverses[i])
                        word[i] = field.add(word[i], field.multiply(weight, term))
                    weight = field.multiply(weight, alpha)
            weights[height] = weight
    return words


def fold_word(word, log_arity, beta):
    """A word folded by two as often as asked, at `beta`, `beta^2` and so on."""
    for _ in range(log_arity):
        log_height = len(word).bit_length() - 1
        folded = []
        for i in range(len(word) // 2):
            even, odd = word[2 * i], word[2 * i + 1]
            half = field.inverse(2)
            point = field.inverse(2 * field.position(2 * i, log_height))
            slope = field.scale(field.subtract(even, odd), point)
            mean = field.scale(field.add(even, odd), half)
            folded.append(field.add(mean, field.multiply(slope, beta)))
        word, beta = folded, field.multiply(beta, beta)
    return word


def commit_rounds(parameters, words, challenger):
    """The trees of the rounds, their witnesses, and the last word."""
    heights = sorted(words, reverse=True)
    arities = schedule(heights, parameters.log_final_height, parameters.max_log_arity)
    transcript.observe_stream(challenger, transcript.test_stream(parameters, arities, heights[0]))
    word, trees, witnesses = words[heights[0]], [], []
    for arity in arities:
        width = 1 << arity
        rows = [word[start:start + width] for start in range(0, len(word), width)]
        trees.append(tree.Tree([rows], tree.extension_bytes))
        challenger.observe_bytes(trees[-1].root)
        bits = parameters.commit_proof_of_work_bits
        witnesses.append(challenger.grind(bits) if bits else 0)
        beta = challenger.draw_element()
        word = fold_word(word, arity, beta)
        joining = words.get(len(word).bit_length() - 1)
        if joining:
            weight = field.power(beta, width)
            word = [field.add(entry, field.multiply(weight, other))
                    for entry, other in zip(word, joining)]
    return arities, trees, witnesses, word


def final_polynomial(parameters, word):
    """The coefficients that give the word's first entries in natural order."""
    log_length = parameters.log_final_poly_len
    first = word[:1 << log_length]
    natural = [first[field.reverse_bits(i, log_length)] for i in range(len(first))]
    columns = [
        field.coefficients_on_coset([entry[i] for entry in natural]) for i in range(field.DEGREE)
    ]
    return list(zip(*columns))


def prove_words(parameters, requests, words, batch_witness, challenger):
    arities, trees, witnesses, word = commit_rounds(parameters, words, challenger)
    polynomial = final_polynomial(parameters, word)
    for coefficient in polynomial:
        challenger.observe_element(coefficient)
    bits = parameters.query_proof_of_work_bits
    query_witness = challenger.grind(bits) if bits else 0
    greatest = max(words)
    indices = [challenger.draw_bits(greatest) for _ in range(parameters.num_queries)]
    return Proof(
        batch_witness,
        [committed.root for committed in trees],
        witnesses,
        [open_input(data.tree, indices, greatest) for data, _ in requests],
        open_rounds(arities, trees, indices),
        polynomial,
        query_witness,
    )


def open_input(committed, indices, greatest):
    log_height = committed.height.bit_length() - 1
    below = [index >> (greatest - log_height) for index in indices]
    return InputOpening([committed.rows(index) for index in below],
                        [committed.path(index) for index in below])


def open_rounds(arities, trees, indices):
    openings = []
    for arity, committed in zip(arities, trees):
        siblings = []
        for index in indices:
            row = list(committed.rows(index >> arity)[0])
            del row[index % (1 << arity)]
            siblings.append(row)
        indices = [index >> arity for index in indices]
        openings.append(RoundOpening(siblings, [committed.path(index) for index in indices]))
    return openings


def inputs_for(parameters, requests, claims, indices):
    """Input openings at any indices, whatever the claims' proof is."""
    greatest = log_heights(parameters, claims)[0]
    return [open_input(data.tree, indices, greatest) for data, _ in requests]


def open_hiding(parameters, requests, codewords, preprocessing, challenger):
    """As `open_plain`, with the last values of each private point kept back beside the claims."""
    claims, proof = open_plain(parameters, requests, challenger)
    random_values = []
    for number, claim in enumerate(claims):
        kept = 0 if number == preprocessing else codewords
        random_values.append([
            [keep_back(point, kept) for point in matrix.points] for matrix in claim.matrices
        ])
    return claims, Hiding(codewords, random_values, preprocessing), proof


def keep_back(point, count):
    """Cuts the last `count` values off a claimed point and answers them."""
    split = len(point.values) - count
    kept = point.values[split:]
    del point.values[split:]
    return kept
