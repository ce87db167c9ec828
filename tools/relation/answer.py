"""Answers a request, as `fri open` does.

    python3 tools/relation/answer.py REQUEST.json > ANSWER.json

A file is `-` for standard input. The answer is one line of JSON, the very bytes that the program
writes. The status is 2 where the file isn't a request, and 1 where the request has no answer.
"""

import sys

import documents
import field
import prover
import relation
from chacha import Generator
from challenger import Challenger
from readers import end_with_reader
from relation import log_heights
from statement import statement_challenger


class Unanswered(Exception):
    """A request that is well formed and can't be opened."""


def demand_openable(parameters, claims):
    """That words end above the final polynomial, and no point lies where words have entries."""
    final = parameters.log_final_height
    if final >= 1 << 64:
        raise Unanswered("FinalHeightOverflow")
    least = min(log_heights(parameters, claims))
    if parameters.log_final_poly_len and least <= final:
        raise Unanswered(f"InputHeightTooSmall {{ log_input_height: {least}, "
                         f"log_final_height: {final} }}")
    for batch, claim in enumerate(claims):
        for number, matrix in enumerate(claim.matrices):
            height = matrix.log_size + parameters.log_blowup
            coset = {field.lift(field.coset_point(i, height)) for i in range(1 << height)}
            for place, claimed in enumerate(matrix.points):
                if claimed.point in coset:
                    raise Unanswered(f"PointInEvaluationDomain {{ round: {batch}, "
                                     f"matrix: {number}, point: {place} }}")


def committed(request):
    """The data with the points of each of its matrices; what hides is drawn in this order."""
    masking = request.masking
    random = masking and Generator(masking.seed)

    def rows_of(index, rows):
        if masking is None:
            return rows
        if index == request.preprocessing:
            return prover.padded(rows)
        return prover.masked(rows, masking.num_random_codewords, random)

    return [
        (prover.commit(request.parameters, [rows_of(index, matrix.rows) for matrix in matrices],
                       [matrix.shift for matrix in matrices]),
         [matrix.points for matrix in matrices])
        for index, matrices in enumerate(request.commitments)
    ]


def demand_masks(request, claims):
    """That there are random columns and masks enough."""
    if request.masking.num_random_codewords < field.DEGREE:
        raise Unanswered("InsufficientRandomCodewords")
    if relation.budget_faults(request.parameters, claims):
        raise Unanswered("HidingBudgetExceeded")


def opened(request, without_statement=False):
    """The statement that answers a request, and what is drawn after its proof.

    `without_statement` opens from a challenger that has absorbed nothing, as `forge.py` needs it.
    """
    parameters, masking = request.parameters, request.masking
    requests = committed(request)
    claims = prover.claims_of(requests)
    if masking:
        demand_masks(request, claims)
    demand_openable(parameters, claims)
    hiding = masking and (masking.num_random_codewords, request.preprocessing)
    shown = without_random_columns(claims, hiding) if hiding else claims
    challenger = (Challenger() if without_statement
                  else statement_challenger(request.context, parameters, shown, hiding))
    if masking is None:
        claims, proof = prover.open_plain(parameters, requests, challenger)
        hidden = None
    else:
        claims, hidden, proof = prover.open_hiding(parameters, requests, *hiding, challenger)
    statement = documents.Statement(request.context, parameters, claims, proof, hidden)
    return statement, challenger.draw_element()


def without_random_columns(claims, hiding):
    """The claims without the values of random columns: their widths are those that are shown."""
    codewords, preprocessing = hiding
    for number, claim in enumerate(claims):
        for matrix in claim.matrices:
            for point in matrix.points:
                prover.keep_back(point, 0 if number == preprocessing else codewords)
    return claims


def text_of(file):
    """The text of a file, or of standard input."""
    try:
        if file == "-":
            return sys.stdin.buffer.read().decode()
        with open(file, "rb") as opened_file:
            return opened_file.read().decode()
    except (OSError, UnicodeDecodeError) as error:
        raise documents.Malformed(f"cannot be read: {error}") from None


def main(file):
    try:
        statement, next_challenge = opened(documents.request_from(text_of(file)))
    except documents.Malformed as error:
        print(f"answer: {file}: {error}", file=sys.stderr)
        return 2
    except Unanswered as error:
        print(f"answer: {file}: refused: {error}", file=sys.stderr)
        return 1
    print(documents.answer_text(statement, next_challenge))
    return 0


if __name__ == "__main__":
    end_with_reader()
    if len(sys.argv) != 2:
        sys.exit(__doc__)
    sys.exit(main(sys.argv[1]))
