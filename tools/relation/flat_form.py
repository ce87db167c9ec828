"""Answers a request as `p3_fri_open` and `p3_fri_hiding_open` do, in the flat form of
`docs/FORMATS.md`.

    python3 tools/relation/flat_form.py REQUEST.json

Prints in hex, a line each, the request in this form, and the parts of the answer: the next challenge,
and those of the statement, which are its context, its parameters, its claims and its proof; of a
hiding request first by what it is hidden. REQUEST.json is read as `answer.py` reads it. The bytes
don't name the field.
"""

import sys

import field
from answer import Unanswered, opened, text_of
from documents import Malformed, request_from
from readers import end_with_reader


def count(size):
    """A count or a size in four bytes, the lowest first."""
    return size.to_bytes(4, "little")


def counts(sizes):
    return b"".join(map(count, sizes))


def number(element):
    """An element of the prime field, in as many bytes as its order needs."""
    return field.bytes_of(element)


def numbers(elements):
    """Such elements one after another, as of an element of the extension."""
    return b"".join(map(number, elements))


def listed(entry):
    """The form of a list, of that of its entries."""
    return lambda entries: count(len(entries)) + b"".join(map(entry, entries))


def requested_matrix(matrix):
    head = counts([matrix.log_size, len(matrix.rows[0]), len(matrix.points)])
    return (number(matrix.shift) + head + b"".join(map(numbers, matrix.rows))
            + b"".join(map(numbers, matrix.points)))


def request_bytes(request):
    """A request, of a hiding one first by what it is hidden."""
    masking, context = request.masking, request.context
    hidden = b"" if masking is None else (
        count(masking.num_random_codewords) + masking.seed + index(request.preprocessing))
    return (hidden + count(len(context)) + context + counts(vars(request.parameters).values())
            + listed(listed(requested_matrix))(request.commitments))


def point_claim(claimed):
    return numbers(claimed.point) + listed(numbers)(claimed.values)


def matrix_claim(matrix):
    return number(matrix.shift) + count(matrix.log_size) + listed(point_claim)(matrix.points)


def claim(claimed):
    return claimed.commitment + listed(matrix_claim)(claimed.matrices)


PATHS = listed(listed(bytes))


def input_opening(opening):
    return listed(listed(listed(number)))(opening.opened_values) + PATHS(opening.paths)


def round_opening(opening):
    return listed(listed(numbers))(opening.sibling_values) + PATHS(opening.paths)


def proof_bytes(proof):
    return b"".join([
        number(proof.batch_pow_witness),
        listed(bytes)(proof.commit_phase_commits),
        listed(number)(proof.commit_pow_witnesses),
        listed(input_opening)(proof.input_openings),
        listed(round_opening)(proof.commit_phase_openings),
        listed(numbers)(proof.final_poly),
        number(proof.query_pow_witness),
    ])


NO_INDEX = (1 << 32) - 1


def index(place):
    """An index, or that there is none."""
    return count(NO_INDEX if place is None else place)


def hiding(hidden):
    return count(hidden.num_random_codewords) + index(hidden.preprocessing)


RANDOM_VALUES = listed(listed(listed(listed(numbers))))


def parts_of(statement):
    """The parts of a statement, by name and in order."""
    hidden = statement.hiding
    parts = plain_parts_of(statement)
    if hidden is None:
        return parts
    return {"hiding": hiding(hidden)} | parts | {
        "proof": RANDOM_VALUES(hidden.random_values) + parts["proof"]}


def plain_parts_of(statement):
    return {
        "context": count(len(statement.context)) + statement.context,
        "parameters": counts(vars(statement.parameters).values()),
        "claims": listed(claim)(statement.claims),
        "proof": proof_bytes(statement.proof),
    }


def main(file):
    try:
        request = request_from(text_of(file))
        statement, next_challenge = opened(request)
    except Malformed as error:
        print(f"flat_form: {file}: {error}", file=sys.stderr)
        return 2
    except Unanswered as error:
        print(f"flat_form: {file}: refused: {error}", file=sys.stderr)
        return 1
    print(f"request {request_bytes(request).hex()}")
    print(f"next_challenge {numbers(next_challenge).hex()}")
    for name, part in parts_of(statement).items():
        print(f"{name} {part.hex()}")
    return 0


if __name__ == "__main__":
    end_with_reader()
    if len(sys.argv) != 2:
        sys.exit(__doc__)
    sys.exit(main(sys.argv[1]))
