"""Forges openings of the relation that absorbs no statement, from two honest ones.

    python3 tools/relation/forge.py [options] FIRST.json SECOND.json

From a fresh challenger nothing that is drawn depends on a commitment: neither do the positions of
the queries. So of two random polynomials both are opened honestly; the rows that either proof opens
are put into one word, whose other rows are zero; and a tree over it gives a commitment that both
proofs open at their positions, as only their paths have to be made anew. Both statements are
written: one commitment, one domain, one point, and two values there. No work is repeated for it,
but where both proofs ask for the same position: then other polynomials are taken.

A transcript that begins with the statement has the commitment in it, and refuses both.
"""

import sys
from argparse import ArgumentParser, RawDescriptionHelpFormatter
from dataclasses import replace
from pathlib import Path
from random import Random

import documents
import field
import prover
import relation
import tree
from answer import opened
from challenger import Challenger
from plain_form import Claim, Parameters
from readers import end_with_reader
from verify import verdict


class Conflict(Exception):
    """Two proofs ask for one row, and have it differently."""


def unbound_indices(statement):
    """The positions that are queried where no statement is absorbed."""
    draws = relation.replay(statement.parameters, statement.claims, statement.proof, Challenger())
    return draws.indices


def put(word, index, row):
    if word[index] not in (None, row):
        raise Conflict
    word[index] = row


def put_rows(words, statement, number):
    """Puts what the proof opens of the commitment of that number into words by matrix."""
    parameters, claims = statement.parameters, statement.claims
    greatest = relation.log_heights(parameters, claims)[0]
    row_sets = statement.proof.input_openings[number].opened_values
    for index, rows in zip(unbound_indices(statement), row_sets):
        for word, row in zip(words, rows):
            put(word, index >> (greatest - (len(word).bit_length() - 1)), row)


def mixed_trees(first, second):
    """For each commitment a tree that both proofs open; the statements are of one shape."""
    trees = []
    for number, claim in enumerate(first.claims):
        heights = [relation.log_height(first.parameters, matrix) for matrix in claim.matrices]
        words = [[None] * (1 << height) for height in heights]
        put_rows(words, first, number)
        put_rows(words, second, number)
        filled = [
            [row or [0] * matrix.width for row in word]
            for word, matrix in zip(words, claim.matrices)
        ]
        trees.append(tree.Tree(filled, tree.base_bytes))
    return trees


def forged(statement, trees):
    """The statement over these trees: other commitments, and other paths to the same rows."""
    greatest = relation.log_heights(statement.parameters, statement.claims)[0]
    indices = unbound_indices(statement)
    claims = [
        Claim(committed.root, claim.matrices) for claim, committed in zip(statement.claims, trees)
    ]
    openings = [prover.open_input(committed, indices, greatest) for committed in trees]
    proof = replace(statement.proof, input_openings=openings)
    return replace(statement, claims=claims, proof=proof)


def forgery(first, second):
    """Two statements of one commitment from two of a commitment each."""
    trees = mixed_trees(first, second)
    return forged(first, trees), forged(second, trees)


def random_number(random):
    return random.randrange(field.ORDER)


def random_request(parameters, log_size, point, random):
    values = [[random_number(random)] for _ in range(1 << log_size)]
    matrix = documents.RequestedMatrix(log_size, 1, values, [point])
    return documents.Request(b"", parameters, [[matrix]])


def random_forgery(parameters, log_size, seed, attempts=1000):
    """The first forgery from random polynomials that don't conflict."""
    random = Random(seed)
    for _ in range(attempts):
        point = tuple(random_number(random) for _ in range(field.DEGREE))
        pair = [opened(random_request(parameters, log_size, point, random), True)[0]
                for _ in range(2)]
        try:
            return forgery(*pair)
        except Conflict:
            continue
    sys.exit("forge: the queries ask for the same rows each time: take a greater size")


def verdict_line(statement, without_statement):
    faults = verdict(statement, without_statement).faults
    return "refused: " + ", ".join(sorted(faults)) if faults else "accepted"


def options():
    parser = ArgumentParser(description=__doc__, formatter_class=RawDescriptionHelpFormatter)
    parser.add_argument("--seed", type=int, default=0, help="of the random numbers (%(default)s)")
    parser.add_argument("--log-size", type=int, default=6, help="of the domain (%(default)s)")
    defaults = Parameters(2, 0, 2, 10, 1, 0, 2)
    for name, default in vars(defaults).items():
        parser.add_argument("--" + name.replace("_", "-"), type=int, default=default,
                            help="%(default)s by default")
    parser.add_argument("first")
    parser.add_argument("second")
    return parser.parse_args()


def main(chosen):
    parameters = Parameters(**{name: getattr(chosen, name)
                               for name in Parameters.__dataclass_fields__})
    pair = random_forgery(parameters, chosen.log_size, chosen.seed)
    for file, statement in zip((chosen.first, chosen.second), pair):
        Path(file).write_text(documents.statement_text(statement) + "\n")
        claim = statement.claims[0]
        print(f"{file}: commitment {claim.commitment.hex()}")
        print(f"    value {list(claim.matrices[0].points[0].values[0])}")
        print(f"    without a statement: {verdict_line(statement, True)}")
        print(f"    with the statement:  {verdict_line(statement, False)}")


if __name__ == "__main__":
    end_with_reader()
    main(options())
