"""Verifies a statement, as `fri verify` does, by `docs/PROTOCOL.md` and without the toolchain.

    python3 tools/relation/verify.py [--without-statement] STATEMENT.json

The file is `-` for standard input; an answer of `fri open` is a statement. Prints `accepted` and
below it what was accepted, or `refused: ` and why, with the status 1: each refusal named is true of
the statement. A file that isn't a statement is named on standard error, with the status 2.

`--without-statement` begins from a challenger that has absorbed nothing. It is UNSAFE: statements
that `forge.py` makes are accepted so. It is there to show that, and for nothing else.
"""

import sys

import field
import relation
from answer import text_of
from challenger import Challenger
from documents import Malformed, statement_from
from readers import end_with_reader
from statement import statement_challenger

FEW_BITS = 80
MOST_BYTES = 32


def verdict(statement, without_statement=False):
    """Whether a statement is accepted. Counts come first: no proof has 2^30 indices drawn."""
    parameters, claims, proof = statement.parameters, statement.claims, statement.proof
    heights = relation.log_heights(parameters, claims)
    found = relation.parameter_faults(parameters) | relation.height_faults(parameters, heights)
    found |= relation.input_count_faults(parameters, claims, proof)
    hiding = statement.hiding
    named = hiding and (hiding.num_random_codewords, hiding.preprocessing)
    if hiding:
        found |= relation.hiding_faults(parameters, hiding, claims)
    if found:
        return relation.Verdict(found)
    challenger = (Challenger() if without_statement
                  else statement_challenger(statement.context, parameters, claims, named))
    if hiding:
        return relation.hiding_verdict(parameters, hiding, claims, proof, challenger)
    return relation.plain_verdict(parameters, claims, proof, challenger)


def conjectured_soundness_bits(parameters):
    return (parameters.log_blowup * parameters.num_queries
            + parameters.query_proof_of_work_bits)


def context_line(context):
    """A context, of a long one its first bytes and the number of all."""
    if len(context) > MOST_BYTES:
        return f"context {context[:MOST_BYTES].hex()} .. {len(context)} bytes"
    return f"context {context.hex() or 'empty'}"


def accepted_lines(statement):
    """What was accepted, in short, as `fri verify` prints it."""
    yield "accepted"
    if field.NAME != "BabyBear":
        yield f"field {field.NAME}"
    yield context_line(statement.context)
    for claim in statement.claims:
        yield f"commitment {claim.commitment.hex()}"
        for matrix in claim.matrices:
            yield (f"matrix log_size {matrix.log_size} width {matrix.width} "
                   f"points {len(matrix.points)}")
    yield f"conjectured soundness bits {conjectured_soundness_bits(statement.parameters)}"


def main(file, without_statement=False):
    try:
        statement = statement_from(text_of(file))
    except Malformed as error:
        print(f"verify: {file}: {error}", file=sys.stderr)
        return 2
    found = verdict(statement, without_statement)
    if found.faults:
        print("refused: " + ", ".join(sorted(found.faults)))
        return 1
    for line in accepted_lines(statement):
        print(line)
    bits = conjectured_soundness_bits(statement.parameters)
    if bits < FEW_BITS:
        print(f"verify: {file}: {bits} conjectured bits of soundness, below {FEW_BITS}",
              file=sys.stderr)
    return 0


if __name__ == "__main__":
    end_with_reader()
    arguments = sys.argv[1:]
    unbound = "--without-statement" in arguments
    files = [argument for argument in arguments if argument != "--without-statement"]
    if len(files) != 1:
        print(__doc__, file=sys.stderr)
        sys.exit(2)
    sys.exit(main(files[0], unbound))
