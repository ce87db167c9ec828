"""Writes altered STARKs with their answers, and what the program that reads them prints.

    python3 tools/relation/generate_starks.py crates/altered_starks

As `generate.py` does for openings: a file into `data` for each STARK, `{"stark", "groups"}`, and
counts into `stdout`. What may be answered is a fault of the proof's form, of the constraint system
(`Air`) or of a number (`Element`), a refusal of the verifier (`Refused`), or acceptance with the
next bits that are drawn.
"""

import sys

import field
import stark_prover
from air import Assignment
from challenger import GREATEST_WIDTH, Challenger
from chacha import Generator
from generate import grouped, named_groups, write_all
from plain_form import Parameters, Refused
from rows import ACCEPTED
from stark_alterations import all_stark_changes
from stark_documents import (
    air_form_fault,
    air_of,
    plain_stark_proof,
    plain_system,
    stark_proof_of,
)
from stark_relation import Key, Scheme, StarkStatement, stark_verdict
from stark_rows import stark_rows_of
from starks import (
    BITS,
    HIDING,
    MIXED,
    NO_CONSTRAINTS,
    PLAIN,
    mixed,
    mixed_without,
)


def documented(scheme, system, given):
    """A STARK as a JSON value; a trace that breaks a constraint gives one that is refused."""
    statement, proof = stark_prover.prove(
        scheme, system, given, Challenger(), Generator(bytes(32)))
    key = statement.preprocessed
    plain_key = key and {"commitment": list(key.commitment), "log_height": key.log_height}
    return {
        "hiding": scheme.hides,
        "system": {**plain_system(scheme, system, given), "preprocessed": plain_key},
        "public_values": given.public_values,
        "proof": plain_stark_proof(proof),
    }


UNCHANGED = ("broken", "too_short")


def starks():
    """Each STARK with its name. Of those of `UNCHANGED`, which are refused, nothing is changed."""
    yield "bits", documented(PLAIN, BITS, Assignment([[0], [1]]))
    yield "one_row", documented(PLAIN, BITS, Assignment([[1]]))
    yield "no_constraints", documented(PLAIN, NO_CONSTRAINTS, Assignment([[5], [7]]))
    yield "mixed", documented(PLAIN, MIXED, mixed(4))
    yield "hidden_mixed", documented(HIDING, MIXED, mixed(32))
    for rows in ("first", "last", "transition", "all"):
        yield f"broken_{rows}", documented(PLAIN, MIXED, mixed_without(rows, 4)[0])
        yield f"broken_hidden_{rows}", documented(HIDING, MIXED, mixed_without(rows, 32)[0])
    yield "too_short_one_row", documented(HIDING, BITS, Assignment([[1]]))
    yield "too_short_two_rows", documented(HIDING, BITS, Assignment([[0], [1]]))


def element_fault(part, rows):
    """The first number in rows that is no element's, or None."""
    for row, entries in enumerate(rows):
        for entry, number in enumerate(entries):
            if number >= field.ORDER:
                return f"Element(OutOfRange {{ part: {part}, row: {row}, entry: {entry} }})"
    return None


def statement_fault(air, document):
    """Why these are the numbers of no statement, or None."""
    malformed = air_form_fault(air)
    if malformed:
        return f"Air({malformed})"
    return (element_fault("Periodic", document["system"]["periodic"])
            or element_fault("PublicValues", [document["public_values"]]))


def key_of(plain):
    return plain and Key(bytes(plain["commitment"]), plain["log_height"])


def scheme_of(document):
    system = document["system"]
    codewords = system["num_random_codewords"] if document["hiding"] else None
    return Scheme(Parameters(**system["parameters"]), codewords)


def answers(document):
    """What may be answered: one fault of a form, or refusals, or acceptance with the next draw."""
    system = document["system"]
    try:
        proof = stark_proof_of(document["proof"], document["hiding"])
    except Refused as refused:
        return sorted(refused.faults)
    air = air_of(system["air"])
    malformed = statement_fault(air, document)
    if malformed:
        return [malformed]
    statement = StarkStatement(
        air, document["public_values"], system["periodic"], key_of(system["preprocessed"]))
    found = stark_verdict(scheme_of(document), statement, proof, Challenger())
    if found.faults:
        return sorted(f"Refused({fault})" for fault in found.faults)
    return [f"{ACCEPTED} {found.challenger.draw_bits(GREATEST_WIDTH)}"]


def groups_of(name, document):
    """All changes by what may be answered; of what is refused as it is, only that."""
    changes = all_stark_changes(document)
    if name.startswith(UNCHANGED):
        changes = [next(changes)]
    return [*named_groups(document, stark_rows_of(name), answers),
            *grouped(document, changes, answers)]


if __name__ == "__main__":
    write_all(sys.argv[1], "stark", starks(), groups_of)
