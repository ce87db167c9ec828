"""Checks traces, and proves and verifies STARKs, by `docs/PROTOCOL.md`.

    python3 tools/relation/stark.py check AIR TRACE
    python3 tools/relation/stark.py prove [--hiding SEED] AIR TRACE > PROOF
    python3 tools/relation/stark.py verify [--hiding] AIR PUBLICS PROOF

The files are those of `docs/FORMATS.md`; SEED has 32 bytes, from which the hiding scheme's random
numbers come. Prints `satisfied`, the proof, or `accepted`; or else `refused: ` and why, with the
status 1: each refusal named is true. A file that isn't of its form is named on standard error, with
the status 2. The prover is slow, and made for traces of up to some hundred rows.
"""

import sys
from argparse import ArgumentParser, RawDescriptionHelpFormatter

import air
import field
import stark_prover
from answer import Unanswered, text_of
from chacha import Generator
from challenger import Challenger
from documents import Malformed
from readers import end_with_reader
from stark_documents import (
    provable_system_from,
    public_values_from,
    stark_proof_from,
    stark_proof_text,
    system_from,
    trace_from,
)
from stark_relation import Key, StarkStatement, stark_verdict


class FileFault(Exception):
    """A file that isn't of its form, with its name."""


def read(file, reader, *options):
    try:
        return reader(text_of(file), *options)
    except Malformed as error:
        raise FileFault(f"{file}: {error}") from None


def seed_from(file):
    with open(file, "rb") as opened:
        seed = opened.read()
    if len(seed) != 32:
        raise FileFault(f"{file}: Seed: expected 32 bytes")
    return seed


def trace_for(system, file):
    """What the system is held against, or the reason why it isn't satisfied."""
    public_values, trace = read(file, trace_from)
    given = system.given(public_values, trace)
    fault = air.trace_fault(system.air, given)
    if fault:
        raise Unanswered(fault)
    return given


def demand_provable(scheme, given):
    """That the trace has a height that a proof can have."""
    height = len(given.trace)
    log_height = height.bit_length() - 1 + scheme.hiding_bits + scheme.parameters.log_blowup
    if height & (height - 1) or log_height > field.TWO_ADICITY:
        raise Unanswered(f"TraceHeight {{ height: {height} }}")
    fault = air.period_fault(given.periodic, height)
    if fault:
        raise Unanswered(f"InvalidPeriodicColumns({fault})")


def prove(system, given, seed):
    """A proof that is accepted. It isn't if the hiding scheme has too few rows or columns."""
    demand_provable(system.scheme, given)
    generator = Generator(seed) if seed else None
    statement, proof = stark_prover.prove(
        system.scheme, system.air, given, Challenger(), generator)
    found = stark_verdict(system.scheme, statement, proof, Challenger())
    if found.faults:
        raise Unanswered(", ".join(sorted(found.faults)))
    return proof


def known_statement(system, public_values):
    """What the verifier knows; it commits to the preprocessed columns by itself."""
    key, rows = None, system.preprocessed
    if rows:
        if len(rows) & (len(rows) - 1) or any(len(row) != len(rows[0]) for row in rows):
            raise FileFault("AIR: Preprocessed: expected rows of one width, a power of two of them")
        data = stark_prover.commit_preprocessed(system.scheme, system.air, system.given([]))
        key = data and Key(data.commitment, len(rows).bit_length() - 1)
    return StarkStatement(system.air, public_values, system.periodic, key)


def run_check(chosen):
    trace_for(read(chosen.air, system_from, False), chosen.trace)
    return "satisfied"


def run_prove(chosen):
    seed = chosen.hiding and seed_from(chosen.hiding)
    system = read(chosen.air, provable_system_from, bool(seed))
    return stark_proof_text(prove(system, trace_for(system, chosen.trace), seed))


def run_verify(chosen):
    system = read(chosen.air, system_from, chosen.hiding)
    statement = known_statement(system, read(chosen.publics, public_values_from))
    proof = read(chosen.proof, stark_proof_from, chosen.hiding)
    found = stark_verdict(system.scheme, statement, proof, Challenger())
    if found.faults:
        raise Unanswered(", ".join(sorted(found.faults)))
    return "accepted"


def options():
    parser = ArgumentParser(description=__doc__, formatter_class=RawDescriptionHelpFormatter)
    commands = parser.add_subparsers(required=True)
    check = commands.add_parser("check")
    prove_command = commands.add_parser("prove")
    prove_command.add_argument("--hiding", metavar="SEED")
    verify = commands.add_parser("verify")
    verify.add_argument("--hiding", action="store_true")
    for command, files, run in (
        (check, ("air", "trace"), run_check),
        (prove_command, ("air", "trace"), run_prove),
        (verify, ("air", "publics", "proof"), run_verify),
    ):
        for file in files:
            command.add_argument(file, metavar=file.upper())
        command.set_defaults(run=run)
    return parser.parse_args()


def main(chosen):
    try:
        print(chosen.run(chosen))
    except FileFault as error:
        print(f"stark: {error}", file=sys.stderr)
        return 2
    except Unanswered as error:
        print(f"refused: {error}")
        return 1
    return 0


if __name__ == "__main__":
    end_with_reader()
    sys.exit(main(options()))
