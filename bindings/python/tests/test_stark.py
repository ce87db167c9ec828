"""STARKs through the binding. Systems and traces are those of examples/stark, and expected proofs those of tools/relation, an
independent program.

    python3 -m unittest discover -s bindings/python/tests
"""
import copy
import doctest
import hashlib
import json
import os
import sys
import unittest

HERE = os.path.dirname(os.path.abspath(__file__))
sys.path.insert(0, os.path.join(HERE, ".."))

import p3_fri_proved as fri
from p3_fri_proved import stark

# Of the repository, or of what tools/package wrote.
FOLDERS = [os.path.join(HERE, up, "examples", "stark") for up in ("../../..", "../..")]
FOLDER = next(filter(os.path.isdir, FOLDERS))

SEED = bytes(range(32))

# The first bytes of the SHA-256 of each proof, in the plain scheme and with that seed.
PROOFS = {
    "fibonacci": ("24238b58ab3dab65", "7cc4cf444e885739"),
    "range_check": ("49e67a1d3c5fa992", "0432b8ea89d26598"),
    "permutation": ("c024cd65f6ab1a5e", "c4a2b974598e4ee5"),
    "memory": ("9573a907211432be", "a833437b49ae316e"),
}


def read(name):
    with open(os.path.join(FOLDER, name), encoding="utf-8") as file:
        return json.load(file)


def example(name):
    """The system, the trace and the public values."""
    given = read(f"{name}.trace.json")
    return read(f"{name}.air.json"), given["trace"], given["public_values"]


class Starks(unittest.TestCase):
    def test_proofs_are_those_of_the_independent_program(self):
        for name, sums in PROOFS.items():
            system, trace, public_values = example(name)
            stark.check(system, trace, public_values)
            for seed, expected in zip((None, SEED), sums):
                with self.subTest(name, seed=seed):
                    proof = stark.prove(system, trace, public_values, seed)
                    self.assertEqual(hashlib.sha256(proof).hexdigest()[:16], expected)
                    self.assertEqual(stark.verify(system, public_values, proof, hiding=seed is not None), 5)

    def test_proofs_are_of_their_own_statement_alone(self):
        system, trace, public_values = example("memory")
        proof = stark.prove(system, trace, public_values)
        other = copy.deepcopy(system)
        other["preprocessed"][12] = [1, 0]
        for changed, values in ((system, [4, 8]), (system, [4]), (other, public_values)):
            with self.subTest(values=values), self.assertRaises(fri.Refused):
                stark.verify(changed, values, proof)
        with self.assertRaises(fri.Malformed) as raised:
            stark.verify(system, public_values, proof, hiding=True)
        self.assertEqual(raised.exception.name, "Json")

    def test_changed_proofs_are_refused(self):
        system, trace, public_values = example("fibonacci")
        proof = stark.prove(system, trace, public_values)
        for place in range(0, len(proof), 599):
            changed = bytearray(proof)
            changed[place] = ord("7") if proof[place] != ord("7") else ord("3")
            with self.subTest(place), self.assertRaises((fri.Refused, fri.Malformed)):
                stark.verify(system, public_values, changed)
        for cut in (b"", proof[:-1], b"\xff", b"null"):
            with self.subTest(cut[:4]), self.assertRaises(fri.Malformed):
                stark.verify(system, public_values, cut)

    def test_refusals_and_faults_are_named(self):
        system, trace, public_values = example("fibonacci")
        wrong = [*trace[:-1], [0, 0]]
        blowup = {**system, "parameters": {**system["parameters"], "log_blowup": 0}}
        cases = [
            (fri.Refused, "Unsatisfied", lambda: stark.check(system, wrong, public_values)),
            (fri.Refused, "Unsatisfied", lambda: stark.prove(system, wrong, public_values)),
            (fri.Refused, "TraceHeight", lambda: stark.prove(system, trace[:3], [0, 1, 2])),
            (fri.Malformed, "OutOfRange", lambda: stark.check(system, trace, [fri.ORDER, 1, 2])),
            (fri.Malformed, "Json", lambda: stark.check(system, trace, [-1])),
            (fri.Malformed, "Json", lambda: stark.check({}, trace, public_values)),
            (fri.Malformed, "Seed", lambda: stark.prove(system, trace, public_values, b"short")),
            (fri.Malformed, "LogBlowup", lambda: stark.prove(blowup, trace, public_values)),
        ]
        for error, name, call in cases:
            with self.subTest(name), self.assertRaises(error) as raised:
                call()
            self.assertEqual(raised.exception.name, name, str(raised.exception))


def load_tests(loader, tests, pattern):
    tests.addTests(doctest.DocTestSuite(stark))
    return tests


if __name__ == "__main__":
    unittest.main()
