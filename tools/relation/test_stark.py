"""Tests of the STARK's prover and verifier.

    python3 -m unittest discover -s tools/relation
"""

import json
import subprocess
import sys
import tempfile
import unittest
from pathlib import Path

import air
import field
import stark_prover
from air import Air, Assignment
from alterations import changed
from answer import Unanswered
from chacha import Generator, block
from challenger import Challenger
from documents import Malformed
from generate_starks import answers, documented
from stark_alterations import all_stark_changes
from stark_cases import CASES, SCHEMES, outcome
from stark_documents import plain_stark_proof, plain_system, stark_proof_from, stark_proof_text
from stark_relation import Key, StarkStatement, log_num_chunks, stark_verdict
from stark_transcript import draw_alpha, draw_zeta, stark_stream
from starks import (
    BITS,
    CUBES,
    FIBONACCI,
    HIDING,
    MIXED,
    PLAIN,
    POWERS,
    PROVEN,
    constraints,
    cubes,
    fibonacci,
    mixed_without,
    nodes,
    powers,
)

ROOT = Path(__file__).resolve().parents[2]


def proven(scheme, system, given, seed=bytes(32)):
    """Statement, proof, and the challenger that the prover leaves."""
    challenger = Challenger()
    statement, proof = stark_prover.prove(scheme, system, given, challenger, Generator(seed))
    return statement, proof, challenger


class Chacha(unittest.TestCase):
    def test_blocks(self):
        """The first two test vectors of RFC 8439, appendix A.1."""
        for counter, expected in (
            (0, "76b8e0ada0f13d90405d6ae55386bd28bdd219b8a08ded1aa836efcc8b770dc7"
                "da41597c5157488d7724e03fb8d84a376a43b8f41518a11cc387b669b2ee6586"),
            (1, "9f07e7be5551387a98ba977c732d080dcb0f29a048e3656912c6533e32ee7aed"
                "29b721769ce64e43d57133b074d839d531ed1f28510afb45ace10a1f4b794d6f"),
        ):
            self.assertEqual(block(bytes(32), counter).hex(), expected)


def drawn(system, log_height, public_values, periodic, key, random):
    """Both challenges and the element after them, of commitments that are repeated bytes."""
    statement = StarkStatement(system, public_values, periodic, key)
    challenger = Challenger()
    alpha = draw_alpha(challenger, statement.instance(log_height),
                       statement.preprocessed_commitment, bytes([1] * 32), random is not None)
    zeta = draw_zeta(challenger, bytes([2] * 32), random)
    return alpha, zeta, challenger.draw_element()


CUBES_KEY = Key(bytes([3] * 32), 2)

# Computed once by another program, as the tests of the verifier in Rattle have them.
DRAWN = [
    ((FIBONACCI, 3, [1, 1, 34], [], None, None), (
        (1193773153, 566542126, 1804134561, 57158626),
        (1401355611, 1916737294, 1341283323, 593743146),
        (1351926337, 1621539053, 282530991, 24189843))),
    ((CUBES, 2, [2, 7], [[3, 5]], CUBES_KEY, None), (
        (80829925, 221156580, 358409969, 885225814),
        (142755723, 1921034161, 1881258460, 1456883318),
        (193663443, 2006107046, 286015406, 687363211))),
    ((CUBES, 2, [2, 7], [[3, 5]], CUBES_KEY, bytes([4] * 32)), (
        (1094320272, 1605375, 443440455, 2007383226),
        (1024949981, 1290986893, 1463186652, 800268588),
        (1814151340, 1079498010, 1726296485, 1965930360))),
]


def stream_on_the_page():
    """The bytes that `docs/FORMATS.md` has of the stream of two bits."""
    page = (ROOT / "docs/FORMATS.md").read_text()
    section = page.split("## The transcript of a STARK")[1]
    lines = section.split("its stream is these")[1].split("\n\n")[1]
    return bytes.fromhex("".join(lines.split()))


class Transcript(unittest.TestCase):
    def test_challenges(self):
        for shown, expected in DRAWN:
            self.assertEqual(drawn(*shown), expected)

    def test_the_page_has_the_stream(self):
        statement = StarkStatement(BITS, [], [])
        self.assertEqual(stark_stream(statement.instance(1), False, False), stream_on_the_page())

    def test_the_page_has_the_example(self):
        """The states and values of `docs/PROTOCOL.md`: the quotient is the constant 1/4."""
        page = (ROOT / "docs/PROTOCOL.md").read_text()
        statement, proof, last = proven(PLAIN, BITS, Assignment([[0], [1]]))
        challenger = Challenger()
        commitments = proof.commitments
        alpha = draw_alpha(challenger, statement.instance(1), None, commitments.trace, False)
        zeta = draw_zeta(challenger, commitments.quotient_chunks, None)
        half = field.lift(field.inverse(2))
        column = field.multiply(field.subtract(field.ONE, zeta), half)
        self.assertEqual(proof.opened_values.trace_local, [column])
        quarter = field.lift(1509949441)
        self.assertEqual(proof.opened_values.quotient_chunks, [[quarter] + [field.ZERO] * 3])
        for shown in (alpha, zeta, column):
            self.assertIn("`" + ", ".join(map(str, shown)) + "`", page)
        roots = (commitments.trace, commitments.quotient_chunks)
        for digest in (*roots, challenger.state, last.state):
            self.assertIn(digest.hex(), page)


def power_of_column(degree, rows):
    """A column's power of that degree, zero on these rows."""
    powers = nodes("local 0", *(f"mul {node} 0" for node in range(degree - 1)))
    return Air(1, 0, 0, 0, powers, constraints((rows, degree - 1)))


class Chunks(unittest.TestCase):
    def test_numbers_by_degree(self):
        """As many as degrees need, and twice as many where the scheme hides."""
        for degree, rows, plain, hiding in (
            (1, "all", 1, 2), (2, "all", 1, 4), (3, "all", 2, 8), (4, "all", 4, 8),
            (5, "all", 4, 16), (6, "all", 8, 16), (7, "transition", 8, 16), (3, "transition", 2, 8),
            (1, "first", 1, 4), (2, "first", 2, 8), (3, "last", 4, 8), (4, "last", 4, 16),
        ):
            system = power_of_column(degree, rows)
            numbers = [1 << log_num_chunks(scheme, system) for scheme in (PLAIN, HIDING)]
            self.assertEqual(numbers, [plain, hiding], (degree, rows))


class Accepted(unittest.TestCase):
    def test_honest_proofs(self):
        for name, scheme, system, given in PROVEN:
            with self.subTest(name):
                self.assertIsNone(air.air_fault(system))
                self.assertIsNone(air.trace_fault(system, given))
                statement, proof, challenger = proven(scheme, system, given)
                found = stark_verdict(scheme, statement, proof, Challenger())
                self.assertEqual(found.faults, set())
                self.assertEqual(found.challenger.state, challenger.state)

    def test_read_again(self):
        for name, scheme, system, given in PROVEN:
            with self.subTest(name):
                _, proof, _ = proven(scheme, system, given)
                text = stark_proof_text(proof)
                again = stark_proof_from(text, scheme.hides)
                self.assertEqual(stark_proof_text(again), text)

    def test_other_random_numbers(self):
        """Commitments differ from seed to seed, and each proof is accepted."""
        given = fibonacci(32)
        roots = set()
        for seed in (bytes(32), bytes([1] * 32)):
            statement, proof, _ = proven(HIDING, FIBONACCI, given, seed)
            self.assertFalse(stark_verdict(HIDING, statement, proof, Challenger()).faults)
            roots |= set(vars(proof.commitments).values())
        self.assertEqual(len(roots), 6)


class Cases(unittest.TestCase):
    def test_table(self):
        """Each draw stands in the table of the proved prover's test."""
        table = (ROOT / "crates/p3_uni_stark_prover_tests/src/cases.rt").read_text()
        for name, height, change in CASES:
            for scheme in SCHEMES:
                found = outcome(scheme, name, height, change)
                if found.startswith("Accepted"):
                    self.assertIn(found.removeprefix("Accepted(").removesuffix(")"), table)


BROKEN = [
    ("a bit of two", BITS, Assignment([[0], [2]]), (1, 0)),
    ("another first row", FIBONACCI, fibonacci(8), (0, 0)),
    ("another sum", FIBONACCI, fibonacci(8), (4, 3)),
    ("another last entry", FIBONACCI, fibonacci(8), (7, 4)),
    ("another summand", CUBES, cubes(4), (2, 1)),
    ("another entry around the end", POWERS, powers(4), (3, 1)),
]


def break_at(name, given):
    """Changes one entry so that the named row is the first that fails."""
    match name:
        case "another first row":
            given.public_values[0] = 2
        case "another sum":
            given.trace[5] = [given.trace[5][0], given.trace[5][1] + 1]
        case "another last entry":
            given.public_values[2] += 1
        case "another summand":
            given.trace[3] = [5]
            given.preprocessed[3] = [0]
        case "another entry around the end":
            given.preprocessed[0] = [0]


def failures(system, given):
    """Each row with the rows of a constraint that isn't zero there."""
    height = len(given.trace)
    for row in range(height):
        values = air.meanings(system, air.window_at(given, row), air.OVER_BASE)
        for constraint in system.constraints:
            if air.is_among(constraint.rows, row, height) and values[constraint.node]:
                yield row, constraint.rows


class Refused(unittest.TestCase):
    def test_one_constraint_at_one_row(self):
        """The broken traces whose proofs the program `altered_starks` has."""
        for rows in air.ROWS:
            for height in (4, 32):
                given, row = mixed_without(rows, height)
                self.assertEqual(list(failures(MIXED, given)), [(row, rows)])

    def test_broken_traces(self):
        """Named by the check, and refused though a proof was made of the division's result."""
        for name, system, given, (row, at) in BROKEN:
            with self.subTest(name):
                break_at(name, given)
                self.assertEqual(air.trace_fault(system, given),
                                 f"Unsatisfied {{ row: {row}, constraint: {at} }}")
                statement, proof, _ = proven(PLAIN, system, given)
                found = stark_verdict(PLAIN, statement, proof, Challenger())
                self.assertEqual(found.faults, {"OodEvaluationMismatch"})

    def test_too_few_rows_to_hide(self):
        statement, proof, _ = proven(HIDING, FIBONACCI, fibonacci(16))
        faults = stark_verdict(HIDING, statement, proof, Challenger()).faults
        self.assertTrue(all("HidingBudgetExceeded" in fault for fault in faults))

    def test_inputs(self):
        """What is asked of a statement before anything is absorbed."""
        statement, proof, _ = proven(PLAIN, CUBES, cubes(4))
        key = statement.preprocessed
        for changes, expected in (
            ({"public_values": [2]}, "InvalidPublicValues"),
            ({"periodic": []}, "InvalidPeriodicCount"),
            ({"preprocessed": None}, "InvalidPreprocessed"),
            ({"preprocessed": Key(key.commitment, 3)}, "InvalidProofShape"),
            ({"air": Air(1, 1, 2, 1, CUBES.nodes, constraints(("all", 13)))},
             "InvalidAir(UnknownNode { constraint: 0, node: 13 })"),
            ({"air": Air(1, 1, 2, 1, nodes("neg 0"), [])},
             "InvalidAir(LaterOperand { node: 0, operand: 0 })"),
            ({"air": Air(1, 1, 2, 1, nodes("next 1"), [])},
             "InvalidAir(UnknownColumn { node: 0, column: 1 })"),
            ({"air": Air(1, 1, 2, 1, nodes("local 0", *(f"mul {i} {i}" for i in range(63))), [])},
             "DegreeTooLarge"),
            ({"periodic": [[3, 5, 3, 5, 3, 5, 3, 5]]}, "InvalidPeriodicColumns(DoesNotDivide "
             "{ column: 0, length: 8, trace_height: 4 })"),
            ({"periodic": [[3, 5, 4]]}, "InvalidPeriodicColumns(NotPowerOfTwo "
             "{ column: 0, length: 3 })"),
        ):
            other = StarkStatement(**(vars(statement) | changes))
            faults = stark_verdict(PLAIN, other, proof, Challenger()).faults
            self.assertIn(expected, faults)

    def test_another_scheme(self):
        statement, proof, _ = proven(PLAIN, FIBONACCI, fibonacci(32))
        proof.random_values = []
        faults = stark_verdict(HIDING, statement, proof, Challenger()).faults
        self.assertEqual(faults, {"InvalidProofShape", "RandomizationError"})

    def test_points_of_the_domain(self):
        """No proof is made where the point lies among the trace's rows."""
        self.assertRaises(Unanswered, at_a_row, BITS, Assignment([[0], [1]]))


def at_a_row(system, given):
    """A prover whose point is always one of the domain."""
    original = stark_prover.draw_zeta
    stark_prover.draw_zeta = lambda *_: field.ONE
    try:
        return proven(PLAIN, system, given)
    finally:
        stark_prover.draw_zeta = original


class Forms(unittest.TestCase):
    def test_malformed_proofs(self):
        _, proof, _ = proven(PLAIN, BITS, Assignment([[0], [1]]))
        for change in (
            lambda plain: plain["commitments"].pop("random"),
            lambda plain: plain["commitments"]["trace"].pop(),
            lambda plain: plain["opened_values"]["trace_local"][0].append(0),
            lambda plain: plain["opened_values"]["random"].append([field.ORDER, 0, 0, 0]),
            lambda plain: plain.update(log_height=-1),
            lambda plain: plain.update(opening_proof=None),
        ):
            plain = plain_stark_proof(proof)
            change(plain)
            with self.assertRaises(Malformed):
                stark_proof_from(json.dumps(plain), False)


IGNORED = ["/system/num_random_codewords raise", "/system/num_random_codewords set 3"]


class Altered(unittest.TestCase):
    def test_every_change_of_bits(self):
        """Of system, public values and proof; the plain scheme doesn't read one number."""
        document = documented(PLAIN, BITS, Assignment([[0], [1]]))
        base = answers(document)
        accepted = [change.text() for change in all_stark_changes(document)
                    if answers(changed(document, change)) == base]
        self.assertEqual(accepted, [" keep", *IGNORED])

    def test_other_openings(self):
        """What is opened of another trace, system or commitment isn't accepted."""
        document = documented(PLAIN, FIBONACCI, fibonacci(8))
        other = documented(PLAIN, FIBONACCI, fibonacci(8, 5, 9))
        for part in ("commitments", "opened_values", "opening_proof"):
            mixed = {**document, "proof": {**document["proof"], part: other["proof"][part]}}
            self.assertNotIn("accepted", answers(mixed)[0])
        for part in ("public_values", "proof"):
            self.assertNotIn("accepted", answers({**document, part: other[part]})[0])


class Program(unittest.TestCase):
    def run_stark(self, *arguments):
        """The status and what is printed."""
        command = [sys.executable, ROOT / "tools/relation/stark.py", *arguments]
        ended = subprocess.run(command, capture_output=True, text=True, check=False)
        return ended.returncode, ended.stdout

    def test_commands(self):
        given = fibonacci(32)
        with tempfile.TemporaryDirectory() as name:
            air_file, trace, proof, seed = (Path(name, file) for file in "atps")
            air_file.write_text(json.dumps(plain_system(HIDING, FIBONACCI, given)))
            trace.write_text(json.dumps(
                {"public_values": given.public_values, "trace": given.trace}))
            seed.write_bytes(bytes(range(32)))
            self.assertEqual(self.run_stark("check", air_file, trace), (0, "satisfied\n"))
            for prove, verify in (([], []), (["--hiding", seed], ["--hiding"])):
                status, text = self.run_stark("prove", *prove, air_file, trace)
                self.assertEqual(status, 0)
                proof.write_text(text)
                verified = self.run_stark("verify", *verify, air_file, trace, proof)
                self.assertEqual(verified, (0, "accepted\n"))
            self.assertEqual(self.run_stark("verify", air_file, trace, proof)[0], 2)
            given.trace[7][1] += 1
            trace.write_text(json.dumps(
                {"public_values": given.public_values, "trace": given.trace}))
            refused = (1, "refused: Unsatisfied { row: 6, constraint: 3 }\n")
            self.assertEqual(self.run_stark("check", air_file, trace), refused)
            self.assertEqual(self.run_stark("prove", air_file, trace), refused)


if __name__ == "__main__":
    unittest.main()
