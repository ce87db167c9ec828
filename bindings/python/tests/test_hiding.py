"""The hiding scheme through the binding. Expected values are those that `flat_form.py` of tools/relation, an independent program,
prints.

    python3 -m unittest discover -s bindings/python/tests
"""
import dataclasses
import doctest
import hashlib
import os
import sys
import unittest

sys.path.insert(0, os.path.join(os.path.dirname(os.path.abspath(__file__)), ".."))

import p3_fri_proved as fri
from p3_fri_proved import hiding

# As few rows as there can be: 16 for a query and a point.
PARAMETERS = fri.Parameters(log_blowup=1, log_final_poly_len=0, max_log_arity=4, num_queries=1)

# So many queries don't all read the same by chance, where others are drawn.
MANY = dataclasses.replace(PARAMETERS, max_log_arity=3, num_queries=20)

MASKING = hiding.Masking(num_random_codewords=4, seed=bytes([7] * 32))


def column(log_size, value):
    values = [value(row) for row in range(1, 1 + (1 << log_size))]
    return fri.Matrix(fri.Domain.subgroup(log_size), 1, values, [(5, 0, 0, 0)])


def public_and_squares(log_size):
    return [[column(log_size, lambda row: row)], [column(log_size, lambda row: row * row)]]


class Hiding(unittest.TestCase):
    def test_columns_are_opened_and_verified(self):
        batches = public_and_squares(4)
        opening = hiding.open(PARAMETERS, b"", MASKING, batches, preprocessed=0)
        commitments = [
            "442ca9473a125f64f7aec400a1f769e825cac08a06e3e6e7ee2b49b022fcc80d",
            "37a20febe439a9a4a43eba1441a7abb0575a76afc288eb660b5beb6749c46562",
        ]
        self.assertEqual([it.commitment.hex() for it in opening.claims], commitments)
        self.assertEqual([it.hex() for it in hiding.commit(PARAMETERS, MASKING, batches, preprocessed=0)], commitments)
        for claims, value in zip(opening.claims, ((1818896013, 0, 0, 0), (1323691498, 0, 0, 0))):
            self.assertEqual(claims.matrices[0].domain, fri.Domain.subgroup(5))
            self.assertEqual(claims.matrices[0].points, [fri.PointClaims((5, 0, 0, 0), [value])])
        self.assertEqual(opening.next_challenge, (1040114741, 682550408, 1888945511, 987795789))
        self.assertEqual(hashlib.sha256(opening.proof).hexdigest()[:16], "a892265ac54c4b5a")
        verified = hiding.verify(PARAMETERS, b"", 4, opening.claims, opening.proof, preprocessed=0)
        self.assertEqual(verified, opening.next_challenge)

    def test_none_need_be_preprocessed(self):
        squares = [[column(4, lambda row: row * row)]]
        opening = hiding.open(PARAMETERS, b"abc", MASKING, squares)
        self.assertEqual(opening.next_challenge, (1844645988, 633922592, 1466780777, 910624625))
        self.assertEqual(hashlib.sha256(opening.proof).hexdigest()[:16], "aad0e95a0af01573")
        self.assertEqual(hiding.verify(PARAMETERS, b"abc", 4, opening.claims, opening.proof), opening.next_challenge)

    def test_the_seed_is_not_printed_and_is_fresh(self):
        self.assertEqual(repr(MASKING), "Masking(num_random_codewords=4)")
        self.assertNotEqual(hiding.Masking.random(), hiding.Masking.random())

    def test_another_statement_is_refused(self):
        opening = hiding.open(MANY, b"here", MASKING, public_and_squares(6), preprocessed=0)
        claims, proof = opening.claims, opening.proof
        hiding.verify(MANY, b"here", 4, claims, proof, preprocessed=0)
        matrix = claims[1].matrices[0]
        point = dataclasses.replace(matrix.points[0], values=[(1, 0, 0, 0)])
        value = dataclasses.replace(claims[1], matrices=[dataclasses.replace(matrix, points=[point])])
        cases = {
            "context": (MANY, b"there", 4, claims, proof, 0),
            "parameters": (dataclasses.replace(MANY, num_queries=19), b"here", 4, claims, proof, 0),
            "codewords": (MANY, b"here", 5, claims, proof, 0),
            "fewer codewords": (MANY, b"here", 3, claims, proof, 0),
            "index": (MANY, b"here", 4, claims, proof, 1),
            "an index past the claims": (MANY, b"here", 4, claims, proof, 2),
            "no index": (MANY, b"here", 4, claims, proof, None),
            "value": (MANY, b"here", 4, [claims[0], value], proof, 0),
            "commitments' order": (MANY, b"here", 4, claims[::-1], proof, 0),
        }
        for name, arguments in cases.items():
            with self.subTest(name), self.assertRaises(fri.Refused):
                hiding.verify(*arguments)
        with self.assertRaises((fri.Refused, fri.Malformed)):
            fri.verify(MANY, b"here", claims, proof)

    def test_each_byte_of_a_proof_counts(self):
        opening = hiding.open(PARAMETERS, b"", MASKING, public_and_squares(4), preprocessed=0)
        for place in range(len(opening.proof)):
            proof = bytearray(opening.proof)
            proof[place] ^= 1
            with self.subTest(place), self.assertRaises((fri.Refused, fri.Malformed)):
                hiding.verify(PARAMETERS, b"", 4, opening.claims, proof, preprocessed=0)
        for proof in (opening.proof[:-1], opening.proof + b"\0"):
            with self.assertRaises(fri.Malformed):
                hiding.verify(PARAMETERS, b"", 4, opening.claims, proof, preprocessed=0)

    def test_refusals_and_faults_are_named(self):
        enough, low = public_and_squares(4), public_and_squares(3)
        few = dataclasses.replace(MASKING, num_random_codewords=3)
        short = dataclasses.replace(MASKING, seed=bytes(31))
        on_coset = [[dataclasses.replace(enough[1][0], points=[(31, 0, 0, 0)])]]
        cases = [
            (fri.Refused, "InsufficientRandomCodewords", few, enough, None),
            (fri.Refused, "HidingBudgetExceeded", MASKING, low, None),
            (fri.Refused, "PointInEvaluationDomain", MASKING, on_coset, None),
            (fri.Malformed, "NoCommitment", MASKING, enough, 2),
            (fri.Malformed, "NoForm", MASKING, enough, -1),
            (fri.Malformed, "NoForm", MASKING, enough, 2**32 - 1),
            (fri.Malformed, "Seed", short, enough, None),
            (fri.Malformed, "Matrices", MASKING, [], None),
        ]
        for error, name, masking, batches, preprocessed in cases:
            with self.subTest(name), self.assertRaises(error) as raised:
                hiding.open(PARAMETERS, b"", masking, batches, preprocessed)
            self.assertEqual(raised.exception.name, name, str(raised.exception))


def load_tests(loader, tests, pattern):
    tests.addTests(doctest.DocTestSuite(hiding))
    return tests


if __name__ == "__main__":
    unittest.main()
