"""A prover that keeps what it committed to, against the calls that commit anew.

    python3 -m unittest discover -s bindings/python/tests
"""
import dataclasses
import doctest
import gc
import os
import sys
import threading
import unittest

sys.path.insert(0, os.path.join(os.path.dirname(os.path.abspath(__file__)), ".."))

import p3_fri_proved as fri
from p3_fri_proved import prover as prover_module

PARAMETERS = fri.Parameters.toy(num_queries=20)

# Two points over each field.
POINTS = {
    fri.BABY_BEAR: ((7, 1, 0, 2), (5, 0, 0, 0)),
    fri.KOALA_BEAR: ((7, 1, 0, 2), (5, 0, 0, 0)),
    fri.GOLDILOCKS: ((7, 1), (5, 0)),
}

POINT = POINTS[fri.BABY_BEAR][0]


def matrix(first, points=()):
    """Two columns of eight rows, of this number and those after it."""
    return fri.Matrix(fri.Domain.subgroup(3), 2, list(range(first, first + 16)), list(points))


class Provers(unittest.TestCase):
    def test_what_is_kept_is_opened_over_each_field(self):
        for field, points in POINTS.items():
            anew = [[matrix(1, points)], [matrix(100, points[:1]), matrix(50, points[1:])]]
            asked = [[points], [points[:1], points[1:]]]
            with self.subTest(field=field.name), fri.Prover(PARAMETERS, field=field) as prover:
                commitments = [prover.commit([matrix(1)]), prover.commit([matrix(100), matrix(50)])]
                self.assertEqual(commitments, fri.commit(PARAMETERS, anew, field=field))
                for context in (b"first", b"second", b""):
                    opening = prover.open(context, asked)
                    self.assertEqual(opening, fri.open(PARAMETERS, context, anew, field=field))
                    next_challenge = fri.verify(PARAMETERS, context, opening.claims, opening.proof, field=field)
                    self.assertEqual(next_challenge, opening.next_challenge)
                prover.commit([matrix(7)])
                self.assertEqual(
                    prover.open(b"third", [*asked, [points[:1]]]),
                    fri.open(PARAMETERS, b"third", [*anew, [matrix(7, points[:1])]], field=field),
                )
                with self.assertRaises(fri.Refused):
                    fri.verify(PARAMETERS, b"elsewhere", opening.claims, opening.proof, field=field)

    def test_each_matrix_has_its_points(self):
        with fri.Prover(PARAMETERS) as prover:
            prover.commit([matrix(1)])
            for points in ([], [[]], [[[POINT], [POINT]]], [[[POINT]], [[POINT]]], [[[]]]):
                with self.subTest(points=points), self.assertRaises(fri.Malformed) as raised:
                    prover.open(b"", points)
                self.assertEqual(raised.exception.name, "Points")
            self.assertEqual(prover.open(b"", [[[POINT]]]), fri.open(PARAMETERS, b"", [[matrix(1, [POINT])]]))

    def test_only_what_was_committed_to_is_opened(self):
        with fri.Prover(PARAMETERS) as prover:
            prover.commit([matrix(1)])
            expected = prover.open(b"", [[[POINT]]])
            kept = prover._kept[0][0]
            for other in (
                dataclasses.replace(kept, domain=fri.Domain(3, 3)),
                dataclasses.replace(kept, domain=fri.Domain.subgroup(2)),
                dataclasses.replace(kept, width=3),
            ):
                prover._kept[0][0] = other
                with self.assertRaises(fri.Malformed):
                    prover.open(b"", [[[POINT]]])
            prover._kept[0][0] = kept
            self.assertEqual(prover.open(b"", [[[POINT]]]), expected)

    def test_what_is_refused_is_not_kept(self):
        with fri.Prover(PARAMETERS) as prover:
            prover.commit([matrix(1)])
            for values in ([1], [fri.ORDER] * 16, [-1] * 16):
                with self.subTest(values=values), self.assertRaises(fri.Malformed):
                    prover.commit([dataclasses.replace(matrix(1), values=values)])
            with self.assertRaises(fri.Refused) as raised:
                prover.open(b"", [[[(31, 0, 0, 0)]]])
            self.assertEqual(raised.exception.name, "PointInEvaluationDomain")
            self.assertEqual(prover.open(b"", [[[POINT]]]), fri.open(PARAMETERS, b"", [[matrix(1, [POINT])]]))
        with self.assertRaises(fri.Malformed) as raised:
            fri.Prover(fri.Parameters.toy(num_queries=0))
        self.assertEqual(raised.exception.name, "NumQueries")

    def test_a_closed_prover_answers_nothing(self):
        with fri.Prover(PARAMETERS) as prover:
            prover.commit([matrix(1)])
        for _ in range(2):
            for call in (lambda: prover.commit([matrix(1)]), lambda: prover.open(b"", [[[POINT]]])):
                with self.assertRaises(fri.Malformed) as raised:
                    call()
                self.assertEqual(raised.exception.name, "NoProver")
            prover.close()

    def test_threads_may_share_a_prover(self):
        with fri.Prover(PARAMETERS) as prover:
            prover.commit([matrix(1)])
            openings = []
            threads = [
                threading.Thread(target=lambda: openings.append(prover.open(b"there", [[[POINT]]]))) for _ in range(8)
            ]
            for thread in threads:
                thread.start()
            for thread in threads:
                thread.join()
        self.assertEqual(openings, [fri.open(PARAMETERS, b"there", [[matrix(1, [POINT])]])] * 8)

    def test_memory_is_given_back(self):
        for first in range(1000):
            fri.Prover(PARAMETERS).commit([matrix(first)])
        gc.collect()


def load_tests(loader, tests, pattern):
    tests.addTests(doctest.DocTestSuite(prover_module))
    return tests


if __name__ == "__main__":
    unittest.main()
