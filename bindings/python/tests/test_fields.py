"""Both schemes over each field. Expected values are those of tools/relation, an independent program.

    python3 -m unittest discover -s bindings/python/tests
"""
import os
import sys
import unittest

sys.path.insert(0, os.path.join(os.path.dirname(os.path.abspath(__file__)), ".."))

import p3_fri_proved as fri
from p3_fri_proved import hiding

PARAMETERS = fri.Parameters(log_blowup=1, log_final_poly_len=0, max_log_arity=3, num_queries=3)
MASKING = hiding.Masking(4, b"\x07" * 32)

# The point at which the squares of 0 to 63 are opened, and by scheme the commitment, the value and the next challenge.
EXPECTED = {
    fri.BABY_BEAR: (
        (5, 0, 0, 1),
        (
            "9423a158f1d9afad607b63a1997611f3f7ad737bb8da3981f6784f7399cb4574",
            (373667581, 460424754, 1903465414, 1309097420),
            (1897956431, 161945275, 1738397662, 1423444078),
        ),
        (
            "d0cb386c90a5076a3b6395c4709bfcb15e2e05868a2aad4bd621fd6d17eb7995",
            (292555853, 1980186445, 1490810132, 225730996),
            (1618285084, 1682186621, 1546643590, 234808146),
        ),
    ),
    fri.KOALA_BEAR: (
        (5, 0, 0, 1),
        (
            "c6cb5d9499ab8c7f980be15e0a0e3ca7328bbcb67a7915649f3971b8f9b40594",
            (1893830867, 674495384, 1432980970, 169887876),
            (1421890754, 175270672, 968068155, 1512654521),
        ),
        (
            "b2b480a15e631ac04d266296963812a5ec6e7a8fcc8060541c17591263ffadf7",
            (1465227770, 675321101, 355580974, 2046201430),
            (10652055, 269671093, 608869731, 1465309355),
        ),
    ),
    fri.GOLDILOCKS: (
        (5, 1),
        (
            "e54a487e5ba498a2dc56f7bd524d2b5697e1f3d8298f808746a37d9d0da48fb0",
            (12257596851176524953, 8826556070170187495),
            (2825853044676514348, 12561774759757757439),
        ),
        (
            "18a91b40bca6b3e0e0921c7c8dfc687b8011609457a9e9ceb88b1207c15f20f6",
            (14397791963177428099, 14328006992992730212),
            (13462575509143632412, 14898266786904053032),
        ),
    ),
}


def matrix(point, values=None):
    return fri.Matrix(fri.Domain.subgroup(6), 1, values or [row * row for row in range(64)], [point])


class Fields(unittest.TestCase):
    def each(self):
        for field, expected in EXPECTED.items():
            with self.subTest(field=field.name):
                yield (field, *expected)

    def test_the_plain_scheme(self):
        for field, point, (commitment, value, next_challenge), _ in self.each():
            self.assertEqual(fri.commit(PARAMETERS, [[matrix(point)]], field=field)[0].hex(), commitment)
            opening = fri.open(PARAMETERS, b"", [[matrix(point)]], field=field)
            self.assertEqual(opening.claims[0].commitment.hex(), commitment)
            self.assertEqual(opening.claims[0].matrices[0].points[0].values, [value])
            self.assertEqual(opening.next_challenge, next_challenge)
            verified = fri.verify(PARAMETERS, b"", opening.claims, opening.proof, field=field)
            self.assertEqual(verified, next_challenge)
            with self.assertRaises(fri.Refused):
                fri.verify(PARAMETERS, b"elsewhere", opening.claims, opening.proof, field=field)

    def test_the_hiding_scheme(self):
        for field, point, _, (commitment, value, next_challenge) in self.each():
            batches = [[matrix(point)]]
            self.assertEqual(hiding.commit(PARAMETERS, MASKING, batches, field=field)[0].hex(), commitment)
            opening = hiding.open(PARAMETERS, b"", MASKING, batches, field=field)
            self.assertEqual(opening.claims[0].commitment.hex(), commitment)
            self.assertEqual(opening.claims[0].matrices[0].points[0].values, [value])
            self.assertEqual(opening.next_challenge, next_challenge)
            verified = hiding.verify(PARAMETERS, b"", 4, opening.claims, opening.proof, field=field)
            self.assertEqual(verified, next_challenge)
            with self.assertRaises(fri.Refused):
                hiding.verify(PARAMETERS, b"", 5, opening.claims, opening.proof, field=field)

    def test_the_order_is_no_element(self):
        for field, point, *_ in self.each():
            self.assertEqual(len(fri.commit(PARAMETERS, [[matrix(point, [field.order - 1] * 64)]], field=field)), 1)
            with self.assertRaises(fri.Malformed):
                fri.commit(PARAMETERS, [[matrix(point, [field.order] * 64)]], field=field)

    def test_a_proof_is_of_its_field(self):
        opening = fri.open(PARAMETERS, b"", [[matrix((5, 0, 0, 1))]], field=fri.BABY_BEAR)
        with self.assertRaises((fri.Refused, fri.Malformed)):
            fri.verify(PARAMETERS, b"", opening.claims, opening.proof, field=fri.KOALA_BEAR)

    def test_challenges(self):
        self.assertEqual(fri.challenge(b"here", field=fri.KOALA_BEAR), (1855401681, 24428543, 285599258, 1505213541))
        self.assertEqual(fri.challenge(b"here", field=fri.GOLDILOCKS), (8288455147662982842, 16952644366002025915))


if __name__ == "__main__":
    unittest.main()
