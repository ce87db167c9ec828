"""The scheme through the binding. Expected values are those of tools/relation, an independent program.

    python3 -m unittest discover -s bindings/python/tests
"""
import dataclasses
import doctest
import os
import sys
import unittest

sys.path.insert(0, os.path.join(os.path.dirname(os.path.abspath(__file__)), ".."))

import p3_fri_proved as fri

try:
    import numpy
except ImportError:
    numpy = None

TWO_QUERIES = fri.Parameters.toy(num_queries=2)

# So many queries don't all read the same by chance, where others are drawn.
MANY = fri.Parameters.toy(num_queries=40)

# The column 1, 3 on the domain 1, -1: the polynomial 2 - X. Opened at 5.
COLUMN = fri.Matrix(fri.Domain.subgroup(1), 1, [1, 3], [(5, 0, 0, 0)])
COMMITMENT = bytes.fromhex("2aa419f58ea1802d8a714e88157918d5c64c948cbbf6d57fa86161ecdece7203")

TALL = fri.Matrix(
    fri.Domain.subgroup(3), 2, [3, 1, 4, 1, 5, 9, 2, 6, 5, 3, 5, 8, 9, 7, 9, 3], [(5, 0, 0, 0), (7, 1, 0, 2)]
)
LOW = fri.Matrix(fri.Domain(3, 1), 3, [2, 7, 1, 8, 2, 8], [(7, 1, 0, 2)])


def altered(opening, **of_point):
    """The claims with another point, or other values, at the first point of the first matrix."""
    commitment = opening.claims[0]
    matrix = commitment.matrices[0]
    point = dataclasses.replace(matrix.points[0], **of_point)
    matrix = dataclasses.replace(matrix, points=[point, *matrix.points[1:]])
    return [dataclasses.replace(commitment, matrices=[matrix, *commitment.matrices[1:]]), *opening.claims[1:]]


class Scheme(unittest.TestCase):
    def test_the_column_is_committed_to(self):
        self.assertEqual(fri.commit(TWO_QUERIES, [[COLUMN]]), [COMMITMENT])

    def test_the_column_is_opened_and_verified(self):
        opening = fri.open(TWO_QUERIES, b"", [[COLUMN]])
        self.assertEqual([it.commitment for it in opening.claims], [COMMITMENT])
        matrix = opening.claims[0].matrices[0]
        self.assertEqual(matrix.domain, fri.Domain.subgroup(1))
        self.assertEqual(matrix.points, [fri.PointClaims((5, 0, 0, 0), [(2013265918, 0, 0, 0)])])
        self.assertEqual(opening.next_challenge, (1575306697, 1677209360, 273931704, 799075703))
        self.assertEqual(fri.verify(TWO_QUERIES, b"", opening.claims, opening.proof), opening.next_challenge)

    def test_several_matrices_are_opened_and_verified(self):
        parameters = fri.Parameters(log_blowup=2, log_final_poly_len=0, max_log_arity=2, num_queries=3)
        opening = fri.open(parameters, b"", [[TALL, LOW]])
        commitment = "7f4fca6d4493d5b5c6d99dc7d5f180786f7292ad26f89708b9d69b69690bb1a0"
        self.assertEqual(opening.claims[0].commitment.hex(), commitment)
        tall, low = opening.claims[0].matrices
        self.assertEqual(tall.points[0].values, [(1840254183, 0, 0, 0), (1375052786, 0, 0, 0)])
        self.assertEqual(
            tall.points[1].values,
            [(1558977350, 112890481, 1028726872, 261441804), (435550421, 735035206, 867237736, 1395585587)],
        )
        self.assertEqual(low.points[0].values[1], (1342177291, 335544321, 0, 671088642))
        self.assertEqual(opening.next_challenge, (1306391120, 602489802, 218582372, 1043326126))
        self.assertEqual(fri.verify(parameters, b"", opening.claims, opening.proof), opening.next_challenge)

    def test_what_is_altered_is_refused(self):
        opening = fri.open(MANY, b"here", [[TALL, LOW], [COLUMN]])
        fri.verify(MANY, b"here", opening.claims, opening.proof)
        values = opening.claims[0].matrices[0].points[0].values
        commitment = opening.claims[0].commitment
        other = bytes([commitment[0] ^ 1]) + commitment[1:]
        cases = {
            "context": (MANY, b"there", opening.claims),
            "parameters": (dataclasses.replace(MANY, num_queries=39), b"here", opening.claims),
            "value": (MANY, b"here", altered(opening, values=[(1, 0, 0, 0), *values[1:]])),
            "point": (MANY, b"here", altered(opening, point=(6, 0, 0, 0))),
            "commitment": (
                MANY,
                b"here",
                [dataclasses.replace(opening.claims[0], commitment=other), *opening.claims[1:]],
            ),
        }
        for name, (parameters, context, claims) in cases.items():
            with self.subTest(name), self.assertRaises(fri.Refused):
                fri.verify(parameters, context, claims, opening.proof)

    def test_each_byte_of_a_proof_counts(self):
        opening = fri.open(TWO_QUERIES, b"", [[COLUMN]])
        for place in range(len(opening.proof)):
            proof = bytearray(opening.proof)
            proof[place] ^= 1
            with self.subTest(place), self.assertRaises((fri.Refused, fri.Malformed)):
                fri.verify(TWO_QUERIES, b"", opening.claims, proof)
        for length in range(len(opening.proof)):
            with self.subTest(length), self.assertRaises(fri.Malformed):
                fri.verify(TWO_QUERIES, b"", opening.claims, opening.proof[:length])
        with self.assertRaises(fri.Malformed):
            fri.verify(TWO_QUERIES, b"", opening.claims, opening.proof + b"\0")

    def test_refusals_and_faults_are_named(self):
        cases = [
            (fri.Refused, "PointInEvaluationDomain", TWO_QUERIES, dataclasses.replace(COLUMN, points=[(31, 0, 0, 0)])),
            (fri.Malformed, "Points", TWO_QUERIES, dataclasses.replace(COLUMN, points=[])),
            (fri.Malformed, "Element", TWO_QUERIES, dataclasses.replace(COLUMN, values=[1, fri.ORDER])),
            (fri.Malformed, "Values", TWO_QUERIES, dataclasses.replace(COLUMN, values=[1])),
            (fri.Malformed, "Values", TWO_QUERIES, dataclasses.replace(COLUMN, domain=fri.Domain.subgroup(1 << 31))),
            (fri.Malformed, "NoForm", TWO_QUERIES, dataclasses.replace(COLUMN, values=[1, -1])),
            (fri.Malformed, "NoForm", TWO_QUERIES, dataclasses.replace(COLUMN, values=[1, 1 << 32])),
            (fri.Malformed, "ExtensionElement", TWO_QUERIES, dataclasses.replace(COLUMN, points=[(5,)])),
            (fri.Malformed, "Shift", TWO_QUERIES, dataclasses.replace(COLUMN, domain=fri.Domain(0, 1))),
            (fri.Malformed, "NumQueries", fri.Parameters.toy(num_queries=0), COLUMN),
        ]
        for error, name, parameters, matrix in cases:
            with self.subTest(name), self.assertRaises(error) as raised:
                fri.open(parameters, b"", [[matrix]])
            self.assertEqual(raised.exception.name, name, str(raised.exception))

    @unittest.skipIf(numpy is None, "numpy isn't there")
    def test_arrays_are_lists(self):
        values = [3, 1, 4, 1, 5, 9, 2, 6, 5, 3, 5, 8, 9, 7, 9, 3]
        expected = fri.commit(TWO_QUERIES, [[TALL]])
        for kind in ("uint32", "int64", ">u4"):
            for array in (numpy.array(values, kind), numpy.array(values, kind).reshape(8, 2)):
                self.assertEqual(fri.commit(TWO_QUERIES, [[dataclasses.replace(TALL, values=array)]]), expected)
        for array in (numpy.array([1, -1]), numpy.array([1, 2**32]), numpy.array([1.0, 3.0])):
            with self.assertRaises(fri.Malformed):
                fri.commit(TWO_QUERIES, [[dataclasses.replace(COLUMN, values=array)]])


class Transcripts(unittest.TestCase):
    def test_challenges_are_known(self):
        cases = {
            b"": (1656580281, 788222061, 931621667, 1078137329),
            b"abc": (1224100151, 1267975166, 288258122, 1684755250),
            b"\xff" * 100: (1886908380, 168746801, 1172395165, 910213582),
        }
        for context, expected in cases.items():
            self.assertEqual(fri.challenge(context), expected, context)

    def test_a_transcript_draws_what_follows_its_bytes(self):
        transcript = fri.Transcript(b"label")
        self.assertEqual(transcript.context(), b"\0\0\0\0\0\0\0\0\x05label")
        transcript.absorb(b"public")
        self.assertEqual(transcript.challenge(), (4023434, 688180082, 1023027983, 1347940701))
        transcript.absorb(b"")
        self.assertEqual(transcript.challenge(), (1395129032, 171827456, 112186492, 450522341))
        self.assertEqual(transcript.challenge(), (1860557005, 502020107, 1922083694, 952121896))
        # the label, two absorbed parts and three drawn ones
        self.assertEqual(len(transcript.context()), 14 + 15 + 9 + 3 * 25)

    def test_a_point_after_the_commitments(self):
        """A column is committed to, a point drawn, the column opened there; a verifier makes the transcript by itself."""
        transcript = fri.Transcript(b"a column, version 1")
        column = dataclasses.replace(TALL, points=[])
        commitment = fri.commit(MANY, [[column]])[0]
        transcript.absorb(commitment)
        point = transcript.challenge()
        opening = fri.open(MANY, transcript.context(), [[dataclasses.replace(column, points=[point])]])

        own = fri.Transcript(b"a column, version 1")
        own.absorb(commitment)
        claims = [fri.PointClaims(own.challenge(), opening.claims[0].matrices[0].points[0].values)]
        claims = [fri.CommitmentClaims(commitment, [fri.MatrixClaims(fri.Domain.subgroup(3), claims)])]
        self.assertEqual(fri.verify(MANY, own.context(), claims, opening.proof), opening.next_challenge)


def load_tests(loader, tests, pattern):
    for module in (fri, sys.modules["p3_fri_proved.scheme"]):
        tests.addTests(doctest.DocTestSuite(module))
    return tests


if __name__ == "__main__":
    unittest.main()
