"""Tests of requests over each field.

    python3 -m unittest discover -s tools/relation
"""

import json
import unittest

import field
from answer import opened
from challenger import Challenger
from documents import Malformed, request_from, statement_from, statement_text
from flat_form import parts_of, request_bytes
from flat_reader import Reader
from transcript import observe_stream
from verify import verdict

PARAMETERS = {
    "log_blowup": 1, "log_final_poly_len": 0, "max_log_arity": 2, "num_queries": 3,
    "batch_proof_of_work_bits": 1, "commit_proof_of_work_bits": 0, "query_proof_of_work_bits": 2,
}


def request(name, hides):
    """Two columns over this field, opened at two points."""
    degree = field.FIELDS[name].degree
    matrix = {
        "domain": {"shift": 1, "log_size": 6}, "width": 2, "values": list(range(1, 129)),
        "points": [[5, 1, 0, 0][:degree], [9, 3, 2, 1][:degree]],
    }
    hiding = {"hiding": {"num_random_codewords": degree, "seed": "07" * 32}} if hides else {}
    return hiding | {"field": name, "parameters": PARAMETERS, "commitments": [{"matrices": [matrix]}]}


def answered(name, hides):
    """The statement that answers it, as JSON values."""
    statement, _ = opened(request_from(json.dumps(request(name, hides))))
    return json.loads(statement_text(statement))


def faults(statement):
    return verdict(statement_from(json.dumps(statement))).faults


class Fields(unittest.TestCase):
    def tearDown(self):
        field.use("BabyBear")

    def each(self):
        for name in field.FIELDS:
            for hides in (False, True):
                with self.subTest(field=name, hides=hides):
                    yield name, hides

    def test_answers_are_accepted(self):
        for name, hides in self.each():
            self.assertEqual(faults(answered(name, hides)), set())

    def test_another_value_is_refused(self):
        for name, hides in self.each():
            statement = answered(name, hides)
            values = statement["claims"][0]["matrices"][0]["points"][0]["values"]
            values[0][0] = (values[0][0] + 1) % field.ORDER
            self.assertTrue(faults(statement))

    def test_a_statement_is_of_its_field(self):
        """BabyBear and KoalaBear have elements of as many bytes; the statement doesn't name its field where it is BabyBear."""
        statement = answered("KoalaBear", False)
        del statement["field"]
        try:
            self.assertTrue(faults(statement))
        except Malformed:
            pass

    def test_the_order_is_no_element(self):
        for name, hides in self.each():
            asked = request(name, hides)
            asked["commitments"][0]["matrices"][0]["values"][5] = field.FIELDS[name].order
            with self.assertRaisesRegex(Malformed, f"a number below {field.FIELDS[name].order}$"):
                request_from(json.dumps(asked))

    def test_flat_forms_say_all(self):
        """What stands in the bytes of a statement is the statement, and none of their beginnings is one."""
        for name, hides in self.each():
            statement, _ = opened(request_from(json.dumps(request(name, hides))))
            flat = b"".join(parts_of(statement).values())
            self.assertEqual(Reader(flat).statement(hides), statement)
            self.assertEqual(verdict(Reader(flat).statement(hides)).faults, set())
            for length in (0, 40, 200, len(flat) - 1):
                with self.assertRaises(ValueError):
                    Reader(flat[:length]).statement(hides)

    def test_flat_elements_have_as_many_bytes_as_the_order_needs(self):
        """Beside counts a request has a shift, 128 values and two points."""
        sizes = {name: len(request_bytes(request_from(json.dumps(request(name, False)))))
                 for name in field.FIELDS}
        counts = 4 * (1 + 7 + 2 + 3)
        self.assertEqual(sizes, {name: counts + 129 * size + 2 * 16
                                 for name, size in (("BabyBear", 4), ("KoalaBear", 4), ("Goldilocks", 8))})

    def test_bytes_are_absorbed_over_the_field_in_use(self):
        """Elements of BabyBear and KoalaBear have four bytes, those of Goldilocks eight."""
        states = []
        for name in field.FIELDS:
            field.use(name)
            challenger = Challenger()
            observe_stream(challenger, b"a stream")
            states.append(challenger.state)
        self.assertEqual(states[0], states[1])
        self.assertNotEqual(states[0], states[2])


if __name__ == "__main__":
    unittest.main()
