"""Reads statements in the flat form of `docs/FORMATS.md`, over the field in use."""

from dataclasses import fields

import field
from documents import Statement
from flat_form import NO_INDEX
from plain_form import (
    Claim, InputOpening, MatrixClaim, Parameters, PointClaim, Proof, RoundOpening,
)
from relation import Hiding


class Reader:
    """Bytes that are read from the front."""

    def __init__(self, left):
        self.left = left

    def take(self, size):
        if len(self.left) < size:
            raise ValueError("fewer bytes are left than have to come")
        taken, self.left = self.left[:size], self.left[size:]
        return taken

    def count(self):
        return int.from_bytes(self.take(4), "little")

    def number(self):
        """The number of an element of the prime field."""
        return int.from_bytes(self.take(field.NUMBER_BYTES), "little")

    def element(self):
        """An element of the extension."""
        return tuple(self.number() for _ in range(field.DEGREE))

    def digest(self):
        return self.take(32)

    def listed(self, entry):
        return [entry() for _ in range(self.count())]

    def nested(self, depth, entry):
        """Lists of lists, so deep."""
        return self.listed(lambda: self.nested(depth - 1, entry)) if depth else entry()

    def point_claim(self):
        return PointClaim(self.element(), self.listed(self.element))

    def matrix_claim(self):
        shift, log_size = self.number(), self.count()
        return MatrixClaim(log_size, shift, self.listed(self.point_claim))

    def claim(self):
        return Claim(self.digest(), self.listed(self.matrix_claim))

    def input_opening(self):
        return InputOpening(self.nested(3, self.number), self.nested(2, self.digest))

    def round_opening(self):
        return RoundOpening(self.nested(2, self.element), self.nested(2, self.digest))

    def proof(self):
        return Proof(
            batch_pow_witness=self.number(),
            commit_phase_commits=self.listed(self.digest),
            commit_pow_witnesses=self.listed(self.number),
            input_openings=self.listed(self.input_opening),
            commit_phase_openings=self.listed(self.round_opening),
            final_poly=self.listed(self.element),
            query_pow_witness=self.number())

    def statement(self, hides):
        """A statement, to the end of the bytes."""
        codewords, index = (self.count(), self.count()) if hides else (None, None)
        context = self.take(self.count())
        parameters = Parameters(*(self.count() for _ in fields(Parameters)))
        claims = self.listed(self.claim)
        random_values = self.nested(4, self.element) if hides else None
        proof = self.proof()
        if self.left:
            raise ValueError("bytes follow what is whole")
        hiding = Hiding(codewords, random_values, None if index == NO_INDEX else index) if hides else None
        return Statement(context, parameters, claims, proof, hiding)
