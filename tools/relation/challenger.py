"""The SHA-256 challenger: a state of 32 bytes that values are fed to and drawn from."""

from hashlib import sha256

import field

GREATEST_WIDTH = 63


class Challenger:
    def __init__(self, state=bytes(32)):
        self.state = state

    def copy(self):
        return Challenger(self.state)

    def observe_bytes(self, message):
        self.state = sha256(self.state + b"\x00" + message).digest()

    def observe_number(self, number):
        """A base field element: its bytes, the lowest first."""
        self.observe_bytes(field.bytes_of(number))

    def observe_element(self, element):
        """An element of the extension: its coefficients one by one."""
        for coefficient in element:
            self.observe_number(coefficient)

    def draw(self, width=8):
        """One draw: a number of so many bytes."""
        self.state = sha256(self.state + b"\x01").digest()
        return int.from_bytes(self.state[:width], "little")

    def draw_number(self):
        """A base field element: a number of twice as many bytes as it has, modulo the order."""
        return self.draw(2 * field.NUMBER_BYTES) % field.ORDER

    def draw_element(self):
        return tuple(self.draw_number() for _ in range(field.DEGREE))

    def draw_bits(self, width):
        return self.draw() & ((1 << width) - 1)

    def check_witness(self, bits, witness):
        """Whether the witness passes a proof of work of so many bits."""
        if bits == 0:
            return True
        self.observe_number(witness)
        return self.draw_bits(bits) == 0

    def least_witness(self, bits, passes=True):
        """The least number whose check answers `passes`; the state stays as it was."""
        return next(
            witness
            for witness in range(field.ORDER)
            if self.copy().check_witness(bits, witness) == passes
        )

    def grind(self, bits):
        """The least witness that passes; the state after its check is left."""
        witness = self.least_witness(bits)
        self.check_witness(bits, witness)
        return witness
