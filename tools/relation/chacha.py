"""The generator `ChaCha20Rng` of the crate `rand_chacha`: ChaCha20 with a counter of 64 bits."""

from struct import pack, unpack

CONSTANT = unpack("<4I", b"expand 32-byte k")
DOUBLE_ROUNDS = 10
QUARTERS = (
    (0, 4, 8, 12), (1, 5, 9, 13), (2, 6, 10, 14), (3, 7, 11, 15),
    (0, 5, 10, 15), (1, 6, 11, 12), (2, 7, 8, 13), (3, 4, 9, 14),
)


def rotated(word, count):
    return (word << count | word >> (32 - count)) & 0xffffffff


def quarter_round(state, a, b, c, d):
    for x, y, z, count in ((a, b, d, 16), (c, d, b, 12), (a, b, d, 8), (c, d, b, 7)):
        state[x] = (state[x] + state[y]) & 0xffffffff
        state[z] = rotated(state[z] ^ state[x], count)


def block(key, counter):
    """The 64 bytes of the stream at this place."""
    first = [*CONSTANT, *unpack("<8I", key), *unpack("<2I", pack("<Q", counter)), 0, 0]
    state = list(first)
    for _ in range(DOUBLE_ROUNDS):
        for quarter in QUARTERS:
            quarter_round(state, *quarter)
    return pack("<16I", *((a + b) & 0xffffffff for a, b in zip(state, first)))


def words(seed):
    """The words of 64 bits that a generator from this seed of 32 bytes gives."""
    counter = 0
    while True:
        yield from unpack("<8Q", block(seed, counter))
        counter += 1


class Generator:
    """Random numbers as the hiding scheme draws them: words of 64 bits modulo a bound."""

    def __init__(self, seed):
        self.words = words(seed)

    def randrange(self, bound):
        return next(self.words) % bound
