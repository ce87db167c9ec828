"""A prime field and its extension, polynomials, and points in bit-reversed order.

An element of the field is a number from 0 to `ORDER - 1`; one of the extension is a tuple of `DEGREE`
such numbers, the coefficients of a polynomial modulo `X^DEGREE - NON_RESIDUE`, the constant first. The
field is BabyBear until `use` names another.
"""

from dataclasses import dataclass


@dataclass(frozen=True)
class Field:
    """A prime field, and its extension by a root of `X^degree - non_residue`."""

    order: int
    two_adicity: int
    generator: int
    degree: int
    non_residue: int


FIELDS = {
    "BabyBear": Field(15 * 2**27 + 1, 27, 31, 4, 11),
    "KoalaBear": Field(127 * 2**24 + 1, 24, 3, 4, 3),
    "Goldilocks": Field(2**64 - 2**32 + 1, 32, 7, 2, 7),
}


def use(name):
    """Makes the field of this name the one that all else here is about."""
    global NAME, ORDER, TWO_ADICITY, GENERATOR, DEGREE, NON_RESIDUE, NUMBER_BYTES, ZERO, ONE
    one = FIELDS[name]
    NAME, ORDER, TWO_ADICITY, GENERATOR = name, one.order, one.two_adicity, one.generator
    DEGREE, NON_RESIDUE = one.degree, one.non_residue
    NUMBER_BYTES = 4 if ORDER <= 2**32 else 8
    ZERO = (0,) * DEGREE
    ONE = (1,) + (0,) * (DEGREE - 1)


use("BabyBear")


def bytes_of(number):
    """The bytes of an element of the base field, the lowest first."""
    return number.to_bytes(NUMBER_BYTES, "little")


def lift(number):
    """A number of the base field as an element of the extension."""
    return (number % ORDER,) + ZERO[1:]


def inverse(number):
    """The inverse of a base field element other than zero."""
    if number % ORDER == 0:
        raise ZeroDivisionError("zero has no inverse")
    return pow(number, ORDER - 2, ORDER)


def root(log_order):
    """The root of unity `w_k` of order `2^k`, for `k` up to the two-adicity."""
    return pow(GENERATOR, ORDER - 1 >> log_order, ORDER)


def reverse_bits(index, width):
    """The number whose `width` binary digits are those of `index` turned round."""
    turned = 0
    for _ in range(width):
        turned = turned << 1 | index & 1
        index >>= 1
    return turned


def position(index, log_size):
    """The point at which entry `index` of a word of that log height stands."""
    return pow(root(log_size), reverse_bits(index, log_size), ORDER)


def coset_point(index, log_height):
    """The point of the evaluation coset at which row `index` of a committed matrix stands."""
    return GENERATOR * position(index, log_height) % ORDER


def add(left, right):
    return tuple((a + b) % ORDER for a, b in zip(left, right))


def subtract(left, right):
    return tuple((a - b) % ORDER for a, b in zip(left, right))


def scale(element, number):
    """The product of an element of the extension and one of the base field."""
    return tuple(a * number % ORDER for a in element)


def multiply(left, right):
    answer = [0] * DEGREE
    for i, a in enumerate(left):
        for j, b in enumerate(right):
            wrapped = NON_RESIDUE if i + j >= DEGREE else 1
            answer[(i + j) % DEGREE] += a * b * wrapped
    return tuple(number % ORDER for number in answer)


def power(element, exponent):
    answer = ONE
    while exponent:
        if exponent & 1:
            answer = multiply(answer, element)
        element = multiply(element, element)
        exponent >>= 1
    return answer


def invert(element):
    """The inverse of an element of the extension other than zero.

    An element times its conjugate (`-X` for `X`) is one in even powers of `X`: of degree 2 in the
    base field, and of degree 4 `n + m X^2`, which times `n - m X^2` is in the base field.
    """
    conjugate = tuple(-a if i % 2 else a for i, a in enumerate(element))
    even = multiply(element, conjugate)
    if DEGREE == 4:
        turned = (even[0], 0, -even[2], 0)
        conjugate, even = multiply(conjugate, turned), multiply(even, turned)
    return scale(conjugate, inverse(even[0]))


def value(coefficients, point):
    """The value at `point` of a polynomial over the extension."""
    answer = ZERO
    for coefficient in reversed(coefficients):
        answer = add(multiply(answer, point), coefficient)
    return answer


def interpolated_value(points, values, at):
    """The value at `at` of the one polynomial with these values at these base field points."""
    answer = ZERO
    for i, (point, entry) in enumerate(zip(points, values)):
        weight, divisor = ONE, 1
        for j, other in enumerate(points):
            if i != j:
                weight = multiply(weight, subtract(at, lift(other)))
                divisor = divisor * (point - other) % ORDER
        answer = add(answer, scale(multiply(weight, entry), inverse(divisor)))
    return answer


def coefficients_on_coset(values, shift=1):
    """Coefficients of the one base field polynomial with these values at `shift * w^i`."""
    size = len(values)
    step = inverse(root(size.bit_length() - 1))
    powers = [pow(step, i, ORDER) for i in range(size)]
    scaling, unshift = inverse(size), inverse(shift)
    return [
        sum(entry * powers[i * j % size] for i, entry in enumerate(values))
        * scaling * pow(unshift, j, ORDER) % ORDER
        for j in range(size)
    ]


def base_value(coefficients, point):
    """The value at a base field point of a polynomial over the base field."""
    answer = 0
    for coefficient in reversed(coefficients):
        answer = (answer * point + coefficient) % ORDER
    return answer
