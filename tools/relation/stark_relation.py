"""When a STARK's proof is accepted, and which refusals are true of one that isn't.

As in `relation`, what lies behind a fault that leaves it undefined isn't looked at: nothing is
drawn for a statement and a proof that don't fit each other.
"""

from dataclasses import dataclass

import air
import field
import relation
from plain_form import Claim, MatrixClaim, PointClaim
from relation import Hiding, Verdict
from stark_transcript import Instance, draw_alpha, draw_zeta

DEGREE_BOUND = 1 << 63


@dataclass
class Scheme:
    """Parameters, and how many random codewords the scheme has: None where it doesn't hide."""

    parameters: object
    num_random_codewords: int = None

    @property
    def hides(self):
        return self.num_random_codewords is not None

    @property
    def hiding_bits(self):
        """A scheme that hides has twice as many rows."""
        return int(self.hides)


@dataclass
class Key:
    """The commitment to preprocessed columns, and the logarithm of their height."""

    commitment: bytes
    log_height: int


@dataclass
class StarkStatement:
    """What a verifier knows by itself."""

    air: object
    public_values: list
    periodic: list
    preprocessed: Key = None

    @property
    def preprocessed_commitment(self):
        return self.preprocessed and self.preprocessed.commitment

    def instance(self, log_height):
        return Instance(self.air, log_height, self.public_values, self.periodic)


@dataclass
class Commitments:
    trace: bytes
    quotient_chunks: bytes
    random: bytes = None


@dataclass
class OpenedValues:
    trace_local: list
    trace_next: list
    preprocessed_local: list
    preprocessed_next: list
    quotient_chunks: list
    random: list


@dataclass
class StarkProof:
    """`random_values` stand beside the opening where the scheme hides."""

    commitments: Commitments
    opened_values: OpenedValues
    opening_proof: object
    log_height: int
    random_values: list = None


# Chunks


def excess(scheme, degree, constraint):
    """How far a constraint's degree is above what one chunk allows."""
    allowed = 1 if constraint.rows in ("first", "last") else 2
    return max(degree - allowed + scheme.hiding_bits, 0)


def log_num_chunks(scheme, system):
    """The logarithm of the number of chunks, of which a scheme that hides has twice as many."""
    degrees = air.degrees(system)
    greatest = max((excess(scheme, degrees[constraint.node], constraint)
                    for constraint in system.constraints), default=0)
    return greatest.bit_length() + scheme.hiding_bits


def chunk_shifts(log_height, log_chunks):
    """The shifts of the cosets into which the coset of the generator is split."""
    root = field.root(log_height + log_chunks)
    return [field.GENERATOR * pow(root, i, field.ORDER) % field.ORDER
            for i in range(1 << log_chunks)]


def vanishing(shift, size, point):
    """The value at a point of `(X / shift)^size - 1`."""
    scaled = field.scale(point, field.inverse(shift))
    return field.subtract(field.power(scaled, size), field.ONE)


def chunk_factor(shifts, size, index, point):
    """What a chunk's value counts in the quotient: one on its coset, and zero on the others."""
    factor = field.ONE
    for other, shift in enumerate(shifts):
        if other != index:
            here = vanishing(shift, size, field.lift(shifts[index]))
            factor = field.multiply(factor, field.multiply(
                vanishing(shift, size, point), field.invert(here)))
    return factor


def from_basis(values):
    """The sum of values times `1, X, X^2, X^3`."""
    total = field.ZERO
    for exponent, value in enumerate(values):
        monomial = tuple(int(exponent == i) for i in range(field.DEGREE))
        total = field.add(total, field.multiply(monomial, value))
    return total


def recombined(log_height, chunks, point):
    """The quotient's value at a point, by those of its chunks."""
    shifts = chunk_shifts(log_height, len(chunks).bit_length() - 1)
    total = field.ZERO
    for index, values in enumerate(chunks):
        factor = chunk_factor(shifts, 1 << log_height, index, point)
        total = field.add(total, field.multiply(factor, from_basis(values)))
    return total


# The identity


def zerofier(log_height, point):
    """The value at a point of `X^n - 1`, which vanishes on the trace's domain."""
    return field.subtract(field.power(point, 1 << log_height), field.ONE)


def selectors(log_height, point):
    """The value at a point, off the trace's domain, of what selects rows."""
    vanishes = zerofier(log_height, point)
    from_first = field.subtract(point, field.ONE)
    from_last = field.subtract(point, field.lift(field.inverse(field.root(log_height))))
    return {
        "all": field.ONE,
        "first": field.multiply(vanishes, field.invert(from_first)),
        "last": field.multiply(vanishes, field.invert(from_last)),
        "transition": from_last,
    }


def folded(system, window, log_height, alpha, point):
    """The constraints' values, selected, by powers of `alpha`; the last one's power is one."""
    values = air.meanings(system, window, air.OVER_EXTENSION)
    selected_by = selectors(log_height, point)
    total, weight = field.ZERO, field.ONE
    for constraint in reversed(system.constraints):
        term = field.multiply(selected_by[constraint.rows], values[constraint.node])
        total = field.add(total, field.multiply(weight, term))
        weight = field.multiply(weight, alpha)
    return total


def opened_window(statement, proof, point):
    opened = proof.opened_values
    return {
        "local": opened.trace_local,
        "next": opened.trace_next,
        "preprocessed": opened.preprocessed_local,
        "preprocessed_next": opened.preprocessed_next,
        "public": [field.lift(value) for value in statement.public_values],
        "periodic": [air.periodic_value(column, proof.log_height, point)
                     for column in statement.periodic],
    }


def agrees(statement, proof, alpha, point):
    """Whether the constraints' sum is the quotient times the vanishing polynomial."""
    window = opened_window(statement, proof, point)
    total = folded(statement.air, window, proof.log_height, alpha, point)
    quotient = recombined(proof.log_height, proof.opened_values.quotient_chunks, point)
    return total == field.multiply(quotient, zerofier(proof.log_height, point))


# What is asked before anything is absorbed


def has_shape(scheme, statement, proof):
    """Whether there are domains for the chunks, and each list of opened values has its length."""
    system, opened = statement.air, proof.opened_values
    log_chunks = log_num_chunks(scheme, system)
    key = statement.preprocessed
    return (
        proof.log_height + log_chunks <= field.TWO_ADICITY
        and (key is None or key.log_height == proof.log_height)
        and len(opened.trace_local) == len(opened.trace_next) == system.width
        and len(opened.preprocessed_local) == system.preprocessed_width
        and len(opened.preprocessed_next) == system.preprocessed_width
        and len(opened.quotient_chunks) == 1 << log_chunks
        and all(len(values) == field.DEGREE for values in opened.quotient_chunks)
        and len(opened.random) == (field.DEGREE if scheme.hides else 0)
    )


def input_faults(scheme, statement, proof):
    system, found = statement.air, set()
    malformed = air.air_fault(system)
    if malformed:
        found.add(f"InvalidAir({malformed})")
    elif max(air.degrees(system), default=0) >= DEGREE_BOUND:
        found.add("DegreeTooLarge")
    elif not has_shape(scheme, statement, proof):
        found.add("InvalidProofShape")
    if len(statement.public_values) != system.num_public_values:
        found.add("InvalidPublicValues")
    if len(statement.periodic) != system.num_periodic_columns:
        found.add("InvalidPeriodicCount")
    if (statement.preprocessed is None) != (system.preprocessed_width == 0):
        found.add("InvalidPreprocessed")
    if (proof.commitments.random is None) == scheme.hides:
        found.add("RandomizationError")
    return found


# What is asked at the point


def one_matrix(commitment, log_size, claimed):
    """The claim of a commitment to one matrix, of pairs of a point and the values there."""
    return Claim(commitment, [MatrixClaim(log_size, 1, [PointClaim(*pair) for pair in claimed])])


def stark_claims(scheme, statement, proof, point):
    """What the proof claims of its commitments, at the point and at the next one."""
    opened, commitments = proof.opened_values, proof.commitments
    log_size = proof.log_height + scheme.hiding_bits
    after = field.scale(point, field.root(proof.log_height))
    claims = [one_matrix(commitments.trace, log_size, [
        (point, opened.trace_local), (after, opened.trace_next)])]
    if statement.preprocessed:
        claims.insert(0, one_matrix(statement.preprocessed_commitment, log_size, [
            (point, opened.preprocessed_local), (after, opened.preprocessed_next)]))
    claims.append(Claim(commitments.quotient_chunks, [
        MatrixClaim(log_size, 1, [PointClaim(point, values)])
        for values in opened.quotient_chunks
    ]))
    if commitments.random is not None:
        claims.append(one_matrix(commitments.random, log_size, [(point, opened.random)]))
    return claims


def opening_verdict(scheme, statement, proof, point, entry):
    """Whether the scheme accepts the opening. The parameters are the verifier's own."""
    parameters, claims = scheme.parameters, stark_claims(scheme, statement, proof, point)
    if not scheme.hides:
        return relation.plain_verdict(parameters, claims, proof.opening_proof, entry)
    preprocessing = 0 if statement.preprocessed else None
    hiding = Hiding(scheme.num_random_codewords, proof.random_values, preprocessing)
    return relation.hiding_verdict(parameters, hiding, claims, proof.opening_proof, entry)


def verdict_at(scheme, statement, proof, alpha, point, challenger):
    opening = opening_verdict(scheme, statement, proof, point, challenger)
    found = {f"InvalidOpeningArgument({fault})" for fault in opening.faults}
    on_domain = zerofier(proof.log_height, point) == field.ZERO
    period_fault = air.period_fault(statement.periodic, 1 << proof.log_height)
    if on_domain:
        found.add("PointOnTraceDomain")
    if period_fault:
        found.add(f"InvalidPeriodicColumns({period_fault})")
    if not on_domain and not period_fault and not agrees(statement, proof, alpha, point):
        found.add("OodEvaluationMismatch")
    return Verdict(found, None if found else opening.challenger)


def stark_verdict(scheme, statement, proof, entry):
    """Whether a STARK's proof is accepted, from the challenger `entry` on, which stays as it is."""
    found = input_faults(scheme, statement, proof)
    if found:
        return Verdict(found)
    challenger = entry.copy()
    commitments = proof.commitments
    alpha = draw_alpha(challenger, statement.instance(proof.log_height),
                       statement.preprocessed_commitment, commitments.trace, scheme.hides)
    point = draw_zeta(challenger, commitments.quotient_chunks, commitments.random)
    return verdict_at(scheme, statement, proof, alpha, point, challenger)
