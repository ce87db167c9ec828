"""When an opening is accepted, and which refusals are true of one that isn't.

A refusal is written as the variant with its numbers. `Verdict.faults` are the refusals that may be
answered: each names a fault that stands. Without any, the opening is accepted, and the challenger
is left as `Verdict.challenger`. What lies behind a fault that leaves it undefined isn't looked at:
no draws behind a proof of work that fails, no folds of rows that are missing.
"""

from dataclasses import dataclass
from dataclasses import field as record_field

import field
import transcript
import tree
from challenger import Challenger
from plain_form import Claim, MatrixClaim, PointClaim


@dataclass
class Verdict:
    faults: set = record_field(default_factory=set)
    challenger: Challenger = None


def count_fault(name, expected, got, **place):
    numbers = ", ".join(f"{key}: {number}" for key, number in place.items())
    counts = f"expected: {expected}, got: {got}"
    return f"{name} {{ {numbers + ', ' if numbers else ''}{counts} }}"


def named(name, **numbers):
    return f"{name} {{ " + ", ".join(f"{key}: {number}" for key, number in numbers.items()) + " }"


# Heights and the schedule


def log_height(parameters, matrix):
    return matrix.log_size + parameters.log_blowup


def log_heights(parameters, claims):
    """All log heights that are claimed, each once, falling."""
    heights = {log_height(parameters, matrix) for claim in claims for matrix in claim.matrices}
    return sorted(heights, reverse=True)


def schedule(heights, final, cap):
    """The log arities of the rounds between neighbouring stops."""
    if not heights or heights[0] <= final:
        return []
    stops = [*(height for height in heights if height > final), final]
    rounds = []
    for above, below in zip(stops, stops[1:]):
        distance = above - below
        rounds += [cap] * (distance // cap)
        if distance % cap:
            rounds.append(distance % cap)
    return rounds


def can_fold(parameters, heights):
    """Whether there are words, of log heights that the field has, and a cap to fold them by."""
    return heights and heights[0] <= field.TWO_ADICITY and parameters.max_log_arity > 0


# What stands whatever is drawn


def parameter_faults(parameters):
    names = {
        "ZeroQueries": parameters.num_queries,
        "ZeroBlowup": parameters.log_blowup,
        "ZeroFoldingArity": parameters.max_log_arity,
    }
    return {name for name, number in names.items() if number == 0}


def height_faults(parameters, heights):
    if not heights:
        return {"NoCommittedMatrices"}
    greatest, final = heights[0], parameters.log_final_height
    if greatest > field.TWO_ADICITY:
        return {named("GlobalMaxHeightTooLarge", log_global_max_height=greatest,
                      two_adicity=field.TWO_ADICITY)}
    found = set()
    if greatest < final:
        found.add(count_fault("FinalFoldHeightMismatch", final, greatest))
    unmet = [height for height in heights if height < min(final, greatest)]
    if unmet:
        found.add(named("UnconsumedReducedOpenings", next_log_height=unmet[0],
                        remaining=len(unmet)))
    return found


def witness_faults(parameters, proof):
    phases = {
        "Batch": (parameters.batch_proof_of_work_bits, [proof.batch_pow_witness]),
        "CommitPhase": (parameters.commit_proof_of_work_bits, proof.commit_pow_witnesses),
        "Query": (parameters.query_proof_of_work_bits, [proof.query_pow_witness]),
    }
    return {
        named("NonCanonicalPowWitness", phase=phase)
        for phase, (bits, witnesses) in phases.items()
        if bits == 0 and any(witnesses)
    }


def claim_faults(claims):
    found = set()
    for batch, claim in enumerate(claims):
        for matrix, matrix_claim in enumerate(claim.matrices):
            if not matrix_claim.points:
                found.add(named("MatrixWithoutOpeningPoints", batch=batch, matrix=matrix))
            for point, point_claim in enumerate(matrix_claim.points):
                if len(point_claim.values) != matrix_claim.width:
                    found.add(count_fault(
                        "PointEvaluationCountMismatch", matrix_claim.width,
                        len(point_claim.values), batch=batch, matrix=matrix, point=point))
    return found


def length_faults(parameters, log_arities, proof):
    rounds = len(log_arities)
    final_length = 1 << parameters.log_final_poly_len
    counts = [
        ("CommitPhaseOpeningsCountMismatch", rounds, len(proof.commit_phase_openings)),
        ("CommitRoundCountMismatch", rounds, len(proof.commit_phase_commits)),
        ("CommitPowWitnessCountMismatch", rounds, len(proof.commit_pow_witnesses)),
        ("FinalPolyLengthMismatch", final_length, len(proof.final_poly)),
    ]
    found = {count_fault(name, expected, got) for name, expected, got in counts if expected != got}
    return found | sibling_faults(parameters, log_arities, proof)


def sibling_faults(parameters, log_arities, proof):
    found = set()
    for number, (arity, opening) in enumerate(zip(log_arities, proof.commit_phase_openings)):
        rows = opening.sibling_values
        if len(rows) != parameters.num_queries:
            found.add(count_fault("CommitPhaseQueryCountMismatch", parameters.num_queries,
                                  len(rows), round=number))
        for row in rows:
            if len(row) != (1 << arity) - 1:
                found.add(count_fault("SiblingValuesLengthMismatch", (1 << arity) - 1, len(row),
                                      round=number))
    return found


def input_count_faults(parameters, claims, proof):
    found = set()
    if len(proof.input_openings) != len(claims):
        found.add(count_fault("InputProofBatchCountMismatch", len(claims),
                              len(proof.input_openings)))
    for batch, (claim, opening) in enumerate(zip(claims, proof.input_openings)):
        row_sets = opening.opened_values
        if len(row_sets) != parameters.num_queries:
            found.add(count_fault("InputOpeningsQueryCountMismatch", parameters.num_queries,
                                  len(row_sets), batch=batch))
        for rows in row_sets:
            if len(rows) != len(claim.matrices):
                found.add(count_fault("BatchOpenedValuesCountMismatch", len(claim.matrices),
                                      len(rows), batch=batch))
    return found


# What is drawn


@dataclass
class Draws:
    alpha: tuple
    betas: list
    indices: list


def replay_batching(parameters, claims, proof, challenger):
    """The challenge that batches the claims; None where the proof of work before it fails."""
    observe_claims(parameters, claims, challenger)
    if not challenger.check_witness(parameters.batch_proof_of_work_bits, proof.batch_pow_witness):
        return None
    return challenger.draw_element()


def replay(parameters, claims, proof, challenger):
    """All that is drawn on the way, or the refusal of a proof of work that fails.

    None where the proof hasn't as many commitments and witnesses as rounds, or coefficients as
    asked, and no proof of work fails before.
    """
    alpha = replay_batching(parameters, claims, proof, challenger)
    if alpha is None:
        return "InvalidPowWitness(Batch)"
    heights = log_heights(parameters, claims)
    if not can_fold(parameters, heights):
        return None
    log_arities = schedule(heights, parameters.log_final_height, parameters.max_log_arity)
    if not (len(proof.commit_phase_commits) == len(proof.commit_pow_witnesses) == len(log_arities)):
        return None
    transcript.observe_stream(
        challenger, transcript.test_stream(parameters, log_arities, heights[0]))
    betas = []
    for commitment, witness in zip(proof.commit_phase_commits, proof.commit_pow_witnesses):
        challenger.observe_bytes(commitment)
        if not challenger.check_witness(parameters.commit_proof_of_work_bits, witness):
            return "InvalidPowWitness(CommitPhase)"
        betas.append(challenger.draw_element())
    if len(proof.final_poly) != 1 << parameters.log_final_poly_len:
        return None
    for coefficient in proof.final_poly:
        challenger.observe_element(coefficient)
    if not challenger.check_witness(parameters.query_proof_of_work_bits, proof.query_pow_witness):
        return "InvalidPowWitness(Query)"
    indices = [challenger.draw_bits(heights[0]) for _ in range(parameters.num_queries)]
    return Draws(alpha, betas, indices)


def observe_claims(parameters, claims, challenger):
    counts = [
        [[len(point.values) for point in matrix.points] for matrix in claim.matrices]
        for claim in claims
    ]
    transcript.observe_stream(
        challenger, transcript.opening_stream(counts, parameters.batch_proof_of_work_bits))
    for claim in claims:
        for matrix in claim.matrices:
            for point in matrix.points:
                for claimed in point.values:
                    challenger.observe_element(claimed)


# What is opened


def input_tree_faults(parameters, claims, proof, indices, greatest):
    found = set()
    for claim, opening in zip(claims, proof.input_openings):
        if not has_row_sets(parameters, claim, opening):
            continue
        if any(not matrix.points for matrix in claim.matrices):
            continue
        dimensions = [
            (matrix.width, 1 << log_height(parameters, matrix)) for matrix in claim.matrices
        ]
        heights = [log_height(parameters, matrix) for matrix in claim.matrices]
        below = [index >> (greatest - max(heights)) if heights else 0 for index in indices]
        found |= tree.faults(claim.commitment, dimensions, below, opening.opened_values,
                             opening.paths, tree.base_bytes)
    return {f"InputError({fault})" for fault in found}


def has_row_sets(parameters, claim, opening):
    row_sets = opening.opened_values
    return len(row_sets) == parameters.num_queries and all(
        len(rows) == len(claim.matrices) for rows in row_sets)


def point_faults(parameters, claims, indices, greatest):
    """Claimed points at which a query reads."""
    found = set()
    for batch, claim in enumerate(claims):
        for matrix, matrix_claim in enumerate(claim.matrices):
            height = log_height(parameters, matrix_claim)
            read = {field.lift(field.coset_point(index >> (greatest - height), height))
                    for index in indices}
            for point, point_claim in enumerate(matrix_claim.points):
                if point_claim.point in read:
                    found.add(named("OpeningPointMatchesQueryPoint", batch=batch, matrix=matrix,
                                    point=point))
    return found


def quotient_sum(parameters, claims, proof, query, index, height, greatest, alpha):
    """The sum of `alpha^t (y - f(x)) / (z - x)` over all that is claimed at that log height."""
    position = field.lift(field.coset_point(index >> (greatest - height), height))
    total, weight = field.ZERO, field.ONE
    for claim, opening in zip(claims, proof.input_openings):
        for matrix, row in zip(claim.matrices, opening.opened_values[query]):
            if log_height(parameters, matrix) != height:
                continue
            for claimed in matrix.points:
                divisor = field.invert(field.subtract(claimed.point, position))
                for y, entry in zip(claimed.values, row):
                    difference = field.subtract(y, field.lift(entry))
                    term = field.multiply(difference, divisor)
                    total = field.add(total, field.multiply(weight, term))
                    weight = field.multiply(weight, alpha)
    return total


@dataclass
class Round:
    """What the queries ask of one round's tree."""

    log_height: int
    indices: list
    rows: list


def fold_query(sums, log_arities, betas, siblings, index, greatest, rounds):
    """The last index and value of a query's chain; the rows on its way go to `rounds`."""
    height, folded = greatest, sums[greatest]
    for number, (arity, beta) in enumerate(zip(log_arities, betas)):
        row = list(siblings[number])
        row.insert(index % (1 << arity), folded)
        index >>= arity
        height -= arity
        rounds[number].log_height = height
        rounds[number].indices.append(index)
        rounds[number].rows.append([row])
        points = [
            field.position((index << arity) + entry, height + arity) for entry in range(1 << arity)
        ]
        folded = field.interpolated_value(points, row, beta)
        if height in sums:
            joined = field.multiply(field.power(beta, 1 << arity), sums[height])
            folded = field.add(folded, joined)
    return index, folded


def query_faults(parameters, claims, proof, draws):
    """What the chains of all queries and the trees of all rounds say."""
    heights = log_heights(parameters, claims)
    final = parameters.log_final_height
    log_arities = schedule(heights, final, parameters.max_log_arity)
    found, rounds = set(), [Round(0, [], []) for _ in log_arities]
    for query, index in enumerate(draws.indices):
        sums = {
            height: quotient_sum(parameters, claims, proof, query, index, height, heights[0],
                                 draws.alpha)
            for height in heights
        }
        if sums.get(parameters.log_blowup, field.ZERO) != field.ZERO:
            found.add("FinalPolyMismatch")
        if heights[0] < final or heights[-1] < final:
            continue
        siblings = [opening.sibling_values[query] for opening in proof.commit_phase_openings]
        last, folded = fold_query(sums, log_arities, draws.betas, siblings, index, heights[0],
                                  rounds)
        point = field.lift(field.position(last, final))
        if field.value(proof.final_poly, point) != folded:
            found.add("FinalPolyMismatch")
    if heights[-1] >= final:
        found |= round_tree_faults(log_arities, proof, rounds)
    return found


def round_tree_faults(log_arities, proof, rounds):
    found = set()
    openings = zip(log_arities, proof.commit_phase_commits, proof.commit_phase_openings, rounds)
    for arity, commitment, opening, asked in openings:
        dimensions = [(1 << arity, 1 << asked.log_height)]
        found |= tree.faults(commitment, dimensions, asked.indices, asked.rows, opening.paths,
                             tree.extension_bytes)
    return {f"CommitPhaseMmcsError({fault})" for fault in found}


# The relation of the plain scheme


def plain_verdict(parameters, claims, proof, entry):
    """Whether the plain scheme accepts, from the challenger `entry` on, which stays as it is."""
    heights = log_heights(parameters, claims)
    found = parameter_faults(parameters) | witness_faults(parameters, proof)
    found |= height_faults(parameters, heights) | claim_faults(claims)
    found |= input_count_faults(parameters, claims, proof)
    if heights and parameters.max_log_arity:
        log_arities = schedule(heights, parameters.log_final_height, parameters.max_log_arity)
        found |= length_faults(parameters, log_arities, proof)
    challenger = entry.copy()
    draws = replay(parameters, claims, proof, challenger)
    if isinstance(draws, str):
        found.add(draws)
    elif draws is not None:
        found |= opening_faults(parameters, claims, proof, log_arities, draws)
    return Verdict(found, None if found else challenger)


def opening_faults(parameters, claims, proof, log_arities, draws):
    greatest = log_heights(parameters, claims)[0]
    found = input_tree_faults(parameters, claims, proof, draws.indices, greatest)
    matched = point_faults(parameters, claims, draws.indices, greatest)
    found |= matched
    widths_fit = not found & {"InputError(MatrixCount)", "InputError(RowWidth)"}
    if (
        widths_fit
        and not matched
        and not claim_faults(claims)
        and not input_count_faults(parameters, claims, proof)
        and not length_faults(parameters, log_arities, proof)
    ):
        found |= query_faults(parameters, claims, proof, draws)
    return found


# The relation of the hiding scheme


@dataclass
class Hiding:
    """What the hiding scheme has beside parameters, claims and a plain proof."""

    num_random_codewords: int
    random_values: list
    preprocessing: int = None


def hiding_verdict(parameters, hiding, claims, proof, entry):
    found = hiding_faults(parameters, hiding, claims)
    if found:
        return Verdict(found)
    return plain_verdict(parameters, with_random_values(claims, hiding.random_values), proof, entry)


def with_random_values(claims, random_values):
    """The claims with the random values behind the claimed ones, point by point."""
    return [
        Claim(claim.commitment, [
            MatrixClaim(matrix.log_size, matrix.shift, [
                PointClaim(point.point, point.values + values)
                for point, values in zip(matrix.points, matrix_values)
            ])
            for matrix, matrix_values in zip(claim.matrices, claim_values)
        ])
        for claim, claim_values in zip(claims, random_values)
    ]


def hiding_faults(parameters, hiding, claims):
    found = set()
    index = hiding.preprocessing
    if index is not None and index >= len(claims):
        found.add(named("HidingPreprocessedCommitmentOutOfBounds", index=index,
                        num_rounds=len(claims)))
    if hiding.num_random_codewords < field.DEGREE:
        found.add(named("InsufficientHidingRandomCodewords", required=field.DEGREE,
                        got=hiding.num_random_codewords))
    if len(hiding.random_values) != len(claims):
        found.add(count_fault("HidingRandomOpeningRoundCountMismatch", len(claims),
                              len(hiding.random_values)))
    found |= budget_faults(parameters, claims)
    for number, (claim, values) in enumerate(zip(claims, hiding.random_values)):
        expected = 0 if number == index else hiding.num_random_codewords
        found |= random_value_faults(number, claim, values, expected)
    return found


def budget_faults(parameters, claims):
    found = set()
    for number, claim in enumerate(claims):
        for matrix, matrix_claim in enumerate(claim.matrices):
            mask_height = (1 << matrix_claim.log_size) // 2
            points = len(matrix_claim.points)
            if mask_height < 2 * (parameters.num_queries + field.DEGREE * max(points, 1)):
                found.add(named(
                    "HidingBudgetExceeded", round=number, matrix=matrix, mask_height=mask_height,
                    num_queries=parameters.num_queries, num_opening_points=points,
                    extension_degree=field.DEGREE))
    return found


def random_value_faults(number, claim, values, expected):
    if len(values) != len(claim.matrices):
        return {count_fault("HidingRandomOpeningMatrixCountMismatch", len(claim.matrices),
                            len(values), round=number)}
    found = set()
    for matrix, (matrix_claim, points) in enumerate(zip(claim.matrices, values)):
        if len(points) != len(matrix_claim.points):
            found.add(count_fault("HidingRandomOpeningPointCountMismatch",
                                  len(matrix_claim.points), len(points), round=number,
                                  matrix=matrix))
            continue
        for point, point_values in enumerate(points):
            if len(point_values) != expected:
                found.add(count_fault("HidingRandomOpeningValueCountMismatch", expected,
                                      len(point_values), round=number, matrix=matrix, point=point))
    return found
