"""Changes with a name: each has one answer, which is among those that the relation allows."""

import field
import transcript
from alterations import CLAIM, Change, compact
from challenger import Challenger
from plain_form import Parameters, claims_from_plain, proof_from_plain
from relation import log_heights, observe_claims, schedule


def change(path, operation, value=""):
    words = path.split("/")[1:]
    return Change(tuple(int(word) if word.isdigit() else word for word in words), operation, value)


ACCEPTED, REFUSED = "accepted", "refused"
ORDER = compact(field.ORDER)
COUNT_OF_ROWS = "CommitPhaseQueryCountMismatch { round: 0, expected: 2, got: 0 }"
COUNT_OF_ROW_SETS = "InputOpeningsQueryCountMismatch { batch: 0, expected: 2, got: 1 }"
COUNT_OF_MATRICES = "BatchOpenedValuesCountMismatch { batch: 0, expected: 1, got: 0 }"
COUNT_OF_BATCHES = "InputProofBatchCountMismatch { expected: 2, got: 1 }"

LINE_ROWS = [
    ("an element past the order", change("/proof/final_poly/0/0", "set", ORDER),
     "ElementOutOfRange"),
    ("a coefficient list of three numbers", change("/proof/final_poly/0", "cut"), "ElementLength"),
    ("a digest of 31 bytes", change("/proof/commit_phase_commits/0", "cut"), "DigestLength"),
    ("no rows of siblings", change("/proof/commit_phase_openings/0/sibling_values", "empty"),
     COUNT_OF_ROWS),
    ("a row set dropped", change("/proof/input_openings/0/opened_values", "cut"),
     COUNT_OF_ROW_SETS),
    ("the first row set emptied", change("/proof/input_openings/0/opened_values/0", "empty"),
     COUNT_OF_MATRICES),
    ("an input's path cut to one digest", change("/proof/input_openings/0/paths/0", "cut"),
     "InputError(PathLength)"),
    ("a round's path emptied", change("/proof/commit_phase_openings/0/paths/0", "empty"),
     "CommitPhaseMmcsError(PathLength)"),
    ("a round's witness without work", change("/proof/commit_pow_witnesses/0", "set", "1"),
     "NonCanonicalPowWitness { phase: CommitPhase }"),
    ("a query's witness without work", change("/proof/query_pow_witness", "set", "1"),
     "NonCanonicalPowWitness { phase: Query }"),
    ("a batching witness without work", change("/proof/batch_pow_witness", "set", "1"),
     "NonCanonicalPowWitness { phase: Batch }"),
    ("an empty commitment claimed too", change("/claims", "add", compact(CLAIM.sample)),
     COUNT_OF_BATCHES),
    ("a domain of another shift", change("/claims/0/matrices/0/shift", "set", "31"), ACCEPTED),
    ("another final polynomial", change("/proof/final_poly/0", "set", "[0,0,0,0]"), REFUSED),
    ("another claim", change("/claims/0/matrices/0/points/0/values/0/0", "set", "2013265917"),
     REFUSED),
    ("a domain past the two-adicity", change("/claims/0/matrices/0/log_size", "set", "27"),
     "GlobalMaxHeightTooLarge { log_global_max_height: 28, two_adicity: 27 }"),
    ("no opening sets", change("/proof/commit_phase_openings", "empty"),
     "CommitPhaseOpeningsCountMismatch { expected: 1, got: 0 }"),
    ("no commitments of rounds", change("/proof/commit_phase_commits", "empty"),
     "CommitRoundCountMismatch { expected: 1, got: 0 }"),
    ("no witnesses of rounds", change("/proof/commit_pow_witnesses", "empty"),
     "CommitPowWitnessCountMismatch { expected: 1, got: 0 }"),
    ("a second coefficient", change("/proof/final_poly", "repeat"),
     "FinalPolyLengthMismatch { expected: 1, got: 2 }"),
    ("a second sibling", change("/proof/commit_phase_openings/0/sibling_values/0", "repeat"),
     "SiblingValuesLengthMismatch { round: 0, expected: 1, got: 2 }"),
    ("no input openings", change("/proof/input_openings", "empty"),
     "InputProofBatchCountMismatch { expected: 1, got: 0 }"),
]


def random_count(expected, got, number):
    return (f"HidingRandomOpeningValueCountMismatch {{ round: {number}, matrix: 0, point: 0, "
            f"expected: {expected}, got: {got} }}")


HIDING_ROWS = [
    ("no preprocessing named", change("/hiding/preprocessing", "set", "null"),
     random_count(4, 0, 0)),
    ("a random value dropped", change("/hiding/random_values/1/0/0", "cut"),
     random_count(4, 3, 1)),
    ("a random value of preprocessing", change("/hiding/random_values/0/0/0", "add", "[1,0,0,0]"),
     random_count(0, 1, 0)),
    ("no random values", change("/hiding/random_values", "empty"),
     "HidingRandomOpeningRoundCountMismatch { expected: 2, got: 0 }"),
    ("preprocessing past the claims", change("/hiding/preprocessing", "set", "2"),
     "HidingPreprocessedCommitmentOutOfBounds { index: 2, num_rounds: 2 }"),
    ("three random codewords", change("/hiding/num_random_codewords", "set", "3"),
     "InsufficientHidingRandomCodewords { required: 4, got: 3 }"),
]

COSET_ROWS = [
    ("a point that is read", Change((), "keep"),
     "OpeningPointMatchesQueryPoint { batch: 0, matrix: 0, point: 3 }"),
]


def refused_witness(document, phase):
    """The least witness that fails in the state that the replay reaches at the phase."""
    parameters = Parameters(**document["parameters"])
    claims = claims_from_plain(document["claims"])
    proof, _ = proof_from_plain(document["proof"])
    challenger = Challenger()
    observe_claims(parameters, claims, challenger)
    if phase == "Batch":
        return challenger.least_witness(parameters.batch_proof_of_work_bits, passes=False)
    challenger.check_witness(parameters.batch_proof_of_work_bits, proof.batch_pow_witness)
    challenger.draw_element()
    heights = log_heights(parameters, claims)
    arities = schedule(heights, parameters.log_final_height, parameters.max_log_arity)
    transcript.observe_stream(
        challenger, transcript.test_stream(parameters, arities, heights[0]))
    rounds = zip(proof.commit_phase_commits, proof.commit_pow_witnesses)
    for commitment, witness in rounds:
        challenger.observe_bytes(commitment)
        if phase == "CommitPhase":
            return challenger.least_witness(parameters.commit_proof_of_work_bits, passes=False)
        challenger.check_witness(parameters.commit_proof_of_work_bits, witness)
        challenger.draw_element()
    for coefficient in proof.final_poly:
        challenger.observe_element(coefficient)
    return challenger.least_witness(parameters.query_proof_of_work_bits, passes=False)


WORK_ROWS = {
    "batch_work": ("Batch", "/proof/batch_pow_witness"),
    "round_work": ("CommitPhase", "/proof/commit_pow_witnesses/0"),
    "query_work": ("Query", "/proof/query_pow_witness"),
}


def rows_of(name, document):
    """The named changes of the opening of that name, each with its name and its answer."""
    if name in WORK_ROWS:
        phase, path = WORK_ROWS[name]
        witness = refused_witness(document, phase)
        work = change(path, "set", compact(witness))
        return [("the least witness that fails", work, f"InvalidPowWitness({phase})")]
    return {
        "line": LINE_ROWS, "hiding": HIDING_ROWS, "all_points_of_the_coset": COSET_ROWS,
    }.get(name, [])
