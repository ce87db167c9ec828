//! The scheme through the binding. Expected values are those of tools/relation, an independent
//! program.

use p3_fri_proved::field::BabyBear;
use p3_fri_proved::{
    commit, open, verify, Digest, Domain, Error, Fault, Matrix, Opening, Parameters, Proof, Refusal,
};
use std::ops::Range;

const PARAMETERS: Parameters = Parameters { num_queries: 2, ..Parameters::toy() };

/// So many queries don't all read the same by chance, where others are drawn.
const MANY: Parameters = Parameters { num_queries: 40, ..PARAMETERS };

/// The column 1, 3 on the domain 1, -1: the polynomial 2 - X. Opened at 5.
fn column() -> Matrix {
    Matrix { domain: Domain::subgroup(1), width: 1, values: vec![1, 3], points: vec![[5, 0, 0, 0]] }
}

/// Two matrices on two cosets, opened at points in and off the base field.
fn two_heights() -> Vec<Matrix> {
    let tall = Matrix {
        domain: Domain::subgroup(3),
        width: 2,
        values: vec![3, 1, 4, 1, 5, 9, 2, 6, 5, 3, 5, 8, 9, 7, 9, 3],
        points: vec![[5, 0, 0, 0], [7, 1, 0, 2]],
    };
    let low = Matrix {
        domain: Domain { shift: 3, log_size: 1 },
        width: 3,
        values: vec![2, 7, 1, 8, 2, 8],
        points: vec![[7, 1, 0, 2]],
    };
    vec![tall, low]
}

fn digest(hex: &str) -> Digest {
    std::array::from_fn(|i| u8::from_str_radix(&hex[2 * i..2 * i + 2], 16).unwrap())
}

fn opened() -> Opening {
    open(&PARAMETERS, &[], &[vec![column()]]).unwrap()
}

/// The refusal or the fault, whichever it is.
fn named<T: std::fmt::Debug>(result: Result<T, Error>) -> (Option<Refusal>, Option<Fault>) {
    match result.unwrap_err() {
        Error::Refused { refusal, .. } => (Some(refusal), None),
        Error::Malformed { fault, .. } => (None, Some(fault)),
        Error::OutOfMemory | Error::ProcessorTooOld => (None, None),
    }
}

#[test]
fn the_column_is_committed_to() {
    let commitment = "2aa419f58ea1802d8a714e88157918d5c64c948cbbf6d57fa86161ecdece7203";
    assert_eq!(commit(&PARAMETERS, &[vec![column()]]), Ok(vec![digest(commitment)]));
}

#[test]
fn the_column_is_opened_and_verified() {
    let opening = opened();
    let commitment = "2aa419f58ea1802d8a714e88157918d5c64c948cbbf6d57fa86161ecdece7203";
    assert_eq!(opening.claims.len(), 1);
    assert_eq!(opening.claims[0].commitment, digest(commitment));
    let claims = &opening.claims[0].matrices[0];
    assert_eq!(claims.domain, Domain::subgroup(1));
    assert_eq!(claims.points[0].point, [5, 0, 0, 0]);
    assert_eq!(claims.points[0].values, [[2013265918, 0, 0, 0]]);
    assert_eq!(opening.next_challenge, [1575306697, 1677209360, 273931704, 799075703]);
    let next_challenge = verify(&PARAMETERS, &[], &opening.claims, &opening.proof);
    assert_eq!(next_challenge, Ok(opening.next_challenge));
}

#[test]
fn several_matrices_are_opened_and_verified() {
    let parameters = Parameters { log_blowup: 2, max_log_arity: 2, num_queries: 3, ..PARAMETERS };
    let opening = open(&parameters, &[], &[two_heights()]).unwrap();
    let commitment = "7f4fca6d4493d5b5c6d99dc7d5f180786f7292ad26f89708b9d69b69690bb1a0";
    assert_eq!(opening.claims[0].commitment, digest(commitment));
    let [tall, low] = &opening.claims[0].matrices[..] else { panic!("two matrices are claimed") };
    assert_eq!(tall.points[0].values, [[1840254183, 0, 0, 0], [1375052786, 0, 0, 0]]);
    assert_eq!(
        tall.points[1].values,
        [
            [1558977350, 112890481, 1028726872, 261441804],
            [435550421, 735035206, 867237736, 1395585587],
        ]
    );
    assert_eq!(low.points[0].values[1], [1342177291, 335544321, 0, 671088642]);
    assert_eq!(opening.next_challenge, [1306391120, 602489802, 218582372, 1043326126]);
    let next_challenge = verify(&parameters, &[], &opening.claims, &opening.proof);
    assert_eq!(next_challenge, Ok(opening.next_challenge));
}

#[test]
fn several_commitments_are_opened_and_verified() {
    let parameters = Parameters { num_queries: 3, query_proof_of_work_bits: 3, ..PARAMETERS };
    let opening = open(&parameters, &[], &[two_heights(), vec![column()]]).unwrap();
    assert_eq!(opening.claims.len(), 2);
    let next_challenge = verify(&parameters, &[], &opening.claims, &opening.proof);
    assert_eq!(next_challenge, Ok(opening.next_challenge));
}

#[test]
fn altered_claims_are_refused_by_name() {
    let opening = open(&MANY, &[], &[vec![column()]]).unwrap();
    let mut value = opening.claims.clone();
    value[0].matrices[0].points[0].values[0][0] = 2013265917;
    let mut commitment = opening.claims.clone();
    commitment[0].commitment[31] ^= 1;
    let mut point = opening.claims.clone();
    point[0].matrices[0].points[0].point[0] = 6;
    // other indices are drawn, whose rows aren't those of the proof
    for claims in [value, commitment, point] {
        let refused = verify(&MANY, &[], &claims, &opening.proof);
        assert_eq!(named(refused), (Some(Refusal::InputError), None));
    }
    let mut missing = opening.claims.clone();
    missing[0].matrices.clear();
    let refused = verify(&MANY, &[], &missing, &opening.proof);
    assert_eq!(named(refused), (Some(Refusal::NoCommittedMatrices), None));
}

/// Where parts of the proof of the column stand: one round with its witness, one commitment of which
/// two queries open a value each, one coefficient, the last witness.
const COMMIT_POW_WITNESSES: Range<usize> = 40..48;
const INPUT_OPENINGS: Range<usize> = 48..52;
const OPENED_VALUE: Range<usize> = 64..68;
const FINAL_POLYNOMIAL: Range<usize> = 344..364;
const QUERY_POW_WITNESS: Range<usize> = 364..368;

/// The proof with these numbers in place of a part of it.
fn with_part(proof: &Proof, part: Range<usize>, numbers: &[u32]) -> Proof {
    let mut bytes = proof.as_bytes().to_vec();
    bytes.splice(part, numbers.iter().flat_map(|number| number.to_le_bytes()));
    Proof::from_bytes(bytes)
}

/// As `flat_form.py` of tools/relation prints it.
#[test]
fn the_columns_proof_has_known_bytes() {
    let expected = "\
        000000000100000052d101b35620570de417d01f2b6f8efb7af41ad8970036c020fe03a6d7b4f67b01000000\
        0000000001000000020000000100000001000000e4ffff770100000001000000210000000200000002000000\
        1e3144d4e28e34c9213c887875dcb9f5456c1c5880b09c07c9840425f4b3e84c44ec42dfa91c93be09ed1459\
        08a1879880aea4fa90a99b5d9b2f0ca1559e4854020000008916ac0f8d6a8afaa013eaf72da912063d36d804\
        36a5a1f0deee5a3c2264612d44ec42dfa91c93be09ed145908a1879880aea4fa90a99b5d9b2f0ca1559e4854\
        0100000002000000010000000000007800000000000000000000000001000000000000780000000000000000\
        000000000200000001000000b72888178bbc22fc623b506384339cf5ac64b87658241520290542b156fb8734\
        01000000b72888178bbc22fc623b506384339cf5ac64b87658241520290542b156fb87340100000000000078\
        00000000000000000000000000000000";
    let proof = opened().proof;
    let hex: String = proof.as_bytes().iter().map(|byte| format!("{byte:02x}")).collect();
    assert_eq!(hex, expected);
    assert_eq!(Proof::from_bytes(proof.as_bytes()), proof);
    assert_eq!(Proof::from_bytes(proof.clone().into_bytes()), proof);
}

#[test]
fn altered_proofs_are_refused_by_name() {
    let opening = opened();
    let value = opening.proof.as_bytes()[OPENED_VALUE].try_into().map(u32::from_le_bytes).unwrap();
    let cases = [
        (FINAL_POLYNOMIAL, vec![0], Refusal::FinalPolyLengthMismatch),
        (QUERY_POW_WITNESS, vec![1], Refusal::NonCanonicalPowWitness),
        (COMMIT_POW_WITNESSES, vec![0], Refusal::CommitPowWitnessCountMismatch),
        (OPENED_VALUE, vec![value - 1], Refusal::InputError),
    ];
    for (part, numbers, refusal) in cases {
        let proof = with_part(&opening.proof, part, &numbers);
        let refused = verify(&PARAMETERS, &[], &opening.claims, &proof);
        assert_eq!(named(refused), (Some(refusal), None), "{numbers:?}");
    }
}

/// Makes a request not well formed.
type Change = fn(&mut Parameters, &mut Matrix);

#[test]
fn malformed_requests_are_refused_by_name() {
    let cases: [(Change, Fault); 11] = [
        (|parameters, _| parameters.log_blowup = 0, Fault::LogBlowup),
        (|parameters, _| parameters.max_log_arity = 0, Fault::MaxLogArity),
        (|parameters, _| parameters.num_queries = 0, Fault::NumQueries),
        (|parameters, _| parameters.query_proof_of_work_bits = 64, Fault::ProofOfWorkBits),
        (|_, matrix| matrix.points.clear(), Fault::Points),
        (|_, matrix| matrix.points[0][3] = u32::MAX, Fault::Element),
        (|_, matrix| matrix.domain.shift = 0, Fault::Shift),
        (|_, matrix| (matrix.width, matrix.values) = (0, vec![]), Fault::Width),
        (|_, matrix| matrix.values.truncate(1), Fault::Values),
        (|_, matrix| matrix.values[1] = 2013265921, Fault::Element),
        (|_, matrix| matrix.domain.log_size = u32::MAX, Fault::Values),
    ];
    for (index, (change, fault)) in cases.into_iter().enumerate() {
        let (mut parameters, mut matrix) = (PARAMETERS, column());
        change(&mut parameters, &mut matrix);
        let refused = open(&parameters, &[], &[vec![matrix]]);
        assert_eq!(named(refused), (None, Some(fault)), "case {index}");
    }
    assert_eq!(named(open::<BabyBear>(&PARAMETERS, &[], &[])), (None, Some(Fault::Matrices)));
}

#[test]
fn malformed_proofs_are_refused_by_name() {
    let opening = opened();
    let proof = &opening.proof;
    let cases = [
        (Proof::from_bytes([]), Fault::BytesMissing),
        (Proof::from_bytes(*b"{}"), Fault::BytesMissing),
        (with_part(proof, 367..368, &[]), Fault::BytesMissing),
        (with_part(proof, INPUT_OPENINGS, &[u32::MAX]), Fault::BytesMissing),
        (with_part(proof, 368..368, &[0]), Fault::BytesLeft),
        (with_part(proof, FINAL_POLYNOMIAL, &[0, 0]), Fault::BytesLeft),
        (with_part(proof, OPENED_VALUE, &[2013265921]), Fault::Element),
    ];
    for (index, (proof, fault)) in cases.iter().enumerate() {
        let refused = verify(&PARAMETERS, &[], &opening.claims, proof);
        assert_eq!(named(refused), (None, Some(*fault)), "case {index}");
    }
}

#[test]
fn threads_may_open_at_once() {
    let expected = opened();
    std::thread::scope(|scope| {
        let threads: Vec<_> = (0..4).map(|_| scope.spawn(opened)).collect();
        for thread in threads {
            assert_eq!(thread.join().unwrap(), expected);
        }
    });
}
