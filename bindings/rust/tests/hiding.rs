//! The hiding scheme through the binding. Expected values are those that `flat_form.py` of
//! tools/relation, an independent program, prints.

use p3_fri_proved::field::BabyBear;
use p3_fri_proved::hiding::{commit, open, verify, Masking};
use p3_fri_proved::{
    open as open_plain, verify as verify_plain, CommitmentClaims, Digest, Domain, Error, Fault,
    Matrix, Opening, Parameters, Proof, Refusal,
};

/// As few rows as there can be: 16 for a query and a point.
const PARAMETERS: Parameters = Parameters { max_log_arity: 4, ..Parameters::toy() };

/// So many queries don't all read the same by chance, where others are drawn.
const MANY: Parameters = Parameters { max_log_arity: 3, num_queries: 20, ..Parameters::toy() };

const MASKING: Masking = Masking { num_random_codewords: 4, seed: [7; 32] };

fn column(log_size: u32, value: fn(u32) -> u32) -> Matrix {
    Matrix {
        domain: Domain::subgroup(log_size),
        width: 1,
        values: (1..=1 << log_size).map(value).collect(),
        points: vec![[5, 0, 0, 0]],
    }
}

/// A public column, and a column of squares.
fn commitments(log_size: u32) -> Vec<Vec<Matrix>> {
    vec![vec![column(log_size, |i| i)], vec![column(log_size, |i| i * i)]]
}

fn digest(hex: &str) -> Digest {
    std::array::from_fn(|i| u8::from_str_radix(&hex[2 * i..2 * i + 2], 16).unwrap())
}

fn opened() -> Opening {
    open(&PARAMETERS, &[], &MASKING, Some(0), &commitments(4)).unwrap()
}

/// The refusal or the fault, whichever it is.
fn named<T: std::fmt::Debug>(result: Result<T, Error>) -> (Option<Refusal>, Option<Fault>) {
    match result.unwrap_err() {
        Error::Refused { refusal, .. } => (Some(refusal), None),
        Error::Malformed { fault, .. } => (None, Some(fault)),
        Error::OutOfMemory | Error::ProcessorTooOld => (None, None),
    }
}

/// A commitment that comes later leaves those before it, and is another one than alone.
#[test]
fn masks_follow_one_another() {
    let both = commit(&PARAMETERS, &MASKING, None, &commitments(4)).unwrap();
    let first = commit(&PARAMETERS, &MASKING, None, &commitments(4)[..1]).unwrap();
    let second = commit(&PARAMETERS, &MASKING, None, &commitments(4)[1..]).unwrap();
    assert_eq!(first, both[..1]);
    assert_ne!(second, both[1..]);
}

#[test]
fn commitments_are_the_expected_ones() {
    let expected = [
        digest("442ca9473a125f64f7aec400a1f769e825cac08a06e3e6e7ee2b49b022fcc80d"),
        digest("37a20febe439a9a4a43eba1441a7abb0575a76afc288eb660b5beb6749c46562"),
    ];
    assert_eq!(commit(&PARAMETERS, &MASKING, Some(0), &commitments(4)), Ok(expected.to_vec()));
    let opening = opened();
    let opened: Vec<Digest> = opening.claims.iter().map(|it| it.commitment).collect();
    assert_eq!(opened, expected);
}

#[test]
fn columns_are_opened_and_verified() {
    let opening = opened();
    assert_eq!(opening.claims.len(), 2);
    for (claims, value) in opening.claims.iter().zip([[1818896013, 0, 0, 0], [1323691498, 0, 0, 0]])
    {
        let matrix = &claims.matrices[0];
        assert_eq!(matrix.domain, Domain::subgroup(5));
        assert_eq!(matrix.points[0].point, [5, 0, 0, 0]);
        assert_eq!(matrix.points[0].values, [value]);
    }
    assert_eq!(opening.next_challenge, [1040114741, 682550408, 1888945511, 987795789]);
    let next = verify(&PARAMETERS, &[], 4, Some(0), &opening.claims, &opening.proof);
    assert_eq!(next, Ok(opening.next_challenge));
}

#[test]
fn none_need_be_preprocessed() {
    let squares = [vec![column(4, |i| i * i)]];
    let opening = open(&PARAMETERS, b"abc", &MASKING, None, &squares).unwrap();
    assert_eq!(opening.next_challenge, [1844645988, 633922592, 1466780777, 910624625]);
    let next = verify(&PARAMETERS, b"abc", 4, None, &opening.claims, &opening.proof);
    assert_eq!(next, Ok(opening.next_challenge));
}

#[test]
fn a_proof_has_known_bytes() {
    let expected = "\
        02000000010000000100000000000000010000000100000004000000b7c65801000000000000000000000000\
        22107b09000000000000000000000000d2ec093a0000000000000000000000002e639c6a0000000000000000\
        000000000000000002000000f62adbf6a52a867366d3284aac4e91f484d73211e5c8adf9e7558055324d2437\
        a8d9e574e076fdb3d5d107b0077b4dcbc876f248ca2dc1ac71117fd172a996e4020000000000000000000000\
        020000000100000001000000010000009a618f1f010000000600000061da2c916032cc20e9211514093f4282\
        f5e3da3b68e2418ccb2fb3e2e8612a34c1e9fbd72ec6b71fb8b0519ed603d6ea98cea6b2096eb61c7b59691a\
        b46a5ef0075eab79e238629afe6180ffea76665037394c3031f6f3abf69c44201a970cfe54a896f94b2bb225\
        3d1318106521041b009e419a525e3a827ba2deb60468fdea34eeecb9ca907aadd40165866c4d1b7e4aee34b5\
        e7bea3e990dbde055eb6381eec4a829c529d0c185012376a6e63248b96bdf524a59370cb039368281763dedd\
        010000000100000005000000850b757473f40f08fa463063fcaa163529aced3901000000060000007a4b3bf7\
        5248161fae7b4673dcf49b2e3b6c4e0eed325fba1361e5cf2c8dd09ee38facf296cc2c4e966eb40e84ed787e\
        d24d6be0e454946236f0d3a8c3fd2cc8ef50f0f449769a5cc337cc7fd98f15d6d8af2919b863031ccce32546\
        0f4a556351ab49fddf4a0b00e670993b513c839f29225f688f2df0e16777f25b3f0430301e389f224f9db16b\
        b9ee7f6b04bfd41f42fb12b9f75c65768c2ad11c384c388bb8fa318ed7c421280a15eb24b30bba7b6a2657fd\
        78893b8d3fac5c8fb8fa242502000000010000000f000000cec0d045b96e294150eb1b4628eaa320e68a812b\
        9c4c0542580ffd0e2ec75a7053c4091c4afb722d4ab762240fd1c24713673009024ef73423b94e49eee0694c\
        5a7c29128ad9e9347b67974d3772894a6668030533164246561eec08aec6d613e0d1220021551c478b180901\
        680b9426f5e12242c3b29a02c510652edbf53c4e1ace6c24c705100ce03abb0c3235141d7a78f23fb67f0d46\
        e98c0c5807145e4653d2813f4a6fd91a5238683c9f26700b9826024c1047ec0fa6771411538383512e18020f\
        035c276f1cbd8652b766f7348c7db3233effbd6da650155bd371fe2203c943753f1b13226b1c8d6fbf44f63f\
        0100000002000000b4ac096cf660222527eb50c9f30593f945dc34cc9651017ee5232f4eee065bc84a9ec9eb\
        412ad081326c5911095d4dce826812272b21771d308ff5df085f894b01000000010000009ab125021bd46b60\
        0ae93e18791a5a5f01000000010000001041d8089c2e5f777611e106f7c901eb8b396ccbf309af83903a317d\
        0b03b92e0100000037fb3564018eea33c959d0456f4a3e0400000000";
    let proof = opened().proof;
    let hex: String = proof.as_bytes().iter().map(|byte| format!("{byte:02x}")).collect();
    assert_eq!(hex, expected);
}

/// Another seed masks the squares by others: another commitment, other values and another proof.
/// What is preprocessed stays.
#[test]
fn what_is_masked_depends_on_the_seed() {
    let other = Masking { seed: [8; 32], ..MASKING };
    let first = opened();
    let second = open(&PARAMETERS, &[], &other, Some(0), &commitments(4)).unwrap();
    assert_eq!(first.claims[0], second.claims[0]);
    assert_ne!(first.claims[1].commitment, second.claims[1].commitment);
    assert_ne!(first.claims[1].matrices, second.claims[1].matrices);
    assert_ne!(first.proof, second.proof);
    let next = verify(&PARAMETERS, &[], 4, Some(0), &second.claims, &second.proof);
    assert_eq!(next, Ok(second.next_challenge));
}

/// Makes other claims of those that were opened.
type Change = fn(&mut Vec<CommitmentClaims>);

#[test]
fn another_statement_is_refused() {
    let opening = open(&MANY, b"here", &MASKING, Some(0), &commitments(6)).unwrap();
    let of = |parameters: &Parameters, context: &[u8], codewords, index, claims: &[_]| {
        verify(parameters, context, codewords, index, claims, &opening.proof)
    };
    let claims = &opening.claims;
    assert_eq!(of(&MANY, b"here", 4, Some(0), claims), Ok(opening.next_challenge));
    let fewer = Parameters { num_queries: 19, ..MANY };
    for refused in [
        of(&MANY, b"there", 4, Some(0), claims),
        of(&fewer, b"here", 4, Some(0), claims),
        of(&MANY, b"here", 5, Some(0), claims),
        of(&MANY, b"here", 3, Some(0), claims),
        of(&MANY, b"here", 4, Some(1), claims),
        of(&MANY, b"here", 4, Some(2), claims),
        of(&MANY, b"here", 4, None, claims),
        verify_plain(&MANY, b"here", claims, &opening.proof),
    ] {
        assert!(matches!(refused, Err(Error::Refused { .. } | Error::Malformed { .. })));
    }
    let changes: [(&str, Change); 6] = [
        ("a value", |claims| claims[1].matrices[0].points[0].values[0][0] ^= 1),
        ("a value of the preprocessed", |claims| claims[0].matrices[0].points[0].values[0][3] = 1),
        ("a point", |claims| claims[1].matrices[0].points[0].point[1] = 1),
        ("a commitment", |claims| claims[1].commitment[31] ^= 1),
        ("a size", |claims| claims[1].matrices[0].domain.log_size -= 1),
        ("a commitment less", |claims| claims.truncate(1)),
    ];
    for (name, change) in changes {
        let mut claims = opening.claims.clone();
        change(&mut claims);
        let refused = of(&MANY, b"here", 4, Some(0), &claims);
        assert!(matches!(refused, Err(Error::Refused { .. })), "{name}");
    }
}

/// Each number of the proof's random values is read, and each byte after them.
#[test]
fn each_byte_of_a_proof_counts() {
    let opening = opened();
    let verified = |proof: &Proof| verify(&PARAMETERS, &[], 4, Some(0), &opening.claims, proof);
    let bytes = opening.proof.as_bytes();
    for place in 0..bytes.len() {
        let mut changed = bytes.to_vec();
        changed[place] ^= 1;
        assert!(verified(&Proof::from_bytes(changed)).is_err(), "{place}");
    }
    let cut = Proof::from_bytes(&bytes[..bytes.len() - 1]);
    assert_eq!(named(verified(&cut)), (None, Some(Fault::BytesMissing)));
    let longer = Proof::from_bytes([bytes, &[0]].concat());
    assert_eq!(named(verified(&longer)), (None, Some(Fault::BytesLeft)));
}

#[test]
fn a_plain_proof_is_refused() {
    let opening = open_plain(&PARAMETERS, &[], &commitments(4)).unwrap();
    let refused = verify(&PARAMETERS, &[], 4, None, &opening.claims, &opening.proof);
    assert!(matches!(refused, Err(Error::Refused { .. } | Error::Malformed { .. })));
}

#[test]
fn requests_that_cannot_be_hidden_are_refused_by_name() {
    let few = Masking { num_random_codewords: 3, ..MASKING };
    let (low, enough) = (commitments(3), commitments(4));
    let cases = [
        (open(&PARAMETERS, &[], &few, None, &enough), Refusal::InsufficientRandomCodewords),
        (open(&PARAMETERS, &[], &MASKING, None, &low), Refusal::HidingBudgetExceeded),
        (open(&PARAMETERS, &[], &MASKING, Some(0), &low), Refusal::HidingBudgetExceeded),
        (
            open(&PARAMETERS, &[], &MASKING, None, &[vec![on_coset()]]),
            Refusal::PointInEvaluationDomain,
        ),
    ];
    for (index, (refused, refusal)) in cases.into_iter().enumerate() {
        assert_eq!(named(refused), (Some(refusal), None), "case {index}");
    }
}

/// A column that is to be opened where it is committed to.
fn on_coset() -> Matrix {
    Matrix { points: vec![[31, 0, 0, 0]], ..column(4, |i| i) }
}

#[test]
fn malformed_requests_are_refused_by_name() {
    let cases: [(Option<usize>, Fault); 3] = [
        (Some(2), Fault::NoCommitment),
        (Some(u32::MAX as usize - 1), Fault::NoCommitment),
        (Some(u32::MAX as usize), Fault::NoForm),
    ];
    for (index, fault) in cases {
        let refused = open(&PARAMETERS, &[], &MASKING, index, &commitments(4));
        assert_eq!(named(refused), (None, Some(fault)), "{index:?}");
        let refused = commit(&PARAMETERS, &MASKING, index, &commitments(4));
        assert_eq!(named(refused), (None, Some(fault)), "{index:?}");
    }
    let mut short = commitments(4);
    short[1][0].values.pop();
    let refused = open(&PARAMETERS, &[], &MASKING, Some(0), &short);
    assert_eq!(named(refused), (None, Some(Fault::Values)));
    let refused = open::<BabyBear>(&PARAMETERS, &[], &MASKING, None, &[]);
    assert_eq!(named(refused), (None, Some(Fault::Matrices)));
}
