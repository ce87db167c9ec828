//! What a proof is bound to: its statement's context, parameters, commitments, domains, widths and
//! points. A proof of one statement is refused of each other.

use p3_fri_proved::{
    commit, open, verify, CommitmentClaims, Domain, Error, Matrix, Opening, Parameters, Transcript,
};

/// So many queries don't all read the same by chance, where others are drawn.
const PARAMETERS: Parameters = Parameters { num_queries: 40, ..Parameters::toy() };

const CONTEXT: &[u8] = b"statements, version 1";

fn column(values: [u32; 2]) -> Matrix {
    Matrix {
        domain: Domain::subgroup(1),
        width: 1,
        values: values.to_vec(),
        points: vec![[5, 0, 0, 0], [6, 0, 0, 1]],
    }
}

/// Two commitments to columns, the second one's wider.
fn batches() -> Vec<Vec<Matrix>> {
    let wide = Matrix { width: 2, values: vec![3, 1, 4, 1], ..column([0, 0]) };
    vec![vec![column([1, 3])], vec![column([2, 7]), wide]]
}

fn opened(context: &[u8]) -> Opening {
    let opening = open(&PARAMETERS, context, &batches()).unwrap();
    let next_challenge = verify(&PARAMETERS, context, &opening.claims, &opening.proof);
    assert_eq!(next_challenge, Ok(opening.next_challenge));
    opening
}

fn is_refused(
    parameters: &Parameters,
    context: &[u8],
    claims: &[CommitmentClaims],
    of: &Opening,
) -> bool {
    let refused = verify(parameters, context, claims, &of.proof);
    matches!(refused, Err(Error::Refused { .. }))
}

#[test]
fn another_context_is_refused() {
    for context in [CONTEXT, &[]] {
        let opening = opened(context);
        let longer = [context, &[0]].concat();
        let other: &[u8] = if context.is_empty() { CONTEXT } else { &[] };
        for changed in [&longer[..], other, b"statements, version 2"] {
            assert!(is_refused(&PARAMETERS, changed, &opening.claims, &opening), "{changed:?}");
        }
    }
}

#[test]
fn openings_in_different_contexts_are_different() {
    let (first, second) = (opened(b"first"), opened(b"second"));
    assert_eq!(first.claims, second.claims);
    assert_ne!(first.proof, second.proof);
    assert_ne!(first.next_challenge, second.next_challenge);
}

/// The proof would fit most of these: as many queries, rounds and coefficients, and no proof of
/// work.
#[test]
fn other_parameters_are_refused() {
    let opening = opened(CONTEXT);
    let changes: [fn(&mut Parameters); 8] = [
        |it| it.log_blowup += 1,
        |it| it.log_final_poly_len += 1,
        |it| it.max_log_arity += 1,
        |it| it.num_queries += 1,
        |it| it.num_queries -= 1,
        |it| it.batch_proof_of_work_bits = 63,
        |it| it.commit_proof_of_work_bits = 63,
        |it| it.query_proof_of_work_bits = 63,
    ];
    for (index, change) in changes.into_iter().enumerate() {
        let mut parameters = PARAMETERS;
        change(&mut parameters);
        assert!(is_refused(&parameters, CONTEXT, &opening.claims, &opening), "change {index}");
    }
}

/// Makes other claims of those that were opened.
type Change = fn(&mut Vec<CommitmentClaims>);

#[test]
fn other_claims_are_refused() {
    let opening = opened(CONTEXT);
    let changes: [(&str, Change); 16] = [
        ("a commitment", |claims| claims[1].commitment[7] ^= 4),
        ("commitments' order", |claims| claims.swap(0, 1)),
        ("a commitment twice", |claims| claims[1].commitment = claims[0].commitment),
        ("a shift", |claims| claims[0].matrices[0].domain.shift = 31),
        ("a shift of the second", |claims| claims[1].matrices[1].domain.shift = 2013265920),
        ("a size", |claims| claims[0].matrices[0].domain.log_size += 1),
        ("a smaller size", |claims| claims[1].matrices[0].domain.log_size = 0),
        ("a width", |claims| {
            for at in &mut claims[0].matrices[0].points {
                at.values.push([0; 4]);
            }
        }),
        ("a smaller width", |claims| {
            for at in &mut claims[1].matrices[1].points {
                at.values.pop();
            }
        }),
        ("a point", |claims| claims[0].matrices[0].points[1].point[3] = 2),
        ("points' order", |claims| claims[0].matrices[0].points.swap(0, 1)),
        ("a point less", |claims| claims[1].matrices[0].points.truncate(1)),
        ("a value", |claims| claims[1].matrices[1].points[0].values[1][2] ^= 1),
        ("matrices' order", |claims| claims[1].matrices.swap(0, 1)),
        ("a matrix less", |claims| claims[1].matrices.truncate(1)),
        ("a commitment less", |claims| claims.truncate(1)),
    ];
    for (name, change) in changes {
        let mut claims = opening.claims.clone();
        change(&mut claims);
        assert_ne!(claims, opening.claims, "{name}");
        assert!(is_refused(&PARAMETERS, CONTEXT, &claims, &opening), "{name}");
    }
}

/// The polynomial 2 - X on two domains: the digests are the same, and no proof is that of the
/// other.
#[test]
fn a_shift_is_bound() {
    let on_subgroup = column([1, 3]);
    let on_coset = Matrix {
        domain: Domain { shift: 31, log_size: 1 },
        values: vec![2013265892, 33],
        ..column([0, 0])
    };
    let opening = open(&PARAMETERS, CONTEXT, &[vec![on_subgroup]]).unwrap();
    let other = open(&PARAMETERS, CONTEXT, &[vec![on_coset]]).unwrap();
    assert_eq!(opening.claims[0].commitment, other.claims[0].commitment);
    assert_ne!(opening.claims, other.claims);
    assert!(is_refused(&PARAMETERS, CONTEXT, &other.claims, &opening));
    assert!(is_refused(&PARAMETERS, CONTEXT, &opening.claims, &other));
}

/// The rows of a constant are all the same, so their openings are right wherever queries read: such
/// a proof fits other contexts too, as what it claims is right there. The next challenge is
/// another.
#[test]
fn an_opening_of_constants_fits_all_contexts() {
    let opening = open(&PARAMETERS, CONTEXT, &[vec![column([9, 9])]]).unwrap();
    let next_challenge = verify(&PARAMETERS, b"another", &opening.claims, &opening.proof).unwrap();
    assert_ne!(next_challenge, opening.next_challenge);
    let mut claims = opening.claims.clone();
    claims[0].matrices[0].points[0].values[0][0] = 8;
    assert!(is_refused(&PARAMETERS, CONTEXT, &claims, &opening));
}

/// The witness of the proof of work before the first challenge.
fn first_witness(parameters: &Parameters, context: &[u8], matrix: Matrix) -> u32 {
    let opening = open(parameters, context, &[vec![matrix]]).unwrap();
    let of_point = &opening.claims[0].matrices[0].points[0];
    assert_eq!(of_point.values, [[2013265918, 0, 0, 0]]);
    let witness = opening.proof.as_bytes().first_chunk().unwrap();
    u32::from_le_bytes(*witness)
}

/// Openings with the same value, -3. What is searched for before anything is drawn depends on all
/// that they differ in, a commitment by itself too.
#[test]
fn all_of_a_statement_comes_before_the_first_challenge() {
    let parameters = Parameters { batch_proof_of_work_bits: 12, ..PARAMETERS };
    let arity = Parameters { max_log_arity: 2, ..parameters };
    let queries = Parameters { num_queries: 41, ..parameters };
    let work = Parameters { query_proof_of_work_bits: 1, ..parameters };
    let at = |point| Matrix { points: vec![point], ..column([2013265918; 2]) };
    let constant = at([5, 0, 0, 0]);
    let line = Matrix { values: vec![1, 3], ..constant.clone() };
    let shifted = Matrix { domain: Domain { shift: 31, log_size: 1 }, ..constant.clone() };
    let witnesses = [
        first_witness(&parameters, CONTEXT, constant.clone()),
        first_witness(&parameters, b"another", constant.clone()),
        first_witness(&arity, CONTEXT, constant.clone()),
        first_witness(&queries, CONTEXT, constant.clone()),
        first_witness(&work, CONTEXT, constant),
        first_witness(&parameters, CONTEXT, line),
        first_witness(&parameters, CONTEXT, shifted),
        first_witness(&parameters, CONTEXT, at([6, 0, 0, 0])),
        first_witness(&parameters, CONTEXT, at([5, 0, 0, 1])),
    ];
    for (index, witness) in witnesses.iter().enumerate() {
        assert!(!witnesses[index + 1..].contains(witness), "{witnesses:?}");
    }
}

#[test]
fn a_context_may_be_long() {
    let context = vec![0xa5; 1 << 20];
    let opening = opened(&context);
    assert!(is_refused(&PARAMETERS, &context[1..], &opening.claims, &opening));
}

#[test]
fn a_context_is_any_bytes() {
    let all: Vec<u8> = (0..=255).collect();
    for context in [&all[..], &[0], &[0xff; 7], b"{", &[0; 32]] {
        opened(context);
    }
}

/// Two commitments with a challenge drawn between them, on both sides.
#[test]
fn challenges_are_drawn_between_commitments() {
    let first = vec![column([1, 3])];
    let mut transcript = Transcript::new(CONTEXT);
    transcript.absorb(&commit(&PARAMETERS, std::slice::from_ref(&first)).unwrap()[0]);
    let alpha = transcript.challenge().unwrap();
    let second = vec![column([alpha[0], alpha[1]])];
    transcript.absorb(&commit(&PARAMETERS, std::slice::from_ref(&second)).unwrap()[0]);
    let zeta = transcript.challenge().unwrap();
    let batches = [first, second].map(|mut matrices| {
        matrices[0].points = vec![zeta];
        matrices
    });
    let opening = open(&PARAMETERS, transcript.context(), &batches).unwrap();

    let replayed = |commitments: [&[u8]; 2]| {
        let mut transcript = Transcript::new(CONTEXT);
        transcript.absorb(commitments[0]);
        let alpha = transcript.challenge().unwrap();
        transcript.absorb(commitments[1]);
        let zeta = transcript.challenge().unwrap();
        (transcript, alpha, zeta)
    };
    let [first, second] = &opening.claims[..] else { panic!("two commitments are claimed") };
    let (verifiers, same_alpha, same_zeta) = replayed([&first.commitment, &second.commitment]);
    assert_eq!((same_alpha, same_zeta), (alpha, zeta));
    assert_eq!(verifiers, transcript);
    let next_challenge = verify(&PARAMETERS, verifiers.context(), &opening.claims, &opening.proof);
    assert_eq!(next_challenge, Ok(opening.next_challenge));

    // another first commitment, and all that was drawn after it is another
    let mut changed = opening.claims.clone();
    changed[0].commitment[0] ^= 1;
    let (others, other_alpha, other_zeta) =
        replayed([&changed[0].commitment, &changed[1].commitment]);
    assert_ne!(other_alpha, alpha);
    assert_ne!(other_zeta, zeta);
    assert!(is_refused(&PARAMETERS, others.context(), &changed, &opening));
    assert!(is_refused(&PARAMETERS, others.context(), &opening.claims, &opening));
}
