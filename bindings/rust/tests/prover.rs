//! A prover that keeps what it committed to, against the calls that commit anew.

use p3_fri_proved::field::{self, BabyBear, Field, Goldilocks, KoalaBear};
use p3_fri_proved::{
    challenge, commit, open, verify, Domain, Error, ExtensionElement, Fault, Matrix, Parameters,
    Prover, Refusal,
};
use std::fmt::Debug;

const PARAMETERS: Parameters = Parameters { num_queries: 20, ..Parameters::toy() };

const POINT: ExtensionElement = [7, 1, 0, 2];

/// Two columns of eight rows, of this number and those after it.
fn numbers<F: Field>(first: u32) -> field::Matrix<F> {
    field::Matrix {
        domain: field::Domain::subgroup(3),
        width: 2,
        values: (first..first + 16).map(F::Element::from).collect(),
        points: vec![],
    }
}

fn matrix(first: u32) -> Matrix {
    numbers(first)
}

/// The same, with points.
fn at<F: Field>(matrix: field::Matrix<F>, points: &[F::ExtensionElement]) -> field::Matrix<F> {
    field::Matrix { points: points.to_vec(), ..matrix }
}

/// A prover that has committed to these matrices, each under its own commitment.
fn prover_of<F: Field>(matrices: &[field::Matrix<F>]) -> field::Prover<F> {
    let mut prover = field::Prover::new(&PARAMETERS).unwrap();
    for matrix in matrices {
        let commitment = prover.commit(std::slice::from_ref(matrix)).unwrap();
        assert_eq!(commit(&PARAMETERS, &[vec![matrix.clone()]]), Ok(vec![commitment]));
    }
    prover
}

/// What is kept is opened as what is committed to anew, under one context after another, and with
/// what is committed to after an opening.
fn is_opened<F: Field>(point: F::ExtensionElement, other: F::ExtensionElement) {
    let points = vec![point, other];
    let mut prover = prover_of(&[numbers::<F>(1), numbers(100)]);
    let anew = [vec![at(numbers(1), &points)], vec![at(numbers(100), &points[..1])]];
    let asked = [vec![points.clone()], vec![points[..1].to_vec()]];
    for context in [&b"first"[..], b"second", b""] {
        let opening = prover.open(context, &asked).unwrap();
        assert_eq!(Ok(opening.clone()), open(&PARAMETERS, context, &anew));
        let next = verify(&PARAMETERS, context, &opening.claims, &opening.proof);
        assert_eq!(next, Ok(opening.next_challenge));
    }
    prover.commit(&[numbers(50)]).unwrap();
    let [first, second] = anew;
    let [first_asked, second_asked] = asked;
    let anew = [first, second, vec![at(numbers(50), &[other])]];
    let opening = prover.open(b"third", &[first_asked, second_asked, vec![vec![other]]]).unwrap();
    assert_eq!(Ok(opening), open(&PARAMETERS, b"third", &anew));
}

#[test]
fn what_is_kept_is_opened_over_each_field() {
    is_opened::<BabyBear>(POINT, [5, 0, 0, 0]);
    is_opened::<KoalaBear>(POINT, [5, 0, 0, 0]);
    is_opened::<Goldilocks>([7, 1], [5, 0]);
}

#[test]
fn matrices_under_one_commitment_are_opened() {
    let matrices = [matrix(1), Matrix { domain: Domain { shift: 3, log_size: 3 }, ..matrix(50) }];
    let mut prover = Prover::new(&PARAMETERS).unwrap();
    prover.commit(&matrices).unwrap();
    let opening = prover.open(&[], &[vec![vec![POINT], vec![[5, 0, 0, 0]]]]).unwrap();
    let [first, second] = matrices;
    let anew = [vec![at(first, &[POINT]), at(second, &[[5, 0, 0, 0]])]];
    assert_eq!(Ok(opening), open(&PARAMETERS, &[], &anew));
}

#[test]
fn a_challenge_is_drawn_between_two_commitments() {
    let mut prover = Prover::new(&PARAMETERS).unwrap();
    let mut context = b"a challenge between".to_vec();
    context.extend(prover.commit(&[matrix(1)]).unwrap());
    let [drawn, ..] = challenge(&context).unwrap();
    context.extend(prover.commit(&[matrix(drawn % 1000)]).unwrap());
    let point = challenge(&context).unwrap();
    let opening = prover.open(&context, &[vec![vec![point]], vec![vec![point]]]).unwrap();
    let next = verify(&PARAMETERS, &context, &opening.claims, &opening.proof);
    assert_eq!(next, Ok(opening.next_challenge));
    let elsewhere = verify(&PARAMETERS, b"elsewhere", &opening.claims, &opening.proof);
    assert!(matches!(elsewhere, Err(Error::Refused { .. })));
}

fn fault<T: Debug>(result: Result<T, Error>) -> Option<Fault> {
    match result.unwrap_err() {
        Error::Malformed { fault, .. } => Some(fault),
        _ => None,
    }
}

#[test]
fn each_matrix_has_its_points() {
    let mut prover = prover_of(&[matrix(1)]);
    let list = vec![POINT];
    let one = vec![list.clone()];
    let two = vec![list.clone(), list];
    for points in [vec![], vec![vec![]], vec![two], vec![one.clone(), one], vec![vec![vec![]]]] {
        assert_eq!(fault(prover.open(&[], &points)), Some(Fault::Points), "{points:?}");
    }
    assert!(prover.open(&[], &[vec![vec![POINT]]]).is_ok());
}

#[test]
fn what_is_refused_is_not_kept() {
    let mut prover = prover_of(&[matrix(1)]);
    let short = Matrix { values: vec![1], ..matrix(1) };
    assert_eq!(fault(prover.commit(&[short])), Some(Fault::Values));
    let none = Matrix { values: vec![u32::MAX; 16], ..matrix(1) };
    assert_eq!(fault(prover.commit(&[none])), Some(Fault::Element));
    let great = Matrix { domain: Domain::subgroup(27), width: 0, values: vec![], points: vec![] };
    assert!(fault(prover.commit(&[great])).is_some());
    let opening = prover.open(&[], &[vec![vec![POINT]]]).unwrap();
    assert_eq!(Ok(opening), open(&PARAMETERS, &[], &[vec![at(matrix(1), &[POINT])]]));
}

#[test]
fn what_the_scheme_refuses_is_named() {
    let mut prover = prover_of(&[matrix(1)]);
    match prover.open(&[], &[vec![vec![[31, 0, 0, 0]]]]) {
        Err(Error::Refused { refusal, .. }) => {
            assert_eq!(refusal, Refusal::PointInEvaluationDomain);
        }
        other => panic!("{other:?}"),
    }
    let unfit = Parameters { num_queries: 0, ..PARAMETERS };
    assert_eq!(fault(Prover::new(&unfit)), Some(Fault::NumQueries));
    let none = Prover::new(&PARAMETERS).unwrap().open(&[], &[]);
    assert!(fault(none).is_some());
}

#[test]
fn a_prover_may_go_to_another_thread() {
    let mut prover = prover_of(&[matrix(1)]);
    let opening = std::thread::spawn(move || prover.open(b"there", &[vec![vec![POINT]]]));
    let opening = opening.join().unwrap().unwrap();
    assert!(verify(&PARAMETERS, b"there", &opening.claims, &opening.proof).is_ok());
}

#[test]
fn provers_share_nothing() {
    let (mut first, mut second) = (prover_of(&[matrix(1)]), prover_of(&[matrix(2)]));
    let asked = [vec![vec![POINT]]];
    let opening = first.open(&[], &asked).unwrap();
    drop(first);
    assert_eq!(Ok(opening), open(&PARAMETERS, &[], &[vec![at(matrix(1), &[POINT])]]));
    let opening = second.open(&[], &asked).unwrap();
    assert_eq!(Ok(opening), open(&PARAMETERS, &[], &[vec![at(matrix(2), &[POINT])]]));
}

/// Memory is given back: of a thousand provers of a tree each.
#[test]
fn provers_are_dropped() {
    for first in 0..1000 {
        drop(prover_of(&[matrix(first)]));
    }
}
