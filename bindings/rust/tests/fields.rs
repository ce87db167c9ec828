//! Both schemes over each field. Expected values are those of tools/relation, an independent program.

use p3_fri_proved::hiding::Masking;
use p3_fri_proved::{commit, hiding, open, verify, Digest, Error, Fault, Parameters};

/// The squares of 0 to 63 on the domain of 64 points are opened.
const PARAMETERS: Parameters = Parameters { max_log_arity: 3, num_queries: 3, ..Parameters::toy() };

const MASKING: Masking = Masking { num_random_codewords: 4, seed: [7; 32] };

fn hex(digest: &Digest) -> String {
    digest.iter().map(|byte| format!("{byte:02x}")).collect()
}

fn is_refused<T>(result: Result<T, Error>) -> bool {
    matches!(result, Err(Error::Refused { .. }))
}

/// The tests of a field: the point, and by scheme the first bytes of the commitment, the value at
/// the point and the next challenge.
macro_rules! over {
    ($field:ident, $order:expr, $point:expr, $plain:expr, $hiding:expr, $challenge:expr) => {
        mod $field {
            use super::*;
            use p3_fri_proved::$field::{challenge, Domain, Matrix, ORDER};

            fn column() -> Matrix {
                Matrix {
                    domain: Domain::subgroup(6),
                    width: 1,
                    values: (0..64).map(|row| row * row).collect(),
                    points: vec![$point],
                }
            }

            #[test]
            fn the_plain_scheme_opens_and_verifies() {
                let (commitment, value, next) = $plain;
                let commitments = commit(&PARAMETERS, &[vec![column()]]).unwrap();
                assert_eq!(hex(&commitments[0]), commitment);
                let mut opening = open(&PARAMETERS, b"", &[vec![column()]]).unwrap();
                assert_eq!(opening.claims[0].commitment, commitments[0]);
                assert_eq!(opening.claims[0].matrices[0].points[0].values, [value]);
                assert_eq!(opening.next_challenge, next);
                let verified = verify(&PARAMETERS, b"", &opening.claims, &opening.proof);
                assert_eq!(verified, Ok(next));
                opening.claims[0].matrices[0].points[0].values[0][0] ^= 1;
                assert!(is_refused(verify(&PARAMETERS, b"", &opening.claims, &opening.proof)));
            }

            #[test]
            fn the_hiding_scheme_opens_and_verifies() {
                let (commitment, value, next) = $hiding;
                let batches = [vec![column()]];
                let commitments = hiding::commit(&PARAMETERS, &MASKING, None, &batches).unwrap();
                assert_eq!(hex(&commitments[0]), commitment);
                let mut opening = hiding::open(&PARAMETERS, b"", &MASKING, None, &batches).unwrap();
                assert_eq!(opening.claims[0].commitment, commitments[0]);
                assert_eq!(opening.claims[0].matrices[0].points[0].values, [value]);
                assert_eq!(opening.next_challenge, next);
                let verified =
                    hiding::verify(&PARAMETERS, b"", 4, None, &opening.claims, &opening.proof);
                assert_eq!(verified, Ok(next));
                opening.claims[0].matrices[0].points[0].values[0][1] ^= 1;
                assert!(is_refused(hiding::verify(
                    &PARAMETERS,
                    b"",
                    4,
                    None,
                    &opening.claims,
                    &opening.proof,
                )));
            }

            #[test]
            fn the_order_is_no_element() {
                assert_eq!(u64::from(ORDER), $order);
                let matrix = Matrix { values: vec![ORDER; 64], ..column() };
                match commit(&PARAMETERS, &[vec![matrix]]) {
                    Err(Error::Malformed { fault, .. }) => assert_eq!(fault, Fault::Element),
                    _ => panic!("the order is taken for an element"),
                }
                let matrix = Matrix { values: vec![ORDER - 1; 64], ..column() };
                assert!(commit(&PARAMETERS, &[vec![matrix]]).is_ok());
            }

            #[test]
            fn a_challenge_is_drawn_after_a_context() {
                assert_eq!(challenge(b"here"), Ok($challenge));
            }
        }
    };
}

over!(
    koala_bear,
    2130706433,
    [5, 0, 0, 1],
    (
        "c6cb5d9499ab8c7f980be15e0a0e3ca7328bbcb67a7915649f3971b8f9b40594",
        [1893830867, 674495384, 1432980970, 169887876],
        [1421890754, 175270672, 968068155, 1512654521]
    ),
    (
        "b2b480a15e631ac04d266296963812a5ec6e7a8fcc8060541c17591263ffadf7",
        [1465227770, 675321101, 355580974, 2046201430],
        [10652055, 269671093, 608869731, 1465309355]
    ),
    [1855401681, 24428543, 285599258, 1505213541]
);

over!(
    goldilocks,
    18446744069414584321,
    [5, 1],
    (
        "e54a487e5ba498a2dc56f7bd524d2b5697e1f3d8298f808746a37d9d0da48fb0",
        [12257596851176524953, 8826556070170187495],
        [2825853044676514348, 12561774759757757439]
    ),
    (
        "18a91b40bca6b3e0e0921c7c8dfc687b8011609457a9e9ceb88b1207c15f20f6",
        [14397791963177428099, 14328006992992730212],
        [13462575509143632412, 14898266786904053032]
    ),
    [8288455147662982842, 16952644366002025915]
);
