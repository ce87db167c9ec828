//! Commits to a column of squares, opens it and verifies the opening, in both schemes over each field.
//! Prints the field and `accepted` for each, and why another context isn't. Points are drawn after
//! the commitments.

use p3_fri_proved::field::{BabyBear, Field, Goldilocks, KoalaBear, Matrix};
use p3_fri_proved::hiding::Masking;
use p3_fri_proved::{commit, field, hiding, open, verify, Parameters, Transcript};
use std::fs::File;
use std::io::Read;

type Outcome = Result<(), Box<dyn std::error::Error>>;

const PARAMETERS: Parameters =
    Parameters { log_blowup: 3, max_log_arity: 3, num_queries: 24, ..Parameters::toy() };

/// 64 rows, which are enough to hide by 24 queries at a point.
fn column<F: Field>(points: Vec<F::ExtensionElement>) -> Vec<Vec<Matrix<F>>> {
    let values = (0..64).map(|row| F::Element::from(row * row)).collect();
    vec![vec![Matrix { domain: field::Domain::subgroup(6), width: 1, values, points }]]
}

fn plain<F: Field>() -> Outcome {
    let mut transcript = Transcript::new(b"fields, version 1");
    transcript.absorb(&commit(&PARAMETERS, &column::<F>(vec![]))?[0]);
    let batches = column::<F>(vec![transcript.challenge_over::<F>()?]);
    let opening = open(&PARAMETERS, transcript.context(), &batches)?;
    let next = verify(&PARAMETERS, transcript.context(), &opening.claims, &opening.proof)?;
    assert_eq!(next, opening.next_challenge);
    println!("accepted");
    let refused = verify(&PARAMETERS, b"elsewhere", &opening.claims, &opening.proof);
    println!("{}", refused.expect_err("another context is refused"));
    Ok(())
}

fn hidden<F: Field>() -> Outcome {
    // fresh bytes of the system's source
    let mut seed = [0; 32];
    File::open("/dev/urandom")?.read_exact(&mut seed)?;
    let masking = Masking { num_random_codewords: 4, seed };

    let mut transcript = Transcript::new(b"hidden fields, version 1");
    let commitments = hiding::commit(&PARAMETERS, &masking, None, &column::<F>(vec![]))?;
    transcript.absorb(&commitments[0]);
    let batches = column::<F>(vec![transcript.challenge_over::<F>()?]);
    let opening = hiding::open(&PARAMETERS, transcript.context(), &masking, None, &batches)?;
    let verified = |context: &[u8]| {
        hiding::verify(&PARAMETERS, context, 4, None, &opening.claims, &opening.proof)
    };
    assert_eq!(verified(transcript.context())?, opening.next_challenge);
    println!("accepted");
    println!("{}", verified(b"elsewhere").expect_err("another context is refused"));
    Ok(())
}

fn over<F: Field>(name: &str) -> Outcome {
    println!("{name}");
    plain::<F>()?;
    hidden::<F>()
}

fn main() -> Outcome {
    over::<BabyBear>("BabyBear")?;
    over::<KoalaBear>("KoalaBear")?;
    over::<Goldilocks>("Goldilocks")
}
