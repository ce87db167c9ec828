//! Commits to a secret column and to a public one, draws a point after both commitments, opens the
//! columns there in the hiding scheme and verifies the opening: prints `accepted`, and then why it
//! isn't with another number of random columns and as an opening of the plain scheme.

use p3_fri_proved::hiding::{commit, open, verify, Masking};
use p3_fri_proved::{Domain, Error, Matrix, Parameters, Transcript};
use std::fs::File;
use std::io::Read;

/// The place of the public column, which isn't masked.
const PUBLIC: Option<usize> = Some(0);

/// 64 rows are enough for as many as 24 queries and a point: `2 * (24 + 4)` are needed.
fn column(value: fn(u32) -> u32) -> Matrix {
    Matrix {
        domain: Domain::subgroup(6),
        width: 1,
        values: (0..64).map(value).collect(),
        points: vec![],
    }
}

/// Fresh bytes of the system's source: nobody else knows them, and no other proof has them.
fn seed() -> std::io::Result<[u8; 32]> {
    let mut seed = [0; 32];
    File::open("/dev/urandom")?.read_exact(&mut seed)?;
    Ok(seed)
}

fn main() -> Result<(), Box<dyn std::error::Error>> {
    let parameters = Parameters {
        log_blowup: 3,
        max_log_arity: 3,
        num_queries: 24,
        query_proof_of_work_bits: 8,
        ..Parameters::toy()
    };
    let masking = Masking { num_random_codewords: 4, seed: seed()? };
    let mut batches = vec![vec![column(|row| row)], vec![column(|row| row * row + 1)]];

    // the same seed in both calls: they are of one proof
    let mut transcript = Transcript::new(b"hiding, version 1");
    for commitment in commit(&parameters, &masking, PUBLIC, &batches)? {
        transcript.absorb(&commitment);
    }
    let point = transcript.challenge()?;
    for matrix in batches.iter_mut().flatten() {
        matrix.points = vec![point];
    }
    let opening = open(&parameters, transcript.context(), &masking, PUBLIC, &batches)?;

    // a verifier has parameters, the number of random columns and the index of its own
    let verified = |codewords| {
        let context = transcript.context();
        verify(&parameters, context, codewords, PUBLIC, &opening.claims, &opening.proof)
    };
    assert_eq!(verified(4)?, opening.next_challenge);
    println!("accepted");
    for refused in [verified(5), as_plain(&parameters, &transcript, &opening)] {
        println!("{}", refused.expect_err("another statement is refused"));
    }
    Ok(())
}

fn as_plain(
    parameters: &Parameters,
    transcript: &Transcript,
    opening: &p3_fri_proved::Opening,
) -> Result<[u32; 4], Error> {
    p3_fri_proved::verify(parameters, transcript.context(), &opening.claims, &opening.proof)
}
