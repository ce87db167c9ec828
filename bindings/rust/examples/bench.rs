//! Times `commit`, `open` and `verify`, and a prover that commits and opens: `cargo run --features
//! build --release --example bench -- [LOG_HEIGHT WIDTH LOG_BLOWUP QUERIES REPEATS]`, by default
//! `14 64 1 100 5`. Prints the least of each in milliseconds.

use p3_fri_proved::{commit, open, verify, Domain, Error, Matrix, Parameters, Prover, ORDER};
use std::time::Instant;

/// The least time in milliseconds, and the last answer.
fn timed<T>(repeats: usize, call: impl Fn() -> Result<T, Error>) -> Result<(f64, T), Error> {
    let mut least = f64::INFINITY;
    let mut last = None;
    for _ in 0..repeats.max(1) {
        let start = Instant::now();
        last = Some(call()?);
        least = least.min(start.elapsed().as_secs_f64() * 1000.0);
    }
    Ok((least, last.expect("some call was made")))
}

/// A matrix of numbers that follow one another at random.
fn matrix(log_size: u32, width: u32) -> Matrix {
    let mut state = 1u64;
    let count = u64::from(width) << log_size;
    let next = |_| {
        state = state.wrapping_mul(6364136223846793005).wrapping_add(1442695040888963407);
        ((state >> 33) % u64::from(ORDER)) as u32
    };
    let values = (0..count).map(next).collect();
    Matrix { domain: Domain::subgroup(log_size), width, values, points: vec![[5, 1, 0, 0]] }
}

/// The least times in milliseconds in which a prover commits to matrices and opens them.
fn timed_prover(
    repeats: usize,
    parameters: &Parameters,
    matrices: &[Matrix],
) -> Result<(f64, f64), Error> {
    let points = vec![matrices.iter().map(|it| it.points.clone()).collect()];
    let (mut commit_time, mut open_time) = (f64::INFINITY, f64::INFINITY);
    for _ in 0..repeats.max(1) {
        let mut prover = Prover::new(parameters)?;
        let start = Instant::now();
        prover.commit(matrices)?;
        commit_time = commit_time.min(start.elapsed().as_secs_f64() * 1000.0);
        let start = Instant::now();
        prover.open(&[], &points)?;
        open_time = open_time.min(start.elapsed().as_secs_f64() * 1000.0);
    }
    Ok((commit_time, open_time))
}

fn main() -> Result<(), Error> {
    let arguments: Vec<u32> = std::env::args().skip(1).flat_map(|it| it.parse()).collect();
    let given = |place: usize, default: u32| arguments.get(place).copied().unwrap_or(default);
    let matrices = [vec![matrix(given(0, 14), given(1, 64))]];
    let parameters =
        Parameters { log_blowup: given(2, 1), num_queries: given(3, 100), ..Parameters::toy() };
    let repeats = given(4, 5) as usize;

    let (commit_time, _) = timed(repeats, || commit(&parameters, &matrices))?;
    let (open_time, opening) = timed(repeats, || open(&parameters, &[], &matrices))?;
    let (kept_time, again_time) = timed_prover(repeats, &parameters, &matrices[0])?;
    let (verify_time, _) =
        timed(repeats, || verify(&parameters, &[], &opening.claims, &opening.proof))?;
    // other parameters are refused before any digest is made, so this is what reading takes
    let others = Parameters { num_queries: parameters.num_queries + 1, ..parameters };
    let (read_time, _) =
        timed(repeats, || Ok(verify(&others, &[], &opening.claims, &opening.proof).is_err()))?;
    println!("commit {commit_time:.1} ms");
    println!("open {open_time:.1} ms, which commits first");
    let both = kept_time + again_time;
    println!("prover {both:.1} ms: commit {kept_time:.1} ms, then open {again_time:.1} ms");
    println!("verify {verify_time:.1} ms, of which reading the proof takes {read_time:.1} ms");
    println!("proof {} bytes", opening.proof.as_bytes().len());
    Ok(())
}
