//! A STARK's prover in plain Rust, in the formats of `docs/FORMATS.md`: what `prove` is measured
//! against.
//!
//! ```text
//! stark_yardstick LOG_ROWS COLUMNS LOG_BLOWUP NUM_QUERIES
//!     [LOG_FINAL [CAP [QUERY_BITS [REPEATS]]]]
//! ```
//!
//! proves a trace of `2^LOG_ROWS` rows and prints the least seconds of each part. With `FILES` in
//! the environment the files AIR, TRACE and PROOF are written into that directory.

mod air;
mod challenger;
mod field;
mod json;
mod matrix;
mod opening;
mod quotient;
mod sha256;

use air::Air;
use challenger::Challenger;
use field::{Base, Extension};
use matrix::{extended, Committed, Matrix};
use opening::{open, Claims, Opening, Parameters, Request};
use sha256::Digest;
use std::time::Instant;

pub struct Proof {
    pub trace: Digest,
    pub quotient: Digest,
    pub claims: Claims,
    pub opening: Opening,
    pub log_height: u32,
}

/// The parts of `prove`, in seconds.
const PARTS: [&str; 5] = [
    "commit trace",
    "quotient",
    "commit quotient",
    "open",
    "prove",
];

/// Runs a part and tells its seconds.
fn timed<T>(seconds: &mut f64, part: impl FnOnce() -> T) -> T {
    let start = Instant::now();
    let made = part();
    *seconds = start.elapsed().as_secs_f64();
    made
}

fn prove(air: &Air, values: Vec<Base>, parameters: Parameters, seconds: &mut [f64; 5]) -> Proof {
    let start = Instant::now();
    let log_blowup = parameters.log_blowup;
    let matrix = Matrix {
        values,
        width: air.width,
    };
    let log_height = matrix.height().ilog2();
    let trace = timed(&mut seconds[0], || {
        Committed::new(vec![extended(matrix, Base::ONE, log_blowup)])
    });
    let mut challenger = Challenger::default();
    challenger.observe_stream(&air.stream(log_height));
    challenger.observe_digest(&trace.tree.root());
    let alpha = challenger.draw_element();
    let chunks = timed(&mut seconds[1], || {
        quotient::chunks(air, &trace.matrices[0], log_height, alpha)
    });
    let quotient = timed(&mut seconds[2], || {
        let shifts = quotient::chunk_shifts(log_height);
        Committed::new(
            chunks
                .into_iter()
                .zip(shifts)
                .map(|(chunk, shift)| extended(chunk, shift, log_blowup))
                .collect(),
        )
    });
    challenger.observe_digest(&quotient.tree.root());
    let zeta: Extension = challenger.draw_element();
    let next = zeta.scale(Base::root(log_height));
    let requests = [
        Request {
            committed: &trace,
            points: vec![zeta, next],
        },
        Request {
            committed: &quotient,
            points: vec![zeta],
        },
    ];
    let (claims, opening) = timed(&mut seconds[3], || {
        open(parameters, &requests, log_height, &mut challenger)
    });
    seconds[4] = start.elapsed().as_secs_f64();
    let roots = (trace.tree.root(), quotient.tree.root());
    Proof {
        trace: roots.0,
        quotient: roots.1,
        claims,
        opening,
        log_height,
    }
}

fn write_files(directory: &str, air: &Air, values: &[Base], parameters: Parameters, proof: &Proof) {
    let texts = [
        ("air.json", json::system(air, parameters)),
        ("trace.json", json::trace(values, air.width)),
        ("proof.json", json::proof(proof)),
    ];
    for (file, text) in texts {
        std::fs::write(format!("{directory}/{file}"), text + "\n").expect("a file is written");
    }
}

fn main() {
    let arguments: Vec<u32> = std::env::args()
        .skip(1)
        .map(|argument| argument.parse().expect("arguments are numbers"))
        .collect();
    let argument = |place: usize, default: u32| arguments.get(place).copied().unwrap_or(default);
    let parameters = Parameters {
        log_blowup: argument(2, 1),
        num_queries: argument(3, 100) as usize,
        log_final: argument(4, 0),
        cap: argument(5, 1),
        query_bits: argument(6, 0),
    };
    assert!(parameters.log_blowup >= quotient::LOG_CHUNKS && parameters.cap > 0);
    let air = Air::mixing(argument(1, 64) as usize);
    let values = air.trace(1 << argument(0, 16));
    let mut least = [f64::INFINITY; 5];
    for repeat in 0..argument(7, 1) {
        let mut seconds = [0.0; 5];
        let proof = prove(&air, values.clone(), parameters, &mut seconds);
        least
            .iter_mut()
            .zip(seconds)
            .for_each(|(least, part)| *least = least.min(part));
        if let (0, Ok(directory)) = (repeat, std::env::var("FILES")) {
            write_files(&directory, &air, &values, parameters, &proof);
        }
    }
    for (part, seconds) in PARTS.iter().zip(least) {
        println!("{part} {seconds:.3}");
    }
}
