//! Proves and verifies that traces satisfy four constraint systems, in both schemes: Fibonacci
//! numbers, a range check by bits, a permutation of degree 7 with periodic constants, and accesses
//! sorted by address, with preprocessed columns that say where there is one. Prints what is
//! accepted, and why another public value is refused.

mod systems;

use crate::systems::{examples, Example};
use p3_fri_proved::stark::{prove, verify, Hiding};
use p3_fri_proved::{Error, ORDER};
use std::fs::File;
use std::io::{self, Read};

/// Random columns of the scheme that hides.
const RANDOM_CODEWORDS: u32 = 4;

/// A seed that no other proof had.
fn new_seed() -> io::Result<[u8; 32]> {
    let mut seed = [0; 32];
    File::open("/dev/urandom")?.read_exact(&mut seed)?;
    Ok(seed)
}

/// Proves in the plain scheme, or in the one that hides, and verifies.
fn run(it: &Example, hiding: Option<&Hiding>) -> Result<(), Error> {
    let masks = hiding.map(|hiding| hiding.num_random_codewords);
    let proof = prove(&it.air, &it.trace, &it.public_values, &it.parameters, hiding)?;
    let log_height = verify(&it.air, &it.public_values, &it.parameters, masks, &proof)?;
    let (name, length) = (it.name, proof.as_bytes().len());
    println!("{name}: accepted, of 2^{log_height} rows, by {length} bytes");

    let mut others = it.public_values.clone();
    others[0] = (others[0] + 1) % ORDER;
    if let Err(error) = verify(&it.air, &others, &it.parameters, masks, &proof) {
        println!("{name}: {error}");
    }
    Ok(())
}

fn main() -> Result<(), Box<dyn std::error::Error>> {
    for example in examples() {
        run(&example, None)?;
        let hiding = Hiding { num_random_codewords: RANDOM_CODEWORDS, seed: new_seed()? };
        run(&example, Some(&hiding))?;
    }
    Ok(())
}
