//! The plain FRI polynomial commitment scheme over a prime field, an extension of it and SHA-256, in
//! [`hiding`] the one that masks what is committed to, and in [`stark`] proofs that there is a table
//! which satisfies a constraint system.
//!
//! The work is done by a library in Rattle, which is Rust with contracts: each of its functions is
//! proved to meet its contract, so that it does nothing undefined, returns, and answers what is
//! written down. This package is a thin, unproved layer over it: it writes requests as bytes, calls
//! the library, and reads the answers.
//!
//! The library is the one in the folder that the variable `P3_FRI_LIB` names, or in `lib` beside a
//! package that `tools/package` wrote. With the feature `build` it is made where none is named:
//! `rt lib` in `crates/p3_fri_ffi` proves it first, in a fresh clone for some tens of minutes, and
//! later takes what was proved; `rt` has to be on `PATH`, or `RATTLE_KIT` to name the toolchain's
//! folder. With neither, the package can be checked and documented, and not linked.
//!
//! Where the variable `P3_FRI_CPU` is `x86-64-v3` while the package is built, it links a library
//! for processors with AVX2, which is faster: from the folder `x86-64-v3` in the one that is named,
//! or made so by `rt lib`. Each call asks the processor first, and one that is too old gets
//! [`Error::ProcessorTooOld`].
//!
//! The polynomial through 1 at 1 and 3 at -1 is `2 - X`, whose value at 5 is -3:
//!
//! ```
//! use p3_fri_proved::{open, verify, Domain, Matrix, Parameters};
//!
//! let parameters = Parameters { num_queries: 100, ..Parameters::toy() };
//! let context = b"the crate's example, version 1";
//! let column = Matrix {
//!     domain: Domain::subgroup(1),
//!     width: 1,
//!     values: vec![1, 3],
//!     points: vec![[5, 0, 0, 0]],
//! };
//! let opening = open(&parameters, context, &[vec![column]])?;
//! assert_eq!(opening.claims[0].matrices[0].points[0].values, [[2013265918, 0, 0, 0]]);
//!
//! let next_challenge = verify(&parameters, context, &opening.claims, &opening.proof)?;
//! assert_eq!(next_challenge, opening.next_challenge);
//! # Ok::<(), p3_fri_proved::Error>(())
//! ```
//!
//! # What acceptance means
//!
//! That [`verify`] accepts means, but for an error that the parameters bound, that the claimed
//! values are those of the polynomials committed to, at the claimed points. Context, parameters,
//! commitments, domains, widths and points are absorbed before anything is drawn, and the values
//! after them. So none of these can be chosen by what is drawn, and a proof that was made for
//! others is refused; but one that is right whatever is drawn, as the opening of a constant is,
//! fits every context.
//!
//! It doesn't mean that points and commitments are what an application needs them to be. Two values
//! that are equal at a point say that two polynomials are equal only where the point was drawn
//! after both were committed to. An application
//!
//! 1. absorbs what is public, and each commitment once it is made, into a [`Transcript`];
//! 2. draws its challenges and its points from there, after what they depend on;
//! 3. opens and verifies with the transcript's bytes as the context.
//!
//! Its verifier makes the transcript, the points, and the claims' domains and widths by itself, and
//! has parameters of its own: of the prover it takes commitments, values and the proof. The example
//! at [`Transcript`] does so, and `examples/fibonacci` is a whole program. Nothing is hidden: a
//! proof shows rows of what is committed to, but for those of [`hiding`].
//!
//! # Numbers, threads and time
//!
//! An element of a [`field`] is its canonical number, below the field's order; one of the extension
//! is the numbers of its coefficients, that of one first. The types here are BabyBear's;
//! [`koala_bear`] and [`goldilocks`] have the others, and the calls serve each. Any numbers may be
//! passed: those that are none are refused by name.
//!
//! Calls share nothing, so threads may call at once. How long a call takes follows from what is
//! asked for: an opening makes `2^log_blowup` values of each that is committed to, a proof of work
//! of `b` bits tries some `2^b` witnesses, and a context of a million bytes takes some half a
//! second.
//!
//! # serde
//!
//! The package in `bindings/rust-serde` is this one, with a feature `serde`: all that the scheme's
//! calls pass and answer is `Serialize` and `Deserialize`, by field, and a proof is its bytes. As
//! without serde, any numbers and any bytes may be passed: the calls refuse by name those that are
//! none.
#![forbid(unsafe_op_in_unsafe_fn)]
#![deny(unsafe_code)]
#![warn(missing_docs)]

mod error;
pub mod field;
mod flat;
pub mod goldilocks;
pub mod hiding;
pub mod koala_bear;
mod processor;
#[cfg(feature = "serde")]
mod proof_serde;
mod prover;
mod raw;
mod room;
mod scheme;
pub mod stark;
mod transcript;
mod types;

pub use crate::error::{Error, Fault, Refusal};
pub use crate::scheme::{challenge, commit, open, verify};
pub use crate::transcript::Transcript;
pub use crate::types::{
    CommitmentClaims, Digest, Domain, Element, ExtensionElement, Matrix, MatrixClaims, Opening,
    Parameters, PointClaims, Proof, Prover, ORDER,
};
