//! A STARK: proofs that there is a trace, a table of elements, which satisfies a constraint system.
//!
//! A verifier has the constraint system, the public values and the parameters by itself; of the
//! prover it takes the proof alone. Constraints are sums and products of a row's entries and the
//! next row's, of preprocessed and periodic columns, which the system has, of public values and of
//! constants.
//!
//! Two columns of Fibonacci numbers, whose first row and last entry are public:
//!
//! ```
//! use p3_fri_proved::stark::{prove, verify, AirBuilder, Columns};
//! use p3_fri_proved::Parameters;
//!
//! let builder =
//!     AirBuilder::new(Columns { width: 2, num_public_values: 3, ..Columns::default() });
//! let (a, b) = (builder.local(0), builder.local(1));
//! builder.when_first_row().assert_eq(a, builder.public_value(0));
//! builder.when_first_row().assert_eq(b, builder.public_value(1));
//! builder.when_transition().assert_eq(builder.next(0), b);
//! builder.when_transition().assert_eq(builder.next(1), a + b);
//! builder.when_last_row().assert_eq(b, builder.public_value(2));
//! let air = builder.build();
//!
//! let parameters = Parameters { num_queries: 100, ..Parameters::toy() };
//! let trace = [[0, 1], [1, 1], [1, 2], [2, 3]];
//! let proof = prove(&air, &trace, &[0, 1, 3], &parameters, None)?;
//!
//! assert_eq!(verify(&air, &[0, 1, 3], &parameters, None, &proof)?, 2);
//! assert!(verify(&air, &[0, 1, 4], &parameters, None, &proof).is_err());
//! # Ok::<(), p3_fri_proved::Error>(())
//! ```
//!
//! # What acceptance means
//!
//! That [`verify`] accepts means, but for an error that the parameters bound, that there is a trace
//! of `2^k` rows, where `k` is what it returns, that satisfies the constraints with these public
//! values. Both sides absorb all of the system before anything is drawn, so a proof is of that
//! system and of those public values alone. A proof is bound to nothing else: an application's name
//! or a session belongs into a public value.
//!
//! # Hiding
//!
//! With a [`Hiding`] the trace's columns are masked by random ones, so that a proof shows nothing of
//! it beyond the claim; one of the plain scheme shows values of the columns' polynomials. That it
//! hides isn't proved. It takes a trace of at least `2 * (num_queries + 8)` rows, preprocessed
//! columns as tall, and at least four random columns.
//!
//! # Files
//!
//! [`Air::json`] is what the program `fri_stark` takes as its file AIR, and a [`Proof`] is its file
//! PROOF, in the form of docs/FORMATS.md.

mod air;
mod calls;
mod raw;
mod room;
mod text;

pub use crate::hiding::Masking as Hiding;
pub use crate::stark::air::{Air, AirBuilder, Columns, Expression, Rows};
pub use crate::stark::calls::{check, prove, verify, Proof};
