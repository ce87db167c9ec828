//! What is passed and answered over Goldilocks. The calls are those of the crate and of
//! [`hiding`](crate::hiding): what is passed says that it is of this field.
//!
//! ```
//! use p3_fri_proved::goldilocks::{Domain, Matrix};
//! use p3_fri_proved::{open, verify, Parameters};
//!
//! let parameters = Parameters { num_queries: 100, ..Parameters::toy() };
//! let column = Matrix {
//!     domain: Domain::subgroup(1),
//!     width: 1,
//!     values: vec![1, 3],
//!     points: vec![[5, 0]],
//! };
//! let opening = open(&parameters, b"here", &[vec![column]])?;
//! assert_eq!(opening.claims[0].matrices[0].points[0].values, [[18446744069414584318, 0]]);
//! verify(&parameters, b"here", &opening.claims, &opening.proof)?;
//! # Ok::<(), p3_fri_proved::Error>(())
//! ```

use crate::error::Error;
use crate::field::{self, Field, Goldilocks};

/// An element of Goldilocks: its canonical number, below [`ORDER`].
pub type Element = u64;

/// An element of its extension, modulo `X^2 - 7`: the numbers of its coefficients, that of one first.
pub type ExtensionElement = [u64; 2];

/// The order of Goldilocks, `2^64 - 2^32 + 1`.
pub const ORDER: Element = <Goldilocks as Field>::ORDER;

/// A coset of points.
pub type Domain = field::Domain<Goldilocks>;

/// Columns of values on a domain, and the points to open them at.
pub type Matrix = field::Matrix<Goldilocks>;

/// The values claimed at a point, one for each column.
pub type PointClaims = field::PointClaims<Goldilocks>;

/// What is claimed of a matrix.
pub type MatrixClaims = field::MatrixClaims<Goldilocks>;

/// What is claimed of the matrices under one commitment.
pub type CommitmentClaims = field::CommitmentClaims<Goldilocks>;

/// What comes of opening matrices.
pub type Opening = field::Opening<Goldilocks>;

/// A prover that keeps what it committed to.
pub type Prover = field::Prover<Goldilocks>;

/// The element of the extension that is drawn after a context, of any bytes.
///
/// # Errors
///
/// [`Error::OutOfMemory`].
pub fn challenge(context: &[u8]) -> Result<ExtensionElement, Error> {
    field::challenge::<Goldilocks>(context)
}
