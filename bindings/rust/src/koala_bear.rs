//! What is passed and answered over KoalaBear. The calls are those of the crate and of
//! [`hiding`](crate::hiding): what is passed says that it is of this field.
//!
//! ```
//! use p3_fri_proved::koala_bear::{Domain, Matrix};
//! use p3_fri_proved::{open, verify, Parameters};
//!
//! let parameters = Parameters { num_queries: 100, ..Parameters::toy() };
//! let column = Matrix {
//!     domain: Domain::subgroup(1),
//!     width: 1,
//!     values: vec![1, 3],
//!     points: vec![[5, 0, 0, 0]],
//! };
//! let opening = open(&parameters, b"here", &[vec![column]])?;
//! assert_eq!(opening.claims[0].matrices[0].points[0].values, [[2130706430, 0, 0, 0]]);
//! verify(&parameters, b"here", &opening.claims, &opening.proof)?;
//! # Ok::<(), p3_fri_proved::Error>(())
//! ```

use crate::error::Error;
use crate::field::{self, Field, KoalaBear};

/// An element of KoalaBear: its canonical number, below [`ORDER`].
pub type Element = u32;

/// An element of its extension, modulo `X^4 - 3`: the numbers of its coefficients, that of one first.
pub type ExtensionElement = [u32; 4];

/// The order of KoalaBear, `2^31 - 2^24 + 1`.
pub const ORDER: Element = <KoalaBear as Field>::ORDER;

/// A coset of points.
pub type Domain = field::Domain<KoalaBear>;

/// Columns of values on a domain, and the points to open them at.
pub type Matrix = field::Matrix<KoalaBear>;

/// The values claimed at a point, one for each column.
pub type PointClaims = field::PointClaims<KoalaBear>;

/// What is claimed of a matrix.
pub type MatrixClaims = field::MatrixClaims<KoalaBear>;

/// What is claimed of the matrices under one commitment.
pub type CommitmentClaims = field::CommitmentClaims<KoalaBear>;

/// What comes of opening matrices.
pub type Opening = field::Opening<KoalaBear>;

/// A prover that keeps what it committed to.
pub type Prover = field::Prover<KoalaBear>;

/// The element of the extension that is drawn after a context, of any bytes.
///
/// # Errors
///
/// [`Error::OutOfMemory`].
pub fn challenge(context: &[u8]) -> Result<ExtensionElement, Error> {
    field::challenge::<KoalaBear>(context)
}
