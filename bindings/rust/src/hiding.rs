//! The scheme that hides: what is committed to is masked by random columns and rows, so that an
//! opening shows nothing of it beyond the values that are claimed. That it hides isn't proved; that
//! what is accepted are values of the polynomials committed to, is, as of the plain scheme.
//!
//! # The seed
//!
//! All masks are drawn from the seed of a [`Masking`]. So it is **secret**, 32 bytes of a good
//! source as the system's, that nobody can guess, and **fresh for each proof**. [`commit`] and
//! [`open`] of the same matrices take the same seed, and have the same commitments then: that is
//! one proof. Two openings with one seed of other data, or of the same at other points, show how
//! their masks belong together, so that what was hidden can be computed from them. Whoever learns
//! the seed can compute it too.
//!
//! A commitment that comes after a challenge, as one to a quotient, is the last that [`commit`]
//! answers of all matrices so far, in order and with the same seed, since masks follow one another.
//! Committed to alone with that seed it would have the masks of the first.
//!
//! # What differs from the plain scheme
//!
//! - A matrix needs rows enough: with `q` queries and `n` points at least `2 * (q + 4 * n)`, and
//!   four random columns. Else [`open`] refuses by
//!   [`HidingBudgetExceeded`](crate::Refusal::HidingBudgetExceeded) or
//!   [`InsufficientRandomCodewords`](crate::Refusal::InsufficientRandomCodewords).
//! - Its domain has room for twice as many points: with the log blowup its size is below the
//!   field's two-adicity. A
//!   claim's domain is the one that was committed to, with a `log_size` one greater than the
//!   matrix's. The polynomials have the matrix's values at every second point of it.
//! - One commitment may be *preprocessed*: of public columns that are the same in each run, such as
//!   a table. It isn't masked, and its index is passed on both sides.
//! - A verifier has the number of random columns beside its parameters. A proof is of one number,
//!   one index and this scheme, and refused with others.
//!
//! ```
//! use p3_fri_proved::hiding::{open, verify, Masking};
//! use p3_fri_proved::{Domain, Matrix, Parameters};
//!
//! let parameters = Parameters { num_queries: 20, max_log_arity: 3, ..Parameters::toy() };
//! let context = b"the module's example, version 1";
//! let column = Matrix {
//!     domain: Domain::subgroup(6),
//!     width: 1,
//!     values: (0..64).map(|i| i * i).collect(),
//!     points: vec![[5, 0, 0, 1]],
//! };
//! // in a program 32 fresh bytes of the system's source
//! let masking = Masking { num_random_codewords: 4, seed: [7; 32] };
//! let opening = open(&parameters, context, &masking, None, &[vec![column]])?;
//! assert_eq!(opening.claims[0].matrices[0].domain, Domain::subgroup(7));
//!
//! let next = verify(&parameters, context, 4, None, &opening.claims, &opening.proof)?;
//! assert_eq!(next, opening.next_challenge);
//! # Ok::<(), p3_fri_proved::Error>(())
//! ```

use crate::error::Error;
use crate::field::Field;
use crate::flat::{Reader, Writer};
use crate::raw::Call;
use crate::room::{room_for_hiding_answer, ROOM_FOR_TEXT};
use crate::scheme::{compare_sizes, digests, element, unreadable};
use crate::types::over::{CommitmentClaims, Matrix, Opening};
use crate::types::{Digest, Parameters, Proof};
use std::fmt;

/// By what a prover hides. What it prints doesn't show the seed.
#[derive(Clone)]
pub struct Masking {
    /// The number of random columns by which a matrix is masked: four at least. The verifier has
    /// the same number.
    pub num_random_codewords: u32,
    /// From where the masks are drawn: secret bytes of a good source that nobody can guess, and
    /// that no other proof had. The module's page says [why](crate::hiding#the-seed).
    pub seed: [u8; 32],
}

impl fmt::Debug for Masking {
    fn fmt(&self, f: &mut fmt::Formatter<'_>) -> fmt::Result {
        f.debug_struct("Masking")
            .field("num_random_codewords", &self.num_random_codewords)
            .finish_non_exhaustive()
    }
}

/// The bytes of a hiding request.
fn request<F: Field>(
    parameters: &Parameters,
    context: &[u8],
    masking: &Masking,
    preprocessed: Option<usize>,
    commitments: &[Vec<Matrix<F>>],
) -> Result<Vec<u8>, Error> {
    compare_sizes(commitments)?;
    let mut writer = Writer::default();
    writer.masking(masking, preprocessed)?;
    writer.request(parameters, context, commitments)?;
    Ok(writer.bytes)
}

/// Commits to matrices, those of each list under one commitment. The one at the index
/// `preprocessed`, if there is one, isn't masked.
///
/// # Errors
///
/// As [`commit`](crate::commit) of the plain scheme, and [`Error::Malformed`] by
/// [`NoCommitment`](crate::Fault::NoCommitment) where there is no commitment at the index.
pub fn commit<F: Field>(
    parameters: &Parameters,
    masking: &Masking,
    preprocessed: Option<usize>,
    commitments: &[Vec<Matrix<F>>],
) -> Result<Vec<Digest>, Error> {
    let request = request(parameters, &[], masking, preprocessed, commitments)?;
    let room = ROOM_FOR_TEXT.max(32 * commitments.len());
    digests(&Call::HidingCommit.answer::<F>(&request, room)?, commitments.len())
}

/// Commits to matrices, those of each list under one commitment, and opens each at its points. The
/// one at the index `preprocessed`, if there is one, isn't masked. [`verify`] accepts what comes of
/// it, with these parameters, this context, this number of random columns and this index.
///
/// The context is as of [`open`](crate::open) of the plain scheme, the bytes of a
/// [`Transcript`](crate::Transcript). Points are drawn after each commitment was absorbed: the
/// commitments are those of [`commit`] with the same seed.
///
/// # Errors
///
/// As [`open`](crate::open) of the plain scheme and as [`commit`], and [`Error::Refused`] where the
/// masks can't hide what is opened.
pub fn open<F: Field>(
    parameters: &Parameters,
    context: &[u8],
    masking: &Masking,
    preprocessed: Option<usize>,
    commitments: &[Vec<Matrix<F>>],
) -> Result<Opening<F>, Error> {
    let request = request(parameters, context, masking, preprocessed, commitments)?;
    let codewords = masking.num_random_codewords;
    let room = room_for_hiding_answer(parameters, context, codewords, commitments);
    let answer = Call::HidingOpen.answer::<F>(&request, room)?;
    Reader { left: &answer }.hiding_opening().ok_or_else(unreadable)
}

/// Verifies claims and their proof, and answers what the challenger draws next, which is the
/// [`next_challenge`](Opening::next_challenge) of their opening.
///
/// What is verified is what is passed, and all of it but the proof is absorbed before anything is
/// drawn, as in [`verify`](crate::verify) of the plain scheme. The number of random columns and the
/// index of the preprocessed commitment are the verifier's own too. It has no seed.
///
/// # Errors
///
/// As [`verify`](crate::verify) of the plain scheme.
///
/// ```
/// use p3_fri_proved::hiding::{open, verify, Masking};
/// use p3_fri_proved::{Domain, Error, Matrix, Parameters};
///
/// let parameters = Parameters { max_log_arity: 2, num_queries: 8, ..Parameters::toy() };
/// let column = Matrix {
///     domain: Domain::subgroup(5),
///     width: 1,
///     values: (0..32).collect(),
///     points: vec![[5, 0, 0, 0]],
/// };
/// let masking = Masking { num_random_codewords: 5, seed: [7; 32] };
/// let opening = open(&parameters, b"", &masking, None, &[vec![column]])?;
/// verify(&parameters, b"", 5, None, &opening.claims, &opening.proof)?;
/// let refused = verify(&parameters, b"", 4, None, &opening.claims, &opening.proof);
/// assert!(matches!(refused, Err(Error::Refused { .. })));
/// # Ok::<(), Error>(())
/// ```
pub fn verify<F: Field>(
    parameters: &Parameters,
    context: &[u8],
    num_random_codewords: u32,
    preprocessed: Option<usize>,
    claims: &[CommitmentClaims<F>],
    proof: &Proof,
) -> Result<F::ExtensionElement, Error> {
    let mut writer = Writer::default();
    writer.hidden(num_random_codewords, preprocessed)?;
    writer.statement(parameters, context, claims, proof)?;
    element::<F>(&Call::HidingVerify.answer::<F>(&writer.bytes, ROOM_FOR_TEXT)?)
}

#[cfg(test)]
mod tests {
    use super::Masking;

    #[test]
    fn the_seed_is_not_printed() {
        let masking = Masking { num_random_codewords: 4, seed: [123; 32] };
        assert_eq!(format!("{masking:?}"), "Masking { num_random_codewords: 4, .. }");
    }
}
