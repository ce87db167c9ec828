//! The four calls.

use crate::error::{Error, Fault};
use crate::field::{self, BabyBear, Field};
use crate::flat::{Reader, Writer};
use crate::raw::Call;
use crate::room::{room_for_answer, ROOM_FOR_TEXT};
use crate::types::over::{CommitmentClaims, Matrix, Opening};
use crate::types::{Digest, ExtensionElement, Parameters, Proof};

/// That each matrix under the commitment at this place has as many values as its size says: the
/// form takes their number from there.
pub(crate) fn compare_batch<F: Field>(
    commitment: usize,
    matrices: &[Matrix<F>],
) -> Result<(), Error> {
    for (matrix, it) in matrices.iter().enumerate() {
        let count = 1u64.checked_shl(it.domain.log_size).map(u128::from);
        let count = count.map(|size| size * u128::from(it.width));
        if count != Some(it.values.len() as u128) {
            return Err(Error::Malformed {
                fault: Fault::Values,
                text: format!(
                    "Values: commitments[{commitment}].matrices[{matrix}].values: expected as many \
                     values as the domain has points, times the width"
                ),
            });
        }
    }
    Ok(())
}

/// And each under any commitment.
pub(crate) fn compare_sizes<F: Field>(commitments: &[Vec<Matrix<F>>]) -> Result<(), Error> {
    for (commitment, matrices) in commitments.iter().enumerate() {
        compare_batch(commitment, matrices)?;
    }
    Ok(())
}

/// The bytes of a request.
fn request<F: Field>(
    parameters: &Parameters,
    context: &[u8],
    commitments: &[Vec<Matrix<F>>],
) -> Result<Vec<u8>, Error> {
    compare_sizes(commitments)?;
    let mut writer = Writer::default();
    writer.request(parameters, context, commitments)?;
    Ok(writer.bytes)
}

/// The digests of an answer, so many.
pub(crate) fn digests(answer: &[u8], count: usize) -> Result<Vec<Digest>, Error> {
    let mut reader = Reader { left: answer };
    (0..count).map(|_| reader.digest().ok_or_else(unreadable)).collect()
}

/// The element of the extension that an answer is.
pub(crate) fn element<F: Field>(answer: &[u8]) -> Result<F::ExtensionElement, Error> {
    Reader { left: answer }.element::<F>().ok_or_else(unreadable)
}

/// An answer that isn't in its form, which the library is proved not to give.
pub(crate) fn unreadable() -> Error {
    Error::malformed("Answer: the library's answer isn't in its form".to_string())
}

/// Commits to matrices, those of each list under one commitment.
///
/// ```
/// use p3_fri_proved::{commit, Domain, Matrix, Parameters};
///
/// let column = Matrix {
///     domain: Domain::subgroup(1),
///     width: 1,
///     values: vec![1, 3],
///     points: vec![],
/// };
/// let commitments = commit(&Parameters::toy(), &[vec![column]])?;
/// assert_eq!(commitments[0][..4], [0x2a, 0xa4, 0x19, 0xf5]);
/// # Ok::<(), p3_fri_proved::Error>(())
/// ```
///
/// # Errors
///
/// [`Error::Malformed`] where a number is no element, or the parameters, a domain or a width has no
/// place in the scheme; [`Error::OutOfMemory`].
pub fn commit<F: Field>(
    parameters: &Parameters,
    commitments: &[Vec<Matrix<F>>],
) -> Result<Vec<Digest>, Error> {
    let request = request(parameters, &[], commitments)?;
    let room = ROOM_FOR_TEXT.max(32 * commitments.len());
    digests(&Call::Commit.answer::<F>(&request, room)?, commitments.len())
}

/// Commits to matrices, those of each list under one commitment, and opens each at its points.
/// [`verify`] accepts what comes of it, with these parameters and this context. The crate's page
/// has an example.
///
/// The context is what the application absorbed before, as the bytes of a
/// [`Transcript`](crate::Transcript); it may be empty. Points have to be drawn after each
/// commitment was absorbed. An opening takes no commitment that was made before: it commits anew,
/// to the same digests where parameters and matrices are the same. A [`Prover`](crate::Prover)
/// commits once.
///
/// # Errors
///
/// [`Error::Malformed`] as of [`commit`], and where a point is no element or a matrix has none;
/// [`Error::Refused`] with one of the prover's refusals, as where a point lies in a matrix's coset
/// of evaluation:
///
/// ```
/// use p3_fri_proved::{open, Domain, Error, Matrix, Parameters, Refusal};
///
/// let column = Matrix {
///     domain: Domain::subgroup(1),
///     width: 1,
///     values: vec![1, 3],
///     points: vec![[31, 0, 0, 0]],
/// };
/// match open(&Parameters::toy(), &[], &[vec![column]]) {
///     Err(Error::Refused { refusal, text }) => {
///         assert_eq!(refusal, Refusal::PointInEvaluationDomain);
///         assert!(text.starts_with("PointInEvaluationDomain { round: 0, matrix: 0, point: 0 }"));
///     }
///     _ => unreachable!(),
/// }
/// ```
pub fn open<F: Field>(
    parameters: &Parameters,
    context: &[u8],
    commitments: &[Vec<Matrix<F>>],
) -> Result<Opening<F>, Error> {
    let request = request(parameters, context, commitments)?;
    let room = room_for_answer(parameters, context, commitments);
    let answer = Call::Open.answer::<F>(&request, room)?;
    Reader { left: &answer }.opening().ok_or_else(unreadable)
}

/// Verifies claims and their proof, and answers what the challenger draws next, which is the
/// [`next_challenge`](Opening::next_challenge) of their opening.
///
/// What is verified is what is passed, and all of it but the proof is absorbed before anything is
/// drawn. So a verifier passes its own parameters, the context that it made by itself, and claims
/// with the commitments, the domains and the points that it knows. The crate's page says [what
/// acceptance means](crate#what-acceptance-means).
///
/// # Errors
///
/// [`Error::Refused`] where the claims aren't accepted, by a refusal that stands of them;
/// [`Error::Malformed`] where a number is no element or the bytes of the proof are none's: of
/// [`Fault::BytesMissing`] and [`Fault::BytesLeft`] the text says where, counted from the beginning
/// of the statement, whose context, parameters and claims stand before the proof;
/// [`Error::OutOfMemory`], which says nothing of the claims.
///
/// ```
/// use p3_fri_proved::{open, verify, Domain, Error, Matrix, Parameters};
///
/// let parameters = Parameters { num_queries: 40, ..Parameters::toy() };
/// let column = Matrix {
///     domain: Domain::subgroup(1),
///     width: 1,
///     values: vec![1, 3],
///     points: vec![[5, 0, 0, 0]],
/// };
/// let mut opening = open(&parameters, b"here", &[vec![column]])?;
/// let elsewhere = verify(&parameters, b"there", &opening.claims, &opening.proof);
/// assert!(matches!(elsewhere, Err(Error::Refused { .. })));
///
/// opening.claims[0].matrices[0].points[0].values[0][0] -= 1;
/// let refused = verify(&parameters, b"here", &opening.claims, &opening.proof);
/// assert!(matches!(refused, Err(Error::Refused { .. })));
/// # Ok::<(), Error>(())
/// ```
pub fn verify<F: Field>(
    parameters: &Parameters,
    context: &[u8],
    claims: &[CommitmentClaims<F>],
    proof: &Proof,
) -> Result<F::ExtensionElement, Error> {
    let mut writer = Writer::default();
    writer.statement(parameters, context, claims, proof)?;
    element::<F>(&Call::Verify.answer::<F>(&writer.bytes, ROOM_FOR_TEXT)?)
}

/// The element of BabyBear's extension that is drawn after a context, of any bytes. It takes time in
/// proportion to them.
///
/// A [`Transcript`](crate::Transcript) draws by it, and sees to it that different calls have
/// different bytes. Whoever makes the bytes in another way has to see to that.
///
/// ```
/// use p3_fri_proved::challenge;
///
/// assert_eq!(challenge(b"")?, [1656580281, 788222061, 931621667, 1078137329]);
/// # Ok::<(), p3_fri_proved::Error>(())
/// ```
///
/// # Errors
///
/// [`Error::OutOfMemory`].
pub fn challenge(context: &[u8]) -> Result<ExtensionElement, Error> {
    field::challenge::<BabyBear>(context)
}
