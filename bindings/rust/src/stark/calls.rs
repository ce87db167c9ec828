//! Checking, proving and verifying.

use crate::error::Error;
use crate::hiding::Masking as Hiding;
use crate::room::ROOM_FOR_TEXT;
use crate::scheme::unreadable;
use crate::stark::air::Air;
use crate::stark::room::room_for_proof;
use crate::stark::{raw, text};
use crate::types::{Element, Parameters};

/// A proof of a STARK: bytes that are a text in JSON, the file PROOF of docs/FORMATS.md.
#[derive(Clone, Debug, PartialEq, Eq, Hash)]
pub struct Proof {
    bytes: Vec<u8>,
}

impl Proof {
    /// The proof with these bytes. Any may be passed: [`verify`] tests whether they are a proof's,
    /// and refuses others by name.
    pub fn from_bytes(bytes: impl Into<Vec<u8>>) -> Proof {
        Proof { bytes: bytes.into() }
    }

    /// Its bytes.
    pub fn as_bytes(&self) -> &[u8] {
        &self.bytes
    }

    /// Its bytes, without a copy.
    pub fn into_bytes(self) -> Vec<u8> {
        self.bytes
    }
}

impl Air {
    /// The system with these parameters in JSON, the file AIR of docs/FORMATS.md, which the program
    /// `fri_stark` takes. The plain scheme doesn't read the number of random columns.
    pub fn json(&self, parameters: &Parameters, num_random_codewords: u32) -> String {
        text::system(self, parameters, num_random_codewords)
    }
}

/// Whether the trace, row by row, satisfies the system.
///
/// # Errors
///
/// [`Error::Refused`] where it doesn't, with the first row and there the first constraint that
/// isn't zero, or where rows, public values and columns aren't as many as the system says;
/// [`Error::Malformed`] where a number is no element or the system isn't well formed;
/// [`Error::OutOfMemory`].
pub fn check<R: AsRef<[Element]>>(
    air: &Air,
    trace: &[R],
    public_values: &[Element],
) -> Result<(), Error> {
    // no parameter counts
    let system = text::system(air, &Parameters::toy(), 0);
    raw::check(&system, &text::trace(trace, public_values), ROOM_FOR_TEXT).map(|_| ())
}

/// Proves that the trace, row by row, satisfies the system, in the scheme that hides if `hiding` is
/// there. [`verify`] accepts the proof with the same system, public values and parameters. The
/// number of rows is a power of two.
///
/// # Errors
///
/// As [`check`], and [`Error::Refused`] where the trace isn't as high as the scheme needs, or by
/// another of the prover's refusals; [`Error::Malformed`] where the parameters aren't good.
pub fn prove<R: AsRef<[Element]>>(
    air: &Air,
    trace: &[R],
    public_values: &[Element],
    parameters: &Parameters,
    hiding: Option<&Hiding>,
) -> Result<Proof, Error> {
    let num_random_codewords = hiding.map_or(0, |it| it.num_random_codewords);
    let system = text::system(air, parameters, num_random_codewords);
    let trace_text = text::trace(trace, public_values);
    let room = room_for_proof(air, parameters, num_random_codewords, trace.len());
    let proof = raw::prove(&system, &trace_text, hiding.map(|it| &it.seed), room)?;
    Ok(Proof { bytes: proof })
}

/// Verifies a proof, and returns `k` where it is accepted: there is a trace of `2^k` rows that
/// satisfies the system with these public values. A proof of the scheme that hides is verified with
/// its number of random columns, one of the plain scheme with none.
///
/// The system, the public values, the parameters and the number of random columns are the
/// verifier's own. The module's page says [what acceptance
/// means](crate::stark#what-acceptance-means).
///
/// # Errors
///
/// [`Error::Refused`] where the proof isn't accepted, by a refusal that stands of it;
/// [`Error::Malformed`] where its bytes are no proof's, a number is no element, or the system or
/// the parameters aren't good; [`Error::OutOfMemory`], which says nothing of the proof.
pub fn verify(
    air: &Air,
    public_values: &[Element],
    parameters: &Parameters,
    num_random_codewords: Option<u32>,
    proof: &Proof,
) -> Result<u32, Error> {
    let system = text::system(air, parameters, num_random_codewords.unwrap_or(0));
    let public_values = text::public_values(public_values);
    let hides = num_random_codewords.is_some();
    let answer = raw::verify(&system, &public_values, &proof.bytes, hides, ROOM_FOR_TEXT)?;
    let log_height = answer.try_into().map(u64::from_le_bytes).map_err(|_| unreadable())?;
    u32::try_from(log_height).map_err(|_| unreadable())
}
