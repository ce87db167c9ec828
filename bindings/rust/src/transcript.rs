//! A transcript of an application: what it absorbs and draws before an opening.

use crate::error::Error;
use crate::field::{challenge, BabyBear, Field};
use crate::flat::Writer;
use crate::types::ExtensionElement;

/// The part is the label, with which every transcript begins.
const LABEL: u8 = 0;

/// The part was absorbed.
const ABSORBED: u8 = 1;

/// The part was drawn.
const DRAWN: u8 = 2;

/// What an application absorbs, and the challenges that it draws in between: both sides do the
/// same, and so have the same challenges. Its bytes are the context of [`open`](crate::open) and
/// [`verify`](crate::verify), which draw all that they draw after them.
///
/// It begins with a label that no other application uses: a name and a version. Then all that is
/// public is absorbed, and each commitment once it is made. A challenge depends on all that comes
/// before it, and on nothing that comes later. A verifier makes a transcript of its own, of what it
/// knows and of the commitments that it was sent.
///
/// # Bytes
///
/// Parts, one after another, in the order of the calls. A part is a byte for its kind; the number
/// of its bytes, in eight bytes, the highest first; and so many bytes:
///
/// | kind | bytes |
/// |---|---|
/// | 0, the first part and no other | the label |
/// | 1 | what is absorbed by one call |
/// | 2 | a challenge: the numbers of its coefficients, the lowest byte first |
///
/// A number has four bytes of BabyBear and of KoalaBear, which have four coefficients, and eight of
/// Goldilocks, which has two. No part begins another, so different sequences of calls have different bytes. A challenge is
/// what [`challenge`](crate::challenge) draws after the bytes before it, and then is a part itself.
///
/// # Example
///
/// A column is committed to; then one that depends on a challenge, the column with a number of the
/// challenge added; then both are opened at a point that depends on both commitments. The verifier
/// knows parameters, domains and label, takes commitments, values and proof from the prover, and
/// draws all else by itself.
///
/// ```
/// use p3_fri_proved::{
///     commit, open, verify, CommitmentClaims, Digest, Domain, Error, ExtensionElement, Matrix,
///     MatrixClaims, Parameters, PointClaims, Proof, Transcript, ORDER,
/// };
///
/// const PARAMETERS: Parameters =
///     Parameters { num_queries: 84, query_proof_of_work_bits: 16, ..Parameters::toy() };
/// const DOMAIN: Domain = Domain::subgroup(2);
///
/// /// What the prover sends.
/// struct Sent {
///     commitments: [Digest; 2],
///     values: [ExtensionElement; 2],
///     proof: Proof,
/// }
///
/// fn matrix(values: Vec<u32>, points: Vec<ExtensionElement>) -> Matrix {
///     Matrix { domain: DOMAIN, width: 1, values, points }
/// }
///
/// fn add(left: u32, right: u32) -> u32 {
///     ((u64::from(left) + u64::from(right)) % u64::from(ORDER)) as u32
/// }
///
/// fn prove(column: Vec<u32>) -> Result<Sent, Error> {
///     let mut transcript = Transcript::new(b"a column and its sum, version 1");
///     let first = commit(&PARAMETERS, &[vec![matrix(column.clone(), vec![])]])?[0];
///     transcript.absorb(&first);
///     let alpha = transcript.challenge()?;
///     let sum: Vec<u32> = column.iter().map(|value| add(*value, alpha[0])).collect();
///     let second = commit(&PARAMETERS, &[vec![matrix(sum.clone(), vec![])]])?[0];
///     transcript.absorb(&second);
///     let zeta = transcript.challenge()?;
///     let batches = [vec![matrix(column, vec![zeta])], vec![matrix(sum, vec![zeta])]];
///     let opening = open(&PARAMETERS, transcript.context(), &batches)?;
///     let value = |index: usize| opening.claims[index].matrices[0].points[0].values[0];
///     let values = [value(0), value(1)];
///     Ok(Sent { commitments: [first, second], values, proof: opening.proof })
/// }
///
/// fn is_accepted(sent: &Sent) -> Result<bool, Error> {
///     let mut transcript = Transcript::new(b"a column and its sum, version 1");
///     transcript.absorb(&sent.commitments[0]);
///     let alpha = transcript.challenge()?;
///     transcript.absorb(&sent.commitments[1]);
///     let zeta = transcript.challenge()?;
///     let claims = [0, 1].map(|index| {
///         let points = vec![PointClaims { point: zeta, values: vec![sent.values[index]] }];
///         let matrices = vec![MatrixClaims { domain: DOMAIN, points }];
///         CommitmentClaims { commitment: sent.commitments[index], matrices }
///     });
///     verify(&PARAMETERS, transcript.context(), &claims, &sent.proof)?;
///     let [value, mut sum] = sent.values;
///     sum[0] = add(sum[0], ORDER - alpha[0]);
///     Ok(value == sum)
/// }
///
/// let mut sent = prove(vec![3, 1, 4, 1])?;
/// assert_eq!(is_accepted(&sent), Ok(true));
/// sent.commitments[0][0] ^= 1;
/// assert!(matches!(is_accepted(&sent), Err(Error::Refused { .. })));
/// # Ok::<(), Error>(())
/// ```
#[derive(Clone, Debug, PartialEq, Eq, Hash)]
pub struct Transcript {
    bytes: Vec<u8>,
}

impl Transcript {
    /// The transcript that has absorbed a label alone.
    pub fn new(label: &[u8]) -> Transcript {
        let mut transcript = Transcript { bytes: Vec::new() };
        transcript.push(LABEL, label);
        transcript
    }

    /// Absorbs bytes. Those of one call are one part: `absorb(b"ab")` isn't `absorb(b"a")` and then
    /// `absorb(b"b")`.
    pub fn absorb(&mut self, bytes: &[u8]) {
        self.push(ABSORBED, bytes);
    }

    /// Draws a challenge of BabyBear's extension, which depends on all that stands before it, and
    /// absorbs it.
    ///
    /// It takes time in proportion to the bytes so far, some half a second for a million: of what
    /// is long a digest is absorbed.
    ///
    /// # Errors
    ///
    /// [`Error::OutOfMemory`]; the transcript is as it was.
    pub fn challenge(&mut self) -> Result<ExtensionElement, Error> {
        self.challenge_over::<BabyBear>()
    }

    /// Draws a challenge of a field's extension, as [`challenge`](Transcript::challenge) does.
    ///
    /// # Errors
    ///
    /// [`Error::OutOfMemory`]; the transcript is as it was.
    pub fn challenge_over<F: Field>(&mut self) -> Result<F::ExtensionElement, Error> {
        let drawn = challenge::<F>(&self.bytes)?;
        self.push_drawn::<F>(&drawn);
        Ok(drawn)
    }

    /// The bytes so far.
    pub fn context(&self) -> &[u8] {
        &self.bytes
    }

    fn push(&mut self, kind: u8, bytes: &[u8]) {
        self.bytes.push(kind);
        self.bytes.extend_from_slice(&(bytes.len() as u64).to_be_bytes());
        self.bytes.extend_from_slice(bytes);
    }

    fn push_drawn<F: Field>(&mut self, drawn: &F::ExtensionElement) {
        let mut writer = Writer::default();
        writer.elements::<F>(drawn.as_ref());
        self.push(DRAWN, &writer.bytes);
    }
}

#[cfg(test)]
mod tests {
    use super::{BabyBear, Transcript};

    /// The transcript with this label that has absorbed these parts.
    fn absorbed(label: &[u8], parts: &[&[u8]]) -> Transcript {
        let mut transcript = Transcript::new(label);
        for part in parts {
            transcript.absorb(part);
        }
        transcript
    }

    #[test]
    fn a_part_is_its_kind_its_length_and_its_bytes() {
        let mut transcript = absorbed(b"name", &[b"", &[7; 300]]);
        transcript.push_drawn::<BabyBear>(&[1, 0x01020304, 0, 2013265920]);
        let mut expected =
            b"\x00\0\0\0\0\0\0\0\x04name\x01\0\0\0\0\0\0\0\0\x01\0\0\0\0\0\0\x01\x2c".to_vec();
        expected.extend_from_slice(&[7; 300]);
        expected.extend_from_slice(b"\x02\0\0\0\0\0\0\0\x10");
        expected.extend_from_slice(b"\x01\0\0\0\x04\x03\x02\x01\0\0\0\0\0\0\0\x78");
        assert_eq!(transcript.context(), expected);
    }

    /// Sequences of calls, with the same bytes passed in another way, have other bytes.
    #[test]
    fn different_calls_have_different_bytes() {
        let drawn = [u32::from_le_bytes(*b"abcd"); 4];
        let mut with_drawn = absorbed(b"", &[]);
        with_drawn.push_drawn::<BabyBear>(&drawn);
        let mut drawn_first = with_drawn.clone();
        drawn_first.absorb(b"ab");
        let mut drawn_last = absorbed(b"", &[b"ab"]);
        drawn_last.push_drawn::<BabyBear>(&drawn);
        let transcripts = [
            absorbed(b"", &[]),
            absorbed(b"ab", &[]),
            absorbed(b"a", &[b"b"]),
            absorbed(b"", &[b""]),
            absorbed(b"", &[b"", b""]),
            absorbed(b"", &[b"ab"]),
            absorbed(b"", &[b"a", b"b"]),
            absorbed(b"", &[b"b", b"a"]),
            absorbed(b"", &[b"", b"ab"]),
            absorbed(b"", &[b"ab", b""]),
            // as parts look like
            absorbed(b"", &[b"a\x01b"]),
            absorbed(b"", &[b"a\x01\0\0\0\0\0\0\0\x01b"]),
            absorbed(b"", &[b"abcdabcdabcdabcd"]),
            with_drawn,
            drawn_first,
            drawn_last,
        ];
        for (index, transcript) in transcripts.iter().enumerate() {
            for other in &transcripts[index + 1..] {
                assert_ne!(transcript.context(), other.context());
            }
        }
    }

    #[test]
    fn a_challenge_is_absorbed() {
        let mut transcript = absorbed(b"name", &[b"part"]);
        let mut expected = transcript.clone();
        let first = transcript.challenge().unwrap();
        expected.push_drawn::<BabyBear>(&first);
        assert_eq!(transcript, expected);
        let second = transcript.challenge().unwrap();
        assert_ne!(first, second);
        expected.push_drawn::<BabyBear>(&second);
        assert_eq!(transcript, expected);
    }
}
