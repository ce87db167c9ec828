//! What is passed and answered.

use crate::field::BabyBear;

/// An element of BabyBear: its canonical number, below [`ORDER`].
pub type Element = u32;

/// An element of BabyBear's extension of degree 4, modulo `X^4 - 11`: the numbers of its four
/// coefficients, that of one first.
pub type ExtensionElement = [u32; 4];

/// A commitment: a digest by SHA-256.
pub type Digest = [u8; 32];

/// The order of BabyBear, `2^31 - 2^27 + 1`.
pub const ORDER: u32 = 2013265921;

/// The parameters of the scheme. Logarithms are to the base 2. A verifier has its own: it takes
/// none from a prover.
///
/// ```
/// use p3_fri_proved::Parameters;
///
/// let parameters = Parameters {
///     log_blowup: 1,
///     log_final_poly_len: 0,
///     max_log_arity: 3,
///     num_queries: 100,
///     batch_proof_of_work_bits: 0,
///     commit_proof_of_work_bits: 0,
///     query_proof_of_work_bits: 16,
/// };
/// assert_eq!(parameters.conjectured_soundness_bits(), 116);
/// ```
#[derive(Clone, Copy, Debug, PartialEq, Eq, Hash)]
#[cfg_attr(feature = "serde", derive(serde::Serialize, serde::Deserialize))]
pub struct Parameters {
    /// How many times as long words are as what they encode: from 1 to the two-adicity of the field,
    /// 27 for BabyBear, 24 for KoalaBear, 32 for Goldilocks.
    pub log_blowup: u32,
    /// The number of coefficients at which folding ends.
    pub log_final_poly_len: u32,
    /// By how much a round folds at most: above 0.
    pub max_log_arity: u32,
    /// The number of queries: above 0.
    pub num_queries: u32,
    /// The difficulty of the proof of work before the challenge that batches the openings. Each
    /// difficulty is at most 63 bits.
    pub batch_proof_of_work_bits: u32,
    /// The difficulty of the proof of work before each round's challenge.
    pub commit_proof_of_work_bits: u32,
    /// The difficulty of the proof of work before the queries' indices.
    pub query_proof_of_work_bits: u32,
}

impl Parameters {
    /// Parameters for tests and examples, which give no security: a blowup of 2, folds by two to a
    /// constant, one query, no proofs of work.
    ///
    /// ```
    /// use p3_fri_proved::Parameters;
    ///
    /// assert_eq!(Parameters::toy().conjectured_soundness_bits(), 1);
    /// let parameters = Parameters { num_queries: 40, ..Parameters::toy() };
    /// assert_eq!(parameters.conjectured_soundness_bits(), 40);
    /// ```
    pub const fn toy() -> Parameters {
        Parameters {
            log_blowup: 1,
            log_final_poly_len: 0,
            max_log_arity: 1,
            num_queries: 1,
            batch_proof_of_work_bits: 0,
            commit_proof_of_work_bits: 0,
            query_proof_of_work_bits: 0,
        }
    }

    /// The bits of soundness by the conjecture of [ethSTARK](https://eprint.iacr.org/2021/582):
    /// `log_blowup` for each query, and the proof of work before the queries. The other two proofs
    /// of work don't count.
    ///
    /// Only the sum is the library's. What it says of soundness is a conjecture, and what is proved
    /// of FRI gives fewer bits. Nor does the sum see what bounds it elsewhere: the extensions have
    /// some `2^124` elements, that of Goldilocks some `2^128`, and a collision of the digests takes
    /// some `2^128` attempts.
    pub const fn conjectured_soundness_bits(&self) -> u64 {
        self.log_blowup as u64 * self.num_queries as u64 + self.query_proof_of_work_bits as u64
    }
}

/// A proof of claims: bytes in the flat form, which docs/FORMATS.md describes.
///
/// ```
/// use p3_fri_proved::{open, verify, Domain, Matrix, Parameters, Proof};
///
/// let parameters = Parameters { num_queries: 40, ..Parameters::toy() };
/// let column = Matrix {
///     domain: Domain::subgroup(1),
///     width: 1,
///     values: vec![1, 3],
///     points: vec![[5, 0, 0, 0]],
/// };
/// let opening = open(&parameters, b"here", &[vec![column]])?;
/// let sent: Vec<u8> = opening.proof.into_bytes();
///
/// let proof = Proof::from_bytes(sent);
/// verify(&parameters, b"here", &opening.claims, &proof)?;
/// # Ok::<(), p3_fri_proved::Error>(())
/// ```
#[derive(Clone, Debug, PartialEq, Eq, Hash)]
pub struct Proof {
    bytes: Vec<u8>,
}

impl Proof {
    /// The proof with these bytes. Any may be passed: [`verify`](crate::verify) tests whether they
    /// are a proof's, and refuses others by name.
    pub fn from_bytes(bytes: impl Into<Vec<u8>>) -> Proof {
        Proof { bytes: bytes.into() }
    }

    /// Its bytes.
    pub fn as_bytes(&self) -> &[u8] {
        &self.bytes
    }

    /// Its bytes, without a copy.
    pub fn into_bytes(self) -> Vec<u8> {
        self.bytes
    }
}

/// A coset of points of BabyBear.
pub type Domain = over::Domain<BabyBear>;

/// Columns of values of BabyBear on a domain, and the points to open them at.
pub type Matrix = over::Matrix<BabyBear>;

/// The values claimed at a point over BabyBear, one for each column.
pub type PointClaims = over::PointClaims<BabyBear>;

/// What is claimed of a matrix over BabyBear.
pub type MatrixClaims = over::MatrixClaims<BabyBear>;

/// What is claimed of the matrices under one commitment over BabyBear.
pub type CommitmentClaims = over::CommitmentClaims<BabyBear>;

/// What comes of opening matrices over BabyBear.
pub type Opening = over::Opening<BabyBear>;

/// A prover over BabyBear that keeps what it committed to.
pub type Prover = crate::prover::Prover<BabyBear>;

/// What is passed and answered over a field.
pub(crate) mod over {
    use super::{Digest, Proof};
    use crate::field::number::Number;
    use crate::field::Field;

    /// A coset of `2^log_size` points: the shift times each power of the root of unity of that order.
    ///
    /// ```
    /// use p3_fri_proved::Domain;
    ///
    /// assert_eq!(Domain::subgroup(3), Domain { shift: 1, log_size: 3 });
    /// ```
    #[derive(Clone, Copy, Debug, PartialEq, Eq, Hash)]
    #[cfg_attr(feature = "serde", derive(serde::Serialize, serde::Deserialize))]
    #[cfg_attr(feature = "serde", serde(bound = ""))]
    pub struct Domain<F: Field> {
        /// An element that isn't 0.
        pub shift: F::Element,
        /// With the log blowup at most the two-adicity of the field: 27 for BabyBear, 24 for KoalaBear, 32
        /// for Goldilocks.
        pub log_size: u32,
    }

    impl<F: Field> Domain<F> {
        /// The subgroup of `2^log_size` points.
        pub const fn subgroup(log_size: u32) -> Domain<F> {
            Domain { shift: F::Element::ONE, log_size }
        }
    }

    /// Columns of values on a domain, and the points to open them at. [`commit`](crate::commit) doesn't
    /// read the points.
    #[derive(Clone, Debug, PartialEq, Eq, Hash)]
    #[cfg_attr(feature = "serde", derive(serde::Serialize, serde::Deserialize))]
    #[cfg_attr(feature = "serde", serde(bound = ""))]
    pub struct Matrix<F: Field> {
        /// Where the values stand.
        pub domain: Domain<F>,
        /// The number of columns, above 0.
        pub width: u32,
        /// Row by row, `width * 2^log_size` values. Row `i` belongs to the point `shift * w^i`, where
        /// `w` is the root of unity.
        pub values: Vec<F::Element>,
        /// The points that each column is opened at, at least one.
        pub points: Vec<F::ExtensionElement>,
    }

    /// The values claimed at a point, one for each column.
    #[derive(Clone, Debug, PartialEq, Eq, Hash)]
    #[cfg_attr(feature = "serde", derive(serde::Serialize, serde::Deserialize))]
    #[cfg_attr(feature = "serde", serde(bound = ""))]
    pub struct PointClaims<F: Field> {
        /// The point.
        pub point: F::ExtensionElement,
        /// The value of each column's polynomial there.
        pub values: Vec<F::ExtensionElement>,
    }

    /// What is claimed of a matrix. Its width is the number of values at its first point.
    #[derive(Clone, Debug, PartialEq, Eq, Hash)]
    #[cfg_attr(feature = "serde", derive(serde::Serialize, serde::Deserialize))]
    #[cfg_attr(feature = "serde", serde(bound = ""))]
    pub struct MatrixClaims<F: Field> {
        /// Where the committed values stand.
        pub domain: Domain<F>,
        /// The values at each point.
        pub points: Vec<PointClaims<F>>,
    }

    /// What is claimed of the matrices under one commitment.
    #[derive(Clone, Debug, PartialEq, Eq, Hash)]
    #[cfg_attr(feature = "serde", derive(serde::Serialize, serde::Deserialize))]
    #[cfg_attr(feature = "serde", serde(bound = ""))]
    pub struct CommitmentClaims<F: Field> {
        /// The commitment.
        pub commitment: Digest,
        /// The claims of each matrix, in the order in which they were committed to.
        pub matrices: Vec<MatrixClaims<F>>,
    }

    /// What comes of opening matrices.
    #[derive(Clone, Debug, PartialEq, Eq, Hash)]
    #[cfg_attr(feature = "serde", derive(serde::Serialize, serde::Deserialize))]
    #[cfg_attr(feature = "serde", serde(bound = ""))]
    pub struct Opening<F: Field> {
        /// The values at the points, by commitment, matrix, point and column.
        pub claims: Vec<CommitmentClaims<F>>,
        /// Their proof.
        pub proof: Proof,
        /// What the challenger draws after the proof, and so after all that the statement and the proof
        /// say. A verifier's is the same. Whoever goes on with a transcript absorbs it.
        pub next_challenge: F::ExtensionElement,
    }
}
