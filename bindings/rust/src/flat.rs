//! The flat form: a number is four bytes, the lowest first, a digest 32, an element as many bytes
//! as its field needs.

use crate::error::{Error, Fault};
use crate::field::number::{array, Number, Numbers};
use crate::field::Field;
use crate::hiding::Masking;
use crate::types::over::{CommitmentClaims, Domain, Matrix, MatrixClaims, Opening, PointClaims};
use crate::types::{Digest, Parameters, Proof};
use std::mem::size_of;

/// Bytes that grow at their end.
#[derive(Default)]
pub(crate) struct Writer {
    pub bytes: Vec<u8>,
}

/// A list is too long for its count to be a number of the form.
fn too_long() -> Error {
    Error::Malformed {
        fault: Fault::NoForm,
        text: "NoForm: a list, the context or an index is past what a number of 32 bits counts"
            .to_string(),
    }
}

/// The number that stands for no index.
const NO_INDEX: u32 = u32::MAX;

impl Writer {
    fn number(&mut self, number: u32) {
        self.bytes.extend_from_slice(&number.to_le_bytes());
    }

    fn numbers(&mut self, numbers: &[u32]) {
        for number in numbers {
            self.number(*number);
        }
    }

    /// Elements one after another.
    pub fn elements<F: Field>(&mut self, elements: &[F::Element]) {
        let size = size_of::<F::Element>();
        self.bytes.reserve(size * elements.len());
        // block by block, so that no memory of a large matrix is written twice
        let mut block = [0; 256];
        for some in elements.chunks(block.len() / size) {
            for (bytes, element) in block.chunks_exact_mut(size).zip(some) {
                element.write(bytes);
            }
            self.bytes.extend_from_slice(&block[..size * some.len()]);
        }
    }

    fn extension_elements<F: Field>(&mut self, elements: &[F::ExtensionElement]) {
        for element in elements {
            self.elements::<F>(element.as_ref());
        }
    }

    fn count(&mut self, count: usize) -> Result<(), Error> {
        self.number(u32::try_from(count).map_err(|_| too_long())?);
        Ok(())
    }

    fn context(&mut self, context: &[u8]) -> Result<(), Error> {
        self.count(context.len())?;
        self.bytes.extend_from_slice(context);
        Ok(())
    }

    /// Parameters.
    pub fn parameters(&mut self, parameters: &Parameters) {
        self.numbers(&[
            parameters.log_blowup,
            parameters.log_final_poly_len,
            parameters.max_log_arity,
            parameters.num_queries,
            parameters.batch_proof_of_work_bits,
            parameters.commit_proof_of_work_bits,
            parameters.query_proof_of_work_bits,
        ]);
    }

    fn domain<F: Field>(&mut self, domain: Domain<F>) {
        self.elements::<F>(&[domain.shift]);
        self.number(domain.log_size);
    }

    fn matrix<F: Field>(&mut self, matrix: &Matrix<F>) -> Result<(), Error> {
        self.domain(matrix.domain);
        self.number(matrix.width);
        self.count(matrix.points.len())?;
        self.elements::<F>(&matrix.values);
        self.extension_elements::<F>(&matrix.points);
        Ok(())
    }

    fn index(&mut self, index: Option<usize>) -> Result<(), Error> {
        let Some(index) = index else {
            self.number(NO_INDEX);
            return Ok(());
        };
        let number = u32::try_from(index).ok().filter(|number| *number != NO_INDEX);
        self.number(number.ok_or_else(too_long)?);
        Ok(())
    }

    /// By what a request is hidden, which stands before it.
    pub fn masking(&mut self, masking: &Masking, preprocessed: Option<usize>) -> Result<(), Error> {
        self.number(masking.num_random_codewords);
        self.bytes.extend_from_slice(&masking.seed);
        self.index(preprocessed)
    }

    /// By what a statement is hidden, which stands before it.
    pub fn hidden(
        &mut self,
        num_random_codewords: u32,
        preprocessed: Option<usize>,
    ) -> Result<(), Error> {
        self.number(num_random_codewords);
        self.index(preprocessed)
    }

    /// The matrices under one commitment.
    pub fn batch<F: Field>(&mut self, matrices: &[Matrix<F>]) -> Result<(), Error> {
        self.count(matrices.len())?;
        for matrix in matrices {
            self.matrix(matrix)?;
        }
        Ok(())
    }

    /// Under which context and at which points what is kept is opened: a request without parameters
    /// and without values, of which the matrices must have none.
    pub fn asked<F: Field>(
        &mut self,
        context: &[u8],
        commitments: &[Vec<Matrix<F>>],
    ) -> Result<(), Error> {
        self.context(context)?;
        self.batches(commitments)
    }

    fn batches<F: Field>(&mut self, commitments: &[Vec<Matrix<F>>]) -> Result<(), Error> {
        self.count(commitments.len())?;
        for matrices in commitments {
            self.batch(matrices)?;
        }
        Ok(())
    }

    /// A request.
    pub fn request<F: Field>(
        &mut self,
        parameters: &Parameters,
        context: &[u8],
        commitments: &[Vec<Matrix<F>>],
    ) -> Result<(), Error> {
        self.context(context)?;
        self.parameters(parameters);
        self.batches(commitments)
    }

    fn matrix_claims<F: Field>(&mut self, claims: &MatrixClaims<F>) -> Result<(), Error> {
        self.domain(claims.domain);
        self.count(claims.points.len())?;
        for at in &claims.points {
            self.elements::<F>(at.point.as_ref());
            self.count(at.values.len())?;
            self.extension_elements::<F>(&at.values);
        }
        Ok(())
    }

    /// A statement.
    pub fn statement<F: Field>(
        &mut self,
        parameters: &Parameters,
        context: &[u8],
        claims: &[CommitmentClaims<F>],
        proof: &Proof,
    ) -> Result<(), Error> {
        self.context(context)?;
        self.parameters(parameters);
        self.count(claims.len())?;
        for of_commitment in claims {
            self.bytes.extend_from_slice(&of_commitment.commitment);
            self.count(of_commitment.matrices.len())?;
            for of_matrix in &of_commitment.matrices {
                self.matrix_claims(of_matrix)?;
            }
        }
        self.bytes.extend_from_slice(proof.as_bytes());
        Ok(())
    }
}

/// An answer's bytes, read from the front. `None` where they end too early.
pub(crate) struct Reader<'a> {
    pub left: &'a [u8],
}

impl Reader<'_> {
    fn number(&mut self) -> Option<u32> {
        u32::read(&mut self.left)
    }

    /// An element of the extension.
    pub fn element<F: Field>(&mut self) -> Option<F::ExtensionElement> {
        F::ExtensionElement::read(&mut self.left)
    }

    /// A commitment.
    pub fn digest(&mut self) -> Option<Digest> {
        array(&mut self.left)
    }

    /// So many items as a number says, as far as there are bytes for them.
    fn counted<T>(&mut self, item: fn(&mut Self) -> Option<T>) -> Option<Vec<T>> {
        let count = self.number()?;
        (0..count).map(|_| item(self)).collect()
    }

    fn point_claims<F: Field>(&mut self) -> Option<PointClaims<F>> {
        let point = self.element::<F>()?;
        Some(PointClaims { point, values: self.counted(Self::element::<F>)? })
    }

    fn matrix_claims<F: Field>(&mut self) -> Option<MatrixClaims<F>> {
        let domain = Domain { shift: F::Element::read(&mut self.left)?, log_size: self.number()? };
        Some(MatrixClaims { domain, points: self.counted(Self::point_claims)? })
    }

    fn commitment_claims<F: Field>(&mut self) -> Option<CommitmentClaims<F>> {
        Some(CommitmentClaims {
            commitment: self.digest()?,
            matrices: self.counted(Self::matrix_claims)?,
        })
    }

    /// What `open` answers. Context and parameters are those that were passed.
    pub fn opening<F: Field>(mut self) -> Option<Opening<F>> {
        let next_challenge = self.element::<F>()?;
        self.after_challenge(next_challenge)
    }

    /// And what `hiding::open` answers, as the number of random columns and the index are.
    pub fn hiding_opening<F: Field>(mut self) -> Option<Opening<F>> {
        let next_challenge = self.element::<F>()?;
        self.number()?;
        self.number()?;
        self.after_challenge(next_challenge)
    }

    fn after_challenge<F: Field>(
        mut self,
        next_challenge: F::ExtensionElement,
    ) -> Option<Opening<F>> {
        let context_length = usize::try_from(self.number()?).ok()?;
        self.left = self.left.get(context_length..)?;
        for _ in 0..7 {
            self.number()?;
        }
        let claims = self.counted(Self::commitment_claims)?;
        Some(Opening { claims, proof: Proof::from_bytes(self.left), next_challenge })
    }
}
