//! Why a call has no answer.

use std::fmt;

/// Declares an enum of names, of which the last stands for any other, with the name's variant.
macro_rules! names {
    (
        $(#[$about:meta])*
        pub enum $set:ident { $($(#[$says:meta])* $name:ident,)* }
    ) => {
        $(#[$about])*
        #[derive(Clone, Copy, Debug, PartialEq, Eq, Hash)]
        #[non_exhaustive]
        pub enum $set {
            $($(#[$says])* $name,)*
            /// A name that this version doesn't know.
            Unknown,
        }

        impl $set {
            /// The variant of this name.
            fn named(name: &str) -> $set {
                match name {
                    $(stringify!($name) => $set::$name,)*
                    _ => $set::Unknown,
                }
            }
        }
    };
}

names! {
    /// Why well-formed matrices aren't opened, claims or proofs aren't accepted, or traces aren't
    /// proved. docs/USE.md says where each stands.
    pub enum Refusal {
        /// Of `open`: a matrix is too low for the final polynomial.
        InputHeightTooSmall,
        /// Of `open`: the blowup and the final polynomial together have no size.
        FinalHeightOverflow,
        /// Of `open`: a point lies in its matrix's coset of evaluation.
        PointInEvaluationDomain,
        /// Of `open`: no element passes a proof of work.
        NoPowWitness,
        /// The parameters ask for no query.
        ZeroQueries,
        /// The parameters have no blowup.
        ZeroBlowup,
        /// The parameters let no round fold.
        ZeroFoldingArity,
        /// No matrix is claimed.
        NoCommittedMatrices,
        /// A claimed matrix is taller than the field's greatest coset.
        GlobalMaxHeightTooLarge,
        /// A claimed matrix is lower than the final word.
        FinalFoldHeightMismatch,
        /// A claimed matrix is lower than the final word, and some words are never folded in.
        UnconsumedReducedOpenings,
        /// The proof has another number of rounds' openings.
        CommitPhaseOpeningsCountMismatch,
        /// The proof has another number of rounds' commitments.
        CommitRoundCountMismatch,
        /// The proof has another number of rounds' witnesses.
        CommitPowWitnessCountMismatch,
        /// A round opens another number of queries.
        CommitPhaseQueryCountMismatch,
        /// A query of a round has another number of siblings.
        SiblingValuesLengthMismatch,
        /// The final polynomial has another number of coefficients.
        FinalPolyLengthMismatch,
        /// The witnesses of a phase don't pass.
        InvalidPowWitness,
        /// No bits are asked for in a phase, and its witness isn't zero.
        NonCanonicalPowWitness,
        /// The proof opens another number of commitments.
        InputProofBatchCountMismatch,
        /// A commitment is opened for another number of queries.
        InputOpeningsQueryCountMismatch,
        /// A commitment is opened at another number of matrices.
        BatchOpenedValuesCountMismatch,
        /// A matrix is claimed at no point.
        MatrixWithoutOpeningPoints,
        /// A matrix is claimed at one point with another number of values than at its first.
        PointEvaluationCountMismatch,
        /// A commitment doesn't open to the proof's rows.
        InputError,
        /// A claimed point is the point that a query reads.
        OpeningPointMatchesQueryPoint,
        /// A query doesn't end at the final polynomial's value.
        FinalPolyMismatch,
        /// A round's commitment doesn't open to the rows that the queries fold.
        CommitPhaseMmcsError,
        /// Of [`hiding`](crate::hiding): there are fewer than four random columns.
        InsufficientRandomCodewords,
        /// Of [`hiding`](crate::hiding): no number of rows would be enough.
        BudgetOverflow,
        /// Of [`hiding`](crate::hiding), `verify` too: a matrix has too few rows.
        HidingBudgetExceeded,
        /// Of [`hiding::verify`](crate::hiding::verify): there are fewer than four random columns.
        InsufficientHidingRandomCodewords,
        /// Of [`hiding::verify`](crate::hiding::verify): no claim has the index of the preprocessed
        /// commitment.
        HidingPreprocessedCommitmentOutOfBounds,
        /// Of [`hiding::verify`](crate::hiding::verify): the proof has random values for another
        /// number of commitments.
        HidingRandomOpeningRoundCountMismatch,
        /// Of [`hiding::verify`](crate::hiding::verify): or for another number of matrices.
        HidingRandomOpeningMatrixCountMismatch,
        /// Of [`hiding::verify`](crate::hiding::verify): or for another number of points.
        HidingRandomOpeningPointCountMismatch,
        /// Of [`hiding::verify`](crate::hiding::verify): or another number of them at a point.
        HidingRandomOpeningValueCountMismatch,
        /// Of a trace: a constraint isn't zero in a row.
        Unsatisfied,
        /// Of a trace: it has no rows.
        NoRows,
        /// Of a trace: a row isn't as long as there are columns.
        Width,
        /// Of a trace: there are more or fewer preprocessed rows.
        PreprocessedHeight,
        /// Of a trace: a preprocessed row isn't as long as there are preprocessed columns.
        PreprocessedWidth,
        /// Of a trace: there are more or fewer public values.
        PublicValues,
        /// Of a trace: there are more or fewer periodic columns.
        PeriodicColumns,
        /// Of a trace: a periodic column has no entry.
        EmptyPeriodicColumn,
        /// Of a STARK's prover: the number of rows is no power of two with room in the field.
        TraceHeight,
        /// Of a STARK's prover: the scheme refuses to commit to the preprocessed columns.
        Refused,
        /// Of a STARK's prover: the scheme refuses to commit to the trace.
        Trace,
        /// Of a STARK's prover: the scheme refuses the values of committed columns.
        Evaluation,
        /// Of a STARK's prover: the scheme refuses to commit to the quotient.
        Quotient,
        /// Of a STARK's prover: the scheme refuses to commit to random polynomials.
        Randomization,
        /// Of a STARK's prover: the scheme refuses to open.
        Opening,
        /// Of a STARK: a periodic column's number of entries is no power of two up to the height.
        InvalidPeriodicColumns,
        /// Of a STARK: there are more or fewer public values.
        InvalidPublicValues,
        /// Of a STARK: there are more or fewer periodic columns.
        InvalidPeriodicCount,
        /// Of a STARK: the preprocessed columns aren't those of the system.
        InvalidPreprocessed,
        /// Of a STARK: the proof doesn't have the shape that the system asks for.
        InvalidProofShape,
        /// Of a STARK: the proof has random polynomials and the scheme doesn't hide, or the other
        /// way round.
        RandomizationError,
        /// Of a STARK: the point that was drawn lies in the trace's domain.
        PointOnTraceDomain,
        /// Of a STARK: what is opened isn't accepted, by the refusal in the text.
        InvalidOpeningArgument,
        /// Of a STARK: the constraints don't agree with the quotient at the point.
        OodEvaluationMismatch,
    }
}

names! {
    /// What isn't well formed.
    pub enum Fault {
        /// `log_blowup` isn't from 1 to the field's two-adicity.
        LogBlowup,
        /// `log_blowup` and `log_final_poly_len` aren't below 64 together.
        LogFinalPolyLen,
        /// `max_log_arity` is 0.
        MaxLogArity,
        /// `num_queries` is 0.
        NumQueries,
        /// A proof of work has more than 63 bits.
        ProofOfWorkBits,
        /// There is no matrix.
        Matrices,
        /// A `log_size` is past the two-adicity, with `log_blowup` where it is committed to.
        LogSize,
        /// A shift is 0, or no element.
        Shift,
        /// A width is 0, or a preprocessed row isn't as long as the first.
        Width,
        /// There aren't as many values as the domain has points, times the width.
        Values,
        /// A matrix has no point.
        Points,
        /// A number isn't below the order.
        Element,
        /// The proof's bytes end too early, or a count in them is of more than there are.
        BytesMissing,
        /// Bytes follow a whole proof.
        BytesLeft,
        /// A list, the context or an index is too long or great for a number of 32 bits.
        NoForm,
        /// Of a [`Prover`](crate::Prover): other matrices were committed to.
        Kept,
        /// Of [`hiding`](crate::hiding): no commitment has the index of the preprocessed one.
        NoCommitment,
        /// A text isn't JSON, or not of its record: of the bytes of a STARK's proof.
        Json,
        /// Of a STARK's proof: a number isn't below the order.
        ElementOutOfRange,
        /// Of a STARK's proof: an element of the extension isn't four numbers.
        ElementLength,
        /// Of a STARK's proof: a digest isn't 32 bytes.
        DigestLength,
        /// Of a trace, of public values or of columns: a number isn't below the order.
        OutOfRange,
        /// Of a constraint system: a constant isn't below the order.
        ConstantOutOfRange,
        /// Of a constraint system: a column of the trace isn't there.
        UnknownColumn,
        /// Of a constraint system: a preprocessed column isn't there.
        UnknownPreprocessedColumn,
        /// Of a constraint system: a public value isn't there.
        UnknownPublicValue,
        /// Of a constraint system: a periodic column isn't there.
        UnknownPeriodicColumn,
        /// Of a constraint system: a degree is `2^64` or more.
        DegreeTooLarge,
        /// Of a constraint system: it has no columns.
        NoColumns,
        /// Of preprocessed columns: the number of rows is no power of two with room in the field.
        Height,
    }
}

/// Why a call has no answer. What it prints is the library's text.
#[derive(Clone, Debug, PartialEq, Eq, Hash)]
pub enum Error {
    /// What was passed is well formed, and refused.
    Refused {
        /// By this name.
        refusal: Refusal,
        /// `Name { numbers }: words`.
        text: String,
    },
    /// What was passed isn't well formed.
    Malformed {
        /// This is wrong.
        fault: Fault,
        /// `Name: place, words`, where the place is the commitment, the matrix, the point and the
        /// number, counted from 0.
        text: String,
    },
    /// Memory was refused.
    OutOfMemory,
    /// The library that is linked was built for newer processors than this one: for those with AVX2
    /// where `P3_FRI_CPU` was `x86-64-v3`, else for those with SSE4.2.
    ProcessorTooOld,
}

/// The name that a text begins with.
fn name_of(text: &str) -> &str {
    text.split(|it: char| !it.is_ascii_alphanumeric()).next().unwrap_or("")
}

impl Error {
    /// A refusal by its text.
    pub(crate) fn refused(text: String) -> Error {
        Error::Refused { refusal: Refusal::named(name_of(&text)), text }
    }

    /// A fault by its text.
    pub(crate) fn malformed(text: String) -> Error {
        Error::Malformed { fault: Fault::named(name_of(&text)), text }
    }
}

impl fmt::Display for Error {
    fn fmt(&self, f: &mut fmt::Formatter<'_>) -> fmt::Result {
        match self {
            Error::Refused { text, .. } | Error::Malformed { text, .. } => f.write_str(text),
            Error::OutOfMemory => f.write_str("OutOfMemory: out of memory"),
            Error::ProcessorTooOld => {
                f.write_str("ProcessorTooOld: the linked library was built for newer processors")
            }
        }
    }
}

impl std::error::Error for Error {}

#[cfg(test)]
mod tests {
    use super::{Error, Fault, Refusal};

    #[test]
    fn names_are_found_in_texts() {
        let cases = [
            ("FinalPolyMismatch: words", Refusal::FinalPolyMismatch),
            ("InputError(RootMismatch): words", Refusal::InputError),
            ("NoPowWitness { phase: Batch }: words", Refusal::NoPowWitness),
            ("Another: words", Refusal::Unknown),
            ("", Refusal::Unknown),
        ];
        for (text, refusal) in cases {
            let text = text.to_string();
            assert_eq!(Error::refused(text.clone()), Error::Refused { refusal, text });
        }
        let text = "Element: proof: expected a number below the field's order".to_string();
        assert_eq!(
            Error::malformed(text.clone()),
            Error::Malformed { fault: Fault::Element, text }
        );
    }
}
