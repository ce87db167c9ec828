//! The fields that a scheme can be over, and what is passed and answered over each.
//!
//! The calls of the crate and of [`hiding`](crate::hiding) serve each field: what is passed says
//! which. At the crate's root the types are BabyBear's; those of the others are in
//! [`koala_bear`](crate::koala_bear) and [`goldilocks`](crate::goldilocks). A verifier chooses the
//! field as it chooses its parameters: no bytes name it.

use crate::raw::Call;
use crate::room::ROOM_FOR_TEXT;
use crate::scheme::element;
use crate::Error;
use std::fmt::Debug;
use std::hash::Hash;

pub use crate::prover::Prover;
pub use crate::types::over::{
    CommitmentClaims, Domain, Matrix, MatrixClaims, Opening, PointClaims,
};

/// What a field is to this crate alone.
pub(crate) mod number {
    use std::fmt::Debug;
    use std::hash::Hash;

    /// That a record has a form by serde, where the feature is there.
    #[cfg(feature = "serde")]
    pub trait Serial: serde::Serialize + serde::de::DeserializeOwned {}
    #[cfg(feature = "serde")]
    impl<T: serde::Serialize + serde::de::DeserializeOwned> Serial for T {}
    #[cfg(not(feature = "serde"))]
    pub trait Serial {}
    #[cfg(not(feature = "serde"))]
    impl<T> Serial for T {}

    /// The first bytes of those that are left.
    pub(crate) fn array<const N: usize>(left: &mut &[u8]) -> Option<[u8; N]> {
        let (array, rest) = left.split_first_chunk()?;
        *left = rest;
        Some(*array)
    }

    /// A number as the library takes it: the lowest byte first.
    pub trait Number:
        Copy + Debug + Eq + Hash + From<u32> + Into<u64> + Send + Sync + Serial + 'static
    {
        const ONE: Self;

        /// Writes the number over as many bytes as it has.
        fn write(self, bytes: &mut [u8]);

        /// The number in the first of the bytes that are left.
        fn read(left: &mut &[u8]) -> Option<Self>;
    }

    // inlined where elements are written and read by the million, which is in the caller's crate
    impl Number for u32 {
        const ONE: u32 = 1;

        #[inline]
        fn write(self, bytes: &mut [u8]) {
            bytes.copy_from_slice(&self.to_le_bytes());
        }

        #[inline]
        fn read(left: &mut &[u8]) -> Option<u32> {
            array(left).map(u32::from_le_bytes)
        }
    }

    // inlined where elements are written and read by the million, which is in the caller's crate
    impl Number for u64 {
        const ONE: u64 = 1;

        #[inline]
        fn write(self, bytes: &mut [u8]) {
            bytes.copy_from_slice(&self.to_le_bytes());
        }

        #[inline]
        fn read(left: &mut &[u8]) -> Option<u64> {
            array(left).map(u64::from_le_bytes)
        }
    }

    /// Numbers of coefficients.
    pub trait Numbers<N>: AsRef<[N]> + Copy + Debug + Eq + Hash + Send + Sync + Serial {
        fn read(left: &mut &[u8]) -> Option<Self>;
    }

    impl<N: Number> Numbers<N> for [N; 2]
    where
        [N; 2]: Serial,
    {
        fn read(left: &mut &[u8]) -> Option<[N; 2]> {
            Some([N::read(left)?, N::read(left)?])
        }
    }

    impl<N: Number> Numbers<N> for [N; 4]
    where
        [N; 4]: Serial,
    {
        fn read(left: &mut &[u8]) -> Option<[N; 4]> {
            Some([N::read(left)?, N::read(left)?, N::read(left)?, N::read(left)?])
        }
    }

    /// By which number the library knows a field.
    pub trait Known {
        const FIELD: u32;
    }
}

/// A prime field, with the extension that challenges are drawn from and points are of. The library
/// has three, and nobody else can add one.
pub trait Field: number::Known + Copy + Debug + Eq + Hash + Send + Sync + 'static {
    /// An element: its canonical number, below [`ORDER`](Field::ORDER).
    type Element: number::Number;

    /// An element of the extension: the numbers of its coefficients, that of one first.
    type ExtensionElement: number::Numbers<Self::Element>;

    /// How many elements the field has.
    const ORDER: Self::Element;
}

/// The prime field of order `2^31 - 2^27 + 1`, with its extension of degree 4 modulo `X^4 - 11`.
/// Cosets have at most `2^27` points.
#[derive(Clone, Copy, Debug, PartialEq, Eq, Hash)]
pub enum BabyBear {}

/// The prime field of order `2^31 - 2^24 + 1`, with its extension of degree 4 modulo `X^4 - 3`.
/// Cosets have at most `2^24` points.
#[derive(Clone, Copy, Debug, PartialEq, Eq, Hash)]
pub enum KoalaBear {}

/// The prime field of order `2^64 - 2^32 + 1`, with its extension of degree 2 modulo `X^2 - 7`.
/// Cosets have at most `2^32` points.
#[derive(Clone, Copy, Debug, PartialEq, Eq, Hash)]
pub enum Goldilocks {}

impl number::Known for BabyBear {
    const FIELD: u32 = 0;
}

impl number::Known for KoalaBear {
    const FIELD: u32 = 1;
}

impl number::Known for Goldilocks {
    const FIELD: u32 = 2;
}

impl Field for BabyBear {
    type Element = u32;
    type ExtensionElement = [u32; 4];

    const ORDER: u32 = (1 << 31) - (1 << 27) + 1;
}

impl Field for KoalaBear {
    type Element = u32;
    type ExtensionElement = [u32; 4];

    const ORDER: u32 = (1 << 31) - (1 << 24) + 1;
}

impl Field for Goldilocks {
    type Element = u64;
    type ExtensionElement = [u64; 2];

    const ORDER: u64 = u64::MAX - (1 << 32) + 2;
}

/// The element of the field's extension that is drawn after a context, of any bytes, as
/// [`challenge`](crate::challenge) draws BabyBear's.
///
/// # Errors
///
/// [`Error::OutOfMemory`].
pub fn challenge<F: Field>(context: &[u8]) -> Result<F::ExtensionElement, Error> {
    element::<F>(&Call::Challenge.answer::<F>(context, ROOM_FOR_TEXT)?)
}

#[cfg(test)]
mod tests {
    use super::{BabyBear, Field, Goldilocks, KoalaBear};

    #[test]
    fn the_orders_are_the_primes() {
        assert_eq!(BabyBear::ORDER, 2013265921);
        assert_eq!(KoalaBear::ORDER, 2130706433);
        assert_eq!(Goldilocks::ORDER, 18446744069414584321);
    }
}
