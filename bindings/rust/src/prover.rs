//! A prover that keeps what it committed to.
#![allow(unsafe_code)]

use crate::error::{Error, Fault};
use crate::field::{BabyBear, Field};
use crate::flat::{Reader, Writer};
use crate::raw::answer;
use crate::room::{room_for_answer, ROOM_FOR_TEXT};
use crate::scheme::{compare_batch, unreadable};
use crate::types::over::{Matrix, Opening};
use crate::types::{Digest, Parameters};
use std::ffi::c_void;
use std::fmt;
use std::ptr::null_mut;

/// What the library knows a prover by. Its fields are the library's alone.
#[repr(C)]
struct Handle {
    at: *mut c_void,
    is_open: bool,
}

impl Handle {
    /// The handle of no prover.
    const CLOSED: Handle = Handle { at: null_mut(), is_open: false };
}

unsafe extern "C" {
    fn p3_fri_prover_begin(
        field: u32,
        parameters: *const u8,
        parameters_length: usize,
        handle: *mut Handle,
        answer: *mut u8,
        answer_length: usize,
        needed: *mut usize,
    ) -> u8;
    fn p3_fri_prover_commit(
        handle: *mut Handle,
        batch: *const u8,
        batch_length: usize,
        answer: *mut u8,
        answer_length: usize,
        needed: *mut usize,
    ) -> u8;
    fn p3_fri_prover_open(
        handle: *mut Handle,
        asked: *const u8,
        asked_length: usize,
        answer: *mut u8,
        answer_length: usize,
        needed: *mut usize,
    ) -> u8;
    fn p3_fri_prover_close(handle: *mut Handle);
}

impl Handle {
    /// Gives the handle a prover over the field of this number, of the parameters in these bytes.
    fn begin(&mut self, field: u32, parameters: &[u8], out: &mut [u8], needed: &mut usize) -> u8 {
        // SAFETY: the pointers are those of slices, of a number and of a handle, each with its own
        // length, and none overlap. The library reads the first, writes within the others, keeps no
        // pointer but that in the handle to its own memory, and returns for any field and bytes.
        unsafe {
            let (at, length) = (parameters.as_ptr(), parameters.len());
            p3_fri_prover_begin(field, at, length, self, out.as_mut_ptr(), out.len(), needed)
        }
    }

    /// Has the prover commit to the batch in these bytes.
    fn commit(&mut self, batch: &[u8], out: &mut [u8], needed: &mut usize) -> u8 {
        // SAFETY: as in `begin`
        unsafe {
            let (at, length) = (batch.as_ptr(), batch.len());
            p3_fri_prover_commit(self, at, length, out.as_mut_ptr(), out.len(), needed)
        }
    }

    /// Has the prover open what it keeps, as these bytes ask.
    fn open(&mut self, asked: &[u8], out: &mut [u8], needed: &mut usize) -> u8 {
        // SAFETY: as in `begin`
        unsafe {
            let (at, length) = (asked.as_ptr(), asked.len());
            p3_fri_prover_open(self, at, length, out.as_mut_ptr(), out.len(), needed)
        }
    }
}

impl Drop for Handle {
    fn drop(&mut self) {
        // a processor that is too old for the library never opened one
        if self.is_open {
            // SAFETY: the handle's memory is the library's, and nothing has it afterwards
            unsafe { p3_fri_prover_close(self) }
        }
    }
}

// SAFETY: what a handle has is proved to be fit for another thread, and one call at a time has it.
unsafe impl Send for Handle {}

/// A prover of the plain scheme that keeps what it committed to, so that [`open`](Prover::open)
/// commits to nothing again. It has memory of the library, some `2^log_blowup` times what was
/// committed to, which is freed when it is dropped. It may go to another thread, and isn't shared:
///
/// ```compile_fail
/// fn shared<T: Sync>() {}
/// shared::<p3_fri_proved::Prover>();
/// ```
///
/// A [`Transcript`](crate::Transcript) absorbs each commitment once it is made, and draws what
/// depends on it: a challenge before the next one, and the points. Its bytes are the context.
///
/// ```
/// use p3_fri_proved::{verify, Domain, Error, Matrix, Parameters, Prover, Transcript};
///
/// let column = |values: Vec<u32>| Matrix {
///     domain: Domain::subgroup(1),
///     width: 1,
///     values,
///     points: vec![],
/// };
/// let parameters = Parameters { num_queries: 100, ..Parameters::toy() };
/// let mut prover = Prover::new(&parameters)?;
/// let mut transcript = Transcript::new(b"two columns, version 1");
/// transcript.absorb(&prover.commit(&[column(vec![1, 3])])?);
/// let [drawn, ..] = transcript.challenge()?;
/// transcript.absorb(&prover.commit(&[column(vec![drawn, 7])])?);
/// let point = transcript.challenge()?;
/// let context = transcript.context();
/// let opening = prover.open(context, &[vec![vec![point]], vec![vec![point]]])?;
/// let next = verify(&parameters, context, &opening.claims, &opening.proof)?;
/// assert_eq!(next, opening.next_challenge);
/// # Ok::<(), Error>(())
/// ```
pub struct Prover<F: Field = BabyBear> {
    handle: Handle,
    parameters: Parameters,
    /// The matrices under each commitment, without their values and points.
    kept: Vec<Vec<Matrix<F>>>,
}

impl<F: Field> Prover<F> {
    /// A prover of these parameters, that has committed to nothing.
    ///
    /// # Errors
    ///
    /// [`Error::Malformed`] where the parameters are no prover's; [`Error::OutOfMemory`].
    pub fn new(parameters: &Parameters) -> Result<Prover<F>, Error> {
        let mut writer = Writer::default();
        writer.parameters(parameters);
        let mut handle = Handle::CLOSED;
        let call =
            |out: &mut [u8], needed: &mut usize| handle.begin(F::FIELD, &writer.bytes, out, needed);
        answer(call, ROOM_FOR_TEXT)?;
        Ok(Prover { handle, parameters: *parameters, kept: Vec::new() })
    }

    /// Commits to matrices, keeps what opens them, and answers the commitment. Their points aren't
    /// read. What is refused isn't kept.
    ///
    /// # Errors
    ///
    /// As of [`commit`](crate::commit).
    pub fn commit(&mut self, matrices: &[Matrix<F>]) -> Result<Digest, Error> {
        compare_batch(self.kept.len(), matrices)?;
        let mut writer = Writer::default();
        writer.batch(matrices)?;
        let handle = &mut self.handle;
        let call = |out: &mut [u8], needed: &mut usize| handle.commit(&writer.bytes, out, needed);
        let answer = answer(call, ROOM_FOR_TEXT)?;
        let shape = |it: &Matrix<F>| Matrix {
            domain: it.domain,
            width: it.width,
            values: vec![],
            points: vec![],
        };
        self.kept.push(matrices.iter().map(shape).collect());
        Reader { left: &answer }.digest().ok_or_else(unreadable)
    }

    /// Opens all that was committed to under a context, by commitment and matrix at the points that
    /// are listed: what [`open`](crate::open) answers of the same matrices with these points.
    ///
    /// What is kept stays as it was, also where it isn't opened.
    ///
    /// # Errors
    ///
    /// As of [`open`](crate::open), and [`Error::Malformed`] where there isn't one list of points
    /// for each matrix.
    pub fn open(
        &mut self,
        context: &[u8],
        points: &[Vec<Vec<F::ExtensionElement>>],
    ) -> Result<Opening<F>, Error> {
        let asked = self.asked(points)?;
        let mut writer = Writer::default();
        writer.asked(context, &asked)?;
        let room = room_for_answer(&self.parameters, context, &asked);
        let handle = &mut self.handle;
        let call = |out: &mut [u8], needed: &mut usize| handle.open(&writer.bytes, out, needed);
        let answer = answer(call, room)?;
        Reader { left: &answer }.opening().ok_or_else(unreadable)
    }

    /// The matrices that were committed to, each with its list of points.
    fn asked(
        &self,
        points: &[Vec<Vec<F::ExtensionElement>>],
    ) -> Result<Vec<Vec<Matrix<F>>>, Error> {
        let counts = self.kept.iter().map(Vec::len);
        if !counts.eq(points.iter().map(Vec::len)) {
            return Err(Error::Malformed {
                fault: Fault::Points,
                text: "Points: expected one list of points for each matrix that was committed to"
                    .to_string(),
            });
        }
        let mut asked = self.kept.clone();
        for (matrices, lists) in asked.iter_mut().zip(points) {
            for (matrix, list) in matrices.iter_mut().zip(lists) {
                matrix.points.clone_from(list);
            }
        }
        Ok(asked)
    }
}

impl<F: Field> fmt::Debug for Prover<F> {
    fn fmt(&self, f: &mut fmt::Formatter<'_>) -> fmt::Result {
        f.debug_struct("Prover")
            .field("parameters", &self.parameters)
            .field("commitments", &self.kept.len())
            .finish_non_exhaustive()
    }
}

#[cfg(test)]
mod tests {
    use super::{p3_fri_prover_begin, p3_fri_prover_close, Handle};
    use std::ptr::{null, null_mut};

    /// Blowup 2, folds by two to a constant, two queries.
    const PARAMETERS: [u32; 7] = [1, 0, 1, 2, 0, 0, 0];

    /// One matrix, the column 1, 3.
    const BATCH: [u32; 7] = [1, 1, 1, 1, 0, 1, 3];

    /// It is asked for at the point 5, after no context: the number of commitments, then that of
    /// matrices, the shift, the size, the width and the number of points.
    const ASKED: [u32; 11] = [0, 1, 1, 1, 1, 1, 1, 5, 0, 0, 0];

    fn bytes(numbers: &[u32]) -> Vec<u8> {
        numbers.iter().flat_map(|number| number.to_le_bytes()).collect()
    }

    /// The status of a call with room for any answer, and what it wrote.
    fn reply(call: impl FnOnce(&mut [u8], &mut usize) -> u8) -> (u8, Vec<u8>) {
        let (mut out, mut needed) = (vec![0; 5000], 0);
        let status = call(&mut out, &mut needed);
        out.truncate(needed);
        (status, out)
    }

    /// A handle over BabyBear that has committed to the column.
    fn committed() -> Handle {
        let mut handle = Handle::CLOSED;
        let begun = reply(|out, needed| handle.begin(0, &bytes(&PARAMETERS), out, needed));
        assert_eq!(begun, (0, vec![]));
        let (status, commitment) = reply(|out, needed| handle.commit(&bytes(&BATCH), out, needed));
        assert_eq!((status, &commitment[..4]), (0, &[0x2a, 0xa4, 0x19, 0xf5][..]));
        handle
    }

    fn opened(handle: &mut Handle, asked: &[u32]) -> (u8, Vec<u8>) {
        reply(|out, needed| handle.open(&bytes(asked), out, needed))
    }

    const NO_PROVER: (u8, &[u8]) = (2, b"NoProver: the handle has no prover");

    #[test]
    fn a_handle_without_a_prover_is_malformed() {
        let mut handle = Handle::CLOSED;
        for _ in 0..2 {
            let (status, text) = opened(&mut handle, &ASKED);
            assert_eq!((status, &text[..]), NO_PROVER);
            let (status, text) = reply(|out, needed| handle.commit(&bytes(&BATCH), out, needed));
            assert_eq!((status, &text[..]), NO_PROVER);
            handle = committed();
            assert_eq!(opened(&mut handle, &ASKED).0, 0);
            for _ in 0..2 {
                // SAFETY: the handle is the library's, open or closed
                unsafe { p3_fri_prover_close(&mut handle) }
                assert!(handle.at.is_null() && !handle.is_open);
            }
        }
    }

    #[test]
    fn only_what_was_committed_to_is_opened() {
        let mut handle = committed();
        let expected = opened(&mut handle, &ASKED);
        assert_eq!(expected.0, 0);
        // another number of commitments or of matrices, another shift, size or width, no point
        for (place, number) in [(1, 0), (2, 0), (3, 2), (4, 0), (5, 2), (6, 0)] {
            let mut asked = ASKED;
            asked[place] = number;
            assert_eq!(opened(&mut handle, &asked).0, 2, "{place}");
        }
        for length in 0..ASKED.len() {
            assert_eq!(opened(&mut handle, &ASKED[..length]).0, 2, "{length}");
        }
        assert_eq!(opened(&mut handle, &ASKED), expected);
    }

    #[test]
    fn what_is_refused_or_has_no_room_is_not_kept() {
        let mut handle = committed();
        let expected = opened(&mut handle, &ASKED);
        let (mut out, mut needed) = ([0; 31], 0);
        assert_eq!(handle.commit(&bytes(&BATCH), &mut out, &mut needed), 4);
        assert_eq!((out, needed), ([0; 31], 32));
        for length in 0..BATCH.len() {
            let refused = reply(|out, needed| handle.commit(&bytes(&BATCH[..length]), out, needed));
            assert_eq!(refused.0, 2);
        }
        assert_eq!(opened(&mut handle, &ASKED), expected);
    }

    #[test]
    fn a_handle_is_begun_anew() {
        let mut handle = committed();
        let begun = reply(|out, needed| handle.begin(1, &bytes(&PARAMETERS), out, needed));
        assert_eq!(begun, (0, vec![]));
        assert_eq!(opened(&mut handle, &ASKED).0, 2);
        // a field and parameters that are none's
        for (field, parameters) in [(3, &PARAMETERS[..]), (0, &[0; 7]), (0, &PARAMETERS[..6])] {
            let mut handle = committed();
            let refused = reply(|out, needed| handle.begin(field, &bytes(parameters), out, needed));
            assert_eq!(refused.0, 2);
            let (status, text) = opened(&mut handle, &ASKED);
            assert_eq!((status, &text[..]), NO_PROVER);
        }
    }

    #[test]
    fn pointers_to_no_bytes_may_be_null() {
        let (mut handle, mut needed) = (committed(), 0);
        // SAFETY: as above, but that pointers to no bytes are null, which the library allows
        let status =
            unsafe { p3_fri_prover_begin(0, null(), 0, &mut handle, null_mut(), 0, &mut needed) };
        assert_eq!(status, 4);
        assert!(!handle.is_open && needed > 0);
    }
}
