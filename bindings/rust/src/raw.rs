//! The library's functions.
#![allow(unsafe_code)]

use crate::error::Error;
use crate::field::Field;
use crate::processor::runs_library;

/// The answer is in the buffer.
const ANSWERED: u8 = 0;

/// The buffer says why well-formed bytes are refused.
const REFUSED: u8 = 1;

/// The buffer says why the bytes aren't well formed.
const MALFORMED: u8 = 2;

/// The buffer is shorter than what is needed.
const BUFFER_TOO_SHORT: u8 = 4;

/// A function of the library: over the field of this number it reads the bytes at the first pointer,
/// writes to those at the second, and the number of bytes that this takes to the last.
type Raw = unsafe extern "C" fn(u32, *const u8, usize, *mut u8, usize, *mut usize) -> u8;

unsafe extern "C" {
    fn p3_fri_commit(
        field: u32,
        request: *const u8,
        request_length: usize,
        answer: *mut u8,
        answer_length: usize,
        needed: *mut usize,
    ) -> u8;
    fn p3_fri_open(
        field: u32,
        request: *const u8,
        request_length: usize,
        answer: *mut u8,
        answer_length: usize,
        needed: *mut usize,
    ) -> u8;
    fn p3_fri_verify(
        field: u32,
        request: *const u8,
        request_length: usize,
        answer: *mut u8,
        answer_length: usize,
        needed: *mut usize,
    ) -> u8;
    fn p3_fri_challenge(
        field: u32,
        request: *const u8,
        request_length: usize,
        answer: *mut u8,
        answer_length: usize,
        needed: *mut usize,
    ) -> u8;
    fn p3_fri_hiding_commit(
        field: u32,
        request: *const u8,
        request_length: usize,
        answer: *mut u8,
        answer_length: usize,
        needed: *mut usize,
    ) -> u8;
    fn p3_fri_hiding_open(
        field: u32,
        request: *const u8,
        request_length: usize,
        answer: *mut u8,
        answer_length: usize,
        needed: *mut usize,
    ) -> u8;
    fn p3_fri_hiding_verify(
        field: u32,
        request: *const u8,
        request_length: usize,
        answer: *mut u8,
        answer_length: usize,
        needed: *mut usize,
    ) -> u8;
}

/// Which function is called.
#[derive(Clone, Copy)]
pub(crate) enum Call {
    Commit,
    Open,
    Verify,
    Challenge,
    HidingCommit,
    HidingOpen,
    HidingVerify,
}

impl Call {
    fn raw(self) -> Raw {
        match self {
            Call::Commit => p3_fri_commit,
            Call::Open => p3_fri_open,
            Call::Verify => p3_fri_verify,
            Call::Challenge => p3_fri_challenge,
            Call::HidingCommit => p3_fri_hiding_commit,
            Call::HidingOpen => p3_fri_hiding_open,
            Call::HidingVerify => p3_fri_hiding_verify,
        }
    }

    /// Calls the function over a field on a request, with an answer of so much room at first.
    pub fn answer<F: Field>(self, request: &[u8], room: usize) -> Result<Vec<u8>, Error> {
        answer(|answer, needed| self.call(F::FIELD, request, answer, needed), room)
    }

    /// Calls the function once.
    fn call(self, field: u32, request: &[u8], answer: &mut [u8], needed: &mut usize) -> u8 {
        // SAFETY: the pointers are those of slices and of a number, each with its own length; they
        // don't overlap, and the library keeps none. It reads the first, writes within the second
        // and the third, takes its memory from malloc, and returns for any field and bytes.
        let (answer, length) = (answer.as_mut_ptr(), answer.len());
        unsafe { self.raw()(field, request.as_ptr(), request.len(), answer, length, needed) }
    }
}

/// Calls a function of the library, which writes an answer and how much room that needs, with so
/// much room, or where that is too short, once more with as much as it says.
pub(crate) fn answer(
    mut call: impl FnMut(&mut [u8], &mut usize) -> u8,
    room: usize,
) -> Result<Vec<u8>, Error> {
    if !runs_library() {
        return Err(Error::ProcessorTooOld);
    }
    let (mut status, mut answer, needed) = answer_once(&mut call, room)?;
    if status == BUFFER_TOO_SHORT {
        (status, answer, _) = answer_once(&mut call, needed)?;
    }
    match status {
        ANSWERED => Ok(answer),
        REFUSED => Err(Error::refused(String::from_utf8_lossy(&answer).into_owned())),
        MALFORMED => Err(Error::malformed(String::from_utf8_lossy(&answer).into_owned())),
        _ => Err(Error::OutOfMemory),
    }
}

/// Calls a function once: the status, what it wrote, and how much that needs.
fn answer_once(
    mut call: impl FnMut(&mut [u8], &mut usize) -> u8,
    room: usize,
) -> Result<(u8, Vec<u8>, usize), Error> {
    let mut answer = Vec::new();
    answer.try_reserve_exact(room).map_err(|_| Error::OutOfMemory)?;
    answer.resize(room, 0);
    let mut needed = 0;
    let status = call(&mut answer, &mut needed);
    answer.truncate(needed);
    Ok((status, answer, needed))
}

#[cfg(test)]
mod tests {
    use super::{answer_once, Call, Error, ANSWERED, BUFFER_TOO_SHORT, MALFORMED};
    use crate::field::number::Known;
    use crate::field::BabyBear;
    use std::ops::Range;
    use std::ptr;

    const CONTEXT: [u8; 3] = [0, 0xff, b'x'];

    /// Parameters with one commitment, one matrix and one point: the column 1, 3 opened at 5.
    const NUMBERS: [u32; 19] = [1, 0, 1, 2, 0, 0, 0, 1, 1, 1, 1, 1, 1, 1, 3, 5, 0, 0, 0];

    /// Where the proof begins in its statement: after the context, eight numbers, a digest and
    /// thirteen numbers.
    const PROOF: usize = 7 + 8 * 4 + 32 + 13 * 4;

    fn request(num_queries: u32) -> Vec<u8> {
        let mut numbers = NUMBERS;
        numbers[3] = num_queries;
        let mut bytes = vec![CONTEXT.len() as u8, 0, 0, 0];
        bytes.extend_from_slice(&CONTEXT);
        bytes.extend(numbers.iter().flat_map(|number| number.to_le_bytes()));
        bytes
    }

    /// What the function answers when it is called once.
    fn once(call: Call, request: &[u8], room: usize) -> (u8, Vec<u8>, usize) {
        answer_once(|answer, needed| call.call(BabyBear::FIELD, request, answer, needed), room)
            .unwrap()
    }

    /// The statement that the request's opening is.
    fn statement(num_queries: u32) -> Vec<u8> {
        Call::Open.answer::<BabyBear>(&request(num_queries), 20000).unwrap().split_off(16)
    }

    #[test]
    fn a_short_buffer_is_left_alone_and_made_longer() {
        let request = request(2);
        let (status, answer, needed) = once(Call::Commit, &request, 31);
        assert_eq!((status, answer, needed), (BUFFER_TOO_SHORT, vec![0; 31], 32));
        let (status, answer, needed) = once(Call::Commit, &request, 32);
        assert_eq!((status, answer.len(), needed), (ANSWERED, 32, 32));
        for room in [0, 31, 32, 100] {
            assert_eq!(Call::Commit.answer::<BabyBear>(&request, room).unwrap(), answer);
        }
        assert_eq!(
            Call::Open.answer::<BabyBear>(&request, 0),
            Call::Open.answer::<BabyBear>(&request, 5000)
        );
    }

    #[test]
    fn a_challenge_takes_any_bytes_and_answers_four_numbers() {
        for context in [&[][..], &CONTEXT, &request(2)] {
            let (status, answer, needed) = once(Call::Challenge, context, 16);
            assert_eq!((status, answer.len(), needed), (ANSWERED, 16, 16));
            assert_eq!(Call::Challenge.answer::<BabyBear>(context, 0), Ok(answer));
        }
    }

    #[test]
    fn no_beginning_is_well_formed() {
        for (call, bytes) in [(Call::Open, request(2)), (Call::Verify, statement(2))] {
            for length in 0..bytes.len() {
                let refused = call.answer::<BabyBear>(&bytes[..length], 5000);
                assert!(matches!(refused, Err(Error::Malformed { .. })), "{length}");
            }
            assert!(call.answer::<BabyBear>(&bytes, 5000).is_ok());
        }
    }

    /// Four random columns, a seed and no preprocessed commitment, and then a column of 16 rows in
    /// place of the one of two, which are too few to hide one.
    fn hiding_request() -> Vec<u8> {
        let mut numbers = vec![0, 1, 0, 4, 1, 0, 0, 0, 1, 1, 1, 4, 1, 1];
        numbers.extend(1..=16);
        numbers.extend([5, 0, 0, 0]);
        let mut bytes = vec![4, 0, 0, 0];
        bytes.extend([7; 32]);
        bytes.extend([255; 4]);
        bytes.extend(numbers.iter().flat_map(|number: &u32| number.to_le_bytes()));
        bytes
    }

    #[test]
    fn no_beginning_is_well_formed_in_the_hiding_form() {
        let request = hiding_request();
        let answer = Call::HidingOpen.answer::<BabyBear>(&request, 5000).unwrap();
        assert!(Call::HidingVerify.answer::<BabyBear>(&answer[16..], 5000).is_ok());
        for (call, bytes) in [(Call::HidingOpen, &request[..]), (Call::HidingVerify, &answer[16..])]
        {
            for length in 0..bytes.len() {
                let refused = call.answer::<BabyBear>(&bytes[..length], 5000);
                assert!(matches!(refused, Err(Error::Malformed { .. })), "{length}");
            }
        }
        // each form is of its own scheme
        assert!(Call::Open.answer::<BabyBear>(&request, 5000).is_err());
        assert!(Call::Verify.answer::<BabyBear>(&answer[16..], 5000).is_err());
        assert!(Call::Verify.answer::<BabyBear>(&answer[24..], 5000).is_err());
    }

    /// All of a hiding statement counts, as all of a plain one: the number of random columns and
    /// the index first.
    #[test]
    fn no_hiding_statement_with_another_bit_is_accepted() {
        let statement =
            Call::HidingOpen.answer::<BabyBear>(&hiding_request(), 5000).unwrap().split_off(16);
        for place in 0..statement.len() {
            let mut changed = statement.clone();
            changed[place] ^= 1;
            assert!(Call::HidingVerify.answer::<BabyBear>(&changed, 5000).is_err(), "{place}");
        }
    }

    /// All of a statement is absorbed before indices are drawn: context, parameters, commitment,
    /// domain, width, point and values. So with another bit before the proof others are drawn,
    /// which all of 40 queries are the same by no chance to be met.
    #[test]
    fn no_statement_with_another_bit_before_its_proof_is_accepted() {
        let statement = statement(40);
        assert!(Call::Verify.answer::<BabyBear>(&statement, 5000).is_ok());
        assert_eq!(first_accepted(&statement, 0..PROOF), None);
    }

    /// All of a proof is tested too: its numbers and digests are read by some query, witnesses of
    /// no work are 0, and a form says one thing only.
    #[test]
    fn no_proof_with_another_bit_is_accepted() {
        let statement = statement(2);
        assert!(Call::Verify.answer::<BabyBear>(&statement, 5000).is_ok());
        assert_eq!(first_accepted(&statement, PROOF..statement.len()), None);
    }

    /// The first of these places with a bit that may be turned in the statement.
    fn first_accepted(statement: &[u8], mut places: Range<usize>) -> Option<usize> {
        places.find(|place| {
            (0..8).any(|bit| {
                let mut changed = statement.to_vec();
                changed[*place] ^= 1 << bit;
                Call::Verify.answer::<BabyBear>(&changed, 5000).is_ok()
            })
        })
    }

    #[test]
    fn pointers_to_no_bytes_may_be_null() {
        let expected = Call::Challenge.answer::<BabyBear>(&[], 16).unwrap();
        let mut answer = [0; 16];
        let mut needed = 0;
        let call = Call::Challenge.raw();
        // SAFETY: as above, but that pointers to no bytes are null, which the library allows
        let status =
            unsafe { call(BabyBear::FIELD, ptr::null(), 0, answer.as_mut_ptr(), 16, &mut needed) };
        assert_eq!((status, needed, &answer[..]), (ANSWERED, 16, &expected[..]));
        let text = "BytesMissing { at: 0 }: fewer bytes are left than have to come";
        let plain = [Call::Commit, Call::Open, Call::Verify];
        let hiding = [Call::HidingCommit, Call::HidingOpen, Call::HidingVerify];
        for call in plain.into_iter().chain(hiding) {
            // SAFETY: as before
            let status = unsafe { call.raw()(0, ptr::null(), 0, ptr::null_mut(), 0, &mut needed) };
            assert_eq!((status, needed), (BUFFER_TOO_SHORT, text.len()));
        }
    }

    #[test]
    fn a_text_needs_room_too() {
        let (status, answer, needed) = once(Call::Verify, &[], 10);
        assert_eq!((status, answer), (BUFFER_TOO_SHORT, vec![0; 10]));
        let (status, text, _) = once(Call::Verify, &[], needed);
        assert_eq!(status, MALFORMED);
        assert!(text.starts_with(b"BytesMissing { at: 0 }: "));
    }
}
