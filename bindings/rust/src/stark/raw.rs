//! The library's functions of a STARK, which read texts.
#![allow(unsafe_code)]

use crate::error::Error;
use crate::raw::answer;

/// A function that reads two texts, each a pointer and a length. It writes bytes to those at the
/// next pointer, and the number of bytes that this takes to the last.
type OverTwo =
    unsafe extern "C" fn(*const u8, usize, *const u8, usize, *mut u8, usize, *mut usize) -> u8;

/// The same of three texts.
type OverThree = unsafe extern "C" fn(
    *const u8,
    usize,
    *const u8,
    usize,
    *const u8,
    usize,
    *mut u8,
    usize,
    *mut usize,
) -> u8;

unsafe extern "C" {
    fn p3_fri_stark_check(
        system: *const u8,
        system_length: usize,
        trace: *const u8,
        trace_length: usize,
        answer: *mut u8,
        answer_length: usize,
        needed: *mut usize,
    ) -> u8;
    fn p3_fri_stark_prove(
        system: *const u8,
        system_length: usize,
        trace: *const u8,
        trace_length: usize,
        answer: *mut u8,
        answer_length: usize,
        needed: *mut usize,
    ) -> u8;
    fn p3_fri_stark_prove_hiding(
        system: *const u8,
        system_length: usize,
        trace: *const u8,
        trace_length: usize,
        seed: *const u8,
        seed_length: usize,
        answer: *mut u8,
        answer_length: usize,
        needed: *mut usize,
    ) -> u8;
    fn p3_fri_stark_verify(
        system: *const u8,
        system_length: usize,
        public_values: *const u8,
        public_values_length: usize,
        proof: *const u8,
        proof_length: usize,
        answer: *mut u8,
        answer_length: usize,
        needed: *mut usize,
    ) -> u8;
    fn p3_fri_stark_verify_hiding(
        system: *const u8,
        system_length: usize,
        public_values: *const u8,
        public_values_length: usize,
        proof: *const u8,
        proof_length: usize,
        answer: *mut u8,
        answer_length: usize,
        needed: *mut usize,
    ) -> u8;
}

/// What a function answers, with so much room at first.
fn over_two(call: OverTwo, [a, b]: [&[u8]; 2], room: usize) -> Result<Vec<u8>, Error> {
    answer(
        |answer, needed| {
            // SAFETY: the pointers are those of slices and of a number, each with its own length;
            // they don't overlap, and the library keeps none. It reads the texts, writes within the
            // answer and the number, takes its memory from malloc, and returns for any bytes.
            unsafe {
                call(
                    a.as_ptr(),
                    a.len(),
                    b.as_ptr(),
                    b.len(),
                    answer.as_mut_ptr(),
                    answer.len(),
                    needed,
                )
            }
        },
        room,
    )
}

/// What a function answers, with so much room at first.
fn over_three(call: OverThree, [a, b, c]: [&[u8]; 3], room: usize) -> Result<Vec<u8>, Error> {
    answer(
        |answer, needed| {
            // SAFETY: as above
            unsafe {
                call(
                    a.as_ptr(),
                    a.len(),
                    b.as_ptr(),
                    b.len(),
                    c.as_ptr(),
                    c.len(),
                    answer.as_mut_ptr(),
                    answer.len(),
                    needed,
                )
            }
        },
        room,
    )
}

/// Holds a trace against a system.
pub(super) fn check(system: &str, trace: &str, room: usize) -> Result<Vec<u8>, Error> {
    over_two(p3_fri_stark_check, [system.as_bytes(), trace.as_bytes()], room)
}

/// Proves, with masks if there is a seed.
pub(super) fn prove(
    system: &str,
    trace: &str,
    seed: Option<&[u8; 32]>,
    room: usize,
) -> Result<Vec<u8>, Error> {
    let (system, trace) = (system.as_bytes(), trace.as_bytes());
    match seed {
        None => over_two(p3_fri_stark_prove, [system, trace], room),
        Some(seed) => over_three(p3_fri_stark_prove_hiding, [system, trace, seed], room),
    }
}

/// Verifies a proof, of the scheme that hides if `hides` says so.
pub(super) fn verify(
    system: &str,
    public_values: &str,
    proof: &[u8],
    hides: bool,
    room: usize,
) -> Result<Vec<u8>, Error> {
    let call = if hides { p3_fri_stark_verify_hiding } else { p3_fri_stark_verify };
    over_three(call, [system.as_bytes(), public_values.as_bytes(), proof], room)
}
