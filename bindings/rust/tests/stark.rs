//! STARKs through the binding. Expected systems are the files of examples/stark, and expected
//! proofs those of tools/relation, an independent program.

#[path = "../examples/stark/systems/mod.rs"]
mod systems;

use p3_fri_proved::stark::{check, prove, verify, AirBuilder, Columns, Hiding, Proof};
use p3_fri_proved::{Error, Fault, Parameters, Refusal, ORDER};
use std::fs;
use std::path::PathBuf;
use systems::{examples, Example};

/// The seed is the bytes 0 to 31.
fn hiding() -> Hiding {
    Hiding { num_random_codewords: 4, seed: std::array::from_fn(|place| place as u8) }
}

/// A file of examples/stark, without spaces and line feeds: of the repository, or of what
/// `tools/package` wrote.
fn file(name: &str) -> String {
    let package = PathBuf::from(env!("CARGO_MANIFEST_DIR"));
    let folders = ["../../examples/stark", "../examples/stark"];
    let texts = folders.iter().map(|folder| fs::read_to_string(package.join(folder).join(name)));
    let text = texts.flatten().next().expect(name);
    text.split_ascii_whitespace().collect()
}

/// FNV-1a of 64 bits.
fn sum_of(bytes: &[u8]) -> u64 {
    let start = 0xcbf29ce484222325;
    bytes.iter().fold(start, |sum, byte| (sum ^ u64::from(*byte)).wrapping_mul(0x100000001b3))
}

fn proof_of(it: &Example, hiding: Option<&Hiding>) -> Proof {
    prove(&it.air, &it.trace, &it.public_values, &it.parameters, hiding).unwrap()
}

/// The refusal or the fault, whichever it is.
fn named<T: std::fmt::Debug>(result: Result<T, Error>) -> (Option<Refusal>, Option<Fault>) {
    match result.unwrap_err() {
        Error::Refused { refusal, .. } => (Some(refusal), None),
        Error::Malformed { fault, .. } => (None, Some(fault)),
        Error::OutOfMemory | Error::ProcessorTooOld => (None, None),
    }
}

#[test]
fn the_builder_gives_the_systems_of_the_files() {
    for it in examples() {
        assert_eq!(it.air.json(&it.parameters, 4), file(&format!("{}.air.json", it.name)));
    }
}

#[test]
fn the_traces_are_those_of_the_files() {
    for it in examples() {
        let trace: String =
            format!("{{\"public_values\":{:?},\"trace\":{:?}}}", it.public_values, it.trace)
                .split_ascii_whitespace()
                .collect();
        assert_eq!(trace, file(&format!("{}.trace.json", it.name)));
        assert_eq!(check(&it.air, &it.trace, &it.public_values), Ok(()), "{}", it.name);
    }
}

#[test]
fn the_proofs_are_those_of_the_independent_program() {
    let sums = [
        ("fibonacci", 0x2b0731ef720ed622, 0xcaa04ff8c597a632),
        ("range_check", 0xd0f209e432bfe689, 0x885b6e2a38a799b9),
        ("permutation", 0x91318bd341b26e0b, 0x093107f946a6c444),
        ("memory", 0xb9d6981a3ccfb8bd, 0x93ddd79ef1c9aa7e),
    ];
    for (it, (name, plain, masked)) in examples().into_iter().zip(sums) {
        assert_eq!(it.name, name);
        assert_eq!(sum_of(proof_of(&it, None).as_bytes()), plain, "{name}");
        assert_eq!(sum_of(proof_of(&it, Some(&hiding())).as_bytes()), masked, "{name}");
    }
    let memory = &examples()[3];
    assert_eq!(proof_of(memory, None).into_bytes(), file("memory.proof.json").into_bytes());
}

#[test]
fn proofs_are_accepted_of_their_own_statement_alone() {
    for it in examples() {
        for hiding in [None, Some(&hiding())] {
            let masks = hiding.map(|it| it.num_random_codewords);
            let proof = proof_of(&it, hiding);
            let verified = verify(&it.air, &it.public_values, &it.parameters, masks, &proof);
            assert_eq!(verified, Ok(5), "{}", it.name);

            let mut values = it.public_values.clone();
            values[0] = (values[0] + 1) % ORDER;
            let queries = Parameters { num_queries: 5, ..it.parameters };
            for refused in [
                verify(&it.air, &values, &it.parameters, masks, &proof),
                verify(&it.air, &it.public_values[1..], &it.parameters, masks, &proof),
                verify(&it.air, &it.public_values, &queries, masks, &proof),
            ] {
                assert!(matches!(refused, Err(Error::Refused { .. })), "{}: {refused:?}", it.name);
            }
            // of the other scheme it is no proof
            let other = if masks.is_some() { None } else { Some(4) };
            let refused = verify(&it.air, &it.public_values, &it.parameters, other, &proof);
            assert_eq!(named(refused), (None, Some(Fault::Json)), "{}", it.name);
        }
    }
}

#[test]
fn a_proof_is_of_one_system() {
    let [fibonacci, ..] = examples();
    let proof = proof_of(&fibonacci, None);
    let builder = AirBuilder::new(Columns { width: 2, num_public_values: 3, ..Columns::default() });
    builder.assert_zero(builder.local(0) - builder.local(0));
    let other = builder.build();
    let refused = verify(&other, &fibonacci.public_values, &fibonacci.parameters, None, &proof);
    assert!(matches!(refused, Err(Error::Refused { .. })), "{refused:?}");
}

#[test]
fn changed_and_cut_proofs_are_refused() {
    let [it, ..] = examples();
    let bytes = proof_of(&it, None).into_bytes();
    let verified = |bytes: &[u8]| {
        let proof = Proof::from_bytes(bytes);
        verify(&it.air, &it.public_values, &it.parameters, None, &proof)
    };
    for length in (0..bytes.len()).step_by(997) {
        assert_eq!(named(verified(&bytes[..length])), (None, Some(Fault::Json)), "{length}");
    }
    // no digit is like its successor
    for place in (0..bytes.len()).filter(|place| bytes[*place].is_ascii_digit()).step_by(199) {
        let mut changed = bytes.clone();
        changed[place] = if bytes[place] == b'1' { b'2' } else { b'1' };
        assert!(verified(&changed).is_err(), "{place}");
    }
    for bytes in [&b"\xff"[..], b"null", &[0; 100]] {
        assert_eq!(named(verified(bytes)), (None, Some(Fault::Json)));
    }
}

#[test]
fn traces_that_do_not_satisfy_a_system_are_named() {
    let [it, ..] = examples();
    let trace = &it.trace;
    let mut changed = trace.clone();
    changed[7][1] = 0;
    let checked = |trace: &[Vec<u32>], values: &[u32]| named(check(&it.air, trace, values));
    let refused = |refusal| (Some(refusal), None);
    assert_eq!(checked(&changed, &it.public_values), refused(Refusal::Unsatisfied));
    assert_eq!(checked(trace, &[0, 1, 2]), refused(Refusal::Unsatisfied));
    assert_eq!(checked(trace, &[]), refused(Refusal::PublicValues));
    assert_eq!(checked(&[], &it.public_values), refused(Refusal::NoRows));
    assert_eq!(checked(&[vec![0]], &it.public_values), refused(Refusal::Width));
    assert_eq!(checked(trace, &[ORDER, 1, 2]), (None, Some(Fault::OutOfRange)));
    let proved = prove(&it.air, &changed, &it.public_values, &it.parameters, None);
    assert_eq!(named(proved), refused(Refusal::Unsatisfied));
    let low = prove(&it.air, &trace[..3], &[0, 1, 2], &it.parameters, None);
    assert_eq!(named(low), refused(Refusal::TraceHeight));
}

#[test]
fn what_is_not_well_formed_is_named() {
    let [it, ..] = examples();
    let blowup = Parameters { log_blowup: 0, ..it.parameters };
    let proved = prove(&it.air, &it.trace, &it.public_values, &blowup, None);
    assert_eq!(named(proved), (None, Some(Fault::LogBlowup)));
    let builder = AirBuilder::new(Columns { width: 1, ..Columns::default() });
    builder.assert_zero(-builder.local(1));
    let checked = check(&builder.build(), &[[0]], &[]);
    assert_eq!(named(checked), (None, Some(Fault::UnknownColumn)));
    let builder = AirBuilder::new(Columns { width: 1, ..Columns::default() });
    builder.assert_zero(builder.constant(ORDER));
    let checked = check(&builder.build(), &[[0]], &[]);
    assert_eq!(named(checked), (None, Some(Fault::ConstantOutOfRange)));
}

#[test]
fn few_random_columns_hide_nothing() {
    let [it, ..] = examples();
    let few = Hiding { num_random_codewords: 3, ..hiding() };
    let proved = prove(&it.air, &it.trace, &it.public_values, &it.parameters, Some(&few));
    assert!(matches!(proved, Err(Error::Refused { .. })), "{proved:?}");
}
