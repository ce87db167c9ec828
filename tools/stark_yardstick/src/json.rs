//! The files of a STARK, as `docs/FORMATS.md` has them.

use crate::air::Air;
use crate::field::{Base, Extension};
use crate::opening::{InputOpening, Parameters, RoundOpening};
use crate::sha256::Digest;
use crate::Proof;

fn list<T>(entries: &[T], text: impl Fn(&T) -> String) -> String {
    format!(
        "[{}]",
        entries.iter().map(text).collect::<Vec<_>>().join(",")
    )
}

fn base(element: &Base) -> String {
    element.number().to_string()
}

fn extension(element: &Extension) -> String {
    list(&element.numbers(), u32::to_string)
}

fn extensions(elements: &Vec<Extension>) -> String {
    list(elements, extension)
}

fn digest(digest: &Digest) -> String {
    list(digest, u8::to_string)
}

fn paths(paths: &[Vec<Digest>]) -> String {
    list(paths, |path| list(path, digest))
}

fn input(opening: &InputOpening) -> String {
    let rows = list(&opening.rows, |rows| list(rows, |row| list(row, base)));
    format!(
        "{{\"opened_values\":{rows},\"paths\":{}}}",
        paths(&opening.paths)
    )
}

fn round(opening: &RoundOpening) -> String {
    let siblings = list(&opening.siblings, extensions);
    format!(
        "{{\"sibling_values\":{siblings},\"paths\":{}}}",
        paths(&opening.paths)
    )
}

pub fn proof(proof: &Proof) -> String {
    let opening = &proof.opening;
    let [trace, chunks] = &proof.claims[..] else {
        panic!("there are two commitments")
    };
    let no_witnesses = list(&opening.commits, |_| "0".to_string());
    let opened_chunks = list(chunks, |points| extensions(&points[0]));
    format!(
        "{{\"commitments\":{{\"trace\":{},\"quotient_chunks\":{},\"random\":null}},\
         \"opened_values\":{{\"trace_local\":{},\"trace_next\":{},\"preprocessed_local\":[],\
         \"preprocessed_next\":[],\"quotient_chunks\":{opened_chunks},\"random\":[]}},\
         \"opening_proof\":{{\"batch_pow_witness\":0,\"commit_phase_commits\":{},\
         \"commit_pow_witnesses\":{no_witnesses},\"input_openings\":{},\
         \"commit_phase_openings\":{},\"final_poly\":{},\"query_pow_witness\":{}}},\
         \"log_height\":{}}}",
        digest(&proof.trace),
        digest(&proof.quotient),
        extensions(&trace[0][0]),
        extensions(&trace[0][1]),
        list(&opening.commits, digest),
        list(&opening.inputs, input),
        list(&opening.rounds, round),
        extensions(&opening.final_poly),
        opening.query_witness,
        proof.log_height,
    )
}

pub fn system(air: &Air, parameters: Parameters) -> String {
    format!(
        "{{\"parameters\":{{\"log_blowup\":{},\"log_final_poly_len\":{},\"max_log_arity\":{},\
         \"num_queries\":{},\"batch_proof_of_work_bits\":0,\"commit_proof_of_work_bits\":0,\
         \"query_proof_of_work_bits\":{}}},\"air\":{}}}",
        parameters.log_blowup,
        parameters.log_final,
        parameters.cap,
        parameters.num_queries,
        parameters.query_bits,
        air.json(),
    )
}

pub fn trace(values: &[Base], width: usize) -> String {
    let rows: Vec<&[Base]> = values.chunks_exact(width).collect();
    format!(
        "{{\"public_values\":[],\"trace\":{}}}",
        list(&rows, |row| list(row, base))
    )
}
