//! The chunks of a quotient.

use crate::air::Air;
use crate::field::{dot, extension_powers, inverses, Base, Extension, GENERATOR};
use crate::matrix::{reverse_bits, Matrix};

/// Two chunks: a constraint of degree 3 on all rows but the last needs no more.
pub const LOG_CHUNKS: u32 = 1;

/// The values of the chunks on their cosets, by the extended trace, whose coset the chunks' cosets
/// are part of.
pub fn chunks(air: &Air, trace: &Matrix, log_height: u32, alpha: Extension) -> Vec<Matrix> {
    let log_extended = trace.height().ilog2();
    let log_size = log_height + LOG_CHUNKS;
    let stride = log_extended - log_size;
    let row_at = |i: usize| trace.row(reverse_bits(i << stride, log_extended));
    let root = Base::root(log_size);
    let last_point = Base::root(log_height).inverse();
    // X^n - 1 takes as many values as there are chunks
    let vanishing: Vec<Base> = (0..1u64 << LOG_CHUNKS)
        .map(|i| (GENERATOR * root.pow(i)).pow(1 << log_height) - Base::ONE)
        .collect();
    let over_vanishing = inverses(&vanishing, Base::ONE, Base::inverse);
    let mut weights = extension_powers(alpha, air.transitions.len());
    weights.reverse();
    let mut chunks: Vec<Matrix> = vanishing
        .iter()
        .map(|_| Matrix {
            values: Vec::new(),
            width: 4,
        })
        .collect();
    let (mut nodes, mut selected, mut x) = (Vec::new(), Vec::new(), GENERATOR);
    for i in 0..1usize << log_size {
        let after = (i + (1 << LOG_CHUNKS)) & ((1 << log_size) - 1);
        air.evaluate(row_at(i), row_at(after), &mut nodes);
        selected.clear();
        selected.extend(air.transitions.iter().map(|&node| nodes[node]));
        let chunk = i & ((1 << LOG_CHUNKS) - 1);
        let factor = (x - last_point) * over_vanishing[chunk];
        chunks[chunk]
            .values
            .extend(dot(&weights, &selected).scale(factor).0);
        x = x * root;
    }
    chunks
}

/// The shifts of the chunks' cosets.
pub fn chunk_shifts(log_height: u32) -> Vec<Base> {
    let root = Base::root(log_height + LOG_CHUNKS);
    (0..1u64 << LOG_CHUNKS)
        .map(|i| GENERATOR * root.pow(i))
        .collect()
}
