//! How much room a proof needs, so that it isn't made twice.

use crate::room::{MOST, ROOM_FOR_TEXT};
use crate::stark::air::Air;
use crate::types::Parameters;

/// An element and what parts it from the next.
const ELEMENT: usize = 11;

/// An element of the extension.
const EXTENSION_ELEMENT: usize = 4 * ELEMENT + 2;

/// A digest, as the list of its bytes.
const DIGEST: usize = 32 * 4 + 2;

/// The most chunks of a quotient that are reckoned with.
const CHUNKS: usize = 16;

/// At least as much as the proof of a trace of so many rows takes, where that is below [`MOST`] and
/// the quotient has no more than [`CHUNKS`].
pub(super) fn room_for_proof(
    air: &Air,
    parameters: &Parameters,
    num_random_codewords: u32,
    rows: usize,
) -> usize {
    let queries = parameters.num_queries.min(1 << 16) as usize;
    let height = (rows.max(1).ilog2() + 1 + parameters.log_blowup.min(27)) as usize;
    let arity = (parameters.max_log_arity as usize).min(height).min(20);
    let masks = num_random_codewords.min(1 << 16) as usize;
    let preprocessed = air.columns.preprocessed.first().map_or(0, Vec::len);
    let columns = air.columns.width + preprocessed + 4 * CHUNKS + 8 + (3 + CHUNKS) * masks;
    let siblings = (1 << arity) * height * EXTENSION_ELEMENT;
    let paths = (4 * height + height * height) * DIGEST;
    let final_polynomial = EXTENSION_ELEMENT << parameters.log_final_poly_len.min(20);
    let values = 4 * columns * EXTENSION_ELEMENT;
    let room = queries * (columns * ELEMENT + siblings + paths) + final_polynomial + values;
    (room + ROOM_FOR_TEXT + 2 * height * DIGEST).min(MOST)
}

#[cfg(test)]
mod tests {
    use super::room_for_proof;
    use crate::stark::{prove, Air, AirBuilder, Columns, Hiding};
    use crate::types::{Parameters, ORDER};

    /// Columns in which each entry is 31 times the one before, by constraints of degree 7.
    fn air() -> Air {
        let builder = AirBuilder::new(Columns { width: 9, ..Columns::default() });
        for column in 0..9 {
            let entry = builder.local(column);
            let square = entry * entry;
            let next = builder.next(column) - builder.constant(31) * entry;
            builder.when_transition().assert_zero(next * square * square * square);
        }
        builder.build()
    }

    fn trace(height: usize) -> Vec<[u32; 9]> {
        let mut row: [u32; 9] = std::array::from_fn(|column| 2000000000 + column as u32);
        let mut rows = Vec::new();
        for _ in 0..height {
            rows.push(row);
            row = row.map(|entry| (u64::from(entry) * 31 % u64::from(ORDER)) as u32);
        }
        rows
    }

    #[test]
    fn a_proof_has_room() {
        let (air, trace) = (air(), trace(128));
        let toy = Parameters::toy();
        let hiding = Hiding { num_random_codewords: 5, seed: [7; 32] };
        for parameters in [
            toy,
            Parameters { num_queries: 40, ..toy },
            Parameters { max_log_arity: 3, num_queries: 9, ..toy },
            Parameters { log_blowup: 3, log_final_poly_len: 2, num_queries: 20, ..toy },
        ] {
            for hiding in [None, Some(&hiding)] {
                let masks = hiding.map_or(0, |it| it.num_random_codewords);
                let room = room_for_proof(&air, &parameters, masks, trace.len());
                let proof = prove(&air, &trace, &[], &parameters, hiding).unwrap();
                let length = proof.as_bytes().len();
                assert!(length <= room, "{length} in {room}");
            }
        }
    }
}
