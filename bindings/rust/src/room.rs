//! How much room an answer needs, so that an opening isn't made twice.

use crate::field::Field;
use crate::types::over::Matrix;
use crate::types::Parameters;
use std::mem::size_of;

/// Enough for the text of a refusal.
pub(crate) const ROOM_FOR_TEXT: usize = 1024;

/// The most that is set aside before it is known to be needed.
pub(crate) const MOST: usize = 1 << 26;

/// A count or a size.
const NUMBER: usize = 4;

/// A digest.
const DIGEST: usize = 32;

/// What a list takes beside its entries.
const LIST: usize = 4;

/// The claims on one commitment, with so many values of random columns beside those of each row and
/// each point, and what one query opens of it.
fn room_for_commitment<F: Field>(
    log_blowup: usize,
    queries: usize,
    masks: usize,
    matrices: &[Matrix<F>],
) -> usize {
    let (element, extension) = (size_of::<F::Element>(), size_of::<F::ExtensionElement>());
    let mut claims = DIGEST + LIST;
    let mut rows = 0;
    let mut height = 0;
    for matrix in matrices {
        let width = matrix.width as usize + masks;
        let values = extension + LIST + extension * width;
        claims += element + NUMBER + LIST + matrix.points.len() * values;
        rows += LIST + element * width;
        height = height.max(matrix.domain.log_size as usize + log_blowup);
    }
    claims + 2 * LIST + queries * (2 * LIST + rows + height * DIGEST)
}

/// At least as much as `open` answers, where that is below [`MOST`] without the context.
pub(crate) fn room_for_answer<F: Field>(
    parameters: &Parameters,
    context: &[u8],
    commitments: &[Vec<Matrix<F>>],
) -> usize {
    room_for_masked(parameters, context, 0, commitments)
}

/// And of `hiding::open`, with so many random columns.
pub(crate) fn room_for_hiding_answer<F: Field>(
    parameters: &Parameters,
    context: &[u8],
    num_random_codewords: u32,
    commitments: &[Vec<Matrix<F>>],
) -> usize {
    // a masked matrix has twice as many rows
    let parameters =
        Parameters { log_blowup: parameters.log_blowup.saturating_add(1), ..*parameters };
    let masks = num_random_codewords.min(1 << 16) as usize;
    room_for_masked(&parameters, context, masks, commitments)
}

fn room_for_masked<F: Field>(
    parameters: &Parameters,
    context: &[u8],
    masks: usize,
    commitments: &[Vec<Matrix<F>>],
) -> usize {
    let (element, extension) = (size_of::<F::Element>(), size_of::<F::ExtensionElement>());
    let log_blowup = parameters.log_blowup.min(32) as usize;
    let queries = parameters.num_queries.min(1 << 16) as usize;
    let sizes = commitments.iter().flatten().map(|matrix| matrix.domain.log_size.min(32) as usize);
    let height = sizes.max().unwrap_or(0) + log_blowup;
    let arity = (parameters.max_log_arity as usize).min(height).min(20);
    let siblings = (1 << arity) * height * extension;
    let paths = height * (height * DIGEST + 2 * LIST);
    let rounds = queries * (siblings + paths) + height * (DIGEST + element + 2 * LIST);
    let final_polynomial = extension << parameters.log_final_poly_len.min(20);
    let mut room = ROOM_FOR_TEXT + rounds + final_polynomial;
    for matrices in commitments {
        room += room_for_commitment(log_blowup, queries, masks, matrices);
    }
    room.min(MOST) + context.len()
}

#[cfg(test)]
mod tests {
    use super::{room_for_answer, room_for_hiding_answer};
    use crate::field::BabyBear;
    use crate::flat::Writer;
    use crate::hiding::Masking;
    use crate::raw::Call;
    use crate::types::{Domain, Matrix, Parameters};

    /// Two commitments, to a matrix on a coset of this size, and to two smaller ones.
    fn commitments(log_size: u32) -> Vec<Vec<Matrix>> {
        let matrix = |log_size: u32, width: u32| Matrix {
            domain: Domain { shift: 3, log_size },
            width,
            values: (0..width << log_size).collect(),
            points: vec![[5, 0, 0, 0], [7, 1, 0, 2]],
        };
        vec![vec![matrix(log_size, 3)], vec![matrix(log_size - 1, 1), matrix(log_size - 1, 7)]]
    }

    #[test]
    fn a_hiding_answer_has_room() {
        let toy = Parameters::toy();
        for parameters in [
            toy,
            Parameters { max_log_arity: 3, num_queries: 5, ..toy },
            Parameters { log_blowup: 3, num_queries: 8, ..toy },
        ] {
            for num_random_codewords in [4, 9] {
                let (context, commitments) = ([7; 100], commitments(7));
                let masking = Masking { num_random_codewords, seed: [1; 32] };
                let mut writer = Writer::default();
                writer.masking(&masking, None).unwrap();
                writer.request(&parameters, &context, &commitments).unwrap();
                let room = room_for_hiding_answer(
                    &parameters,
                    &context,
                    num_random_codewords,
                    &commitments,
                );
                let answer = Call::HidingOpen.answer::<BabyBear>(&writer.bytes, 0).unwrap();
                assert!(answer.len() <= room, "{} in {room}", answer.len());
            }
        }
    }

    #[test]
    fn an_answer_has_room() {
        let toy = Parameters::toy();
        for parameters in [
            toy,
            Parameters { num_queries: 30, ..toy },
            Parameters { max_log_arity: 3, num_queries: 5, ..toy },
            Parameters { log_blowup: 3, log_final_poly_len: 2, num_queries: 20, ..toy },
        ] {
            let (context, commitments) = ([7; 100], commitments(6));
            let mut writer = Writer::default();
            writer.request(&parameters, &context, &commitments).unwrap();
            let room = room_for_answer(&parameters, &context, &commitments);
            let answer = Call::Open.answer::<BabyBear>(&writer.bytes, 0).unwrap();
            assert!(answer.len() <= room, "{} in {room}", answer.len());
        }
    }
}
