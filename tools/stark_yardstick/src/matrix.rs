//! Matrices, their extensions to larger cosets, and trees over them.

use crate::field::{powers, Base, GENERATOR};
use crate::sha256::{sha256, Digest};

/// Rows one after another.
pub struct Matrix {
    pub values: Vec<Base>,
    pub width: usize,
}

impl Matrix {
    pub fn height(&self) -> usize {
        self.values.len() / self.width
    }

    pub fn row(&self, index: usize) -> &[Base] {
        &self.values[index * self.width..][..self.width]
    }
}

pub fn reverse_bits(index: usize, width: u32) -> usize {
    if width == 0 {
        0
    } else {
        index.reverse_bits() >> (usize::BITS - width)
    }
}

fn permute_rows(matrix: &mut Matrix) {
    let (width, log) = (matrix.width, matrix.height().ilog2());
    for i in 0..matrix.height() {
        let j = reverse_bits(i, log);
        if i < j {
            let (left, right) = matrix.values.split_at_mut(j * width);
            left[i * width..][..width].swap_with_slice(&mut right[..width]);
        }
    }
}

/// The values of the columns' polynomials, whose coefficients stand in natural order, at the powers
/// of a root in bit-reversed order. `twiddles` are the powers of the root of the whole; `step` of
/// them lead to the next one here.
fn transform(values: &mut [Base], width: usize, twiddles: &[Base], step: usize) {
    let half = values.len() / width / 2;
    if half == 0 {
        return;
    }
    let (low, high) = values.split_at_mut(half * width);
    for (j, (a, b)) in low
        .chunks_exact_mut(width)
        .zip(high.chunks_exact_mut(width))
        .enumerate()
    {
        let twiddle = twiddles[j * step];
        for (a, b) in a.iter_mut().zip(b) {
            (*a, *b) = (*a + *b, (*a - *b) * twiddle);
        }
    }
    transform(low, width, twiddles, 2 * step);
    transform(high, width, twiddles, 2 * step);
}

/// The columns, given on the coset of `shift` in natural order, on the generator's coset of
/// `2^log_blowup` times as many points in bit-reversed order.
pub fn extended(mut matrix: Matrix, shift: Base, log_blowup: u32) -> Matrix {
    let (width, height) = (matrix.width, matrix.height());
    let log = height.ilog2();
    transform(
        &mut matrix.values,
        width,
        &powers(Base::root(log).inverse(), height / 2 + 1),
        1,
    );
    permute_rows(&mut matrix);
    let mut factor = Base::new(height as u32).inverse();
    for row in matrix.values.chunks_exact_mut(width) {
        row.iter_mut().for_each(|value| *value = *value * factor);
        factor = factor * GENERATOR * shift.inverse();
    }
    let extended_height = height << log_blowup;
    matrix.values.resize(extended_height * width, Base::ZERO);
    let root = Base::root(log + log_blowup);
    transform(
        &mut matrix.values,
        width,
        &powers(root, extended_height / 2 + 1),
        1,
    );
    matrix
}

/// All digests above the leaves, layer by layer.
pub struct Tree {
    layers: Vec<Vec<Digest>>,
}

impl Tree {
    /// Over leaves whose messages `write` appends to what it is given.
    pub fn new(height: usize, write: impl Fn(usize, &mut Vec<u8>)) -> Tree {
        let mut message = Vec::new();
        let mut layer = Vec::with_capacity(height);
        for index in 0..height {
            message.clear();
            message.push(0);
            write(index, &mut message);
            layer.push(sha256(&message));
        }
        let mut layers = vec![layer];
        while layers[layers.len() - 1].len() > 1 {
            let above = layers[layers.len() - 1].chunks_exact(2).map(|pair| {
                let mut message = [1; 65];
                message[1..33].copy_from_slice(&pair[0]);
                message[33..].copy_from_slice(&pair[1]);
                sha256(&message)
            });
            layers.push(above.collect());
        }
        Tree { layers }
    }

    pub fn root(&self) -> Digest {
        self.layers[self.layers.len() - 1][0]
    }

    pub fn path(&self, index: usize) -> Vec<Digest> {
        let below = &self.layers[..self.layers.len() - 1];
        below
            .iter()
            .enumerate()
            .map(|(level, layer)| layer[index >> level ^ 1])
            .collect()
    }
}

/// Extended matrices of one height, and the tree over them.
pub struct Committed {
    pub matrices: Vec<Matrix>,
    pub tree: Tree,
}

impl Committed {
    pub fn new(matrices: Vec<Matrix>) -> Committed {
        let tree = Tree::new(matrices[0].height(), |index, message| {
            for matrix in &matrices {
                message.extend((matrix.width as u64).to_le_bytes());
                for value in matrix.row(index) {
                    message.extend(value.number().to_le_bytes());
                }
            }
        });
        Committed { matrices, tree }
    }
}
