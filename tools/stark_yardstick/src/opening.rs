//! The opening of committed matrices, all of one height.

use crate::challenger::{Challenger, Stream};
use crate::field::{dot, extension_powers, inverses, Base, Extension, GENERATOR};
use crate::matrix::{reverse_bits, Committed, Tree};
use crate::sha256::Digest;

#[derive(Clone, Copy)]
pub struct Parameters {
    pub log_blowup: u32,
    pub log_final: u32,
    pub cap: u32,
    pub num_queries: usize,
    pub query_bits: u32,
}

/// Committed matrices, and the points at which each of them is opened.
pub struct Request<'a> {
    pub committed: &'a Committed,
    pub points: Vec<Extension>,
}

/// Claimed values, by request, matrix and point.
pub type Claims = Vec<Vec<Vec<Vec<Extension>>>>;

pub struct InputOpening {
    pub rows: Vec<Vec<Vec<Base>>>,
    pub paths: Vec<Vec<Digest>>,
}

pub struct RoundOpening {
    pub siblings: Vec<Vec<Extension>>,
    pub paths: Vec<Vec<Digest>>,
}

pub struct Opening {
    pub commits: Vec<Digest>,
    pub inputs: Vec<InputOpening>,
    pub rounds: Vec<RoundOpening>,
    pub final_poly: Vec<Extension>,
    pub query_witness: u32,
}

/// The points of the generator's coset of `2^log` points, in bit-reversed order.
fn coset(log: u32) -> Vec<Base> {
    let root = Base::root(log);
    let mut points = vec![Base::ZERO; 1 << log];
    let mut point = GENERATOR;
    for i in 0..points.len() {
        points[reverse_bits(i, log)] = point;
        point = point * root;
    }
    points
}

/// For each point the inverses of its differences from the points of the coset.
fn differences(points: &[Extension], coset: &[Base]) -> Vec<Vec<Extension>> {
    let invert = |&point: &Extension| {
        let all: Vec<_> = coset.iter().map(|&x| point - Extension::lift(x)).collect();
        inverses(&all, Extension::ONE, Extension::inverse)
    };
    points.iter().map(invert).collect()
}

/// The values at a point of the columns, by those on the first `2^log` points of the coset.
fn values_at(
    committed: &Committed,
    point: Extension,
    log: u32,
    coset: &[Base],
    inverses: &[Extension],
) -> Vec<Vec<Extension>> {
    let scaled = point.scale(GENERATOR.inverse()).pow_2(log) - Extension::ONE;
    let factor = scaled.scale(Base::new(1 << log).inverse());
    let weights: Vec<Extension> = coset
        .iter()
        .zip(inverses)
        .take(1 << log)
        .map(|(&x, inverse)| inverse.scale(x))
        .collect();
    let column_sums = |matrix: &crate::matrix::Matrix| {
        let mut sums = vec![Extension::ZERO; matrix.width];
        for (row, &weight) in matrix.values.chunks_exact(matrix.width).zip(&weights) {
            for (sum, &entry) in sums.iter_mut().zip(row) {
                *sum += weight.scale(entry);
            }
        }
        sums.into_iter().map(|sum| sum * factor).collect()
    };
    committed.matrices.iter().map(column_sums).collect()
}

fn observe_claims(claims: &Claims, challenger: &mut Challenger) {
    let mut stream = Stream::new("p3-fri-pcs");
    let values = || claims.iter().flatten().flatten();
    values().for_each(|list| stream.elements("claimed_evaluations", list.len()));
    stream.challenge("alpha");
    stream.bracket("low_degree_test");
    stream.label(&[claims.len() as u64]);
    for matrices in claims {
        stream.label(&[matrices.len() as u64]);
        matrices
            .iter()
            .for_each(|points| stream.label(&[points.len() as u64]));
    }
    challenger.observe_stream(&stream.bytes());
    values()
        .flatten()
        .for_each(|&value| challenger.observe(value));
}

/// The word of all quotients, by powers of `alpha`.
fn quotient_word(
    requests: &[Request],
    claims: &Claims,
    inverses: &[Vec<Extension>],
    alpha: Extension,
) -> Vec<Extension> {
    let count = claims.iter().flatten().flatten().map(Vec::len).sum();
    let weights = extension_powers(alpha, count);
    let mut word = vec![Extension::ZERO; inverses[0].len()];
    let mut offset = 0;
    for (request, matrices) in requests.iter().zip(claims) {
        for (matrix, points) in request.committed.matrices.iter().zip(matrices) {
            let width = matrix.width;
            let claimed: Vec<(Extension, Extension)> = points
                .iter()
                .enumerate()
                .map(|(i, values)| {
                    let sum = values
                        .iter()
                        .zip(&weights)
                        .fold(Extension::ZERO, |sum, (&value, &weight)| {
                            sum + value * weight
                        });
                    (sum, weights[offset + i * width])
                })
                .collect();
            for (row, entry) in word.iter_mut().enumerate() {
                let sum = dot(&weights[..width], matrix.row(row));
                for (point, &(value, weight)) in claimed.iter().enumerate() {
                    *entry += (value - sum) * inverses[point][row] * weight;
                }
            }
            offset += width * points.len();
        }
    }
    word
}

fn fold(word: &[Extension], beta: Extension) -> Vec<Extension> {
    let log = word.len().ilog2();
    let half = Base::new(2).inverse();
    let step = Base::root(log).inverse();
    let mut factors = vec![half; word.len() / 2];
    let mut factor = half;
    for i in 0..factors.len() {
        factors[reverse_bits(i, log - 1)] = factor;
        factor = factor * step;
    }
    word.chunks_exact(2)
        .zip(factors)
        .map(|(pair, factor)| {
            (pair[0] + pair[1]).scale(half) + (pair[0] - pair[1]).scale(factor) * beta
        })
        .collect()
}

/// The low-order coefficients that give the word's first entries.
fn final_polynomial(word: &[Extension], log: u32) -> Vec<Extension> {
    let size = 1 << log;
    let step = Base::root(log).inverse();
    let scale = Base::new(size as u32).inverse();
    (0..size as u64)
        .map(|j| {
            (0..size).fold(Extension::ZERO, |sum, i| {
                sum + word[reverse_bits(i, log)].scale(step.pow(i as u64 * j) * scale)
            })
        })
        .collect()
}

fn tree_of(word: &[Extension], arity: u32) -> Tree {
    let width = 1usize << arity;
    Tree::new(word.len() / width, |index, message| {
        message.extend((width as u64).to_le_bytes());
        for entry in &word[index * width..][..width] {
            entry
                .numbers()
                .iter()
                .for_each(|number| message.extend(number.to_le_bytes()));
        }
    })
}

fn test_stream(parameters: Parameters, arities: &[u32], width: u32) -> Vec<u8> {
    let mut stream = Stream::new("p3-fri");
    for _ in arities {
        stream.commitment("commit_phase_commitment");
        stream.challenge("fold_challenge");
    }
    stream.elements("final_poly", 1 << parameters.log_final);
    stream.proof_of_work("query_pow", parameters.query_bits);
    stream.indices("query_indices", width, parameters.num_queries);
    let labels = [parameters.log_blowup, parameters.cap];
    labels
        .iter()
        .chain(arities)
        .for_each(|&label| stream.label(&[label as u64]));
    stream.bytes()
}

fn arities(parameters: Parameters, log: u32) -> Vec<u32> {
    let distance = log.saturating_sub(parameters.log_blowup + parameters.log_final);
    let mut arities = vec![parameters.cap; (distance / parameters.cap) as usize];
    arities.extend((distance % parameters.cap > 0).then_some(distance % parameters.cap));
    arities
}

/// The test of a word, at which requests are opened at the indices that are drawn.
fn prove_word(
    parameters: Parameters,
    requests: &[Request],
    mut word: Vec<Extension>,
    challenger: &mut Challenger,
) -> Opening {
    let log = word.len().ilog2();
    let arities = arities(parameters, log);
    challenger.observe_stream(&test_stream(parameters, &arities, log));
    let mut rounds = Vec::new();
    for &arity in &arities {
        let tree = tree_of(&word, arity);
        challenger.observe_digest(&tree.root());
        let mut beta = challenger.draw_element();
        let mut folded = word.clone();
        for _ in 0..arity {
            folded = fold(&folded, beta);
            beta = beta * beta;
        }
        rounds.push((arity, tree, std::mem::replace(&mut word, folded)));
    }
    let final_poly = final_polynomial(&word, parameters.log_final);
    final_poly
        .iter()
        .for_each(|&coefficient| challenger.observe(coefficient));
    let query_witness = challenger.grind(parameters.query_bits);
    let indices: Vec<usize> = (0..parameters.num_queries)
        .map(|_| challenger.draw_bits(log))
        .collect();
    Opening {
        commits: rounds.iter().map(|(_, tree, _)| tree.root()).collect(),
        inputs: requests
            .iter()
            .map(|request| open_input(request.committed, &indices))
            .collect(),
        rounds: open_rounds(&rounds, indices),
        final_poly,
        query_witness,
    }
}

fn open_input(committed: &Committed, indices: &[usize]) -> InputOpening {
    let rows = |&index: &usize| {
        committed
            .matrices
            .iter()
            .map(|m| m.row(index).to_vec())
            .collect()
    };
    InputOpening {
        rows: indices.iter().map(rows).collect(),
        paths: indices
            .iter()
            .map(|&index| committed.tree.path(index))
            .collect(),
    }
}

fn open_rounds(
    rounds: &[(u32, Tree, Vec<Extension>)],
    mut indices: Vec<usize>,
) -> Vec<RoundOpening> {
    rounds
        .iter()
        .map(|(arity, tree, word)| {
            let width = 1usize << arity;
            let siblings = indices
                .iter()
                .map(|&index| {
                    let mut row = word[index / width * width..][..width].to_vec();
                    row.remove(index % width);
                    row
                })
                .collect();
            indices.iter_mut().for_each(|index| *index >>= arity);
            RoundOpening {
                siblings,
                paths: indices.iter().map(|&index| tree.path(index)).collect(),
            }
        })
        .collect()
}

/// Opens matrices of `2^log_height` rows before they were extended. The first request has all
/// points that the others have, in their order.
pub fn open(
    parameters: Parameters,
    requests: &[Request],
    log_height: u32,
    challenger: &mut Challenger,
) -> (Claims, Opening) {
    let coset = coset(log_height + parameters.log_blowup);
    let inverses = differences(&requests[0].points, &coset);
    let claims: Claims = requests
        .iter()
        .map(|request| {
            let by_point: Vec<Vec<Vec<Extension>>> = request
                .points
                .iter()
                .zip(&inverses)
                .map(|(&point, inverses)| {
                    values_at(request.committed, point, log_height, &coset, inverses)
                })
                .collect();
            (0..request.committed.matrices.len())
                .map(|matrix| {
                    by_point
                        .iter()
                        .map(|values| values[matrix].clone())
                        .collect()
                })
                .collect()
        })
        .collect();
    observe_claims(&claims, challenger);
    let alpha = challenger.draw_element();
    let word = quotient_word(requests, &claims, &inverses, alpha);
    (claims, prove_word(parameters, requests, word, challenger))
}
