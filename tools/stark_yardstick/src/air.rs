//! Constraint systems, and one of any width whose constraints have degree 3.

use crate::challenger::Stream;
use crate::field::Base;

#[derive(Clone, Copy)]
pub enum Node {
    Local(usize),
    Next(usize),
    Add(usize, usize),
    Sub(usize, usize),
    Mul(usize, usize),
}

/// Nodes, and those of them that are zero on each row but the last.
pub struct Air {
    pub width: usize,
    pub nodes: Vec<Node>,
    pub transitions: Vec<usize>,
}

impl Air {
    /// Each next entry is the square of this one, times the entry beside it, plus the one beside
    /// that.
    pub fn mixing(width: usize) -> Air {
        let mut nodes: Vec<Node> = (0..width).map(Node::Local).collect();
        let mut transitions = Vec::new();
        for column in 0..width {
            let first = nodes.len();
            nodes.extend([
                Node::Mul(column, column),
                Node::Mul(first, (column + 1) % width),
                Node::Add(first + 1, (column + 2) % width),
                Node::Next(column),
                Node::Sub(first + 3, first + 2),
            ]);
            transitions.push(first + 4);
        }
        Air {
            width,
            nodes,
            transitions,
        }
    }

    /// The rows of a trace that satisfies it, one after another.
    pub fn trace(&self, height: usize) -> Vec<Base> {
        let width = self.width;
        let mut values: Vec<Base> = (0..width).map(|i| Base::new(i as u32 + 1)).collect();
        for row in 1..height {
            let last = values[(row - 1) * width..].to_vec();
            values.extend(
                (0..width)
                    .map(|i| last[i] * last[i] * last[(i + 1) % width] + last[(i + 2) % width]),
            );
        }
        values
    }

    /// The values of all nodes at a row.
    pub fn evaluate(&self, local: &[Base], next: &[Base], values: &mut Vec<Base>) {
        values.clear();
        for &node in &self.nodes {
            let value = match node {
                Node::Local(column) => local[column],
                Node::Next(column) => next[column],
                Node::Add(a, b) => values[a] + values[b],
                Node::Sub(a, b) => values[a] - values[b],
                Node::Mul(a, b) => values[a] * values[b],
            };
            values.push(value);
        }
    }

    fn numbers(&self, log_height: u32) -> Vec<u64> {
        let sizes = [
            self.width,
            0,
            0,
            0,
            log_height as usize,
            self.nodes.len(),
            self.transitions.len(),
        ];
        let mut numbers: Vec<u64> = sizes.map(|size| size as u64).to_vec();
        numbers.extend([0, 0]);
        for &node in &self.nodes {
            let (kind, a, b) = match node {
                Node::Local(column) => (1, column, 0),
                Node::Next(column) => (2, column, 0),
                Node::Add(a, b) => (7, a, b),
                Node::Sub(a, b) => (8, a, b),
                Node::Mul(a, b) => (9, a, b),
            };
            numbers.extend([kind, a as u64, b as u64]);
        }
        self.transitions
            .iter()
            .for_each(|&node| numbers.extend([3, node as u64]));
        numbers
    }

    /// The stream that binds the system and the height.
    pub fn stream(&self, log_height: u32) -> Vec<u8> {
        let mut stream = Stream::new("p3-uni-stark");
        stream.commitment("trace");
        stream.challenge("alpha");
        stream.commitment("quotient");
        stream.challenge("zeta");
        stream.bracket("opening");
        stream.label(&self.numbers(log_height));
        stream.bytes()
    }

    /// The system in JSON.
    pub fn json(&self) -> String {
        let nodes = self.nodes.iter().map(|&node| match node {
            Node::Local(column) => format!("{{\"local\":{column}}}"),
            Node::Next(column) => format!("{{\"next\":{column}}}"),
            Node::Add(a, b) => format!("{{\"add\":[{a},{b}]}}"),
            Node::Sub(a, b) => format!("{{\"sub\":[{a},{b}]}}"),
            Node::Mul(a, b) => format!("{{\"mul\":[{a},{b}]}}"),
        });
        let constraints = self
            .transitions
            .iter()
            .map(|node| format!("{{\"rows\":\"transition\",\"node\":{node}}}"));
        format!(
            "{{\"layout\":{{\"width\":{},\"preprocessed_width\":0,\"num_public_values\":0,\
             \"num_periodic_columns\":0}},\"nodes\":[{}],\"constraints\":[{}]}}",
            self.width,
            nodes.collect::<Vec<_>>().join(","),
            constraints.collect::<Vec<_>>().join(","),
        )
    }
}
