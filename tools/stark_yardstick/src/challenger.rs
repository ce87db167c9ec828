//! The SHA-256 challenger, and the streams that describe transcripts.

use crate::field::{Base, Extension, ORDER};
use crate::sha256::{sha256, Digest};

#[derive(Clone, Default)]
pub struct Challenger {
    state: Digest,
}

impl Challenger {
    fn absorb(&mut self, tag: u8, bytes: &[u8]) {
        let mut message = [0; 65];
        message[..32].copy_from_slice(&self.state);
        message[32] = tag;
        message[33..33 + bytes.len()].copy_from_slice(bytes);
        self.state = sha256(&message[..33 + bytes.len()]);
    }

    fn draw(&mut self) -> u64 {
        self.absorb(1, &[]);
        u64::from_le_bytes(std::array::from_fn(|i| self.state[i]))
    }

    pub fn observe_digest(&mut self, digest: &Digest) {
        self.absorb(0, digest);
    }

    fn observe_number(&mut self, number: u32) {
        self.absorb(0, &number.to_le_bytes());
    }

    pub fn observe(&mut self, element: Extension) {
        element
            .numbers()
            .iter()
            .for_each(|&number| self.observe_number(number));
    }

    pub fn observe_stream(&mut self, stream: &[u8]) {
        stream
            .iter()
            .for_each(|&byte| self.observe_number(byte as u32));
    }

    pub fn draw_element(&mut self) -> Extension {
        Extension(std::array::from_fn(|_| {
            Base::new((self.draw() % ORDER as u64) as u32)
        }))
    }

    pub fn draw_bits(&mut self, width: u32) -> usize {
        (self.draw() & ((1 << width) - 1)) as usize
    }

    /// The least witness that passes; the state after its check is left.
    pub fn grind(&mut self, bits: u32) -> u32 {
        if bits == 0 {
            return 0;
        }
        for witness in 0..ORDER {
            let mut tried = self.clone();
            tried.observe_number(witness);
            if tried.draw_bits(bits) == 0 {
                *self = tried;
                return witness;
            }
        }
        panic!("no witness passes")
    }
}

/// A stream that is written: steps and labels.
pub struct Stream {
    name: &'static str,
    steps: Vec<Vec<u8>>,
    labels: Vec<Vec<u8>>,
}

fn number(bytes: &mut Vec<u8>, number: u64) {
    bytes.extend(number.to_be_bytes());
}

fn text(bytes: &mut Vec<u8>, text: &[u8]) {
    number(bytes, text.len() as u64);
    bytes.extend(text);
}

impl Stream {
    pub fn new(name: &'static str) -> Stream {
        Stream {
            name,
            steps: Vec::new(),
            labels: Vec::new(),
        }
    }

    fn step(&mut self, head: &[u8], parameter: Option<u64>, label: &str, fixed: Option<u64>) {
        let mut step = head.to_vec();
        parameter
            .into_iter()
            .for_each(|value| number(&mut step, value));
        text(&mut step, label.as_bytes());
        step.push(fixed.is_some() as u8);
        fixed.into_iter().for_each(|count| number(&mut step, count));
        self.steps.push(step);
    }

    pub fn commitment(&mut self, label: &str) {
        self.step(&[0, 0, 0], None, label, None);
    }

    pub fn elements(&mut self, label: &str, count: usize) {
        self.step(&[0, 0, 1], Some(4), label, Some(count as u64));
    }

    pub fn challenge(&mut self, label: &str) {
        self.step(&[0, 1, 1], Some(4), label, None);
    }

    pub fn indices(&mut self, label: &str, width: u32, count: usize) {
        self.step(&[0, 1, 2], Some(width as u64), label, Some(count as u64));
    }

    pub fn proof_of_work(&mut self, label: &str, bits: u32) {
        if bits > 0 {
            self.step(&[0, 2, 1], Some(1), label, Some(bits as u64));
        }
    }

    pub fn bracket(&mut self, label: &str) {
        self.step(&[1, 3, 3], None, label, None);
        self.step(&[2, 3, 3], None, label, None);
    }

    pub fn label(&mut self, numbers: &[u64]) {
        self.labels.push(
            numbers
                .iter()
                .flat_map(|number| number.to_be_bytes())
                .collect(),
        );
    }

    pub fn bytes(&self) -> Vec<u8> {
        let mut bytes = vec![1];
        text(&mut bytes, self.name.as_bytes());
        number(&mut bytes, self.steps.len() as u64);
        self.steps.iter().for_each(|step| bytes.extend(step));
        number(&mut bytes, self.labels.len() as u64);
        self.labels.iter().for_each(|label| text(&mut bytes, label));
        bytes
    }
}
