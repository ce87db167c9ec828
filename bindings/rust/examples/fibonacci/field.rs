//! BabyBear's extension of degree 4, modulo `X^4 - 11`, as far as the example needs it. BabyBear
//! itself is the elements whose coefficients but the first are 0.

use p3_fri_proved::{ExtensionElement, ORDER};
use std::ops::{Add, Div, Mul, Sub};

/// Generates all elements of BabyBear but 0.
pub const GENERATOR: Element = Element::of(31);

/// A root of unity of order `2^27`.
const ROOT: Element = Element::of(440564289);

/// An element by its coefficients, that of one first.
#[derive(Clone, Copy, Debug, PartialEq, Eq)]
pub struct Element(pub ExtensionElement);

impl Element {
    pub const ZERO: Element = Element::of(0);
    pub const ONE: Element = Element::of(1);

    /// The element of BabyBear with this number.
    pub const fn of(number: u32) -> Element {
        Element([number, 0, 0, 0])
    }

    /// The root of unity of order `2^log_order`, the one by which rows of matrices follow one
    /// another.
    pub fn root(log_order: u32) -> Element {
        ROOT.power(1 << (27 - log_order))
    }

    pub fn power(self, exponent: u128) -> Element {
        let mut power = Element::ONE;
        for bit in (0..128 - exponent.leading_zeros()).rev() {
            power = power * power;
            if exponent >> bit & 1 == 1 {
                power = power * self;
            }
        }
        power
    }

    /// The inverse of an element that isn't 0: the power that is two less than the number of
    /// elements.
    fn inverse(self) -> Element {
        self.power(u128::from(ORDER).pow(4) - 2)
    }
}

/// The element of BabyBear that is this number modulo the order.
fn reduced(number: u64) -> u32 {
    (number % u64::from(ORDER)) as u32
}

impl Add for Element {
    type Output = Element;

    fn add(self, other: Element) -> Element {
        Element(std::array::from_fn(|i| reduced(u64::from(self.0[i]) + u64::from(other.0[i]))))
    }
}

impl Sub for Element {
    type Output = Element;

    fn sub(self, other: Element) -> Element {
        let difference = |i| u64::from(self.0[i]) + u64::from(ORDER) - u64::from(other.0[i]);
        Element(std::array::from_fn(|i| reduced(difference(i))))
    }
}

impl Mul for Element {
    type Output = Element;

    fn mul(self, other: Element) -> Element {
        let mut product = [0u64; 4];
        for (i, left) in self.0.iter().enumerate() {
            for (j, right) in other.0.iter().enumerate() {
                // X^4 is 11
                let factor = if i + j < 4 { 1 } else { 11 };
                let term = u64::from(reduced(u64::from(*left) * u64::from(*right)));
                product[(i + j) % 4] += factor * term;
            }
        }
        Element(product.map(reduced))
    }
}

impl Div for Element {
    type Output = Element;

    /// By an element that isn't 0.
    #[allow(clippy::suspicious_arithmetic_impl)]
    fn div(self, other: Element) -> Element {
        self * other.inverse()
    }
}

/// The coefficients of the polynomial below this many with these values at the powers of the root
/// of unity of that order: as many products as its square, for a small table.
pub fn interpolated(values: &[Element]) -> Vec<Element> {
    let size = values.len();
    let step = Element::ONE / Element::root(size.ilog2());
    let coefficient = |exponent: usize| {
        let at = step.power(exponent as u128);
        value_at(values, at) / Element::of(size as u32)
    };
    (0..size).map(coefficient).collect()
}

/// The value at a point of the polynomial with these coefficients, that of one first.
pub fn value_at(coefficients: &[Element], point: Element) -> Element {
    coefficients.iter().rev().fold(Element::ZERO, |value, it| value * point + *it)
}
