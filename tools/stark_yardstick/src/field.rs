//! BabyBear in Montgomery form, and its extension by `X^4 - 11`.

use std::ops::{Add, AddAssign, Mul, Neg, Sub};

pub const ORDER: u32 = 0x7800_0001;
pub const TWO_ADICITY: u32 = 27;
/// The inverse of the order modulo `2^32`.
const INVERSE: u32 = 0x8800_0001;
const _: () = assert!(ORDER.wrapping_mul(INVERSE) == 1);

/// `x / 2^32` modulo the order, of `x` below `2^32` times the order.
#[inline]
fn reduce(x: u64) -> u32 {
    let t = (x as u32).wrapping_mul(INVERSE);
    let u = (t as u64 * ORDER as u64) >> 32;
    let (difference, below) = ((x >> 32) as u32).overflowing_sub(u as u32);
    if below {
        difference.wrapping_add(ORDER)
    } else {
        difference
    }
}

/// An element times `2^32`.
#[derive(Clone, Copy, Debug, PartialEq, Eq)]
pub struct Base(u32);

impl Base {
    pub const ZERO: Base = Base(0);
    pub const ONE: Base = Base(((1u64 << 32) % ORDER as u64) as u32);

    pub const fn new(number: u32) -> Base {
        Base((((number as u64) << 32) % ORDER as u64) as u32)
    }

    pub fn number(self) -> u32 {
        reduce(self.0 as u64)
    }

    pub fn pow(self, mut exponent: u64) -> Base {
        let (mut power, mut square) = (Base::ONE, self);
        while exponent > 0 {
            if exponent & 1 == 1 {
                power = power * square;
            }
            square = square * square;
            exponent >>= 1;
        }
        power
    }

    pub fn inverse(self) -> Base {
        self.pow(ORDER as u64 - 2)
    }

    /// The root of unity of order `2^log`.
    pub fn root(log: u32) -> Base {
        GENERATOR.pow(15 << (TWO_ADICITY - log))
    }
}

pub const GENERATOR: Base = Base::new(31);

impl Add for Base {
    type Output = Base;

    #[inline]
    fn add(self, other: Base) -> Base {
        let sum = self.0 + other.0;
        Base(sum.min(sum.wrapping_sub(ORDER)))
    }
}

impl Sub for Base {
    type Output = Base;

    #[inline]
    fn sub(self, other: Base) -> Base {
        let difference = self.0.wrapping_sub(other.0);
        Base(difference.min(difference.wrapping_add(ORDER)))
    }
}

impl Neg for Base {
    type Output = Base;

    fn neg(self) -> Base {
        Base::ZERO - self
    }
}

impl Mul for Base {
    type Output = Base;

    #[inline]
    fn mul(self, other: Base) -> Base {
        Base(reduce(self.0 as u64 * other.0 as u64))
    }
}

/// `1, x, x^2, ..`
pub fn powers(x: Base, count: usize) -> Vec<Base> {
    std::iter::successors(Some(Base::ONE), |&power| Some(power * x))
        .take(count)
        .collect()
}

/// Coefficients, the constant one first.
#[derive(Clone, Copy, Debug, PartialEq, Eq)]
pub struct Extension(pub [Base; 4]);

impl Extension {
    pub const ZERO: Extension = Extension([Base::ZERO; 4]);
    pub const ONE: Extension = Extension::lift(Base::ONE);

    pub const fn lift(element: Base) -> Extension {
        Extension([element, Base::ZERO, Base::ZERO, Base::ZERO])
    }

    #[inline]
    pub fn scale(self, factor: Base) -> Extension {
        Extension(self.0.map(|coefficient| coefficient * factor))
    }

    pub fn pow_2(self, log: u32) -> Extension {
        (0..log).fold(self, |power, _| power * power)
    }

    pub fn inverse(self) -> Extension {
        let [a, b, c, d] = self.0;
        let conjugate = Extension([a, -b, c, -d]);
        let [n, _, m, _] = (self * conjugate).0;
        let norm = n * n - Base::new(11) * m * m;
        (conjugate * Extension([n, Base::ZERO, -m, Base::ZERO])).scale(norm.inverse())
    }

    pub fn numbers(self) -> [u32; 4] {
        self.0.map(Base::number)
    }
}

impl Add for Extension {
    type Output = Extension;

    #[inline]
    fn add(self, other: Extension) -> Extension {
        Extension(std::array::from_fn(|i| self.0[i] + other.0[i]))
    }
}

impl AddAssign for Extension {
    #[inline]
    fn add_assign(&mut self, other: Extension) {
        *self = *self + other;
    }
}

impl Sub for Extension {
    type Output = Extension;

    #[inline]
    fn sub(self, other: Extension) -> Extension {
        Extension(std::array::from_fn(|i| self.0[i] - other.0[i]))
    }
}

/// The sum of two products.
#[inline]
fn two(a: Base, b: Base, c: Base, d: Base) -> Base {
    Base(reduce(a.0 as u64 * b.0 as u64 + c.0 as u64 * d.0 as u64))
}

impl Mul for Extension {
    type Output = Extension;

    #[inline]
    fn mul(self, other: Extension) -> Extension {
        let [a, b, c, d] = self.0;
        let [w, x, y, z] = other.0;
        let eleven = const { Base::new(11) };
        let (x11, y11, z11) = (x * eleven, y * eleven, z * eleven);
        Extension([
            two(a, w, b, z11) + two(c, y11, d, x11),
            two(a, x, b, w) + two(c, z11, d, y11),
            two(a, y, b, x) + two(c, w, d, z11),
            two(a, z, b, y) + two(c, x, d, w),
        ])
    }
}

/// The inverses of elements other than zero, by one inversion.
pub fn inverses<T: Copy + Mul<Output = T>>(values: &[T], one: T, inverse: fn(T) -> T) -> Vec<T> {
    let mut products = Vec::with_capacity(values.len());
    let mut product = one;
    for &value in values {
        products.push(product);
        product = product * value;
    }
    let mut rest = inverse(product);
    for (product, &value) in products.iter_mut().zip(values).rev() {
        *product = *product * rest;
        rest = rest * value;
    }
    products
}

pub fn extension_powers(x: Extension, count: usize) -> Vec<Extension> {
    std::iter::successors(Some(Extension::ONE), |&power| Some(power * x))
        .take(count)
        .collect()
}

/// The sum of products.
#[inline]
pub fn dot(weights: &[Extension], row: &[Base]) -> Extension {
    let mut sums = [0u64; 4];
    for (weight, &entry) in weights.iter().zip(row) {
        for (sum, &coefficient) in sums.iter_mut().zip(&weight.0) {
            *sum += (coefficient * entry).0 as u64;
        }
    }
    Extension(sums.map(|sum| Base((sum % ORDER as u64) as u32)))
}
