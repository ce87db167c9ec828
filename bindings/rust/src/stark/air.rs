//! Constraint systems.

use crate::types::Element;
use std::cell::RefCell;
use std::ops::{Add, Mul, Neg, Sub};

/// The columns of a constraint system, and how many public values there are.
///
/// ```
/// use p3_fri_proved::stark::Columns;
///
/// let columns = Columns { width: 2, num_public_values: 1, ..Columns::default() };
/// assert!(columns.preprocessed.is_empty() && columns.periodic.is_empty());
/// ```
#[derive(Clone, Debug, Default, PartialEq, Eq, Hash)]
pub struct Columns {
    /// The number of the trace's columns.
    pub width: usize,
    /// The number of public values.
    pub num_public_values: usize,
    /// The preprocessed columns, row by row, each row as long as the first. They are part of the
    /// system: both sides commit to them. Where there are any, the trace has as many rows.
    pub preprocessed: Vec<Vec<Element>>,
    /// The periodic columns, one after another, each with `2^j` entries: row `i` has entry `i mod
    /// 2^j`.
    pub periodic: Vec<Vec<Element>>,
}

/// What a node is: an entry, a number, or what is made of earlier nodes.
#[derive(Clone, Copy, Debug, PartialEq, Eq, Hash)]
pub(super) enum Node {
    Constant(Element),
    Local(usize),
    Next(usize),
    Preprocessed(usize),
    PreprocessedNext(usize),
    Public(usize),
    Periodic(usize),
    Add(usize, usize),
    Sub(usize, usize),
    Mul(usize, usize),
    Neg(usize),
}

/// Where a constraint holds.
#[derive(Clone, Copy, Debug, PartialEq, Eq, Hash)]
pub(super) enum Where {
    All,
    First,
    Last,
    Transition,
}

/// A node that is zero in these rows.
#[derive(Clone, Copy, Debug, PartialEq, Eq, Hash)]
pub(super) struct Constraint {
    pub rows: Where,
    pub node: usize,
}

/// A constraint system, as an [`AirBuilder`] made it.
#[derive(Clone, Debug, PartialEq, Eq, Hash)]
pub struct Air {
    pub(super) columns: Columns,
    pub(super) nodes: Vec<Node>,
    pub(super) constraints: Vec<Constraint>,
}

/// A constraint system while it is made.
///
/// Expressions are entries of rows, public values and constants, and their sums, differences,
/// products and negatives. A constraint says that one is zero, in all rows or in some. The greatest
/// degree of a constraint, in entries of columns, counts in time and in the proof's length.
///
/// Numbers of columns and of public values are tested where the system is used, which refuses by
/// name those that aren't there. Each call adds a node to the system, so what is used often is kept
/// in a variable.
///
/// ```
/// use p3_fri_proved::stark::{check, AirBuilder, Columns};
///
/// // a column of bits
/// let builder = AirBuilder::new(Columns { width: 1, ..Columns::default() });
/// let bit = builder.local(0);
/// builder.assert_zero(bit * (bit - builder.constant(1)));
/// let air = builder.build();
///
/// check(&air, &[[0], [1], [1], [0]], &[])?;
/// assert!(check(&air, &[[0], [2]], &[]).is_err());
/// # Ok::<(), p3_fri_proved::Error>(())
/// ```
#[derive(Debug)]
pub struct AirBuilder {
    columns: Columns,
    nodes: RefCell<Vec<Node>>,
    constraints: RefCell<Vec<Constraint>>,
}

impl AirBuilder {
    /// A system of these columns without constraints.
    pub fn new(columns: Columns) -> AirBuilder {
        AirBuilder { columns, nodes: RefCell::default(), constraints: RefCell::default() }
    }

    fn expression(&self, node: Node) -> Expression<'_> {
        let mut nodes = self.nodes.borrow_mut();
        nodes.push(node);
        Expression { builder: self, node: nodes.len() - 1 }
    }

    /// A number, below [`ORDER`](crate::ORDER).
    pub fn constant(&self, number: Element) -> Expression<'_> {
        self.expression(Node::Constant(number))
    }

    /// The entry of this column of the trace.
    pub fn local(&self, column: usize) -> Expression<'_> {
        self.expression(Node::Local(column))
    }

    /// The entry of this column of the trace in the next row. The row after the last is the first.
    pub fn next(&self, column: usize) -> Expression<'_> {
        self.expression(Node::Next(column))
    }

    /// The entry of this preprocessed column.
    pub fn preprocessed(&self, column: usize) -> Expression<'_> {
        self.expression(Node::Preprocessed(column))
    }

    /// The entry of this preprocessed column in the next row.
    pub fn preprocessed_next(&self, column: usize) -> Expression<'_> {
        self.expression(Node::PreprocessedNext(column))
    }

    /// The public value at this place.
    pub fn public_value(&self, index: usize) -> Expression<'_> {
        self.expression(Node::Public(index))
    }

    /// The entry of this periodic column.
    pub fn periodic(&self, column: usize) -> Expression<'_> {
        self.expression(Node::Periodic(column))
    }

    /// Constraints of the first row.
    pub fn when_first_row(&self) -> Rows<'_> {
        Rows { builder: self, rows: Where::First }
    }

    /// Constraints of the last row.
    pub fn when_last_row(&self) -> Rows<'_> {
        Rows { builder: self, rows: Where::Last }
    }

    /// Constraints of each row but the last.
    pub fn when_transition(&self) -> Rows<'_> {
        Rows { builder: self, rows: Where::Transition }
    }

    /// Has the expression be zero in all rows.
    pub fn assert_zero(&self, expression: Expression<'_>) {
        Rows { builder: self, rows: Where::All }.assert_zero(expression);
    }

    /// Has both be equal in all rows.
    pub fn assert_eq(&self, left: Expression<'_>, right: Expression<'_>) {
        self.assert_zero(left - right);
    }

    /// Has the expression be 0 or 1 in all rows.
    pub fn assert_bool(&self, expression: Expression<'_>) {
        self.assert_eq(expression * expression, expression);
    }

    /// The system.
    pub fn build(self) -> Air {
        Air {
            columns: self.columns,
            nodes: self.nodes.into_inner(),
            constraints: self.constraints.into_inner(),
        }
    }
}

/// Some rows of a system, for constraints.
#[derive(Clone, Copy, Debug)]
pub struct Rows<'a> {
    builder: &'a AirBuilder,
    rows: Where,
}

impl Rows<'_> {
    /// Has the expression be zero in these rows.
    ///
    /// # Panics
    ///
    /// If the expression is another builder's.
    pub fn assert_zero(&self, expression: Expression<'_>) {
        let node = expression.node_of(self.builder);
        self.builder.constraints.borrow_mut().push(Constraint { rows: self.rows, node });
    }

    /// Has both be equal in these rows.
    ///
    /// # Panics
    ///
    /// As [`assert_zero`](Rows::assert_zero).
    pub fn assert_eq(&self, left: Expression<'_>, right: Expression<'_>) {
        self.assert_zero(left - right);
    }
}

/// What a builder's constraints are made of. Of two builders' expressions nothing is made: `+`, `-`
/// and `*` panic.
#[derive(Clone, Copy, Debug)]
pub struct Expression<'a> {
    builder: &'a AirBuilder,
    node: usize,
}

impl<'a> Expression<'a> {
    fn node_of(self, builder: &AirBuilder) -> usize {
        assert!(std::ptr::eq(self.builder, builder), "the expression is another builder's");
        self.node
    }

    fn with(self, other: Expression<'_>, node: fn(usize, usize) -> Node) -> Expression<'a> {
        self.builder.expression(node(self.node, other.node_of(self.builder)))
    }
}

impl<'a> Add for Expression<'a> {
    type Output = Expression<'a>;

    fn add(self, other: Expression<'a>) -> Expression<'a> {
        self.with(other, Node::Add)
    }
}

impl<'a> Sub for Expression<'a> {
    type Output = Expression<'a>;

    fn sub(self, other: Expression<'a>) -> Expression<'a> {
        self.with(other, Node::Sub)
    }
}

impl<'a> Mul for Expression<'a> {
    type Output = Expression<'a>;

    fn mul(self, other: Expression<'a>) -> Expression<'a> {
        self.with(other, Node::Mul)
    }
}

impl<'a> Neg for Expression<'a> {
    type Output = Expression<'a>;

    fn neg(self) -> Expression<'a> {
        self.builder.expression(Node::Neg(self.node))
    }
}

#[cfg(test)]
mod tests {
    use super::{AirBuilder, Columns};

    #[test]
    #[should_panic(expected = "another builder's")]
    fn expressions_of_two_builders_do_not_mix() {
        let (first, second) =
            (AirBuilder::new(Columns::default()), AirBuilder::new(Columns::default()));
        let _ = first.constant(1) + second.constant(1);
    }
}
