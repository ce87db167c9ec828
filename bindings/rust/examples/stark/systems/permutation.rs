//! Two columns, a seventh power in each row, and constants of rounds that come back after four
//! rows; public are the first row and the last.

use super::{parameters, Example, HEIGHT};
use p3_fri_proved::stark::{Air, AirBuilder, Columns, Expression};
use p3_fri_proved::ORDER;

/// The constants of rounds, column by column.
const CONSTANTS: [[u32; 4]; 2] =
    [[17, 1900000003, 5, 123456789], [2, 71828182, 845904523, 536028747]];

fn seventh(x: Expression<'_>) -> Expression<'_> {
    let square = x * x;
    let fourth = square * square;
    fourth * square * x
}

fn air() -> Air {
    let builder = AirBuilder::new(Columns {
        width: 2,
        num_public_values: 4,
        periodic: CONSTANTS.map(Vec::from).to_vec(),
        ..Columns::default()
    });
    let (a, b) = (builder.local(0), builder.local(1));
    let s = seventh(a) + builder.periodic(0);
    let t = seventh(b) + builder.periodic(1);
    builder.when_transition().assert_eq(builder.next(0), s + s + t);
    builder.when_transition().assert_eq(builder.next(1), s + t);
    for (column, entry) in [a, b].into_iter().enumerate() {
        builder.when_first_row().assert_eq(entry, builder.public_value(column));
        builder.when_last_row().assert_eq(entry, builder.public_value(2 + column));
    }
    builder.build()
}

/// The seventh power of a number, plus another, modulo the order.
fn seventh_plus(number: u32, other: u32) -> u64 {
    let order = u64::from(ORDER);
    let power = (0..7).fold(1, |power, _| power * u64::from(number) % order);
    power + u64::from(other)
}

fn next_row(row: &[u32], constants: [u32; 2]) -> Vec<u32> {
    let (s, t) = (seventh_plus(row[0], constants[0]), seventh_plus(row[1], constants[1]));
    [2 * s + t, s + t].iter().map(|entry| (entry % u64::from(ORDER)) as u32).collect()
}

fn trace() -> Vec<Vec<u32>> {
    let mut rows = vec![vec![3, 1]];
    for row in 0..HEIGHT - 1 {
        rows.push(next_row(&rows[row], CONSTANTS.map(|column| column[row % 4])));
    }
    rows
}

pub fn example() -> Example {
    let trace = trace();
    Example {
        name: "permutation",
        air: air(),
        public_values: [&trace[0][..], &trace[HEIGHT - 1]].concat(),
        trace,
        parameters: parameters(3),
    }
}
