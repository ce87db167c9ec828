//! Two columns of Fibonacci numbers; public are the first row and the last entry.

use super::{parameters, Example, HEIGHT};
use p3_fri_proved::stark::{Air, AirBuilder, Columns};
use p3_fri_proved::ORDER;

fn air() -> Air {
    let builder = AirBuilder::new(Columns { width: 2, num_public_values: 3, ..Columns::default() });
    let (a, b) = (builder.local(0), builder.local(1));
    let (next_a, next_b) = (builder.next(0), builder.next(1));
    builder.when_first_row().assert_eq(a, builder.public_value(0));
    builder.when_first_row().assert_eq(b, builder.public_value(1));
    builder.when_transition().assert_eq(next_a, b);
    builder.when_transition().assert_eq(next_b, a + b);
    builder.when_last_row().assert_eq(b, builder.public_value(2));
    builder.build()
}

fn trace() -> Vec<Vec<u32>> {
    let mut row = [0, 1];
    let mut rows = Vec::new();
    for _ in 0..HEIGHT {
        rows.push(row.to_vec());
        row = [row[1], (row[0] + row[1]) % ORDER];
    }
    rows
}

pub fn example() -> Example {
    let trace = trace();
    Example {
        name: "fibonacci",
        air: air(),
        public_values: vec![0, 1, trace[HEIGHT - 1][1]],
        trace,
        parameters: parameters(1),
    }
}
