//! A column of numbers below 16 with their bits, and a running sum, whose last entry is public.

use super::{parameters, Example, HEIGHT};
use p3_fri_proved::stark::{Air, AirBuilder, Columns};

/// The number of bits, in the columns from 1 on.
const BITS: usize = 4;

/// The column of the running sum.
const TOTAL: usize = BITS + 1;

fn air() -> Air {
    let builder =
        AirBuilder::new(Columns { width: BITS + 2, num_public_values: 1, ..Columns::default() });
    let (number, total) = (builder.local(0), builder.local(TOTAL));
    let lowest = builder.local(1);
    builder.assert_bool(lowest);
    let mut sum_of_bits = lowest;
    for place in 1..BITS {
        let bit = builder.local(1 + place);
        builder.assert_bool(bit);
        sum_of_bits = sum_of_bits + builder.constant(1 << place) * bit;
    }
    builder.assert_eq(number, sum_of_bits);
    builder.when_first_row().assert_eq(total, number);
    builder.when_transition().assert_eq(builder.next(TOTAL), total + builder.next(0));
    builder.when_last_row().assert_eq(total, builder.public_value(0));
    builder.build()
}

fn trace() -> Vec<Vec<u32>> {
    let mut total = 0;
    let row = |row: u32| {
        let number = (7 * row + 9) % 16;
        total += number;
        let bits = (0..BITS).map(|place| number >> place & 1);
        std::iter::once(number).chain(bits).chain([total]).collect()
    };
    (0..HEIGHT as u32).map(row).collect()
}

pub fn example() -> Example {
    let trace = trace();
    Example {
        name: "range_check",
        air: air(),
        public_values: vec![trace[HEIGHT - 1][TOTAL]],
        trace,
        parameters: parameters(1),
    }
}
