//! Accesses sorted by address: an address and a value in a row. Preprocessed are whether there is
//! an access in the row, and whether it reads. Addresses go up by at most one, and what reads an
//! address finds the value of the row before, if that has this address too. Public are the first
//! address and the last.

use super::{parameters, Example, HEIGHT};
use p3_fri_proved::stark::{Air, AirBuilder, Columns};

/// Each access: its address, its value, and whether it reads.
const ACCESSES: [(u32, u32, bool); 13] = [
    (4, 70, false),
    (4, 70, true),
    (4, 70, true),
    (4, 8, false),
    (4, 8, true),
    (5, 21, false),
    (5, 21, true),
    (5, 21, true),
    (6, 9, false),
    (6, 9, true),
    (6, 10, false),
    (7, 0, false),
    (7, 0, true),
];

fn preprocessed() -> Vec<Vec<u32>> {
    let mut rows: Vec<Vec<u32>> =
        ACCESSES.iter().map(|&(_, _, reads)| vec![1, u32::from(reads)]).collect();
    rows.resize(HEIGHT, vec![0, 0]);
    rows
}

fn air() -> Air {
    let builder = AirBuilder::new(Columns {
        width: 2,
        num_public_values: 2,
        preprocessed: preprocessed(),
        ..Columns::default()
    });
    let step = builder.next(0) - builder.local(0);
    let same = builder.constant(1) - step;
    let (there, reads) = (builder.preprocessed_next(0), builder.preprocessed_next(1));
    builder.when_transition().assert_zero(there * (step * same));
    let change = builder.next(1) - builder.local(1);
    builder.when_transition().assert_zero(reads * (same * change));
    builder.when_first_row().assert_eq(builder.local(0), builder.public_value(0));
    builder.when_last_row().assert_eq(builder.local(0), builder.public_value(1));
    builder.build()
}

pub fn example() -> Example {
    let last = vec![ACCESSES[12].0, ACCESSES[12].1];
    let mut trace: Vec<Vec<u32>> =
        ACCESSES.iter().map(|&(address, value, _)| vec![address, value]).collect();
    trace.resize(HEIGHT, last);
    Example {
        name: "memory",
        air: air(),
        public_values: vec![ACCESSES[0].0, ACCESSES[12].0],
        trace,
        parameters: parameters(1),
    }
}
