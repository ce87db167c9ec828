//! Four constraint systems with traces that satisfy them: those of examples/stark in the
//! repository.

mod fibonacci;
mod memory;
mod permutation;
mod range_check;

use p3_fri_proved::stark::Air;
use p3_fri_proved::Parameters;

/// The number of rows: with four queries the least at which the hiding scheme opens a trace.
const HEIGHT: usize = 32;

/// A system, a trace that satisfies it, and the parameters by which it is proved: so few queries
/// that it takes no time, and gives no security.
pub struct Example {
    pub name: &'static str,
    pub air: Air,
    pub trace: Vec<Vec<u32>>,
    pub public_values: Vec<u32>,
    pub parameters: Parameters,
}

/// Parameters with this blowup.
fn parameters(log_blowup: u32) -> Parameters {
    Parameters {
        log_blowup,
        max_log_arity: 2,
        num_queries: 4,
        query_proof_of_work_bits: 2,
        ..Parameters::toy()
    }
}

/// All of them.
pub fn examples() -> [Example; 4] {
    [fibonacci::example(), range_check::example(), permutation::example(), memory::example()]
}
