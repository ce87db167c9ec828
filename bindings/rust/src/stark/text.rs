//! Systems, traces and public values in JSON, in the form of docs/FORMATS.md.

use crate::stark::air::{Air, Constraint, Node, Where};
use crate::types::{Element, Parameters};

/// Entries in brackets.
fn list<T>(entries: &[T], text: impl Fn(&T) -> String) -> String {
    let entries: Vec<String> = entries.iter().map(text).collect();
    format!("[{}]", entries.join(","))
}

/// Lists of numbers in brackets.
fn rows<R: AsRef<[Element]>>(rows: &[R]) -> String {
    list(rows, |row| list(row.as_ref(), Element::to_string))
}

fn node(node: &Node) -> String {
    let (kind, operands) = match *node {
        Node::Constant(number) => ("constant", number.to_string()),
        Node::Local(column) => ("local", column.to_string()),
        Node::Next(column) => ("next", column.to_string()),
        Node::Preprocessed(column) => ("preprocessed", column.to_string()),
        Node::PreprocessedNext(column) => ("preprocessed_next", column.to_string()),
        Node::Public(index) => ("public", index.to_string()),
        Node::Periodic(column) => ("periodic", column.to_string()),
        Node::Add(left, right) => ("add", format!("[{left},{right}]")),
        Node::Sub(left, right) => ("sub", format!("[{left},{right}]")),
        Node::Mul(left, right) => ("mul", format!("[{left},{right}]")),
        Node::Neg(operand) => ("neg", operand.to_string()),
    };
    format!("{{\"{kind}\":{operands}}}")
}

fn constraint(constraint: &Constraint) -> String {
    let rows = match constraint.rows {
        Where::All => "all",
        Where::First => "first",
        Where::Last => "last",
        Where::Transition => "transition",
    };
    format!("{{\"rows\":\"{rows}\",\"node\":{}}}", constraint.node)
}

fn parameters_text(it: &Parameters) -> String {
    format!(
        "{{\"log_blowup\":{},\"log_final_poly_len\":{},\"max_log_arity\":{},\"num_queries\":{},\
         \"batch_proof_of_work_bits\":{},\"commit_proof_of_work_bits\":{},\
         \"query_proof_of_work_bits\":{}}}",
        it.log_blowup,
        it.log_final_poly_len,
        it.max_log_arity,
        it.num_queries,
        it.batch_proof_of_work_bits,
        it.commit_proof_of_work_bits,
        it.query_proof_of_work_bits
    )
}

fn air_text(air: &Air) -> String {
    format!(
        "{{\"layout\":{{\"width\":{},\"preprocessed_width\":{},\"num_public_values\":{},\
         \"num_periodic_columns\":{}}},\"nodes\":{},\"constraints\":{}}}",
        air.columns.width,
        air.columns.preprocessed.first().map_or(0, Vec::len),
        air.columns.num_public_values,
        air.columns.periodic.len(),
        list(&air.nodes, node),
        list(&air.constraints, constraint)
    )
}

/// A field of lists of numbers, which is left out where there are none.
fn lists_field(name: &str, lists: &[Vec<Element>]) -> String {
    if lists.is_empty() {
        return String::new();
    }
    format!(",\"{name}\":{}", rows(lists))
}

/// A system with the parameters by which it is proved.
pub(super) fn system(air: &Air, parameters: &Parameters, num_random_codewords: u32) -> String {
    format!(
        "{{\"parameters\":{},\"num_random_codewords\":{num_random_codewords},\"air\":{}{}{}}}",
        parameters_text(parameters),
        air_text(air),
        lists_field("preprocessed", &air.columns.preprocessed),
        lists_field("periodic", &air.columns.periodic)
    )
}

/// A trace with its public values.
pub(super) fn trace<R: AsRef<[Element]>>(trace: &[R], public_values: &[Element]) -> String {
    format!(
        "{{\"public_values\":{},\"trace\":{}}}",
        list(public_values, Element::to_string),
        rows(trace)
    )
}

/// Public values.
pub(super) fn public_values(public_values: &[Element]) -> String {
    format!("{{\"public_values\":{}}}", list(public_values, Element::to_string))
}

#[cfg(test)]
mod tests {
    use super::air_text;
    use crate::stark::{AirBuilder, Columns};

    #[test]
    fn each_kind_of_node_and_constraint_has_its_form() {
        let builder = AirBuilder::new(Columns {
            width: 3,
            num_public_values: 1,
            preprocessed: vec![vec![1, 2]],
            periodic: vec![vec![5]],
        });
        let a = builder.constant(7) * builder.local(2) + builder.next(1);
        let b = builder.preprocessed(1) - builder.preprocessed_next(0);
        builder.assert_zero(-a);
        builder.when_first_row().assert_zero(b);
        builder.when_last_row().assert_zero(builder.public_value(0));
        builder.when_transition().assert_zero(builder.periodic(0));
        let expected = "{\"layout\":{\"width\":3,\"preprocessed_width\":2,\"num_public_values\":1,\
             \"num_periodic_columns\":1},\"nodes\":[{\"constant\":7},{\"local\":2},{\"mul\":[0,1]},\
             {\"next\":1},{\"add\":[2,3]},{\"preprocessed\":1},{\"preprocessed_next\":0},\
             {\"sub\":[5,6]},{\"neg\":4},{\"public\":0},{\"periodic\":0}],\"constraints\":[\
             {\"rows\":\"all\",\"node\":8},{\"rows\":\"first\",\"node\":7},\
             {\"rows\":\"last\",\"node\":9},{\"rows\":\"transition\",\"node\":10}]}";
        assert_eq!(air_text(&builder.build()), expected);
    }
}
