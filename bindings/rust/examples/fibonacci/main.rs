//! Proves that a number is a Fibonacci number modulo the order: the last of a table with a column
//! of numbers and one of their successors. Neither side takes a challenge or a point from the
//! other:
//!
//! 1. what is public is absorbed, the table is committed to, and the commitment is absorbed;
//! 2. alpha is drawn, by which the constraints become one quotient, which is committed to, and its
//!    commitment absorbed;
//! 3. zeta is drawn, and both are opened there, the table at the next row's point too;
//! 4. the verifier absorbs and draws the same, verifies the openings, and tests the identity at
//!    zeta.
//!
//! Prints the number, `accepted`, and why a changed commitment, another number and a table that
//! doesn't end with the number are refused.

mod field;

use crate::field::{interpolated, value_at, Element, GENERATOR};
use p3_fri_proved::{
    commit, open, verify, CommitmentClaims, Digest, Domain, Error, ExtensionElement, Matrix,
    MatrixClaims, Parameters, PointClaims, Proof, Transcript,
};

/// Those of the verifier: 100 bits by the conjecture, and a proof of work that takes no time.
const PARAMETERS: Parameters = Parameters {
    log_blowup: 2,
    num_queries: 45,
    query_proof_of_work_bits: 10,
    ..Parameters::toy()
};

/// What is claimed: from the row 0, 1 on, where each next row is `b, a + b`, the last of
/// `2^log_rows` rows ends with the result.
#[derive(Clone, Copy)]
struct Statement {
    log_rows: u32,
    result: u32,
}

/// What is sent.
#[derive(Clone)]
struct Sent {
    table: Digest,
    quotient: Digest,
    row: Vec<ExtensionElement>,
    next_row: Vec<ExtensionElement>,
    quotient_value: Vec<ExtensionElement>,
    proof: Proof,
}

/// Why a statement isn't accepted.
#[derive(Debug)]
enum Refused {
    Opening(Error),
    Identity,
}

impl From<Error> for Refused {
    fn from(error: Error) -> Refused {
        Refused::Opening(error)
    }
}

impl Statement {
    fn rows(&self) -> u128 {
        1 << self.log_rows
    }

    /// The rows stand at the powers of a root of unity.
    fn table_domain(&self) -> Domain {
        Domain::subgroup(self.log_rows)
    }

    /// The quotient is no quotient of numbers at the rows' points, so it is taken elsewhere.
    fn quotient_domain(&self) -> Domain {
        Domain { shift: GENERATOR.0[0], log_size: self.log_rows }
    }

    /// The transcript before the first commitment: all that is public. Parameters and domains are
    /// absorbed by the opening itself.
    fn transcript(&self) -> Transcript {
        let mut transcript = Transcript::new(b"p3-fri-proved, example fibonacci, version 1");
        transcript.absorb(&self.log_rows.to_le_bytes());
        transcript.absorb(&self.result.to_le_bytes());
        transcript
    }

    /// The constraints' quotients at a point that is no row's, as one sum in powers of alpha. Each
    /// is a polynomial exactly where its constraint holds at the rows that it speaks of.
    fn combined(
        &self,
        alpha: Element,
        point: Element,
        [a, b]: [Element; 2],
        [next_a, next_b]: [Element; 2],
    ) -> Element {
        let from_first = point - Element::ONE;
        let from_last = point - Element::ONE / Element::root(self.log_rows);
        let from_all = point.power(self.rows()) - Element::ONE;
        let quotients = [
            a / from_first,
            (b - Element::ONE) / from_first,
            (next_a - b) * from_last / from_all,
            (next_b - a - b) * from_last / from_all,
            (b - Element::of(self.result)) / from_last,
        ];
        value_at(&quotients, alpha)
    }
}

/// The columns of the table.
fn columns(log_rows: u32) -> [Vec<Element>; 2] {
    let (mut a, mut b) = (vec![Element::ZERO], vec![Element::ONE]);
    for row in 1..1 << log_rows {
        let (last_a, last_b) = (a[row - 1], b[row - 1]);
        a.push(last_b);
        b.push(last_a + last_b);
    }
    [a, b]
}

/// The table as it is committed to.
fn table(statement: &Statement, [a, b]: &[Vec<Element>; 2]) -> Matrix {
    let values = a.iter().zip(b).flat_map(|(a, b)| [a.0[0], b.0[0]]).collect();
    Matrix { domain: statement.table_domain(), width: 2, values, points: vec![] }
}

/// The quotient as it is committed to: a column for each coefficient of its values.
fn quotient(statement: &Statement, columns: &[Vec<Element>; 2], alpha: Element) -> Matrix {
    let coefficients = [interpolated(&columns[0]), interpolated(&columns[1])];
    let row_at = |point| [0, 1].map(|column: usize| value_at(&coefficients[column], point));
    let step = Element::root(statement.log_rows);
    let mut values = vec![];
    let mut point = GENERATOR;
    for _ in 0..statement.rows() {
        let value = statement.combined(alpha, point, row_at(point), row_at(point * step));
        values.extend(value.0);
        point = point * step;
    }
    Matrix { domain: statement.quotient_domain(), width: 4, values, points: vec![] }
}

fn prove(statement: &Statement, columns: &[Vec<Element>; 2]) -> Result<Sent, Error> {
    let mut transcript = statement.transcript();
    let mut table = table(statement, columns);
    let table_commitment = commit(&PARAMETERS, &[vec![table.clone()]])?[0];
    transcript.absorb(&table_commitment);
    let alpha = Element(transcript.challenge()?);

    let mut quotient = quotient(statement, columns, alpha);
    let quotient_commitment = commit(&PARAMETERS, &[vec![quotient.clone()]])?[0];
    transcript.absorb(&quotient_commitment);
    let zeta = Element(transcript.challenge()?);

    table.points = vec![zeta.0, (zeta * Element::root(statement.log_rows)).0];
    quotient.points = vec![zeta.0];
    let opening = open(&PARAMETERS, transcript.context(), &[vec![table], vec![quotient]])?;
    // an opening commits anew, to the same
    let [of_table, of_quotient] = &opening.claims[..] else { unreachable!() };
    assert_eq!(of_table.commitment, table_commitment);
    assert_eq!(of_quotient.commitment, quotient_commitment);
    Ok(Sent {
        table: table_commitment,
        quotient: quotient_commitment,
        row: of_table.matrices[0].points[0].values.clone(),
        next_row: of_table.matrices[0].points[1].values.clone(),
        quotient_value: of_quotient.matrices[0].points[0].values.clone(),
        proof: opening.proof,
    })
}

/// The claims that the values sent are those at the points drawn, under the commitments absorbed.
fn claims(statement: &Statement, sent: &Sent, zeta: Element) -> [CommitmentClaims; 2] {
    let claims = |commitment, domain, points| CommitmentClaims {
        commitment,
        matrices: vec![MatrixClaims { domain, points }],
    };
    let at = |point: Element, values: &[ExtensionElement]| PointClaims {
        point: point.0,
        values: values.to_vec(),
    };
    let next = zeta * Element::root(statement.log_rows);
    let of_table = vec![at(zeta, &sent.row), at(next, &sent.next_row)];
    let of_quotient = vec![at(zeta, &sent.quotient_value)];
    [
        claims(sent.table, statement.table_domain(), of_table),
        claims(sent.quotient, statement.quotient_domain(), of_quotient),
    ]
}

/// The pair of values of a row. Claims of another width say nothing of the table.
fn pair(values: &[ExtensionElement]) -> Result<[Element; 2], Refused> {
    match values {
        [a, b] => Ok([Element(*a), Element(*b)]),
        _ => Err(Refused::Identity),
    }
}

fn accept(statement: &Statement, sent: &Sent) -> Result<(), Refused> {
    let mut transcript = statement.transcript();
    transcript.absorb(&sent.table);
    let alpha = Element(transcript.challenge()?);
    transcript.absorb(&sent.quotient);
    let zeta = Element(transcript.challenge()?);
    let claims = claims(statement, sent, zeta);
    verify(&PARAMETERS, transcript.context(), &claims, &sent.proof)?;

    let (row, next_row) = (pair(&sent.row)?, pair(&sent.next_row)?);
    // the value of the quotient, of those of its coefficients' columns
    let basis = [[1, 0, 0, 0], [0, 1, 0, 0], [0, 0, 1, 0], [0, 0, 0, 1]].map(Element);
    if sent.quotient_value.len() != basis.len() {
        return Err(Refused::Identity);
    }
    let terms = sent.quotient_value.iter().zip(basis).map(|(value, power)| Element(*value) * power);
    let quotient_value = terms.fold(Element::ZERO, |sum, term| sum + term);
    let is_row = zeta.power(statement.rows()) == Element::ONE;
    if is_row || statement.combined(alpha, zeta, row, next_row) != quotient_value {
        return Err(Refused::Identity);
    }
    Ok(())
}

fn main() -> Result<(), Error> {
    let columns = columns(3);
    let statement = Statement { log_rows: 3, result: columns[1][7].0[0] };
    println!("{}", statement.result);
    let sent = prove(&statement, &columns)?;
    print(accept(&statement, &sent));

    let mut changed = sent.clone();
    changed.table[0] ^= 1;
    print(accept(&statement, &changed));

    let false_statement = Statement { result: statement.result + 1, ..statement };
    print(accept(&false_statement, &sent));

    // the opening of what was committed to is right, and the identity isn't
    let sent = prove(&false_statement, &columns)?;
    print(accept(&false_statement, &sent));
    Ok(())
}

fn print(outcome: Result<(), Refused>) {
    match outcome {
        Ok(()) => println!("accepted"),
        Err(Refused::Opening(error)) => println!("refused: {error}"),
        Err(Refused::Identity) => println!("refused: the identity doesn't hold"),
    }
}

#[cfg(test)]
mod tests {
    use super::*;

    #[test]
    fn a_true_statement_is_accepted_and_no_other() {
        for log_rows in [1, 3] {
            let columns = columns(log_rows);
            let result = columns[1].last().unwrap().0[0];
            let statement = Statement { log_rows, result };
            let sent = prove(&statement, &columns).unwrap();
            accept(&statement, &sent).unwrap();

            let other = Statement { result: result + 1, ..statement };
            assert!(matches!(accept(&other, &sent), Err(Refused::Opening(_))));
            let sent = prove(&other, &columns).unwrap();
            assert!(matches!(accept(&other, &sent), Err(Refused::Identity)));
        }
    }

    /// Each part of what is sent, changed by itself.
    #[test]
    fn a_changed_part_is_refused() {
        let columns = columns(3);
        let statement = Statement { log_rows: 3, result: 21 };
        let sent = prove(&statement, &columns).unwrap();
        accept(&statement, &sent).unwrap();
        let changes: [fn(&mut Sent); 8] = [
            |sent| sent.table[31] ^= 1,
            |sent| sent.quotient[0] ^= 0x80,
            |sent| std::mem::swap(&mut sent.table, &mut sent.quotient),
            |sent| sent.row[0][0] ^= 1,
            |sent| sent.next_row[1][3] ^= 1,
            |sent| sent.quotient_value[2][1] ^= 1,
            |sent| sent.row.push([0; 4]),
            |sent| sent.quotient_value.truncate(3),
        ];
        for (index, change) in changes.into_iter().enumerate() {
            let mut changed = sent.clone();
            change(&mut changed);
            let refused = accept(&statement, &changed);
            assert!(matches!(refused, Err(Refused::Opening(_))), "change {index}");
        }
    }

    #[test]
    fn a_wrong_table_is_refused() {
        let mut columns = columns(3);
        let result = columns[1][7].0[0];
        columns[0][4] = Element::of(4);
        let statement = Statement { log_rows: 3, result };
        let sent = prove(&statement, &columns).unwrap();
        assert!(matches!(accept(&statement, &sent), Err(Refused::Identity)));
    }

    #[test]
    fn the_field_divides() {
        let element = Element([1, 2013265920, 3, 5]);
        assert_eq!(element * Element([0, 1, 0, 0]), Element([55, 1, 2013265920, 3]));
        assert_eq!(element * GENERATOR / element, GENERATOR);
        assert_eq!(element + (GENERATOR - element), GENERATOR);
        assert_eq!(Element::root(1), Element::of(2013265920));
        let column = [3, 1, 4, 1].map(Element::of);
        let coefficients = interpolated(&column);
        assert_eq!(value_at(&coefficients, Element::root(2).power(2)), column[2]);
    }
}
