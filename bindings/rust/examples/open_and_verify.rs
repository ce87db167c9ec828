//! Opens the column 1, 3 at the point 5, and verifies the opening: prints 2013265918, which is -3,
//! and `accepted`, and then why another context and another value are refused. The point is fixed,
//! so what is accepted is the value there, and nothing of the polynomial elsewhere: `fibonacci`
//! draws its point.

use p3_fri_proved::{open, verify, Domain, Error, Matrix, Parameters};

fn main() -> Result<(), Error> {
    let parameters = Parameters { num_queries: 100, ..Parameters::toy() };
    let context = b"open_and_verify, version 1";
    let column = Matrix {
        domain: Domain::subgroup(1),
        width: 1,
        values: vec![1, 3],
        points: vec![[5, 0, 0, 0]],
    };
    let mut opening = open(&parameters, context, &[vec![column]])?;
    println!("{}", opening.claims[0].matrices[0].points[0].values[0][0]);

    let next_challenge = verify(&parameters, context, &opening.claims, &opening.proof)?;
    assert_eq!(next_challenge, opening.next_challenge);
    println!("accepted");

    if let Err(error) = verify(&parameters, b"another", &opening.claims, &opening.proof) {
        println!("{error}");
    }
    opening.claims[0].matrices[0].points[0].values[0][0] = 2013265917;
    if let Err(error) = verify(&parameters, context, &opening.claims, &opening.proof) {
        println!("{error}");
    }
    Ok(())
}
