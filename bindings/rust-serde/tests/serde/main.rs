//! What is passed and answered, by serde: in JSON, and a proof in a binary format too.

mod binary;

use p3_fri_proved::{
    hiding, open, verify, CommitmentClaims, Domain, Error, Fault, Matrix, MatrixClaims, Opening,
    Parameters, PointClaims, Proof,
};
use serde::de::value::BytesDeserializer;
use serde::{Deserialize, Serialize};
use serde_json::{from_value, json, to_value, Value};
use std::fmt::Debug;

const PARAMETERS: Parameters = Parameters { num_queries: 2, ..Parameters::toy() };

/// The column 1, 3 on the domain 1, -1: the polynomial 2 - X. Opened at 5.
fn column() -> Matrix {
    Matrix { domain: Domain::subgroup(1), width: 1, values: vec![1, 3], points: vec![[5, 0, 0, 0]] }
}

/// Another form of each record, with no number twice.
fn opening() -> Opening {
    let commitment = std::array::from_fn(|index| 200 + index as u8);
    let low = PointClaims { point: [1, 2, 3, 4], values: vec![[5, 6, 7, 8], [9, 10, 11, 12]] };
    let high = PointClaims { point: [13, 14, 15, 16], values: vec![] };
    let domain = Domain { shift: 31, log_size: 17 };
    let matrices = vec![MatrixClaims { domain, points: vec![low, high] }];
    Opening {
        claims: vec![CommitmentClaims { commitment, matrices }],
        proof: Proof::from_bytes([18, 0, 255]),
        next_challenge: [19, 20, 21, 2013265920],
    }
}

fn in_json() -> Value {
    let commitment: Vec<u8> = (200..232).collect();
    let low = json!({ "point": [1, 2, 3, 4], "values": [[5, 6, 7, 8], [9, 10, 11, 12]] });
    let high = json!({ "point": [13, 14, 15, 16], "values": [] });
    let domain = json!({ "shift": 31, "log_size": 17 });
    let matrices = json!([{ "domain": domain, "points": [low, high] }]);
    json!({
        "claims": [{ "commitment": commitment, "matrices": matrices }],
        "proof": [18, 0, 255],
        "next_challenge": [19, 20, 21, 2013265920],
    })
}

/// It is written so, and read back from there and from a text.
fn assert_json<T: Serialize + for<'de> Deserialize<'de> + PartialEq + Debug>(it: &T, json: Value) {
    assert_eq!(to_value(it).unwrap(), json);
    let text = serde_json::to_string(it).unwrap();
    assert_eq!(serde_json::from_str::<T>(&text).unwrap(), *it);
    assert_eq!(from_value::<T>(json).unwrap(), *it);
}

#[test]
fn records_are_read_back() {
    assert_json(&opening(), in_json());
    let parameters = Parameters {
        log_blowup: 1,
        log_final_poly_len: 2,
        max_log_arity: 3,
        num_queries: 4,
        batch_proof_of_work_bits: 5,
        commit_proof_of_work_bits: 6,
        query_proof_of_work_bits: 7,
    };
    let expected = json!({
        "log_blowup": 1,
        "log_final_poly_len": 2,
        "max_log_arity": 3,
        "num_queries": 4,
        "batch_proof_of_work_bits": 5,
        "commit_proof_of_work_bits": 6,
        "query_proof_of_work_bits": 7,
    });
    assert_json(&parameters, expected);
    let expected = json!({
        "domain": { "shift": 1, "log_size": 1 },
        "width": 1,
        "values": [1, 3],
        "points": [[5, 0, 0, 0]],
    });
    assert_json(&column(), expected);
}

#[test]
fn a_proof_is_bytes_in_a_binary_format() {
    for bytes in [&[] as &[u8], &[0], &[255, 7, 7, 0, 128]] {
        let proof = Proof::from_bytes(bytes);
        assert_eq!(proof.serialize(binary::Writer), Ok(bytes.to_vec()));
        assert_eq!(Proof::deserialize(binary::Reader(bytes)), Ok(proof.clone()));
        // some formats give bytes where a list is asked for
        let given = BytesDeserializer::<binary::Error>::new(bytes);
        assert_eq!(Proof::deserialize(given), Ok(proof));
    }
}

/// The record with another value at this place of its JSON.
fn with(mut json: Value, place: &str, value: Value) -> Value {
    *json.pointer_mut(place).unwrap() = value;
    json
}

#[test]
fn what_has_no_form_is_an_error() {
    let point = "/claims/0/matrices/0/points/0/point";
    let shift = "/claims/0/matrices/0/domain/shift";
    let cases = [
        ("/proof", json!([18, 0, 256]), "256"),
        ("/proof", json!([18, -1]), "-1"),
        ("/proof", json!({}), "the bytes of a proof"),
        ("/proof", json!("1200ff"), "the bytes of a proof"),
        ("/claims/0/commitment", json!(vec![7; 31]), "length 31"),
        ("/claims/0/commitment/31", json!(256), "256"),
        ("/next_challenge", json!([1, 2, 3]), "length 3"),
        (point, json!([1, 2, 3, 4, 5]), "length 5"),
        (point, json!([1, 2, 3, 1u64 << 32]), "4294967296"),
        (shift, json!(-1), "-1"),
        (shift, json!(0.5), "0.5"),
        (shift, json!("1"), "u32"),
    ];
    for (place, value, says) in cases {
        let json = with(in_json(), place, value);
        let error = from_value::<Opening>(json.clone()).unwrap_err().to_string();
        assert!(error.contains(says), "{place}: {error}");
        serde_json::from_str::<Opening>(&json.to_string()).unwrap_err();
    }
}

#[test]
fn no_field_may_be_missing() {
    let json = to_value(PARAMETERS).unwrap();
    for name in json.as_object().unwrap().keys() {
        let mut less = json.clone();
        less.as_object_mut().unwrap().remove(name);
        let error = from_value::<Parameters>(less).unwrap_err().to_string();
        assert_eq!(error, format!("missing field `{name}`"));
    }
    assert_eq!(json.as_object().unwrap().len(), 7);
}

fn malformed<T>(result: Result<T, Error>) -> Option<Fault> {
    match result {
        Err(Error::Malformed { fault, .. }) => Some(fault),
        _ => None,
    }
}

#[test]
fn what_is_sent_is_verified() {
    let parameters = serde_json::from_value(to_value(PARAMETERS).unwrap()).unwrap();
    let matrix = serde_json::from_value(to_value(column()).unwrap()).unwrap();
    let opening = open(&parameters, b"serde", &[vec![matrix]]).unwrap();
    let sent = serde_json::to_string(&opening).unwrap();
    let read: Opening = serde_json::from_str(&sent).unwrap();
    assert_eq!(read, opening);
    let next_challenge = verify(&PARAMETERS, b"serde", &read.claims, &read.proof);
    assert_eq!(next_challenge, Ok(opening.next_challenge));
}

#[test]
fn what_is_hidden_is_sent_and_verified() {
    let column = Matrix { domain: Domain::subgroup(5), values: (0..32).collect(), ..column() };
    let masking = hiding::Masking { num_random_codewords: 4, seed: [7; 32] };
    let opening = hiding::open(&PARAMETERS, b"serde", &masking, None, &[vec![column]]).unwrap();
    let sent = serde_json::to_string(&opening).unwrap();
    let read: Opening = serde_json::from_str(&sent).unwrap();
    assert_eq!(read, opening);
    let next = hiding::verify(&PARAMETERS, b"serde", 4, None, &read.claims, &read.proof);
    assert_eq!(next, Ok(opening.next_challenge));
}

/// Where what is wrong stands in the JSON of an opening, what stands there, and its name.
#[test]
fn what_is_out_of_range_is_refused_by_name() {
    let matrix = "/claims/0/matrices/0";
    let json = to_value(open(&PARAMETERS, b"", &[vec![column()]]).unwrap()).unwrap();
    let cases = [
        ("/domain/shift", json!(0), Fault::Shift),
        ("/domain/shift", json!(2013265921), Fault::Shift),
        ("/domain/log_size", json!(28), Fault::LogSize),
        ("/points/0/point/3", json!(2013265921), Fault::Element),
        ("/points/0/values/0/0", json!(u32::MAX), Fault::Element),
    ];
    for (place, value, fault) in cases {
        let changed = with(json.clone(), &format!("{matrix}{place}"), value);
        let read: Opening = from_value(changed).unwrap();
        let refused = verify(&PARAMETERS, b"", &read.claims, &read.proof);
        assert_eq!(malformed(refused), Some(fault), "{place}");
    }
    let bytes = json["proof"].as_array().unwrap();
    let longer = [&bytes[..], &[json!(0)]].concat();
    let out_of_range = [&[json!(255), json!(255), json!(255), json!(255)], &bytes[4..]].concat();
    let cases = [
        (vec![], Fault::BytesMissing),
        (bytes[..bytes.len() - 1].to_vec(), Fault::BytesMissing),
        (longer, Fault::BytesLeft),
        (out_of_range, Fault::Element),
    ];
    for (proof, fault) in cases {
        let read: Opening = from_value(with(json.clone(), "/proof", json!(proof))).unwrap();
        let refused = verify(&PARAMETERS, b"", &read.claims, &read.proof);
        assert_eq!(malformed(refused), Some(fault));
    }
}
