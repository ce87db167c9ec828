//! A proof by serde: its bytes, which are a list of numbers in formats that people read. Some of
//! those, as JSON, would also take a text for its bytes.

use crate::types::Proof;
use serde::de::value::SeqAccessDeserializer;
use serde::de::{Error, SeqAccess, Visitor};
use serde::{Deserialize, Deserializer, Serialize, Serializer};
use std::fmt;

impl Serialize for Proof {
    fn serialize<S: Serializer>(&self, serializer: S) -> Result<S::Ok, S::Error> {
        if serializer.is_human_readable() {
            serializer.collect_seq(self.as_bytes())
        } else {
            serializer.serialize_bytes(self.as_bytes())
        }
    }
}

impl<'de> Deserialize<'de> for Proof {
    fn deserialize<D: Deserializer<'de>>(deserializer: D) -> Result<Proof, D::Error> {
        if deserializer.is_human_readable() {
            deserializer.deserialize_seq(ProofVisitor)
        } else {
            deserializer.deserialize_byte_buf(ProofVisitor)
        }
    }
}

struct ProofVisitor;

impl<'de> Visitor<'de> for ProofVisitor {
    type Value = Proof;

    fn expecting(&self, f: &mut fmt::Formatter<'_>) -> fmt::Result {
        f.write_str("the bytes of a proof")
    }

    fn visit_bytes<E: Error>(self, bytes: &[u8]) -> Result<Proof, E> {
        Ok(Proof::from_bytes(bytes))
    }

    fn visit_byte_buf<E: Error>(self, bytes: Vec<u8>) -> Result<Proof, E> {
        Ok(Proof::from_bytes(bytes))
    }

    fn visit_seq<A: SeqAccess<'de>>(self, numbers: A) -> Result<Proof, A::Error> {
        Vec::<u8>::deserialize(SeqAccessDeserializer::new(numbers)).map(Proof::from_bytes)
    }
}
