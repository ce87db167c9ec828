//! Transcripts and their challenges. Expected challenges are those of tools/relation, an
//! independent program, after the bytes that the transcript's page describes.

use p3_fri_proved::{challenge, Transcript, ORDER};

#[test]
fn challenges_are_known() {
    let cases: [(&[u8], [u32; 4]); 3] = [
        (b"", [1656580281, 788222061, 931621667, 1078137329]),
        (b"abc", [1224100151, 1267975166, 288258122, 1684755250]),
        (&[0xff; 100], [1886908380, 168746801, 1172395165, 910213582]),
    ];
    for (context, expected) in cases {
        assert_eq!(challenge(context), Ok(expected), "{context:?}");
    }
}

#[test]
fn a_transcript_draws_what_follows_its_bytes() {
    let mut transcript = Transcript::new(b"label");
    assert_eq!(transcript.context(), b"\0\0\0\0\0\0\0\0\x05label");
    transcript.absorb(b"public");
    assert_eq!(transcript.challenge(), Ok([4023434, 688180082, 1023027983, 1347940701]));
    transcript.absorb(&[]);
    assert_eq!(transcript.challenge(), Ok([1395129032, 171827456, 112186492, 450522341]));
    assert_eq!(transcript.challenge(), Ok([1860557005, 502020107, 1922083694, 952121896]));
    // the label, two absorbed parts and three drawn ones
    assert_eq!(transcript.context().len(), 14 + 15 + 9 + 3 * 25);
}

#[test]
fn a_challenge_depends_on_all_before_it() {
    let drawn = |label: &[u8], parts: &[&[u8]]| {
        let mut transcript = Transcript::new(label);
        for part in parts {
            transcript.absorb(part);
        }
        transcript.challenge().unwrap()
    };
    let all = [
        drawn(b"", &[]),
        drawn(b"a", &[]),
        drawn(b"", &[b"a"]),
        drawn(b"", &[b""]),
        drawn(b"", &[b"a", b"b"]),
        drawn(b"", &[b"b", b"a"]),
        drawn(b"", &[b"ab"]),
    ];
    for (index, challenge) in all.iter().enumerate() {
        assert!(challenge.iter().all(|number| *number < ORDER));
        assert!(!all[index + 1..].contains(challenge));
    }
    assert_eq!(drawn(b"a", &[b"b", b"c"]), drawn(b"a", &[b"b", b"c"]));
}

#[test]
fn a_clone_goes_on_by_itself() {
    let mut transcript = Transcript::new(b"label");
    let mut clone = transcript.clone();
    assert_eq!(transcript.challenge(), clone.challenge());
    clone.absorb(b"more");
    assert_ne!(transcript, clone);
    assert_ne!(transcript.challenge(), clone.challenge());
}

/// It may be long: this takes about half a second.
#[test]
fn a_context_may_be_long() {
    let context = vec![0x5a; 1 << 20];
    assert_ne!(challenge(&context), challenge(&context[1..]));
}
