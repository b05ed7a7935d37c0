//! Fingerprints of root secrets: the first 8 bytes of an HMAC under them.

use crate::group::{hex, Answers, Group};
use crate::ours;
use crate::random::Random;
use crate::sha256::Sha256;

const TEXT: &[u8] = b"Yendlowa root fingerprint";

/// What the second implementation answers.
pub fn fingerprint(hash: &Sha256, root: &[u8]) -> Result<[u8; 8], u8> {
    match root.len() {
        32 => Ok(std::array::from_fn(|i| hash.mac(root, TEXT)[i])),
        _ => Err(15),
    }
}

/// Roots of every length up to 40 bytes and of some longer ones, then roots of 32 bytes.
pub fn groups(random: &mut Random, hash: &Sha256) -> Vec<bool> {
    let mut group = Group::new("fingerprints of root secrets, of every length up to 40 and at random");
    let mut answers = Answers::default();
    let lengths = (0..=40).chain([63, 64, 65, 128, 4096, 70_000]).chain([32; 1000]);
    for length in lengths {
        let root = random.bytes(length);
        let expected = fingerprint(hash, &root);
        answers.add(expected.err().unwrap_or(0), 1);
        group.case(|| hex(&root), ours::fingerprint(&root), expected);
    }
    vec![group.report(&answers.text())]
}
