//! SHA-256 and HMAC in plain Rust, and HMAC of a 32-byte key and an 8-byte message by itself: constant tables,
//! eight rounds a turn, and nothing allocated.

use crate::library::{Digest, RootFingerprint};

const K: [u32; 64] = [
    0x428a2f98, 0x71374491, 0xb5c0fbcf, 0xe9b5dba5, 0x3956c25b, 0x59f111f1, 0x923f82a4, 0xab1c5ed5,
    0xd807aa98, 0x12835b01, 0x243185be, 0x550c7dc3, 0x72be5d74, 0x80deb1fe, 0x9bdc06a7, 0xc19bf174,
    0xe49b69c1, 0xefbe4786, 0x0fc19dc6, 0x240ca1cc, 0x2de92c6f, 0x4a7484aa, 0x5cb0a9dc, 0x76f988da,
    0x983e5152, 0xa831c66d, 0xb00327c8, 0xbf597fc7, 0xc6e00bf3, 0xd5a79147, 0x06ca6351, 0x14292967,
    0x27b70a85, 0x2e1b2138, 0x4d2c6dfc, 0x53380d13, 0x650a7354, 0x766a0abb, 0x81c2c92e, 0x92722c85,
    0xa2bfe8a1, 0xa81a664b, 0xc24b8b70, 0xc76c51a3, 0xd192e819, 0xd6990624, 0xf40e3585, 0x106aa070,
    0x19a4c116, 0x1e376c08, 0x2748774c, 0x34b0bcb5, 0x391c0cb3, 0x4ed8aa4a, 0x5b9cca4f, 0x682e6ff3,
    0x748f82ee, 0x78a5636f, 0x84c87814, 0x8cc70208, 0x90befffa, 0xa4506ceb, 0xbef9a3f7, 0xc67178f2,
];

const START: [u32; 8] =
    [0x6a09e667, 0xbb67ae85, 0x3c6ef372, 0xa54ff53a, 0x510e527f, 0x9b05688c, 0x1f83d9ab, 0x5be0cd19];

/// One round with the state's words under the names that they have in it, `$kw` the round word and the
/// schedule's word together.
macro_rules! round {
    ($a:ident, $b:ident, $c:ident, $d:ident, $e:ident, $f:ident, $g:ident, $h:ident, $kw:expr) => {
        let s1 = $e.rotate_right(6) ^ $e.rotate_right(11) ^ $e.rotate_right(25);
        let t1 = $h.wrapping_add(s1).wrapping_add($g ^ ($e & ($f ^ $g))).wrapping_add($kw);
        let s0 = $a.rotate_right(2) ^ $a.rotate_right(13) ^ $a.rotate_right(22);
        $d = $d.wrapping_add(t1);
        $h = t1.wrapping_add(s0).wrapping_add(($a & $b) | ($c & ($a | $b)));
    };
}

fn compress(state: &mut [u32; 8], block: &[u32; 16]) {
    let mut w = [0; 64];
    w[..16].copy_from_slice(block);
    for t in 16..64 {
        let s0 = w[t - 15].rotate_right(7) ^ w[t - 15].rotate_right(18) ^ (w[t - 15] >> 3);
        let s1 = w[t - 2].rotate_right(17) ^ w[t - 2].rotate_right(19) ^ (w[t - 2] >> 10);
        w[t] = s1.wrapping_add(w[t - 7]).wrapping_add(s0).wrapping_add(w[t - 16]);
    }
    let [mut a, mut b, mut c, mut d, mut e, mut f, mut g, mut h] = *state;
    for t in (0..64).step_by(8) {
        round!(a, b, c, d, e, f, g, h, K[t].wrapping_add(w[t]));
        round!(h, a, b, c, d, e, f, g, K[t + 1].wrapping_add(w[t + 1]));
        round!(g, h, a, b, c, d, e, f, K[t + 2].wrapping_add(w[t + 2]));
        round!(f, g, h, a, b, c, d, e, K[t + 3].wrapping_add(w[t + 3]));
        round!(e, f, g, h, a, b, c, d, K[t + 4].wrapping_add(w[t + 4]));
        round!(d, e, f, g, h, a, b, c, K[t + 5].wrapping_add(w[t + 5]));
        round!(c, d, e, f, g, h, a, b, K[t + 6].wrapping_add(w[t + 6]));
        round!(b, c, d, e, f, g, h, a, K[t + 7].wrapping_add(w[t + 7]));
    }
    for (word, more) in state.iter_mut().zip([a, b, c, d, e, f, g, h]) {
        *word = word.wrapping_add(more);
    }
}

fn word(bytes: &[u8]) -> u32 {
    u32::from_be_bytes([bytes[0], bytes[1], bytes[2], bytes[3]])
}

fn compress_bytes(state: &mut [u32; 8], block: &[u8]) {
    compress(state, &std::array::from_fn(|t| word(&block[4 * t..])));
}

fn digest(state: [u32; 8]) -> [u8; 32] {
    let mut digest = [0; 32];
    for (bytes, word) in digest.chunks_exact_mut(4).zip(state) {
        bytes.copy_from_slice(&word.to_be_bytes());
    }
    digest
}

/// The digest of so many bytes that the state has taken in, a multiple of 64, and of the message.
fn finish(mut state: [u32; 8], before: usize, message: &[u8]) -> [u8; 32] {
    let blocks = message.chunks_exact(64);
    let rest = blocks.remainder();
    blocks.for_each(|block| compress_bytes(&mut state, block));
    let mut last = [0; 128];
    last[..rest.len()].copy_from_slice(rest);
    last[rest.len()] = 0x80;
    let end = if rest.len() < 56 { 64 } else { 128 };
    last[end - 8..end].copy_from_slice(&(8 * (before + message.len()) as u64).to_be_bytes());
    last[..end].chunks_exact(64).for_each(|block| compress_bytes(&mut state, block));
    digest(state)
}

const LIMIT: usize = 65_536;

pub fn sha256(message: &[u8]) -> Digest {
    if message.len() > LIMIT {
        return Digest { refusal: 21, bytes: [0; 32] };
    }
    Digest { refusal: 0, bytes: finish(START, 0, message) }
}

pub fn hmac_sha256(key: &[u8], message: &[u8]) -> Digest {
    if key.len().max(message.len()) > LIMIT {
        return Digest { refusal: 21, bytes: [0; 32] };
    }
    let mut block = [0; 64];
    match key.len() {
        0..=64 => block[..key.len()].copy_from_slice(key),
        _ => block[..32].copy_from_slice(&finish(START, 0, key)),
    }
    let padded = |pad: u8| {
        let mut state = START;
        compress_bytes(&mut state, &block.map(|byte| byte ^ pad));
        state
    };
    let inner = finish(padded(0x36), 64, message);
    Digest { refusal: 0, bytes: finish(padded(0x5c), 64, &inner) }
}

pub fn fingerprint(root: &[u8]) -> RootFingerprint {
    if root.len() != 32 {
        return RootFingerprint { refusal: 15, bytes: [0; 8] };
    }
    let mac = hmac_sha256(root, b"Yendlowa root fingerprint").bytes;
    RootFingerprint { refusal: 0, bytes: std::array::from_fn(|i| mac[i]) }
}

/// The state after the padded key's block, and then after a last block: a message's words, the end bit, and the
/// length in bits of the whole.
fn keyed(key: &[u32; 8], pad: u32, message: &[u32]) -> [u32; 8] {
    let mut state = START;
    let mut block = [pad; 16];
    for (word, of_key) in block.iter_mut().zip(key) {
        *word ^= of_key;
    }
    compress(&mut state, &block);
    let mut last = [0; 16];
    last[..message.len()].copy_from_slice(message);
    last[message.len()] = 0x8000_0000;
    last[15] = 8 * (64 + 4 * message.len() as u32);
    compress(&mut state, &last);
    state
}

/// F of document 01: HMAC-SHA-256 of a secret and a name.
pub fn mac(secret: &[u8; 32], name: &[u8; 8]) -> [u8; 32] {
    let mut key = [0; 8];
    for (of_key, bytes) in key.iter_mut().zip(secret.chunks_exact(4)) {
        *of_key = word(bytes);
    }
    let inner = keyed(&key, 0x3636_3636, &[word(&name[..4]), word(&name[4..])]);
    digest(keyed(&key, 0x5c5c_5c5c, &inner))
}
