//! Module files sealed and opened in plain Rust: RFC 8439 block by block, Poly1305 in five limbs of 26 bits, and
//! nothing allocated.

use crate::envelope;
use crate::library::Written;

const LONGEST: usize = 32_768;
const MORE: usize = 38;

macro_rules! quarter {
    ($s:ident, $a:expr, $b:expr, $c:expr, $d:expr) => {
        $s[$a] = $s[$a].wrapping_add($s[$b]);
        $s[$d] = ($s[$d] ^ $s[$a]).rotate_left(16);
        $s[$c] = $s[$c].wrapping_add($s[$d]);
        $s[$b] = ($s[$b] ^ $s[$c]).rotate_left(12);
        $s[$a] = $s[$a].wrapping_add($s[$b]);
        $s[$d] = ($s[$d] ^ $s[$a]).rotate_left(8);
        $s[$c] = $s[$c].wrapping_add($s[$d]);
        $s[$b] = ($s[$b] ^ $s[$c]).rotate_left(7);
    };
}

fn word(bytes: &[u8]) -> u32 {
    u32::from_le_bytes([bytes[0], bytes[1], bytes[2], bytes[3]])
}

/// The state with the counter 0.
fn start(key: &[u8; 32], nonce: &[u8]) -> [u32; 16] {
    std::array::from_fn(|i| match i {
        0..=3 => word(&b"expand 32-byte k"[4 * i..]),
        4..=11 => word(&key[4 * i - 16..]),
        12 => 0,
        _ => word(&nonce[4 * i - 52..]),
    })
}

fn block(start: &[u32; 16]) -> [u8; 64] {
    let mut s = *start;
    for _ in 0..10 {
        quarter!(s, 0, 4, 8, 12);
        quarter!(s, 1, 5, 9, 13);
        quarter!(s, 2, 6, 10, 14);
        quarter!(s, 3, 7, 11, 15);
        quarter!(s, 0, 5, 10, 15);
        quarter!(s, 1, 6, 11, 12);
        quarter!(s, 2, 7, 8, 13);
        quarter!(s, 3, 4, 9, 14);
    }
    let mut bytes = [0; 64];
    for i in 0..16 {
        bytes[4 * i..4 * i + 4].copy_from_slice(&s[i].wrapping_add(start[i]).to_le_bytes());
    }
    bytes
}

/// From the counter 1 on.
fn encrypt(start: &[u32; 16], text: &[u8], out: &mut [u8]) {
    let mut state = *start;
    for (from, to) in text.chunks(64).zip(out.chunks_mut(64)) {
        state[12] += 1;
        let stream = block(&state);
        for ((to, from), with) in to.iter_mut().zip(from).zip(stream) {
            *to = from ^ with;
        }
    }
}

const LIMB: u32 = 0x3ff_ffff;

fn limbs(bytes: &[u8], top: u32) -> [u32; 5] {
    [
        word(bytes) & LIMB,
        word(&bytes[3..]) >> 2 & LIMB,
        word(&bytes[6..]) >> 4 & LIMB,
        word(&bytes[9..]) >> 6 & LIMB,
        word(&bytes[12..]) >> 8 | top,
    ]
}

/// Takes in blocks of 16 bytes; what is left over is padded with zeros.
fn absorb(h: &mut [u32; 5], r: &[u32; 5], message: &[u8]) {
    let blocks = message.chunks_exact(16);
    let rest = blocks.remainder();
    blocks.for_each(|block| step(h, r, block));
    if !rest.is_empty() {
        let mut last = [0; 16];
        last[..rest.len()].copy_from_slice(rest);
        step(h, r, &last);
    }
}

#[inline(always)]
fn step(h: &mut [u32; 5], r: &[u32; 5], block: &[u8]) {
    let more = limbs(block, 1 << 24);
    let [h0, h1, h2, h3, h4] = [0, 1, 2, 3, 4].map(|i| (h[i] + more[i]) as u64);
    let [r0, r1, r2, r3, r4] = r.map(|limb| limb as u64);
    let [s1, s2, s3, s4] = [5 * r1, 5 * r2, 5 * r3, 5 * r4];
    let d0 = h0 * r0 + h1 * s4 + h2 * s3 + h3 * s2 + h4 * s1;
    let d1 = h0 * r1 + h1 * r0 + h2 * s4 + h3 * s3 + h4 * s2 + (d0 >> 26);
    let d2 = h0 * r2 + h1 * r1 + h2 * r0 + h3 * s4 + h4 * s3 + (d1 >> 26);
    let d3 = h0 * r3 + h1 * r2 + h2 * r1 + h3 * r0 + h4 * s4 + (d2 >> 26);
    let d4 = h0 * r4 + h1 * r3 + h2 * r2 + h3 * r1 + h4 * r0 + (d3 >> 26);
    *h = [d0, d1, d2, d3, d4].map(|d| d as u32 & LIMB);
    h[0] += 5 * (d4 >> 26) as u32;
    h[1] += h[0] >> 26;
    h[0] &= LIMB;
}

/// The last reduction and the sum with s.
fn finish(mut h: [u32; 5], s: &[u8]) -> [u8; 16] {
    for i in 1..5 {
        h[i] += h[i - 1] >> 26;
        h[i - 1] &= LIMB;
    }
    h[0] += 5 * (h[4] >> 26);
    h[4] &= LIMB;
    h[1] += h[0] >> 26;
    h[0] &= LIMB;
    let (mut less, mut carry) = ([0; 5], 5);
    for i in 0..5 {
        carry += h[i];
        less[i] = carry & LIMB;
        carry >>= 26;
    }
    let h = if carry == 1 { less } else { h };
    let words = [h[0] | h[1] << 26, h[1] >> 6 | h[2] << 20, h[2] >> 12 | h[3] << 14, h[3] >> 18 | h[4] << 8];
    let (mut tag, mut sum) = ([0; 16], 0);
    for i in 0..4 {
        sum += words[i] as u64 + word(&s[4 * i..]) as u64;
        tag[4 * i..4 * i + 4].copy_from_slice(&(sum as u32).to_le_bytes());
        sum >>= 32;
    }
    tag
}

fn tag(start: &[u32; 16], aad: &[u8], ciphertext: &[u8]) -> [u8; 16] {
    let once = block(start);
    let clamp = [LIMB, 0x3ff_ff03, 0x3ff_c0ff, 0x3f0_3fff, 0xf_ffff];
    let all = limbs(&once, 0);
    let r = [0, 1, 2, 3, 4].map(|i| all[i] & clamp[i]);
    let mut h = [0; 5];
    absorb(&mut h, &r, aad);
    absorb(&mut h, &r, ciphertext);
    let mut lengths = [0; 16];
    lengths[..8].copy_from_slice(&(aad.len() as u64).to_le_bytes());
    lengths[8..].copy_from_slice(&(ciphertext.len() as u64).to_le_bytes());
    absorb(&mut h, &r, &lengths);
    finish(h, &once[16..32])
}

fn written(answer: Result<usize, u8>) -> Written {
    let (refusal, length) = match answer {
        Ok(length) => (0, length),
        Err(number) => (number, 0),
    };
    Written { refusal, zeros: [0; 7], length }
}

fn sealed(
    policy: &[u8],
    name: &[u8],
    root: &[u8],
    nonce: &[u8],
    text: &[u8],
    out: &mut [u8],
) -> Result<usize, u8> {
    let answer = envelope::issuer_key(policy, name, root);
    if answer.refusal != 0 {
        return Err(answer.refusal);
    }
    if nonce.len() != 12 || text.len() > LONGEST {
        return Err(22);
    }
    let (length, end) = (text.len() + MORE, text.len() + 22);
    let out = out.get_mut(..length).ok_or(16)?;
    let start = start(&answer.key, nonce);
    out[..2].copy_from_slice(b"SM");
    out[2..10].copy_from_slice(name);
    out[10..22].copy_from_slice(nonce);
    encrypt(&start, text, &mut out[22..end]);
    let tag = tag(&start, &out[..10], &out[22..end]);
    out[end..].copy_from_slice(&tag);
    Ok(length)
}

pub fn seal(policy: &[u8], name: &[u8], root: &[u8], nonce: &[u8], text: &[u8], out: &mut [u8]) -> Written {
    written(sealed(policy, name, root, nonce, text, out))
}

fn opened(envelope: &[u8], file: &[u8], out: &mut [u8]) -> Result<usize, u8> {
    if file.len() < MORE || file.len() > LONGEST + MORE || !file.starts_with(b"SM") {
        let read = envelope::labels(envelope).refusal;
        return Err(if read == 0 { 22 } else { read });
    }
    let derived = envelope::derive(envelope, &file[2..10]);
    if derived.refusal != 0 {
        return Err(derived.refusal);
    }
    let (length, end) = (file.len() - MORE, file.len() - 16);
    let out = out.get_mut(..length).ok_or(16)?;
    let start = start(&derived.key, &file[10..22]);
    let differ = tag(&start, &file[..10], &file[22..end]).iter().zip(&file[end..]).fold(0, |d, (a, b)| d | a ^ b);
    if differ != 0 {
        return Err(23);
    }
    encrypt(&start, &file[22..end], out);
    Ok(length)
}

pub fn open(envelope: &[u8], file: &[u8], out: &mut [u8]) -> Written {
    written(opened(envelope, file, out))
}
