//! ChaCha20-Poly1305, written from RFC 8439, over whole messages in memory. Poly1305 counts in bytes: its numbers are
//! multiplied digit by digit, and each is reduced at once to below 2^130 - 5.

pub type Key = [u8; 32];
pub type Nonce = [u8; 12];

fn quarter_round(state: &mut [u32; 16], [a, b, c, d]: [usize; 4]) {
    for (x, y, z, turn) in [(a, b, d, 16), (c, d, b, 12), (a, b, d, 8), (c, d, b, 7)] {
        state[x] = state[x].wrapping_add(state[y]);
        state[z] = (state[z] ^ state[x]).rotate_left(turn);
    }
}

/// Columns, then diagonals (2.3).
const QUARTERS: [[usize; 4]; 8] = [
    [0, 4, 8, 12],
    [1, 5, 9, 13],
    [2, 6, 10, 14],
    [3, 7, 11, 15],
    [0, 5, 10, 15],
    [1, 6, 11, 12],
    [2, 7, 8, 13],
    [3, 4, 9, 14],
];

/// The block function (2.3.1).
fn block(key: &Key, counter: u32, nonce: &Nonce) -> Vec<u8> {
    let start = [&b"expand 32-byte k"[..], key, &counter.to_le_bytes(), nonce].concat();
    let mut words = start.chunks(4).map(|bytes| u32::from_le_bytes(bytes.try_into().unwrap()));
    let start: [u32; 16] = std::array::from_fn(|_| words.next().unwrap());
    let mut state = start;
    for _ in 0..10 {
        QUARTERS.into_iter().for_each(|quarter| quarter_round(&mut state, quarter));
    }
    let added = state.iter().zip(start).map(|(word, first)| word.wrapping_add(first));
    added.flat_map(u32::to_le_bytes).collect()
}

/// A text with the key stream from a counter on (2.4.1).
fn encrypted(key: &Key, counter: u32, nonce: &Nonce, text: &[u8]) -> Vec<u8> {
    let blocks = (counter..).zip(text.chunks(64));
    let one = |(counter, part): (u32, &[u8])| {
        let stream = block(key, counter, nonce);
        part.iter().zip(stream).map(|(byte, with)| byte ^ with).collect::<Vec<u8>>()
    };
    blocks.flat_map(one).collect()
}

/// A number below 2^136: its bytes, the least significant first.
type Number = [u32; 17];

/// 2^130 - 5, its bytes from the most significant on.
const PRIME: [u32; 17] = {
    let mut prime = [255; 17];
    prime[0] = 3;
    prime[16] = 251;
    prime
};

/// What a byte holds above 255 goes on to the next.
fn carry(bytes: &mut [u32]) {
    for i in 1..bytes.len() {
        bytes[i] += bytes[i - 1] >> 8;
        bytes[i - 1] &= 255;
    }
}

/// A number modulo 2^130 - 5: what stands above the first 130 bits comes back five times, until nothing does.
fn reduced(mut bytes: [u32; 35]) -> Number {
    loop {
        let above: [u32; 18] = std::array::from_fn(|i| (bytes[16 + i] >> 2) | (bytes[17 + i] & 3) << 6);
        if above.iter().all(|byte| *byte == 0) {
            break;
        }
        bytes[16] &= 3;
        bytes[17..].fill(0);
        above.iter().enumerate().for_each(|(i, byte)| bytes[i] += 5 * byte);
        carry(&mut bytes);
    }
    let mut number: Number = std::array::from_fn(|i| bytes[i]);
    if number.iter().rev().ge(&PRIME) {
        // less the prime: 5 more, and bit 130 dropped
        number[0] += 5;
        carry(&mut number);
        number[16] &= 3;
    }
    number
}

fn product(a: &Number, b: &Number) -> Number {
    let mut bytes = [0; 35];
    for (i, x) in a.iter().enumerate() {
        b.iter().enumerate().for_each(|(j, y)| bytes[i + j] += x * y);
    }
    carry(&mut bytes);
    reduced(bytes)
}

fn sum(a: &Number, b: &Number) -> Number {
    let mut bytes = std::array::from_fn(|i| a[i] + b[i]);
    carry(&mut bytes);
    bytes
}

/// Up to 16 bytes as a number, with a byte more.
fn number(bytes: &[u8], more: u32) -> Number {
    let mut number = [0; 17];
    number.iter_mut().zip(bytes).for_each(|(digit, byte)| *digit = *byte as u32);
    number[bytes.len()] = more;
    number
}

/// Poly1305 (2.5.1).
pub fn poly1305(key: &Key, message: &[u8]) -> [u8; 16] {
    let mut multiplier = number(&key[..16], 0);
    for (i, mask) in [(3, 15), (7, 15), (11, 15), (15, 15), (4, 252), (8, 252), (12, 252)] {
        multiplier[i] &= mask;
    }
    let mut total = [0; 17];
    for block in message.chunks(16) {
        total = product(&sum(&total, &number(block, 1)), &multiplier);
    }
    let end = sum(&total, &number(&key[16..], 0));
    std::array::from_fn(|i| end[i] as u8)
}

fn padded(bytes: &[u8]) -> Vec<u8> {
    let zeros = bytes.len().next_multiple_of(16) - bytes.len();
    [bytes, &vec![0; zeros]].concat()
}

/// The tag of additional data and ciphertext, under the first half of block 0 (2.6, 2.8).
fn tag(key: &Key, nonce: &Nonce, aad: &[u8], ciphertext: &[u8]) -> [u8; 16] {
    let once: Key = block(key, 0, nonce)[..32].try_into().unwrap();
    let lengths = [aad.len(), ciphertext.len()].map(|length| (length as u64).to_le_bytes());
    poly1305(&once, &[padded(aad), padded(ciphertext), lengths.concat()].concat())
}

/// Ciphertext and tag (2.8).
pub fn sealed(key: &Key, nonce: &Nonce, aad: &[u8], text: &[u8]) -> (Vec<u8>, [u8; 16]) {
    let ciphertext = encrypted(key, 1, nonce, text);
    let tag = tag(key, nonce, aad, &ciphertext);
    (ciphertext, tag)
}

/// The text, if the tag is right.
pub fn opened(key: &Key, nonce: &Nonce, aad: &[u8], ciphertext: &[u8], given: &[u8]) -> Option<Vec<u8>> {
    (tag(key, nonce, aad, ciphertext) == given).then(|| encrypted(key, 1, nonce, ciphertext))
}
