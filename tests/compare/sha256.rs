//! SHA-256 and HMAC, written from FIPS 180-4 and FIPS 198-1, over whole messages in memory.

const LIMIT: usize = 65_536;

/// The first 32 bits of the fractional parts of the cube roots of the first 64 primes (4.2.2), computed
/// and not copied: the largest r with r^3 <= p * 2^96 has the fraction in its last 32 bits.
fn round_words() -> [u32; 64] {
    let mut words = [0u32; 64];
    for (word, prime) in words.iter_mut().zip(primes()) {
        *word = root_fraction(prime, 3);
    }
    words
}

/// The same of the square roots of the first eight primes (5.3.3).
fn initial_value() -> [u32; 8] {
    let mut words = [0u32; 8];
    for (word, prime) in words.iter_mut().zip(primes()) {
        *word = root_fraction(prime, 2);
    }
    words
}

fn primes() -> impl Iterator<Item = u128> {
    (2u128..).filter(|n| (2..*n).take_while(|d| d * d <= *n).all(|d| n % d != 0))
}

/// The first 32 fractional bits of the `degree`-th root of `n`, bit by bit from above.
fn root_fraction(n: u128, degree: u32) -> u32 {
    let target = n << (32 * degree);
    let mut root: u128 = 0;
    for bit in (0..40).rev() {
        let tried = root | (1 << bit);
        if tried.pow(degree) <= target {
            root = tried;
        }
    }
    root as u32
}

pub struct Sha256 {
    round_words: [u32; 64],
    initial_value: [u32; 8],
}

impl Sha256 {
    pub fn new() -> Sha256 {
        Sha256 { round_words: round_words(), initial_value: initial_value() }
    }

    /// 6.2.2, for one block of 64 bytes.
    fn compress(&self, h: &mut [u32; 8], block: &[u8]) {
        let mut w = [0u32; 64];
        for t in 0..16 {
            w[t] = u32::from_be_bytes(block[4 * t..4 * t + 4].try_into().unwrap());
        }
        for t in 16..64 {
            let s0 = w[t - 15].rotate_right(7) ^ w[t - 15].rotate_right(18) ^ (w[t - 15] >> 3);
            let s1 = w[t - 2].rotate_right(17) ^ w[t - 2].rotate_right(19) ^ (w[t - 2] >> 10);
            w[t] = s1.wrapping_add(w[t - 7]).wrapping_add(s0).wrapping_add(w[t - 16]);
        }
        let mut v = *h;
        for t in 0..64 {
            let [a, b, c, d, e, f, g, last] = v;
            let s1 = e.rotate_right(6) ^ e.rotate_right(11) ^ e.rotate_right(25);
            let ch = (e & f) ^ (!e & g);
            let t1 = last
                .wrapping_add(s1)
                .wrapping_add(ch)
                .wrapping_add(self.round_words[t])
                .wrapping_add(w[t]);
            let s0 = a.rotate_right(2) ^ a.rotate_right(13) ^ a.rotate_right(22);
            let maj = (a & b) ^ (a & c) ^ (b & c);
            v = [t1.wrapping_add(s0.wrapping_add(maj)), a, b, c, d.wrapping_add(t1), e, f, g];
        }
        for (x, y) in h.iter_mut().zip(v) {
            *x = x.wrapping_add(y);
        }
    }

    /// The digest of a message of any length: padding (5.1.1), blocks (5.2.1), hash (6.2).
    pub fn hash(&self, message: &[u8]) -> [u8; 32] {
        let mut padded = message.to_vec();
        padded.push(0x80);
        while padded.len() % 64 != 56 {
            padded.push(0);
        }
        padded.extend_from_slice(&(8 * message.len() as u64).to_be_bytes());
        let mut h = self.initial_value;
        for block in padded.chunks(64) {
            self.compress(&mut h, block);
        }
        let mut digest = [0u8; 32];
        for (bytes, word) in digest.chunks_mut(4).zip(h) {
            bytes.copy_from_slice(&word.to_be_bytes());
        }
        digest
    }

    /// HMAC (FIPS 198-1, section 4) with a 64-byte block.
    pub fn mac(&self, key: &[u8], message: &[u8]) -> [u8; 32] {
        let mut k0 = if key.len() > 64 { self.hash(key).to_vec() } else { key.to_vec() };
        k0.resize(64, 0);
        let mut inner: Vec<u8> = k0.iter().map(|b| b ^ 0x36).collect();
        inner.extend_from_slice(message);
        let mut outer: Vec<u8> = k0.iter().map(|b| b ^ 0x5c).collect();
        outer.extend_from_slice(&self.hash(&inner));
        self.hash(&outer)
    }

    /// The public operation: refusal 21 above the limit.
    pub fn answer_hash(&self, message: &[u8]) -> (u8, [u8; 32]) {
        if message.len() > LIMIT {
            return (21, [0; 32]);
        }
        (0, self.hash(message))
    }

    pub fn answer_mac(&self, key: &[u8], message: &[u8]) -> (u8, [u8; 32]) {
        if key.len() > LIMIT || message.len() > LIMIT {
            return (21, [0; 32]);
        }
        (0, self.mac(key, message))
    }
}
