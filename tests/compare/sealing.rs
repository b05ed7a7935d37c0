//! The groups that compare sealed module files: what is sealed, and what is opened with every envelope.

use crate::chacha20_poly1305::{self as cipher, Key};
use crate::envelope::{Desk, Issuer};
use crate::files;
use crate::group::{hex, Answers, Group, Hex};
use crate::ours;
use crate::policy::Policy;
use crate::random::Random;
use crate::sha256::Sha256;
use crate::tree::Planned;

/// The longest text that is sealed.
pub const LONGEST: usize = 32_768;

/// What a sealed file has beside its ciphertext.
pub const MORE: usize = 2 + 8 + 12 + 16;

/// The sealed file of a text under a key.
pub fn file(key: &Key, name: &[u8], nonce: [u8; 12], text: &[u8]) -> Vec<u8> {
    let head = [b"SM", name].concat();
    let (ciphertext, tag) = cipher::sealed(key, &nonce, &head, text);
    [&head[..], &nonce, &ciphertext, &tag].concat()
}

/// What the second issuer seals into so much room, or the refusal.
pub fn seal(
    issuer: &Issuer,
    name: &[u8],
    root: &[u8],
    nonce: &[u8],
    text: &[u8],
    room: usize,
) -> Result<Vec<u8>, u8> {
    let key = issuer.key(name, root)?;
    let nonce = nonce.try_into().map_err(|_| 22)?;
    if text.len() > LONGEST {
        return Err(22);
    }
    if room < text.len() + MORE {
        return Err(16);
    }
    Ok(file(&key, name, nonce, text))
}

/// What the second desk opens into so much room, or the refusal.
pub fn open(hash: &Sha256, envelope: &[u8], file: &[u8], room: usize) -> Result<Vec<u8>, u8> {
    let mut desk = Desk::open(hash, envelope)?;
    if file.len() < MORE || file.len() > LONGEST + MORE || !file.starts_with(b"SM") {
        return Err(22);
    }
    let (head, rest) = file.split_at(10);
    let (nonce, rest) = rest.split_at(12);
    let (ciphertext, tag) = rest.split_at(rest.len() - 16);
    let key = desk.derive(&head[2..])?.0;
    if room < ciphertext.len() {
        return Err(16);
    }
    cipher::opened(&key, nonce.try_into().unwrap(), head, ciphertext, tag).ok_or(23)
}

/// A group with the answers by refusal number.
struct Asked {
    group: Group,
    answers: Answers,
}

/// All that is sealed with, but for the policy, which the issuer has, and the buffer.
#[derive(Clone, Copy)]
struct Request<'a> {
    name: &'a [u8],
    root: &'a [u8],
    nonce: &'a [u8],
    text: &'a [u8],
}

impl Asked {
    fn new(name: &'static str) -> Asked {
        Asked { group: Group::new(name), answers: Answers::default() }
    }

    /// What is expected goes to the start of a buffer of so many bytes, and all behind it stays; with a refusal the
    /// whole stays.
    fn written(
        &mut self,
        what: impl Fn() -> String,
        expected: Result<&[u8], u8>,
        room: usize,
        write: impl Fn(&mut [u8]) -> Result<usize, u8>,
    ) {
        self.answers.add(expected.err().unwrap_or(0), 1);
        let mut buffer: Vec<u8> = (0..room).map(|i| (room + i * 37 + i / 256) as u8).collect();
        let mut filled = buffer.clone();
        if let Ok(bytes) = expected {
            filled[..bytes.len()].copy_from_slice(bytes);
        }
        let said = write(&mut buffer);
        let what = || format!("{}, {room} bytes of room", what());
        self.group.case(what, (said, Hex(buffer)), (expected.map(<[u8]>::len), Hex(filled)));
    }

    fn seal(&mut self, policy: &[u8], request: Request, expected: Result<&[u8], u8>, room: usize) {
        let Request { name, root, nonce, text } = request;
        let shown = || [name, root, nonce, text, policy].map(hex).join(", ");
        let what = || format!("name, root, nonce, text, policy {}", shown());
        self.written(what, expected, room, |out| ours::seal(policy, name, root, nonce, text, out));
    }

    fn open(&mut self, envelope: &[u8], file: &[u8], expected: Result<&[u8], u8>, room: usize) {
        let what = || format!("{} opened with {}", hex(file), hex(envelope));
        self.written(what, expected, room, |out| ours::open(envelope, file, out));
    }

    /// The same, where the second implementation has to agree with what is expected.
    fn both_open(
        &mut self,
        hash: &Sha256,
        envelope: &[u8],
        file: &[u8],
        expected: Result<&[u8], u8>,
        room: usize,
    ) {
        let second = open(hash, envelope, file, room);
        let what = || format!("{} opened with {}, second alone", hex(file), hex(envelope));
        self.group.case(what, second.map(Hex), expected.map(|text| Hex(text.to_vec())));
        self.open(envelope, file, expected, room);
    }

    /// A long file, which our desk alone is asked to open: it has to refuse it, and to leave a buffer of zeros alone.
    fn refused(&mut self, envelope: &[u8], file: &[u8], number: u8, zeros: &mut [u8]) {
        self.answers.add(number, 1);
        let said = ours::open(envelope, file, zeros);
        let what = || format!("{} opened with {}", hex(file), hex(envelope));
        self.group.case(what, (said, zeros.iter().any(|byte| *byte != 0)), (Err(number), false));
    }

    fn report(self) -> bool {
        self.group.report(&self.answers.text())
    }
}

/// The second cipher by itself: the example of RFC 8439, 2.8.2, and those of A.3 that its last reduction decides.
fn examples() -> bool {
    let mut group = Group::new("the second cipher on examples of RFC 8439");
    let text = b"Ladies and Gentlemen of the class of '99: \
        If I could offer you only one tip for the future, sunscreen would be it.";
    let key: Key = std::array::from_fn(|i| 128 + i as u8);
    let nonce = [7, 0, 0, 0, 64, 65, 66, 67, 68, 69, 70, 71];
    let aad = [80, 81, 82, 83, 192, 193, 194, 195, 196, 197, 198, 199];
    let (ciphertext, tag) = cipher::sealed(&key, &nonce, &aad, text);
    let given = "d31a8d34648e60db7b86afbc53ef7ec2a4aded51296e08fea9e2b5a736ee62d6\
        3dbea45e8ca9671282fafb69da92728b1a71de0a9e060b2905d6a5b67ecd3b36\
        92ddbd7f2d778b8c9803aee328091b58fab324e4fad675945585808b4831d7bc\
        3ff4def08e4b7a9de576d26586cec64b6116";
    group.case(|| "the ciphertext of 2.8.2".into(), &hex(&ciphertext)[..], given);
    group.case(|| "the tag of 2.8.2".into(), &hex(&tag)[..], "1ae10b594f09e26a7e902ecbd0600691");
    group.holds(
        || "2.8.2 opened".into(),
        cipher::opened(&key, &nonce, &aad, &ciphertext, &tag).as_deref() == Some(text),
    );
    let ones = [255; 16];
    let poly = |r: u8, s: [u8; 16], blocks: &[[u8; 16]]| {
        let mut key = [0; 32];
        key[0] = r;
        key[16..].copy_from_slice(&s);
        cipher::poly1305(&key, &blocks.concat())
    };
    let first = |byte: u8, rest: u8| std::array::from_fn(|i| if i == 0 { byte } else { rest });
    let cases = [
        (poly(2, [0; 16], &[ones]), first(3, 0)),
        (poly(2, ones, &[first(2, 0)]), first(3, 0)),
        (poly(1, [0; 16], &[ones, first(240, 255), first(17, 0)]), first(5, 0)),
        (poly(1, [0; 16], &[ones, first(251, 254), [1; 16]]), [0; 16]),
        (poly(2, [0; 16], &[first(253, 255)]), first(250, 255)),
    ];
    for (i, (second, given)) in cases.into_iter().enumerate() {
        group.case(|| format!("the tag of A.3, example {}", i + 5), second, given);
    }
    group.report("")
}

/// A policy in which every label has an account.
fn any_policy(random: &mut Random, labels: usize) -> Policy {
    let mut made = files::shaped(random, labels, labels);
    made.counts = made.counts.iter().map(|count| *count.max(&1)).collect();
    made
}

/// A text sealed for a label, opened with the envelope of the last account at each: the text where the label is at
/// or below that account's, 20 elsewhere.
fn sealed_and_opened(asked: &mut Asked, random: &mut Random, issuer: &Issuer, length: usize) {
    let (policy, file) = (issuer.policy, issuer.policy.to_bytes());
    let label = random.below(policy.names.len());
    let (root, nonce, text) = (random.bytes(32), random.bytes(12), random.bytes(length));
    let name = &policy.names[label];
    let request = Request { name, root: &root, nonce: &nonce, text: &text };
    let room = length + MORE + random.below(9);
    let sealed = seal(issuer, name, &root, &nonce, &text, room).unwrap();
    asked.seal(&file, request, Ok(&sealed), room);
    for (account, name) in policy.names.iter().enumerate() {
        let envelope = issuer.issue(name, policy.counts[account] as u32, &root, usize::MAX).unwrap();
        let held = issuer.planned.at_or_below(label, account);
        let expected = if held { Ok(&text[..]) } else { Err(20) };
        let room = length + random.below(9);
        match length {
            0..=300 => asked.both_open(issuer.hash, &envelope, &sealed, expected, room),
            _ => asked.open(&envelope, &sealed, expected, room),
        }
    }
}

/// Every length up to 300, then lengths up to the longest, and one above it.
fn lengths(random: &mut Random, hash: &Sha256) -> bool {
    let mut asked = Asked::new("texts of 0 to 300 bytes and 400 up to 32,768, each opened with every envelope");
    let mut lengths: Vec<usize> = (0..=300).collect();
    lengths.extend([LONGEST - 1, LONGEST, LONGEST - 63, LONGEST - 64]);
    lengths.extend((0..396).map(|i| random.below(if i % 2 == 0 { 3000 } else { LONGEST + 1 })));
    for some in lengths.chunks(8) {
        let labels = 1 + random.below(8);
        let policy = any_policy(random, labels);
        let issuer = Issuer { hash, policy: &policy, planned: &Planned::new(&policy) };
        some.iter().for_each(|length| sealed_and_opened(&mut asked, random, &issuer, *length));
    }
    asked.report()
}

/// What a file with one byte altered is refused under: 22 where it is the mark's, 20 where it is the name's, unless
/// that makes the name of another label that the envelope opens, and else 23.
fn number(names: &[[u8; 8]], altered: &[u8]) -> u8 {
    match altered {
        [b'S', b'M', rest @ ..] if names.iter().any(|name| rest.starts_with(name)) => 23,
        [b'S', b'M', ..] => 20,
        _ => 22,
    }
}

/// Files of several lengths, the longest among them, with every byte altered once; then cut to every length, and
/// made longer.
fn damaged(random: &mut Random, hash: &Sha256) -> bool {
    let mut asked = Asked::new("sealed files with one byte altered, each once, cut or made longer");
    let mut buffer = vec![0; LONGEST];
    for length in [0, 1, 15, 16, 17, 64, 65, 300, LONGEST] {
        let policy = any_policy(random, 4);
        let issuer = Issuer { hash, policy: &policy, planned: &Planned::new(&policy) };
        let (root, nonce, text) = (random.bytes(32), random.bytes(12), random.bytes(length));
        let name = &policy.names[random.below(4)];
        let mut file = seal(&issuer, name, &root, &nonce, &text, usize::MAX).unwrap();
        let envelope = issuer.issue(&policy.names[0], 1, &root, usize::MAX).unwrap();
        asked.both_open(hash, &envelope, &file, Ok(&text), length);
        for at in 0..file.len() {
            let by = 1 + random.below(255) as u8;
            file[at] ^= by;
            let number = number(&policy.names, &file);
            match length {
                LONGEST => asked.refused(&envelope, &file, number, &mut buffer),
                _ => asked.both_open(hash, &envelope, &file, Err(number), length),
            }
            file[at] ^= by;
        }
        cut_or_longer(&mut asked, hash, &envelope, &file);
    }
    asked.report()
}

fn cut_or_longer(asked: &mut Asked, hash: &Sha256, envelope: &[u8], file: &[u8]) {
    let cuts = if file.len() > 1000 { vec![0, 37, 38, file.len() - 1] } else { (0..file.len()).collect() };
    for length in cuts {
        let number = if length < MORE { 22 } else { 23 };
        asked.both_open(hash, envelope, &file[..length], Err(number), LONGEST);
    }
    for more in [1, 2, 15, 16, 17, 48, 64, LONGEST + MORE - file.len(), LONGEST + MORE + 1 - file.len(), LONGEST] {
        let longer = [file, &vec![0; more]].concat();
        let number = if longer.len() > LONGEST + MORE { 22 } else { 23 };
        if more > 0 {
            asked.both_open(hash, envelope, &longer, Err(number), LONGEST);
        }
    }
}

/// Every room from none to some bytes more than what is written, for a file whose tag is right and one whose tag is
/// not.
fn rooms(random: &mut Random, hash: &Sha256) -> bool {
    let mut asked = Asked::new("sealed files and texts into buffers of every length");
    let policy = any_policy(random, 3);
    let issuer = Issuer { hash, policy: &policy, planned: &Planned::new(&policy) };
    let (policy_file, root, nonce) = (policy.to_bytes(), random.bytes(32), random.bytes(12));
    let name = &policy.names[2];
    let envelope = issuer.issue(&policy.names[0], 1, &root, usize::MAX).unwrap();
    for length in [0, 1, 16, 63, 64, 65, 130, 300, LONGEST] {
        let text = random.bytes(length);
        let request = Request { name, root: &root, nonce: &nonce, text: &text };
        let sealed = seal(&issuer, name, &root, &nonce, &text, usize::MAX).unwrap();
        let mut altered = sealed.clone();
        altered[22 + random.below(length + 16)] ^= 1;
        let first = if length == LONGEST { LONGEST - 2 } else { 0 };
        for room in first..length + MORE + 20 {
            let file = if room < sealed.len() { Err(16) } else { Ok(&sealed[..]) };
            asked.seal(&policy_file, request, file, room);
            let (read, unread) = if room < length { (Err(16), 16) } else { (Ok(&text[..]), 23) };
            asked.open(&envelope, &sealed, read, room);
            asked.open(&envelope, &altered, Err(unread), room);
        }
    }
    asked.report()
}

/// The first of the faults, each told by itself.
fn first(faults: &[(bool, u8)]) -> Option<u8> {
    faults.iter().find(|fault| fault.0).map(|fault| fault.1)
}

/// All that a call can be wrong in, in all combinations: the first fault in the order of document 02 decides.
fn wrong_calls(random: &mut Random, hash: &Sha256) -> bool {
    let mut asked = Asked::new("wrong calls of seal and open, in all combinations");
    let longer = random.bytes(LONGEST + 1);
    for _ in 0..100 {
        let policy = any_policy(random, 4);
        let issuer = Issuer { hash, policy: &policy, planned: &Planned::new(&policy) };
        let (refused, number) = files::refused_policy(random);
        let (root, nonce, text) = (random.bytes(32), random.bytes(12), random.bytes(40));
        let name = policy.names[3];
        let sealed = seal(&issuer, &name, &root, &nonce, &text, usize::MAX).unwrap();
        let other_roots = [&root[..31], &[&root[..], b"!"].concat()].map(<[u8]>::to_vec);
        let other_nonces = [vec![], nonce[..11].to_vec(), [&nonce[..], b"!"].concat()];
        let policy_file = policy.to_bytes();
        for faults in 0..64 {
            let wrong: [bool; 6] = std::array::from_fn(|i| faults >> i & 1 == 1);
            let policy = if wrong[0] { &refused } else { &policy_file };
            let name = if wrong[1] { &b"NOTTHERE"[..] } else { &name };
            let root = if wrong[2] { &other_roots[random.below(2)] } else { &root };
            let nonce = if wrong[3] { &other_nonces[random.below(3)] } else { &nonce };
            let text = if wrong[4] { &longer[..] } else { &text };
            let room = if wrong[5] { random.below(text.len() + MORE) } else { text.len() + MORE };
            let order = [number, 13, 15, 22, 22, 16];
            let faults: Vec<(bool, u8)> = wrong.into_iter().zip(order).collect();
            let expected = first(&faults).map_or(Ok(&sealed[..]), Err);
            asked.seal(policy, Request { name, root, nonce, text }, expected, room);
        }
        wrong_openings(&mut asked, random, &issuer, &root, &sealed, &text);
    }
    asked.report()
}

fn wrong_openings(
    asked: &mut Asked,
    random: &mut Random,
    issuer: &Issuer,
    root: &[u8],
    sealed: &[u8],
    text: &[u8],
) {
    let envelope = issuer.issue(&issuer.policy.names[0], 1, root, usize::MAX).unwrap();
    let cut = &envelope[..envelope.len() - 1];
    for faults in 0..32 {
        let wrong: [bool; 5] = std::array::from_fn(|i| faults >> i & 1 == 1);
        let mut file = sealed.to_vec();
        if wrong[1] {
            file[random.below(2)] ^= 1;
        }
        if wrong[2] {
            file[2..10].copy_from_slice(b"NOTTHERE");
        }
        if wrong[4] {
            file[10 + random.below(sealed.len() - 10)] ^= 1;
        }
        let envelope = if wrong[0] { cut } else { &envelope };
        let room = if wrong[3] { random.below(text.len()) } else { text.len() };
        let faults: Vec<(bool, u8)> = wrong.into_iter().zip([3, 22, 20, 16, 23]).collect();
        let expected = first(&faults).map_or(Ok(text), Err);
        asked.both_open(issuer.hash, envelope, &file, expected, room);
    }
}

pub fn groups(random: &mut Random, hash: &Sha256) -> Vec<bool> {
    vec![examples(), lengths(random, hash), damaged(random, hash), rooms(random, hash), wrong_calls(random, hash)]
}
