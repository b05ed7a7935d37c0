//! The groups that compare issued envelopes, the issuer's keys, and what is derived from issued envelopes.

use crate::envelope::{self, Envelope, Issuer, Key, Source};
use crate::files;
use crate::group::{hex, Answers, Group};
use crate::ours;
use crate::policy::{self, Policy};
use crate::random::Random;
use crate::sha256::Sha256;
use crate::tree::Planned;

/// What the library was asked for, over all groups.
#[derive(Default)]
pub struct Counts {
    pub keys: usize,
    pub envelopes: usize,
    pub derived: usize,
}

/// What an issue is asked for: all that the operation takes, with the buffer's length for the buffer.
#[derive(Clone, Copy)]
pub struct Request<'a> {
    pub file: &'a [u8],
    pub name: &'a [u8],
    pub account: u32,
    pub root: &'a [u8],
    pub room: usize,
}

impl Request<'_> {
    fn expected(&self, issuer: &Issuer) -> Result<Vec<u8>, u8> {
        issuer.issue(self.name, self.account, self.root, self.room)
    }

    fn text(&self) -> String {
        let Request { account, room, .. } = self;
        let (file, name, root) = (hex(self.file), hex(self.name), hex(self.root));
        format!("name {name}, account {account}, root {root}, {room} bytes of room, policy {file}")
    }
}

/// A group that counts what it asks the library for, and the answers by refusal number.
pub struct Asked<'a> {
    pub group: Group,
    pub hash: &'a Sha256,
    counts: &'a mut Counts,
    answers: Answers,
}

impl<'a> Asked<'a> {
    pub fn new(name: &'static str, hash: &'a Sha256, counts: &'a mut Counts) -> Asked<'a> {
        Asked { group: Group::new(name), hash, counts, answers: Answers::default() }
    }

    fn answered(&mut self, refusal: u8) {
        self.answers.add(refusal, 1);
    }

    pub fn key(&mut self, file: &[u8], name: &[u8], root: &[u8], expected: Result<Key, u8>) {
        self.counts.keys += 1;
        self.answered(expected.err().unwrap_or(0));
        let what = || format!("key of {} with root {}, policy {}", hex(name), hex(root), hex(file));
        self.group.case(what, ours::issuer_key(file, name, root), expected);
    }

    /// Our envelope. It goes to the buffer's start, and all behind it stays; with a refusal the whole stays.
    pub fn issue(&mut self, request: Request, expected: &Result<Vec<u8>, u8>) -> Vec<u8> {
        self.counts.envelopes += 1;
        self.answered(*expected.as_ref().err().unwrap_or(&0));
        let Request { file, name, account, root, room } = request;
        let mut buffer: Vec<u8> = (0..room).map(|i| (room + i * 37 + i / 256) as u8).collect();
        let mut filled = buffer.clone();
        if let Ok(envelope) = expected {
            filled[..envelope.len()].copy_from_slice(envelope);
        }
        let said = ours::issue(file, name, account, root, &mut buffer);
        let what = || request.text();
        self.group.case(what, (said, &buffer), (expected.as_ref().map(Vec::len).map_err(|n| *n), &filled));
        buffer.truncate(said.unwrap_or(0));
        buffer
    }

    pub fn derive(&mut self, envelope: &[u8], name: &[u8], expected: Result<(Key, u8), u8>) {
        self.counts.derived += 1;
        self.answered(expected.err().unwrap_or(0));
        let what = || format!("{} from {}", hex(name), hex(envelope));
        self.group.case(what, ours::derive(envelope, name), expected);
    }

    /// Each name from one envelope, as the second implementation derives it, its labels, and how far it is read.
    pub fn derive_each(&mut self, envelope: &[u8], names: &[Vec<u8>]) {
        let what = || format!("labels or records of {}", hex(envelope));
        let ours = (ours::labels(envelope), ours::envelope_records(envelope));
        self.group.case(what, ours, (envelope::labels(envelope), envelope::records_read(envelope)));
        let answers = envelope::derive(self.hash, envelope, names);
        for (name, expected) in names.iter().zip(answers) {
            self.derive(envelope, name, expected);
        }
    }

    pub fn report(self) -> bool {
        self.group.report(&self.answers.text())
    }
}

pub fn padded(name: &str) -> Vec<u8> {
    format!("{name:8}").into_bytes()
}

/// Document 01's sentences on issuing from E: label, account, room, and the envelope's length with the number
/// of its secrets, or the refusal.
const ISSUED_BY_HAND: [(&str, u32, usize, Result<(usize, usize), u8>); 7] = [
    ("CONV32", 5, 65, Ok((65, 1))),
    ("CONV32", 5, 64, Err(16)),
    ("CONV32", 6, 65, Err(14)),
    ("CONV32", 0, 65, Err(14)),
    ("CURVES", 3, 100, Ok((96, 2))),
    ("SUITE", 2, 4096, Ok((87, 1))),
    ("ACCRUED", 4, 54, Ok((54, 1))),
];

/// And on deriving: from a label's envelope a name, and the number of applications or the refusal.
const DERIVED_BY_HAND: [(&str, &str, Result<u8, u8>); 5] = [
    ("CONV32", "CONV32", Ok(1)),
    ("CONV32", "ACCRUED", Ok(2)),
    ("CONV32", "CURVES", Err(20)),
    ("SUITE", "ACCRUED", Ok(3)),
    ("CURVES", "ACCRUED", Ok(1)),
];

/// The sentences that document 01 checked by hand, asked of the library and of the second implementation.
fn by_hand(hash: &Sha256, counts: &mut Counts) -> bool {
    let mut asked = Asked::new("envelopes of E that document 01 checked by hand", hash, counts);
    let file = files::written_e(&files::E_PAIRS);
    let policy = policy::read(&file).unwrap();
    let issuer = Issuer { hash, policy: &policy, planned: &Planned::new(&policy) };
    let root: Vec<u8> = (0..32).collect();
    for (label, account, room, answer) in ISSUED_BY_HAND {
        let request = Request { file: &file, name: &padded(label), account, root: &root, room };
        let expected = request.expected(&issuer);
        let secrets = |envelope: &Envelope| {
            envelope.records.iter().filter(|record| matches!(record.source, Source::Held(_))).count()
        };
        let seen = |bytes: &Vec<u8>| (bytes.len(), secrets(&Envelope::read(bytes).unwrap()));
        let what = || format!("{label}, account {account}, second alone");
        asked.group.case(what, expected.as_ref().map(seen).map_err(|n| *n), answer);
        asked.issue(request, &expected);
    }
    for (label, name, answer) in DERIVED_BY_HAND {
        let request = Request { file: &file, name: &padded(label), account: 1, root: &root, room: 100 };
        let envelope = asked.issue(request, &request.expected(&issuer));
        let key = issuer.key(&padded(name), &root).unwrap();
        let expected = answer.map(|applications| (key, applications));
        let derived = envelope::derive(hash, &envelope, &[padded(name)]);
        asked.group.case(|| format!("{name} from {label}, second alone"), &derived, &vec![expected]);
        asked.derive(&envelope, &padded(name), expected);
    }
    asked.report()
}

/// Names that the policy does not have: foreign ones, and one of its own in lower case, altered, and in other
/// lengths.
pub fn other_names(random: &mut Random, policy: &Policy) -> Vec<Vec<u8>> {
    let name = policy.names[random.below(policy.names.len())];
    let mut altered = name;
    altered[random.below(8)] ^= 1 << random.below(8);
    let list = [
        files::name(random).to_vec(),
        random.bytes(8),
        name.to_ascii_lowercase().to_vec(),
        altered.to_vec(),
        Vec::new(),
        name[..7].to_vec(),
        [&name[..], b" "].concat(),
        [name, name].concat(),
    ];
    list.into_iter().filter(|other| !policy.names.iter().any(|name| name[..] == other[..])).collect()
}

/// Every name of the policy from the envelope of an account at the label, then other names: the issuer's own
/// key after the steps in the tree for a label at or below, 20 for every other name.
fn derive_all(
    asked: &mut Asked,
    issuer: &Issuer,
    keys: &[Key],
    label: usize,
    envelope: &[u8],
    others: &[Vec<u8>],
) {
    let own = issuer.policy.names.iter().map(|name| name.to_vec());
    let names: Vec<Vec<u8>> = own.chain(others.to_vec()).collect();
    let second = envelope::derive(asked.hash, envelope, &names);
    for (m, name) in names.iter().enumerate() {
        let expected = match keys.get(m) {
            Some(key) if issuer.planned.at_or_below(m, label) => Ok((*key, issuer.applications(label, m))),
            _ => Err(20),
        };
        let what = || format!("{} from {}, second alone", hex(name), hex(envelope));
        asked.group.case(what, second[m], expected);
        asked.derive(envelope, name, expected);
    }
}

/// The keys of every label, the envelopes of the first and the last account at each, and all names from the
/// last's.
fn every_label(asked: &mut Asked, random: &mut Random, policy: &Policy) {
    let (file, planned) = (policy.to_bytes(), Planned::new(policy));
    let issuer = Issuer { hash: asked.hash, policy, planned: &planned };
    let root = random.bytes(32);
    let keys: Vec<Key> = policy.names.iter().map(|name| issuer.key(name, &root).unwrap()).collect();
    for (name, key) in policy.names.iter().zip(&keys) {
        asked.key(&file, name, &root, Ok(*key));
    }
    for (label, name) in policy.names.iter().enumerate() {
        let last = policy.counts[label] as u32;
        let accounts = if last > 1 { vec![1, last] } else { vec![1] };
        for account in accounts {
            let expected = issuer.issue(name, account, &root, usize::MAX);
            let length = expected.as_ref().map_or(0, Vec::len);
            let request = Request { file: &file, name, account, root: &root, room: length + random.below(9) };
            let envelope = asked.issue(request, &expected);
            if account == last {
                let others = other_names(random, policy);
                derive_all(asked, &issuer, &keys, label, &envelope, &others);
            }
        }
    }
}

/// Policies of every size, 64 labels and 512 pairs among them.
fn every_envelope(random: &mut Random, hash: &Sha256, counts: &mut Counts) -> bool {
    let mut asked = Asked::new("1,000 policies, an envelope of each label, every name from it", hash, counts);
    for i in 0..1000 {
        let labels = 1 + random.below(24);
        let more = random.choose(&[0, 3, 60]);
        let made = match i % 16 {
            _ if i < 64 => files::any_size(random, i),
            0 => files::any_size(random, i),
            1 | 2 => files::any_policy(random),
            _ => files::shaped(random, labels, more),
        };
        every_label(&mut asked, random, &made);
    }
    asked.report()
}

/// The refusal that the table gives to a call, each fault told by itself.
fn first_refusal(name: bool, account: bool, root: bool, room: bool) -> u8 {
    let faults = [(name, 13), (account, 14), (root, 15), (room, 16)];
    faults.iter().find(|fault| fault.0).map_or(0, |fault| fault.1)
}

/// All that a call can be wrong in, in all combinations.
fn every_wrong(asked: &mut Asked, random: &mut Random, policy: &Policy) {
    let (file, planned) = (policy.to_bytes(), Planned::new(policy));
    let issuer = Issuer { hash: asked.hash, policy, planned: &planned };
    let label = random.below(policy.names.len());
    let (right, count) = (policy.names[label].to_vec(), policy.counts[label] as u32);
    let length = issuer.envelope(label, 1, [0; 32]).to_bytes().len();
    let mut names = [other_names(random, policy), vec![right.clone()]].concat();
    names.drain(..random.below(names.len()));
    let roots: Vec<Vec<u8>> = [32, 0, 31, 33, 64].into_iter().map(|length| random.bytes(length)).collect();
    let rooms = [length, length - 1, 0, random.below(length), length + random.below(3000)];
    for name in &names {
        for root in &roots {
            let number = first_refusal(*name != right, false, root.len() != 32, false);
            let key = issuer.key(name, root);
            asked.group.case(|| format!("key of {}, second alone", hex(name)), key.err().unwrap_or(0), number);
            asked.key(&file, name, root, key);
            for account in [1, count, 0, count + 1, 65_536, u32::MAX] {
                for room in rooms {
                    let wrong_account = account == 0 || account > count;
                    let number = first_refusal(*name != right, wrong_account, root.len() != 32, room < length);
                    let request = Request { file: &file, name, account, root, room };
                    let expected = request.expected(&issuer);
                    let what = || format!("second alone: {}", request.text());
                    asked.group.case(what, *expected.as_ref().err().unwrap_or(&0), number);
                    asked.issue(request, &expected);
                }
            }
        }
    }
}

fn wrong_calls(random: &mut Random, hash: &Sha256, counts: &mut Counts) -> bool {
    let name = "320 policies, wrong names, accounts, roots and buffers in all combinations";
    let mut asked = Asked::new(name, hash, counts);
    for i in 0..320 {
        let labels = 1 + random.below(12);
        let made = match i % 16 {
            0 => files::any_size(random, 64),
            1 => files::any_policy(random),
            _ => files::shaped(random, labels, 3),
        };
        every_wrong(&mut asked, random, &made);
    }
    asked.report()
}

/// Every room from none to some bytes more than the envelope.
fn rooms(random: &mut Random, hash: &Sha256, counts: &mut Counts) -> bool {
    let mut asked = Asked::new("envelopes into buffers of every length", hash, counts);
    for labels in [1, 2, 3, 4, 7, 12, 20, 40, 64] {
        let mut made = files::shaped(random, labels, labels);
        made.counts = made.counts.iter().map(|count| *count.max(&1)).collect();
        let (file, planned) = (made.to_bytes(), Planned::new(&made));
        let issuer = Issuer { hash, policy: &made, planned: &planned };
        let root = random.bytes(32);
        for label in [0, random.below(labels), labels - 1] {
            let (name, account) = (&made.names[label], made.counts[label] as u32);
            let envelope = issuer.issue(name, account, &root, usize::MAX).unwrap();
            for room in 0..envelope.len() + 50 {
                let expected = if room < envelope.len() { Err(16) } else { Ok(envelope.clone()) };
                asked.issue(Request { file: &file, name, account, root: &root, room }, &expected);
            }
        }
    }
    asked.report()
}

/// With a refused policy everything else may be right or wrong.
fn refused(random: &mut Random, hash: &Sha256, counts: &mut Counts) -> bool {
    let mut asked = Asked::new("6,000 refused policies: keys and envelopes", hash, counts);
    for _ in 0..6000 {
        let (file, number) = files::refused_policy(random);
        let named = file.get(2..10).map_or(random.bytes(8), <[u8]>::to_vec);
        for name in [&named[..], b"", b"NOTTHERE"] {
            let (account, room) = (random.choose(&[0, 1, 65_536]) as u32, random.choose(&[0, 12, 3000]));
            let length = random.choose(&[32, 32, 31, 0, 64]);
            let root = random.bytes(length);
            asked.key(&file, name, &root, Err(number));
            asked.issue(Request { file: &file, name, account, root: &root, room }, &Err(number));
        }
    }
    asked.report()
}

pub fn groups(random: &mut Random, hash: &Sha256, counts: &mut Counts) -> Vec<bool> {
    vec![
        by_hand(hash, counts),
        every_envelope(random, hash, counts),
        wrong_calls(random, hash, counts),
        rooms(random, hash, counts),
        refused(random, hash, counts),
    ]
}
