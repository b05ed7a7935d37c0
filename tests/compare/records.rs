//! Envelopes to compare on: issued ones, ones that no issuer wrote, damaged ones, and noise.

use crate::envelope::{Envelope, Issuer, Record, Source};
use crate::files;
use crate::random::Random;
use crate::sha256::Sha256;
use crate::tree::Planned;

fn key(random: &mut Random) -> [u8; 32] {
    random.bytes(32).try_into().unwrap()
}

fn account(random: &mut Random) -> u16 {
    1 + random.below(65_535) as u16
}

/// The envelope of some account under some policy.
pub fn issued(random: &mut Random, hash: &Sha256) -> Envelope {
    let policy = files::any_policy(random);
    let issuer = Issuer { hash, policy: &policy, planned: &Planned::new(&policy) };
    let from_top = 1 + random.below(64);
    let label = random.below(policy.names.len().min(from_top));
    issuer.envelope(label, account(random), key(random))
}

/// An envelope with so many records, as no issuer may have written it: secrets are held anywhere, and a
/// parent's record is any earlier one, often a near one, so that there are long chains.
pub fn made_up(random: &mut Random, records: usize) -> Envelope {
    let mut envelope = Envelope { account: account(random), label: files::name(random), records: Vec::new() };
    let held_in = random.choose(&[1, 2, 8, 1000]);
    let near = random.choose(&[1, 1, 2, 64]);
    for place in 0..records {
        let mut name = envelope.label;
        while envelope.records.iter().any(|record| record.name == name) {
            name = files::name(random);
        }
        let source = if place == 0 || random.once_in(held_in) {
            Source::Held(key(random))
        } else {
            Source::Parent((place - 1 - random.below(place.min(near))) as u8)
        };
        envelope.records.push(Record { name, source });
    }
    envelope
}

/// 64 records each below the one before, and now and then a 65th with nothing wrong in it or something.
pub fn full(random: &mut Random) -> Envelope {
    let mut envelope = made_up(random, 65);
    for place in 1..65 {
        envelope.records[place].source = Source::Parent(place as u8 - 1);
    }
    let first = envelope.records[0].name;
    let last = &mut envelope.records[64];
    match random.below(12) {
        0 => (),
        1 => last.name = *b"one more",
        2 => last.name = first,
        3 => last.source = Source::Parent(random.byte()),
        _ => envelope.records.truncate(64),
    }
    envelope
}

/// An envelope of any kind, small ones more often, now and then with up to 70 records.
pub fn any(random: &mut Random, hash: &Sha256) -> Envelope {
    let most = random.choose(&[4, 8, 20, 64]);
    let records = 1 + random.below(most);
    match random.below(12) {
        0 => {
            let more = random.below(8);
            made_up(random, 63 + more)
        }
        1..=6 => made_up(random, records),
        _ => issued(random, hash),
    }
}

/// One field of one record, or the header, made wrong.
fn wrong_field(random: &mut Random, envelope: &mut Envelope) {
    let at = random.below(envelope.records.len());
    let other = envelope.records[random.below(envelope.records.len())].clone();
    let record = &mut envelope.records[at];
    match random.below(11) {
        0 => record.name[random.below(8)] = random.byte(),
        1 => record.name[random.below(8)] = b' ',
        2 => record.name = other.name,
        3 => record.name = [b' '; 8],
        4 => record.source = Source::Parent(random.choose(&[at, at + 1, 63, 64, 255]) as u8),
        5 => record.source = Source::Parent(random.byte()),
        6 => record.source = Source::Held(key(random)),
        7 => envelope.account = 0,
        8 => envelope.label = other.name,
        9 => envelope.label[random.below(8)] ^= 32,
        _ => envelope.records[0].source = Source::Parent(random.choose(&[0, 1]) as u8),
    }
}

/// Whole records repeated, exchanged, removed, moved, or added.
fn shuffle(random: &mut Random, envelope: &mut Envelope) {
    let at = random.below(envelope.records.len());
    let other = random.below(envelope.records.len());
    let records = &mut envelope.records;
    match random.below(6) {
        0 => records.insert(at, records[other].clone()),
        1 => records.swap(at, other),
        2 => {
            records.remove(at);
        }
        3 => {
            let record = records.remove(at);
            records.push(record);
        }
        4 => {
            let added = made_up(random, 1).records;
            records.splice(at..at, added);
        }
        _ => {
            let added = made_up(random, 64).records;
            records.extend(added);
        }
    }
}

/// One injury to the bytes. `marks` are the places of marks.
fn wrong_byte(random: &mut Random, file: &mut Vec<u8>, marks: &[usize]) {
    let (at, mark) = (random.below(file.len()), marks[random.below(marks.len())]);
    let many = random.below(60);
    match random.below(8) {
        0 => file[at] = random.byte(),
        1 => file[at] ^= 1 << random.below(8),
        2 => file.truncate(at),
        3 => {
            file.remove(at);
        }
        4 => file.insert(at, random.byte()),
        5 => file.extend_from_slice(&b"KSKDENKSLBKD"[..random.below(12)]),
        6 => file.extend(random.bytes(many)),
        _ if mark + 2 <= file.len() => {
            let marks = [b"LB", b"OV", b"TR", b"EN", b"KS", b"KD", b"ks", b"SK"];
            file[mark..mark + 2].copy_from_slice(marks[random.below(8)]);
        }
        _ => file[at] = 0,
    }
}

/// The places of the marks in an envelope's bytes.
fn marks(envelope: &Envelope) -> Vec<usize> {
    let mut marks = vec![0, 12];
    for record in &envelope.records {
        marks.push(marks[marks.len() - 1] + record.to_bytes().len());
    }
    marks.pop();
    marks
}

/// An envelope with one to four injuries, and the names that its records had before those to the bytes.
pub fn damaged(random: &mut Random, hash: &Sha256) -> (Vec<u8>, Vec<Vec<u8>>) {
    let mut envelope = any(random, hash);
    let to_records = random.below(3);
    for _ in 0..to_records {
        match random.below(2) {
            _ if envelope.records.is_empty() => envelope = any(random, hash),
            0 => wrong_field(random, &mut envelope),
            _ => shuffle(random, &mut envelope),
        }
    }
    let names = envelope.records.iter().map(|record| record.name.to_vec()).collect();
    let (mut file, marks) = (envelope.to_bytes(), marks(&envelope));
    let to_bytes = if to_records == 0 { 1 + random.below(2) } else { random.below(3) };
    for _ in 0..to_bytes {
        if !file.is_empty() {
            wrong_byte(random, &mut file, &marks);
        }
    }
    (file, names)
}

/// Noise of a length behind the start of an envelope: the mark alone, the header, one record, or several.
pub fn noise(random: &mut Random, length: usize) -> Vec<u8> {
    let records = random.below(70);
    let start = made_up(random, 1 + records).to_bytes();
    let kept = [2, 12, 54, start.len()][random.below(4)];
    let mut file = random.bytes(length);
    let kept = kept.min(length);
    file[..kept].copy_from_slice(&start[..kept]);
    file
}
