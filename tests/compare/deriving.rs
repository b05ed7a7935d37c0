//! The groups that compare what is derived from envelopes that no issuer wrote so: refusals, damage, noise.

use crate::envelope::{self, Envelope};
use crate::files;
use crate::group::{hex, Group};
use crate::issuing::{padded, Asked, Counts};
use crate::ours;
use crate::random::Random;
use crate::records;
use crate::sha256::Sha256;

fn header(account: u8, name: &str) -> Vec<u8> {
    [b"EN\0", &[account][..], &padded(name)].concat()
}

/// A held record, whose secret is 32 times one byte.
fn held(name: &str) -> Vec<u8> {
    [b"KS", &padded(name)[..], &[7; 32]].concat()
}

fn below(name: &str, place: u8) -> Vec<u8> {
    [b"KD", &padded(name)[..], &[place]].concat()
}

/// An envelope for A with so many records, held or each below the one before.
fn line(records: usize, chain: bool) -> Vec<u8> {
    let one = |place: usize| match chain {
        true => below(&format!("L{place}"), place as u8 - 1),
        false => held(&format!("L{place}")),
    };
    let records = (1..records).map(one);
    [header(1, "A"), held("A")].into_iter().chain(records).collect::<Vec<_>>().concat()
}

/// The table's sentences on an envelope and its first record, each with the refusal.
fn starts_by_hand() -> Vec<(Vec<u8>, u8)> {
    let start = |records: &[Vec<u8>]| [header(1, "A"), records.concat()].concat();
    let cut = |record: Vec<u8>| record[..record.len() - 1].to_vec();
    vec![
        (header(1, "A"), 18),
        (header(1, "A")[..11].to_vec(), 17),
        (Vec::new(), 17),
        (header(0, "A"), 17),
        ([b"KS\0\x01", &padded("A")[..], &held("A")].concat(), 17),
        ([header(0, "A"), held("A")].concat(), 17),
        (start(&[b"K".to_vec()]), 2),
        (start(&[header(1, "A")]), 2),
        (start(&[b"LBA       \0\x01".to_vec()]), 2),
        (start(&[b"KS".to_vec()]), 3),
        (start(&[cut(held("A"))]), 3),
        (start(&[cut(held("B"))]), 3),
        (start(&[cut(below("A", 0))]), 3),
        (start(&[held("")]), 6),
        (start(&[held("A B")]), 6),
        (start(&[below("a", 0)]), 6),
        (start(&[below("A", 0)]), 18),
        (start(&[below("B", 9)]), 18),
        (start(&[held("B")]), 18),
        ([header(1, ""), held("A")].concat(), 18),
        ([header(1, "a"), held("a")].concat(), 6),
        (start(&[held("B"), b"XX".to_vec()]), 18),
    ]
}

/// The same on later records, behind a good one.
fn later_by_hand() -> Vec<(Vec<u8>, u8)> {
    let more = |records: &[Vec<u8>]| [header(1, "A"), held("A"), records.concat()].concat();
    let cut = |record: Vec<u8>| record[..record.len() - 1].to_vec();
    let full = |record: Vec<u8>| [line(64, false), record].concat();
    vec![
        (more(&[b"E".to_vec()]), 2),
        (more(&[header(1, "A")]), 2),
        (more(&[b"OV\0\x01".to_vec()]), 2),
        (more(&[cut(held("B"))]), 3),
        (more(&[cut(below("A", 9))]), 3),
        (more(&[held(" B")]), 6),
        (more(&[below("b", 9)]), 6),
        (more(&[held("A")]), 7),
        (more(&[below("A", 9)]), 7),
        (more(&[below("B", 1)]), 19),
        (more(&[below("B", 255)]), 19),
        (more(&[below("B", 0), below("C", 2)]), 19),
        (more(&[below("B", 0), below("B", 2)]), 7),
        (more(&[below("B", 1), held("C"), b"X".to_vec()]), 19),
        (full(b"K".to_vec()), 2),
        (full(header(1, "A")), 2),
        (full(cut(held("B"))), 3),
        (full(held("B")), 5),
        (full(below("b", 99)), 5),
        (full(below("A", 99)), 5),
        ([line(64, true), below("B", 0)].concat(), 5),
        ([line(70, true), b"X".to_vec()].concat(), 5),
    ]
}

/// Envelopes with the number of records that are read of each.
fn records_by_hand() -> Vec<(Vec<u8>, usize)> {
    let start = |records: &[Vec<u8>]| [header(1, "A"), records.concat()].concat();
    vec![
        (Vec::new(), 0),
        (header(1, "A"), 0),
        ([header(0, "A"), held("A")].concat(), 0),
        (start(&[below("A", 0)]), 0),
        (start(&[held("A")]), 1),
        (start(&[held("A"), b"K".to_vec()]), 1),
        (start(&[held("A"), held("A"), held("B")]), 1),
        (start(&[held("A"), below("B", 0), held("C")]), 3),
        (start(&[held("A"), below("B", 0), below("C", 2), held("D")]), 2),
        (line(64, false), 64),
        (line(70, true), 64),
    ]
}

/// The account and the labels' names of an envelope, and how many records are read.
fn labels_by_hand() -> bool {
    let mut group = Group::new("labels and records of envelopes, counted by hand");
    let (name, file) = (|name| padded(name).try_into().unwrap(), line(3, true));
    let labels = Ok((1, vec![name("A"), name("L1"), name("L2")]));
    group.case(|| hex(&file), ours::labels(&file), labels.clone());
    group.case(|| format!("{}, second alone", hex(&file)), envelope::labels(&file), labels);
    for (file, records) in records_by_hand() {
        group.case(|| format!("{}, second alone", hex(&file)), envelope::records_read(&file), records);
        group.case(|| hex(&file), ours::envelope_records(&file), records);
    }
    group.report("")
}

/// Refusals come in the table's order, 20 after the whole envelope; the longest chain takes 64 applications.
fn by_hand(hash: &Sha256, counts: &mut Counts) -> bool {
    let mut asked = Asked::new("envelopes with one thing wrong, or two, in the table's order", hash, counts);
    let names = [padded("A"), padded("B"), padded("L63"), padded("NONE"), Vec::new()];
    for (file, number) in starts_by_hand().into_iter().chain(later_by_hand()) {
        let derived = envelope::derive(hash, &file, &names);
        asked.group.case(|| format!("{number}, second alone"), derived, vec![Err(number); names.len()]);
        asked.derive_each(&file, &names);
    }
    for (chain, most) in [(true, 64), (false, 1)] {
        let file = line(64, chain);
        let applications = envelope::derive(hash, &file, &names)[2].map(|derived| derived.1);
        asked.group.case(|| "64 records, second alone".to_string(), applications, Ok(most));
        asked.derive_each(&file, &names);
    }
    asked.report()
}

/// Names to ask an envelope for: the first, the last and some others of those it has, and names it has not.
pub fn some_names(random: &mut Random, of: &[Vec<u8>]) -> Vec<Vec<u8>> {
    let mut names = vec![files::name(random).to_vec()];
    if let (Some(first), Some(last)) = (of.first(), of.last()) {
        names.extend([first.clone(), last.clone(), of[random.below(of.len())].clone()]);
        let mut other = of[random.below(of.len())].clone();
        match random.below(4) {
            0 => other.truncate(random.below(8)),
            1 => other.push(b' '),
            2 => other.make_ascii_lowercase(),
            _ => other[random.below(8)] ^= 1 << random.below(8),
        }
        names.push(other);
    }
    names
}

fn damaged(random: &mut Random, hash: &Sha256, counts: &mut Counts) -> bool {
    let mut asked = Asked::new("40,000 damaged envelopes, several names from each", hash, counts);
    for _ in 0..40_000 {
        let (file, of) = records::damaged(random, hash);
        asked.derive_each(&file, &some_names(random, &of));
    }
    asked.report()
}

fn names(envelope: &Envelope) -> Vec<Vec<u8>> {
    envelope.records.iter().map(|record| record.name.to_vec()).collect()
}

/// Every name of envelopes that no issuer wrote: several secrets held, chains of up to 64 records.
fn made_up(random: &mut Random, hash: &Sha256, counts: &mut Counts) -> bool {
    let mut asked = Asked::new("2,000 envelopes that no issuer wrote, every name from each", hash, counts);
    for i in 0..2000 {
        let records = if i < 70 { i + 1 } else { 1 + random.below(70) };
        let envelope = records::made_up(random, records);
        let of = names(&envelope);
        asked.derive_each(&envelope.to_bytes(), &[&of[..], &some_names(random, &of)].concat());
    }
    asked.report()
}

/// Issued envelopes and full ones, cut at every length.
fn cut(random: &mut Random, hash: &Sha256, counts: &mut Counts) -> bool {
    let mut asked = Asked::new("60 envelopes, cut at every length", hash, counts);
    for i in 0..60 {
        let envelope = match i {
            0..=3 => records::made_up(random, 61 + i),
            _ => records::issued(random, hash),
        };
        let (file, of) = (envelope.to_bytes(), names(&envelope));
        for length in 0..=file.len() {
            let asked_for = [of[0].clone(), of[random.below(of.len())].clone()];
            asked.derive_each(&file[..length], &asked_for);
        }
    }
    asked.report()
}

/// Noise of every length to 2,800 that starts like an envelope.
fn noise(random: &mut Random, hash: &Sha256, counts: &mut Counts) -> bool {
    let mut asked = Asked::new("noise of every length to 2,800 that starts like an envelope", hash, counts);
    for length in 0..=2800 {
        for _ in 0..4 {
            let file = records::noise(random, length);
            let first = file.get(4..12).map_or(Vec::new(), <[u8]>::to_vec);
            asked.derive_each(&file, &[first, files::name(random).to_vec()]);
        }
    }
    asked.report()
}

pub fn groups(random: &mut Random, hash: &Sha256, counts: &mut Counts) -> Vec<bool> {
    vec![
        labels_by_hand(),
        by_hand(hash, counts),
        damaged(random, hash, counts),
        made_up(random, hash, counts),
        cut(random, hash, counts),
        noise(random, hash, counts),
    ]
}
