//! Files to compare on. Policy files: valid ones of every size and shape, damaged ones, and noise. Tree files:
//! valid ones and damaged ones.

use crate::policy::{self, Policy, MOST_LABELS, MOST_PAIRS};
use crate::random::Random;
use crate::tree::Planned;

const NAME_BYTES: &[u8] = b"ABCDEFGHIJKLMNOPQRSTUVWXYZ0123456789";

/// A policy as document 01 writes it: names with their accounts, and pairs.
pub fn written(labels: &[(&str, u16)], pairs: &[(u8, u8)]) -> Vec<u8> {
    let padded = |name: &str| format!("{name:8}").into_bytes().try_into().unwrap();
    let policy = Policy {
        names: labels.iter().map(|label| padded(label.0)).collect(),
        counts: labels.iter().map(|label| label.1).collect(),
        pairs: pairs.to_vec(),
    };
    policy.to_bytes()
}

pub fn written_e(pairs: &[(u8, u8)]) -> Vec<u8> {
    written(&[("SUITE", 2), ("CURVES", 3), ("CONV32", 5), ("ACCRUED", 4)], pairs)
}

pub const E_PAIRS: [(u8, u8); 4] = [(0, 1), (0, 2), (1, 3), (2, 3)];

/// That many labels named L0, L1 and so on.
pub fn numbered(labels: usize, count: u16, pairs: &[(u8, u8)]) -> Vec<u8> {
    let names: Vec<String> = (0..labels).map(|l| format!("L{l}")).collect();
    let labels: Vec<(&str, u16)> = names.iter().map(|name| (name.as_str(), count)).collect();
    written(&labels, pairs)
}

/// A well-formed name; short ones are frequent, so that names meet.
pub fn name(random: &mut Random) -> [u8; 8] {
    let mut name = [b' '; 8];
    let length = 1 + random.below(8);
    for byte in &mut name[..length] {
        *byte = NAME_BYTES[random.below(NAME_BYTES.len())];
    }
    name
}

fn count(random: &mut Random) -> u16 {
    match random.below(6) {
        0 => 0,
        1 => 65_535,
        2 => random.next() as u16,
        _ => random.below(9) as u16,
    }
}

/// An accepted policy with that many labels and, beside the pair that each label needs, that many pairs.
pub fn policy(random: &mut Random, labels: usize, more_pairs: usize) -> Policy {
    let mut policy = Policy::default();
    while policy.names.len() < labels {
        let name = name(random);
        if !policy.names.contains(&name) {
            policy.names.push(name);
            policy.counts.push(count(random));
        }
    }
    let pair = |random: &mut Random, lower: usize| (random.below(lower) as u8, lower as u8);
    for lower in 1..labels {
        policy.pairs.push(pair(random, lower));
    }
    let room = MOST_PAIRS - policy.pairs.len();
    for _ in 0..if labels > 1 { more_pairs.min(room) } else { 0 } {
        let lower = 1 + random.below(labels - 1);
        policy.pairs.push(pair(random, lower));
    }
    for i in (1..policy.pairs.len()).rev() {
        policy.pairs.swap(i, random.below(i + 1));
    }
    policy
}

/// An accepted policy of any size, small ones more often.
pub fn any_policy(random: &mut Random) -> Policy {
    let most_labels = random.choose(&[4, 8, 20, MOST_LABELS]);
    let most_more = random.choose(&[2, 12, 80, MOST_PAIRS]);
    let labels = 1 + random.below(most_labels);
    let more = random.below(most_more);
    policy(random, labels, more)
}

/// A file one record over a limit: a 65th label or a 513th pair, with nothing else wrong or something.
pub fn overfull(random: &mut Random) -> Vec<u8> {
    let mut full = policy(random, MOST_LABELS, MOST_PAIRS);
    match random.below(6) {
        0 => full.names.push(*b"ONEMORE1"),
        1 => full.names.push(full.names[0]),
        2 => full.names.push(*b"one more"),
        3 => full.pairs.push((random.byte(), random.byte())),
        _ => full.pairs.push((0, 1)),
    }
    full.counts.resize(full.names.len(), 1);
    full.to_bytes()
}

/// One field of one record made wrong, so that each refusal comes up.
fn wrong_field(random: &mut Random, mut policy: Policy) -> Vec<u8> {
    let labels = policy.names.len();
    let label = random.below(labels);
    let pairs = policy.pairs.len();
    match random.below(8) {
        0 => policy.names[label][random.below(8)] = random.byte(),
        1 => policy.names[label][random.below(8)] = b' ',
        2 => policy.names[label] = policy.names[random.below(labels)],
        3 if pairs > 0 => policy.pairs[random.below(pairs)].1 = random.below(labels + 2) as u8,
        4 if pairs > 0 => policy.pairs[random.below(pairs)].0 = random.below(labels + 2) as u8,
        5 if pairs > 0 => {
            policy.pairs.remove(random.below(pairs));
        }
        6 if pairs > 0 => {
            let i = random.below(pairs);
            let (upper, lower) = policy.pairs[i];
            policy.pairs[i] = (lower, upper);
        }
        _ => policy.names[label] = [b' '; 8],
    }
    policy.to_bytes()
}

/// The file's records as byte strings, as far as it has whole ones.
fn records(file: &[u8]) -> Vec<Vec<u8>> {
    let mut rest = file;
    let mut records = Vec::new();
    while !rest.is_empty() {
        let length = if rest[0] == b'L' { 12 } else { 4 };
        let (record, after) = rest.split_at(length.min(rest.len()));
        records.push(record.to_vec());
        rest = after;
    }
    records
}

/// Whole records repeated, swapped, removed or moved.
fn shuffled(random: &mut Random, file: &[u8]) -> Vec<u8> {
    let mut records = records(file);
    let at = random.below(records.len());
    let other = random.below(records.len());
    match random.below(4) {
        0 => records.insert(at, records[other].clone()),
        1 => records.swap(at, other),
        2 => {
            records.remove(at);
        }
        _ => {
            let record = records.remove(at);
            records.push(record);
        }
    }
    records.concat()
}

/// A valid file with one to three injuries of any kind.
pub fn damaged(random: &mut Random) -> Vec<u8> {
    let policy = any_policy(random);
    if random.once_in(2) {
        return wrong_field(random, policy);
    }
    let mut file = policy.to_bytes();
    for _ in 0..1 + random.below(3) {
        if file.is_empty() {
            return file;
        }
        let at = random.below(file.len());
        match random.below(6) {
            0 => file[at] = random.byte(),
            1 => file.truncate(at),
            2 => {
                file.remove(at);
            }
            3 => file.insert(at, random.byte()),
            4 => file.extend_from_slice(&b"LBOVTRENKSKD"[..random.below(12)]),
            _ => file = shuffled(random, &file),
        }
    }
    file
}

/// Bytes at random, now and then with a mark in front.
pub fn noise(random: &mut Random, length: usize) -> Vec<u8> {
    let mut file = random.bytes(length);
    if length >= 2 && random.once_in(2) {
        let mark = [b"LB", b"OV", b"TR", b"EN"][random.below(4)];
        file[..2].copy_from_slice(mark);
    }
    file
}

/// A policy that is refused, with each refusal from 1 to 10 among them.
pub fn refused_policy(random: &mut Random) -> (Vec<u8>, u8) {
    loop {
        let length = random.below(3000);
        let file = match random.below(40) {
            0 => Vec::new(),
            1 => noise(random, length),
            2 => overfull(random),
            _ => damaged(random),
        };
        if let Err(number) = policy::read(&file) {
            return (file, number);
        }
    }
}

/// Counts for that many labels. Small ones and equal ones are frequent, so that weights tie.
fn counts(random: &mut Random, labels: usize) -> Vec<u16> {
    let kind = random.below(6);
    let same = random.choose(&[0, 1, 65_535]) as u16;
    let one = |_| match kind {
        0 | 1 => random.below(3) as u16,
        2 => same,
        3 => random.choose(&[0, 65_535]) as u16,
        4 => random.below(9) as u16,
        _ => count(random),
    };
    (0..labels).map(one).collect()
}

/// That many earlier labels, not before `from`, each once.
fn some_of(random: &mut Random, from: usize, lower: usize, many: usize) -> Vec<usize> {
    let mut left: Vec<usize> = (from..lower).collect();
    while left.len() > many {
        left.remove(random.below(left.len()));
    }
    left
}

/// The uppers of a label in an order of the shape: a chain, a star, diamonds hung from each other, a tree,
/// layers, two chains, near ones, any ones.
fn uppers(random: &mut Random, shape: usize, width: usize, lower: usize) -> Vec<usize> {
    let (round, place) = ((lower - 1) / width, (lower - 1) % width);
    let many = 1 + random.below(8);
    match shape {
        0 => vec![lower - 1],
        1 => vec![0],
        2 if (lower - 1) % (width + 1) == width => (lower - width..lower).collect(),
        2 => vec![lower - 1 - (lower - 1) % (width + 1)],
        3 => vec![random.below(lower)],
        4 if round > 0 => some_of(random, lower - place - width, lower - place, many),
        4 => vec![0],
        5 => vec![lower.saturating_sub(2)],
        6 => some_of(random, lower.saturating_sub(16), lower, many),
        _ => some_of(random, 0, lower, many),
    }
}

/// An accepted policy with names that differ and those pairs, in any order.
fn with_pairs(random: &mut Random, labels: usize, mut pairs: Vec<(u8, u8)>) -> Policy {
    for i in (1..pairs.len()).rev() {
        pairs.swap(i, random.below(i + 1));
    }
    Policy { counts: counts(random, labels), pairs, ..policy(random, labels, 0) }
}

/// An accepted policy with that many labels in one of the shapes, and up to that many pairs more that are
/// repeated or, now and then, new.
pub fn shaped(random: &mut Random, labels: usize, more_pairs: usize) -> Policy {
    let (shape, width) = (random.below(8), 2 + random.below(7));
    let mut pairs: Vec<(u8, u8)> = Vec::new();
    for lower in 1..labels {
        let uppers = uppers(random, shape, width, lower);
        pairs.extend(uppers.iter().map(|upper| (*upper as u8, lower as u8)));
    }
    let end = MOST_PAIRS.min(pairs.len() + if labels > 1 { more_pairs } else { 0 });
    let new_in = random.choose(&[2, 20, 1000]);
    while pairs.len() < end {
        let lower = 1 + random.below(labels - 1);
        let new = (random.below(lower) as u8, lower as u8);
        let again = pairs[random.below(pairs.len())];
        pairs.push(if random.once_in(new_in) { new } else { again });
    }
    with_pairs(random, labels, pairs)
}

/// A full policy with names of 8 bytes and many accounts, so that its texts are about the longest.
fn longest(random: &mut Random) -> Policy {
    let mut policy = shaped(random, MOST_LABELS, MOST_PAIRS);
    let long = |l: usize| format!("LONGEST{}", NAME_BYTES[l % 32] as char).into_bytes();
    for l in 0..MOST_LABELS {
        policy.names[l] = long(l).try_into().unwrap();
        policy.names[l][0] -= (l / 32) as u8;
        policy.counts[l] = 65_535 - random.below(9) as u16;
    }
    policy
}

/// A policy of any size and shape; each eighth is full, with 64 labels and 512 pairs.
pub fn any_size(random: &mut Random, i: usize) -> Policy {
    let most_labels = random.choose(&[8, 20, MOST_LABELS]);
    let labels = 1 + random.below(most_labels);
    let more = random.choose(&[0, 3, 60, MOST_PAIRS]);
    match i {
        0..=63 => shaped(random, i + 1, 512),
        _ if i % 8 == 0 => shaped(random, 64, 512),
        _ if i % 16 == 1 => longest(random),
        _ if i % 8 == 1 => any_policy(random),
        _ => shaped(random, labels, more),
    }
}

/// An accepted policy for each set of pairs that is possible with that many labels.
pub fn every_order(random: &mut Random, labels: usize) -> Vec<Policy> {
    let below = |lower: u8| (0..lower).map(move |upper| (upper, lower));
    let possible: Vec<(u8, u8)> = (1..labels as u8).flat_map(below).collect();
    let mut list = Vec::new();
    for chosen in 0..1usize << possible.len() {
        let is_chosen = |i: &usize| chosen >> i & 1 == 1;
        let pairs: Vec<(u8, u8)> = (0..possible.len()).filter(is_chosen).map(|i| possible[i]).collect();
        if (1..labels as u8).all(|label| pairs.iter().any(|pair| pair.1 == label)) {
            list.push(with_pairs(random, labels, pairs));
        }
    }
    list
}

pub fn tree_file(tree: &[usize]) -> Vec<u8> {
    [b'T', b'R'].into_iter().chain(tree.iter().map(|parent| *parent as u8)).collect()
}

/// A derivation tree with parents at random.
pub fn any_tree(random: &mut Random, planned: &Planned) -> Vec<usize> {
    let mut tree = vec![0];
    for label in 1..planned.labels() {
        let above = planned.strictly_above(label);
        tree.push(above[random.below(above.len())]);
    }
    tree
}

/// A label of the policy that may not be the label's parent: itself, a lower one, or one that it cannot be
/// compared with.
fn no_parent(random: &mut Random, planned: &Planned, label: usize) -> usize {
    let above = planned.strictly_above(label);
    let others: Vec<usize> = (0..planned.labels()).filter(|l| !above.contains(l)).collect();
    others[random.below(others.len())]
}

/// A valid tree file with one injury or two.
pub fn damaged_tree(random: &mut Random, planned: &Planned) -> Vec<u8> {
    let mut file = tree_file(&any_tree(random, planned));
    let labels = planned.labels();
    for _ in 0..1 + random.below(2) {
        let at = 2 + random.below(labels);
        let many = 1 + random.below(3);
        match random.below(10) {
            0 => file.truncate(random.below(file.len() + 1)),
            1 => file.extend(random.bytes(many)),
            2 => file = noise(random, labels + 2),
            3 => file = [b"TR".to_vec(), random.bytes(labels)].concat(),
            4 => file[..2].copy_from_slice([b"LB", b"OV", b"EN", b"KS", b"KD", b"tr", b"RT"][random.below(7)]),
            5 => file[random.below(2)] = random.byte(),
            6 => file[2] = 1 + random.below(255) as u8,
            7 => file[at] = random.choose(&[at - 2, labels, labels + 1, 64, 128, 255]) as u8,
            8 => file[at] = random.byte(),
            _ => file[at] = no_parent(random, planned, at - 2) as u8,
        }
        if file.len() != 2 + labels {
            break;
        }
    }
    file
}
