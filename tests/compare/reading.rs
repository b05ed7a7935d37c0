//! The groups that compare hashes, policies as they are read, and orders.

use crate::files;
use crate::group::{hex, Answers, Group};
use crate::random::Random;
use crate::sha256::Sha256;
use crate::{ours, policy};

fn hash_lengths(random: &mut Random, second: &Sha256) -> bool {
    let mut group = Group::new("sha256, every length from 0 to 1,024");
    for length in 0..=1024 {
        let message = random.bytes(length);
        group.case(|| hex(&message), ours::sha256(&message), second.answer_hash(&message));
    }
    group.report("")
}

fn hash_random(random: &mut Random, second: &Sha256) -> bool {
    let mut group = Group::new("sha256, lengths up to 65,536 and about the limit");
    for i in 0..3000 {
        let length = if i < 12 { 65_530 + i } else { random.below(65_537) };
        let message = random.bytes(length);
        let what = || format!("{length} bytes");
        group.case(what, ours::sha256(&message), second.answer_hash(&message));
    }
    group.report("")
}

fn mac_keys(random: &mut Random, second: &Sha256) -> bool {
    let mut group = Group::new("hmac, keys of 0 to 200 bytes and about the limit");
    for i in 0..4 * 201 {
        let key = random.bytes(i % 201);
        let message = if i < 201 { random.bytes(8) } else { let n = random.below(2000); random.bytes(n) };
        let what = || format!("key {}, message {}", hex(&key), hex(&message));
        group.case(what, ours::hmac_sha256(&key, &message), second.answer_mac(&key, &message));
    }
    for (k, m) in [(65_536, 0), (65_537, 0), (0, 65_536), (0, 65_537), (65_536, 65_536), (65_537, 65_537)] {
        let (key, message) = (random.bytes(k), random.bytes(m));
        let what = || format!("key of {k} bytes, message of {m}");
        group.case(what, ours::hmac_sha256(&key, &message), second.answer_mac(&key, &message));
    }
    group.report("")
}

/// Compares the reading of each file and how far it goes, and counts the answers by refusal number.
fn policies(name: &'static str, files: impl Iterator<Item = Vec<u8>>) -> bool {
    let mut group = Group::new(name);
    let mut answers = Answers::default();
    for file in files {
        let second = policy::read(&file);
        answers.add(second.as_ref().err().copied().unwrap_or(0), 1);
        let expected = second.map(|policy| ours::expected(&policy));
        group.case(|| hex(&file), ours::read_policy(&file), expected);
        let what = || format!("records of {}", hex(&file));
        group.case(what, ours::policy_records(&file), policy::records_read(&file));
    }
    group.report(&answers.text())
}

/// Policy files with the number of records that are read of each, the second implementation's too.
fn records_by_hand() -> bool {
    let mut group = Group::new("records of policy files, counted by hand");
    let e = |more: &[(u8, u8)]| files::written_e(&[&files::E_PAIRS, more].concat());
    let one = files::written(&[("A", 7)], &[]);
    let star: Vec<(u8, u8)> = (1..65).map(|lower| (0, lower)).collect();
    let list = [
        (Vec::new(), 0),
        (one[..11].to_vec(), 0),
        (one.clone(), 1),
        ([&one[..], b"O"].concat(), 1),
        ([&one[..], &one].concat(), 1),
        ([&one[..], b"OV\0\0"].concat(), 1),
        (files::written_e(&files::E_PAIRS[..2]), 6),
        (e(&[]), 8),
        (e(&[(3, 3)]), 8),
        (e(&[(0, 3), (3, 4)]), 9),
        ([e(&[]), one].concat(), 8),
        (files::numbered(64, 9, &star[..63]), 127),
        (files::numbered(65, 9, &star), 64),
        (files::numbered(2, 9, &[(0, 1); 512]), 514),
        (files::numbered(2, 9, &[(0, 1); 513]), 514),
    ];
    for (file, records) in list {
        group.case(|| format!("{}, second alone", hex(&file)), policy::records_read(&file), records);
        group.case(|| hex(&file), ours::policy_records(&file), records);
    }
    group.report("")
}

fn every_length(random: &mut Random) -> Vec<Vec<u8>> {
    let full = files::policy(random, 64, 512).to_bytes();
    let mut list: Vec<Vec<u8>> = (0..=full.len()).map(|n| full[..n].to_vec()).collect();
    for length in 0..=2900 {
        list.push(files::noise(random, length));
        let mut longer = full.clone();
        longer.resize(length, b'O');
        list.push(longer);
    }
    list
}

fn order(random: &mut Random) -> bool {
    let mut group = Group::new("order, every entry of the table");
    for i in 0..600 {
        let made = if i < 64 { files::policy(random, i + 1, 8 * i) } else { files::any_policy(random) };
        let (refusal, rows) = ours::order(&made.to_bytes());
        group.case(|| hex(&made.to_bytes()), refusal, 0);
        let labels = made.names.len();
        for lower in 0..64 {
            for upper in 0..64 {
                let is = lower < labels && upper < labels && made.at_or_below(lower, upper);
                let what = || format!("{} at {lower}, {upper}", hex(&made.to_bytes()));
                group.case(what, rows[lower][upper], is);
            }
        }
    }
    group.report("")
}

fn order_refused(random: &mut Random) -> bool {
    let mut group = Group::new("order of refused files, every entry no");
    while group.agreed < 2000 && group.differing.is_none() {
        let file = files::damaged(random);
        if let Err(number) = policy::read(&file) {
            let (refusal, rows) = ours::order(&file);
            let no = rows.iter().flatten().all(|entry| !*entry);
            group.case(|| hex(&file), (refusal, no), (number, true));
        }
    }
    group.report("")
}

pub fn groups(random: &mut Random, second: &Sha256) -> Vec<bool> {
    vec![
        hash_lengths(random, second),
        hash_random(random, second),
        mac_keys(random, second),
        records_by_hand(),
        policies("policies, cut or continued at every length to 2,900", every_length(random).into_iter()),
        policies("policies, valid", (0..8000).map(|i| match i {
            0..=63 => files::policy(random, i + 1, 512).to_bytes(),
            _ => files::any_policy(random).to_bytes(),
        })),
        policies("policies, damaged", (0..24_000).map(|_| files::damaged(random))),
        policies("policies, one record too many", (0..200).map(|_| files::overfull(random))),
        policies("policies, noise", (0..4000).map(|_| {
            let length = random.below(64);
            files::noise(random, length)
        })),
        order(random),
        order_refused(random),
    ]
}
