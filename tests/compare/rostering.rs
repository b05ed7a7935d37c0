//! The groups that compare rosters, and every operation that takes one.

use crate::accounts::{self, Maker, Named, Way, Who};
use crate::brute;
use crate::files;
use crate::group::{hex, Answers, Group, Hex};
use crate::issuing::{other_names, padded};
use crate::ours::Files;
use crate::policy::{self, Policy};
use crate::random::Random;
use crate::rosters::{self, Both, Counted, Roster, Standing};
use crate::sealing;
use crate::sha256::Sha256;
use crate::tree::{self, Planned};

/// What is asked beside policy and roster: a tree, a label's name, an account, a root secret, a nonce and a text.
struct Call<'a> {
    tree: &'a [u8],
    name: &'a [u8],
    account: u32,
    root: &'a [u8],
    nonce: &'a [u8],
    text: &'a [u8],
}

/// A group with the answers by refusal number.
struct Asked<'a> {
    group: Group,
    hash: &'a Sha256,
    answers: Answers,
}

fn shown(files: Files) -> String {
    format!("roster {}, policy {}", hex(files.roster), hex(files.policy))
}

fn refusal<T>(answer: &Result<T, u8>) -> u8 {
    *answer.as_ref().err().unwrap_or(&0)
}

impl<'a> Asked<'a> {
    fn new(name: &'static str, hash: &'a Sha256) -> Asked<'a> {
        Asked { group: Group::new(name), hash, answers: Answers::default() }
    }

    fn case<T: PartialEq + std::fmt::Debug>(
        &mut self,
        operation: &str,
        files: Files,
        ours: Result<T, u8>,
        second: Result<T, u8>,
    ) {
        self.answers.add(refusal(&second), 1);
        self.group.case(|| format!("{operation}, {}", shown(files)), ours, second);
    }

    /// What is expected goes to the start of a buffer of so many bytes, and all behind it stays; with a refusal the
    /// whole stays.
    fn written(
        &mut self,
        operation: &str,
        files: Files,
        expected: &Result<Vec<u8>, u8>,
        room: usize,
        write: impl Fn(&mut [u8]) -> Result<usize, u8>,
    ) {
        self.answers.add(refusal(expected), 1);
        let mut buffer: Vec<u8> = (0..room).map(|i| (room + i * 37 + i / 256) as u8).collect();
        let mut filled = buffer.clone();
        if let Ok(bytes) = expected {
            filled[..bytes.len()].copy_from_slice(bytes);
        }
        let said = write(&mut buffer);
        let what = || format!("{operation} into {room} bytes, {}", shown(files));
        let answer = expected.as_ref().map(Vec::len).map_err(|number| *number);
        self.group.case(what, (said, Hex(buffer)), (answer, Hex(filled)));
    }

    /// A text in just room for it, one byte less, and more or less at random; a refusal with room and without.
    fn rooms(
        &mut self,
        random: &mut Random,
        operation: &str,
        files: Files,
        text: Result<Vec<u8>, u8>,
        write: impl Fn(&mut [u8]) -> Result<usize, u8>,
    ) {
        let length = text.as_ref().map_or(100, Vec::len);
        for room in [length, length.saturating_sub(1), length + random.below(200), random.below(length + 1)] {
            self.written(operation, files, &tree::into_room(text.clone(), room), room, &write);
        }
    }

    fn read(&mut self, files: Files, both: &Result<Both, u8>) {
        self.case("read_roster", files, files.roster(), both.as_ref().map(Both::counted).map_err(|n| *n));
        let records = rosters::records_read(files.policy, files.roster);
        self.group.case(|| format!("records, {}", shown(files)), files.records(), records);
    }

    /// Every operation, with what is asked.
    fn everything(&mut self, random: &mut Random, files: Files, call: &Call) {
        let hash = self.hash;
        let both = &Both::read(files.policy, files.roster);
        let of = |text: fn(&Both) -> Vec<u8>| both.as_ref().map(text).map_err(|number| *number);
        self.read(files, both);
        self.case("plan", files, files.plan(), both.as_ref().map(Both::plan).map_err(|n| *n));
        self.case("growth", files, files.growth(), both.as_ref().map(Both::growth).map_err(|n| *n));
        self.rooms(random, "text", files, of(Both::text), |out| files.text(out));
        self.rooms(random, "count_policy", files, of(Both::file), |out| files.count_policy(out));
        self.rooms(random, "plan_text", files, of(Both::plan_text), |out| files.plan_text(out));
        self.rooms(random, "plan_dot", files, of(Both::plan_dot), |out| files.plan_dot(out));
        self.rooms(random, "growth_text", files, of(Both::growth_text), |out| files.growth_text(out));
        let Call { tree, name, account, root, nonce, text } = *call;
        let with = || both.as_ref().map_err(|number| *number);
        let operation = format!("weigh {}", hex(tree));
        self.case(&operation, files, files.weigh(tree), with().and_then(|both| both.weigh(tree)));
        let operation = format!("key of {}, root {}", hex(name), hex(root));
        let key = with().and_then(|both| both.key(hash, name, root));
        self.case(&operation, files, files.issuer_key(name, root), key);
        let operation = format!("issue to {account} on {}, root {}", hex(name), hex(root));
        let envelope = with().and_then(|both| both.issue(hash, name, account, root, usize::MAX));
        self.rooms(random, &operation, files, envelope, |out| files.issue(name, account, root, out));
        let operation = format!("seal {} for {}, root {}, nonce {}", hex(text), hex(name), hex(root), hex(nonce));
        let sealed = with().and_then(|both| both.seal(hash, name, root, nonce, text, usize::MAX));
        self.rooms(random, &operation, files, sealed, |out| files.seal(name, root, nonce, text, out));
    }

    /// The same with a call at random, in which most is right.
    fn any_call(&mut self, random: &mut Random, files: Files) {
        let policy = policy::read(files.policy).unwrap_or_else(|_| files::any_policy(random));
        let planned = Planned::new(&policy);
        let tree = match random.below(4) {
            0 => files::damaged_tree(random, &planned),
            _ => files::tree_file(&files::any_tree(random, &planned)),
        };
        let roster = rosters::read(files.policy, files.roster).map_or(Roster::default(), |(_, roster)| roster);
        let (name, account) = some_account(random, &policy, &roster);
        let [root, nonce, text] = [(32, 31), (12, 11), (3, 40)].map(|(right, other)| {
            let length = if random.once_in(8) { other } else { right };
            random.bytes(length)
        });
        let call = Call { tree: &tree, name: &name, account, root: &root, nonce: &nonce, text: &text };
        self.everything(random, files, &call);
    }

    fn report(self) -> bool {
        self.group.report(&self.answers.text())
    }
}

/// An account and a name to issue to: mostly of an account on a label and that label's, or a wrong one.
pub fn some_account(random: &mut Random, policy: &Policy, roster: &Roster) -> (Vec<u8>, u32) {
    let from = 1 + random.below(4096) as u16;
    let kind = random.below(8);
    let wanted = |standing| match kind {
        0 => standing == Standing::Withdrawn,
        1 | 2 => matches!(standing, Standing::Held(_)),
        _ => matches!(standing, Standing::Active(_)),
    };
    let account = roster.some(from, wanted).unwrap_or(from) as u32;
    let others = other_names(random, policy);
    let name = match roster.standing(account) {
        _ if random.once_in(12) && !others.is_empty() => others[random.below(others.len())].clone(),
        Standing::Active(label) | Standing::Held(label) if !random.once_in(6) => {
            policy.names[label as usize].to_vec()
        }
        _ => policy.names[random.below(policy.names.len())].to_vec(),
    };
    let account = match random.below(16) {
        0 => random.choose(&[0, 4096, 4097, 65_535, 65_536, u32::MAX as usize]) as u32,
        1 => account + 65_536 * (1 + random.below(9) as u32),
        _ => account,
    };
    (name, account)
}

const WORKED: &[u8] = b"JN\0\x01SUITE   JN\0\x02CONV32  MV\0\x02CURVES  HD\0\x02JN\0\x03ACCRUED WD\0\x03";

const WORKED_TEXT: &str = "1 SUITE active
2 CURVES held
3 - withdrawn
SUITE 1
CURVES 1
CONV32 0
ACCRUED 0
TOTAL 2
";

/// By the counts of the roster ACCRUED hangs from CURVES, by those in E from CONV32.
const WORKED_PLAN: &str = "SUITE - 1 1 1
CURVES SUITE 1 1 1
CONV32 SUITE 0 2 0
ACCRUED CURVES 0 1 0
TOTAL 2
";

/// Records that follow the worked ones, and how many are read with those, each label's accounts and how account 2
/// stands, or the refusal.
fn continued() -> Vec<(Vec<u8>, usize, Result<([u16; 4], Standing), u8>)> {
    let held = |label| Standing::Held(label);
    let active = |label| Standing::Active(label);
    let list: [(&[u8], usize, Result<([u16; 4], Standing), u8>); 31] = [
        (b"", 6, Ok(([1, 1, 0, 0], held(1)))),
        (b"HD\0\x02", 7, Ok(([1, 1, 0, 0], held(1)))),
        (b"RL\0\x02", 7, Ok(([1, 1, 0, 0], active(1)))),
        (b"RL\0\x02RL\0\x02", 8, Ok(([1, 1, 0, 0], active(1)))),
        (b"MV\0\x02CURVES  ", 7, Ok(([1, 1, 0, 0], active(1)))),
        (b"MV\0\x02ACCRUED ", 7, Ok(([1, 0, 0, 1], active(3)))),
        (b"MV\0\x02ACCRUED HD\0\x02", 8, Ok(([1, 0, 0, 1], held(3)))),
        (b"WD\0\x02", 7, Ok(([1, 0, 0, 0], Standing::Withdrawn))),
        (b"JN\x10\0CONV32  ", 7, Ok(([1, 1, 1, 0], held(1)))),
        (b"JN\x10\0CONV32  MV\x10\0SUITE   ", 8, Ok(([2, 1, 0, 0], held(1)))),
        (b"J", 6, Err(2)),
        (b"LBSUITE   \0\x01", 6, Err(2)),
        (b"JN\0\x01SUITE  ", 6, Err(3)),
        (b"HD\0", 6, Err(3)),
        (b"JN\0\0SUITE   ", 6, Err(24)),
        (b"JN\x10\x01SUITE   ", 6, Err(24)),
        (b"JN\xff\xffSUITE   ", 6, Err(24)),
        (b"JN\0\x01SUITE   ", 6, Err(24)),
        (b"JN\0\x02CURVES  ", 6, Err(24)),
        (b"JN\0\x03SUITE   ", 6, Err(24)),
        (b"JN\0\x03RATES   ", 6, Err(24)),
        (b"HD\0\x03", 6, Err(25)),
        (b"RL\0\x04", 6, Err(25)),
        (b"WD\0\x03", 6, Err(25)),
        (b"WD\0\0", 6, Err(25)),
        (b"MV\0\x03SUITE   ", 6, Err(25)),
        (b"MV\x10\x01RATES   ", 6, Err(25)),
        (b"JN\0\x04RATES   ", 6, Err(13)),
        (b"MV\0\x02suite   ", 6, Err(13)),
        (b"HD\0\x01JN\0\x04SUITE  \0", 7, Err(13)),
        (b"JN\0\x04SUITE   JN\0\x04SUITE   J", 7, Err(24)),
    ];
    list.into_iter().map(|(more, records, answer)| ([WORKED, more].concat(), records, answer)).collect()
}

/// Rosters of E counted by hand, asked of the library and of the second implementation.
fn by_hand(random: &mut Random, hash: &Sha256) -> bool {
    let mut asked = Asked::new("rosters of E, counted by hand", hash);
    let policy = &files::written_e(&files::E_PAIRS);
    let told = |counted: Counted| (<[u16; 4]>::try_from(&counted.counts[..]).unwrap(), counted.accounts[1]);
    let second = |roster: &[u8]| Both::read(policy, roster);
    for (roster, records, answer) in continued() {
        let files = Files { policy, roster: &roster };
        let (ours, theirs) = (files.roster().map(told), second(&roster).map(|both| told(both.counted())));
        asked.group.holds(|| format!("by hand, {}", shown(files)), ours == answer && theirs == answer);
        let counted = (files.records(), rosters::records_read(policy, &roster));
        asked.group.case(|| format!("records by hand, {}", shown(files)), counted, (records, records));
        asked.any_call(random, files);
    }
    let both = second(WORKED).unwrap_or_else(|number| panic!("the worked roster is refused with {number}"));
    asked.group.case(|| "the worked text, second alone".into(), both.text(), WORKED_TEXT.into());
    asked.group.case(|| "the worked plan, second alone".into(), both.plan_text(), WORKED_PLAN.into());
    let files = Files { policy, roster: WORKED };
    for room in 0..WORKED_TEXT.len() + 40 {
        let into = |text: &str| tree::into_room(Ok(text.as_bytes().to_vec()), room);
        asked.written("text", files, &into(WORKED_TEXT), room, |out| files.text(out));
        asked.written("plan_text", files, &into(WORKED_PLAN), room, |out| files.plan_text(out));
        asked.written("count_policy", files, &tree::into_room(Ok(both.file()), room), room, |out| {
            files.count_policy(out)
        });
    }
    let issue = |name: &str, account| files.issue(&padded(name), account, &[7; 32], &mut [0; 200]);
    let answers =
        [("SUITE", 1), ("SUITE", 2), ("CURVES", 1), ("CURVES", 2), ("CURVES", 3), ("ACCRUED", 3), ("RATES", 1)];
    let said = answers.map(|(name, account)| issue(name, account));
    asked.group.case(
        || "issued by hand".into(),
        said,
        [Ok(87), Err(14), Err(14), Err(26), Err(14), Err(14), Err(13)],
    );
    asked.report()
}

/// Where a record stands in its file.
#[derive(Clone, Copy, Debug, PartialEq)]
enum Place {
    First,
    Middle,
    Last,
}

/// A roster with a record of the way at the place, if the accounts before allow one.
fn placed(random: &mut Random, policy: &Policy, way: Way, place: Place) -> Option<Vec<u8>> {
    let mut maker = Maker::new(random, policy);
    if place != Place::First {
        let named = Named::Other;
        for way in [
            Way::Join(Who::Unknown, named),
            Way::Hold(Who::Active),
            Way::Join(Who::Unknown, named),
            Way::Withdraw(Who::Active),
        ] {
            let record = maker.record(way)?;
            maker.push(&record);
        }
        let more = maker.random.below(12);
        maker.grow(more, 9);
    }
    let record = maker.record(way)?;
    maker.push(&record);
    if place == Place::Middle || (place == Place::First && !way.at_the_end() && maker.random.once_in(2)) {
        let more = 1 + maker.random.below(4);
        maker.grow(more, 9);
    }
    Some(maker.file)
}

/// Every way to write a record, accepted and refused, as the first, a middle and the last record. Each has to come
/// up.
fn every_way(random: &mut Random, hash: &Sha256) -> bool {
    let mut asked = Asked::new("rosters, every way to write a record, first, in the middle and last", hash);
    let mut missing = Vec::new();
    for way in accounts::ways() {
        for place in [Place::First, Place::Middle, Place::Last] {
            let possible = match place {
                Place::First => way.first(),
                Place::Middle => !way.at_the_end(),
                Place::Last => true,
            };
            let mut met = 0;
            for turn in 0..if possible { 400 } else { 0 } {
                let labels = 2 + random.below(5);
                let policy = if turn == 0 {
                    policy::read(&files::written_e(&files::E_PAIRS)).unwrap()
                } else {
                    files::shaped(random, labels, 2)
                };
                let Some(roster) = placed(random, &policy, way, place) else { continue };
                let file = policy.to_bytes();
                let files = Files { policy: &file, roster: &roster };
                let number = refusal(&rosters::read(&file, &roster));
                asked.group.case(
                    || format!("{way:?} {place:?}, second alone, {}", shown(files)),
                    number,
                    way.refusal(),
                );
                met += 1;
                if met % 4 == 0 {
                    asked.any_call(random, files);
                } else {
                    asked.read(files, &Both::read(&file, &roster));
                }
                if met == 12 {
                    break;
                }
            }
            if possible && met < 12 {
                missing.push((way, place));
            }
        }
    }
    asked.group.holds(|| format!("every way came up, but {missing:?} did not"), missing.is_empty());
    asked.report()
}

/// Every part of a roster that ends where a record does, from the empty one on.
fn each_record(asked: &mut Asked, policy: &Policy, whole: &[u8]) {
    let file = policy.to_bytes();
    let labels = policy.names.len();
    let mut end = 0;
    let mut records = 0;
    let none = Files { policy: &file, roster: &[] };
    asked.case("read_roster", none, none.roster(), Ok(Roster::default().counted(labels)));
    let _ = Roster::default().add(policy, whole, |roster, length| {
        end += length;
        records += 1;
        let files = Files { policy: &file, roster: &whole[..end] };
        asked.case("read_roster", files, files.roster(), Ok(roster.counted(labels)));
        asked.group.case(|| format!("records, {}", shown(files)), files.records(), records);
    });
}

/// Rosters of every length up to 5,000 records, after each of their records; short ones after each byte.
fn record_by_record(random: &mut Random, hash: &Sha256) -> bool {
    let mut asked = Asked::new("rosters record by record, one of 5,000, and short ones byte by byte", hash);
    for (records, labels, joins) in [(5000, 64, 14), (600, 3, 9), (300, 20, 5), (300, 1, 9), (60, 64, 3)] {
        let policy = files::shaped(random, labels, 3);
        let mut maker = Maker::new(random, &policy);
        maker.grow(records, joins);
        let file = maker.file;
        each_record(&mut asked, &policy, &file);
    }
    for _ in 0..60 {
        let (labels, records) = (1 + random.below(6), 1 + random.below(16));
        let policy = files::shaped(random, labels, 2);
        let (file, roster) = (policy.to_bytes(), accounts::accepted(random, &policy, records));
        for end in 0..=roster.len() {
            let files = Files { policy: &file, roster: &roster[..end] };
            asked.read(files, &Both::read(&file, files.roster));
        }
    }
    asked.report()
}

/// Rosters of any kind and length, and every operation on each.
fn every_operation(random: &mut Random, hash: &Sha256) -> bool {
    let mut asked = Asked::new("rosters of every kind and length, every operation", hash);
    let ways = accounts::ways();
    for i in 0..1500 {
        let labels = 1 + random.below(12);
        let policy = if i % 10 == 0 { files::any_size(random, i) } else { files::shaped(random, labels, 3) };
        let roster = accounts::any(random, &policy, &ways);
        asked.any_call(random, Files { policy: &policy.to_bytes(), roster: &roster });
    }
    asked.report()
}

/// So many joins, then moves and other records, to a file of more bytes than so many.
fn long(random: &mut Random, policy: &Policy, joins: usize, bytes: usize) -> Vec<u8> {
    let name = |random: &mut Random| policy.names[random.below(policy.names.len())];
    let mut file = Vec::new();
    for number in 1..=joins as u16 {
        file.extend([&b"JN"[..], &number.to_be_bytes(), &name(random)].concat());
    }
    while file.len() <= bytes {
        let number = 1 + random.below(joins) as u16;
        match random.below(4) {
            0 => file.extend([&b"HD"[..], &number.to_be_bytes()].concat()),
            1 => file.extend([&b"RL"[..], &number.to_be_bytes()].concat()),
            _ => file.extend([&b"MV"[..], &number.to_be_bytes(), &name(random)].concat()),
        }
    }
    file
}

/// Files of more than 65,536 bytes and of more than 65,536 records, whose last record decides.
fn long_files(random: &mut Random, hash: &Sha256) -> bool {
    let mut asked = Asked::new(
        "rosters of 4,096 joins, of more than 65,536 bytes and records, their last records deciding",
        hash,
    );
    for (labels, joins, bytes) in
        [(64, 4096, 0), (64, 4096, 65_536), (5, 4096, 90_000), (2, 3, 65_536), (3, 9, 700_000)]
    {
        let mut policy = files::shaped(random, labels, 60);
        for (label, name) in policy.names.iter_mut().enumerate() {
            *name = format!("LONGST{label:02}").into_bytes().try_into().unwrap();
        }
        let (file, roster) = (policy.to_bytes(), long(random, &policy, joins, bytes));
        let name = policy.names[labels - 1];
        let last: [&[u8]; 6] = [b"", b"WD\0\x01", b"HD\0\x02", b"JN\0\x03LONGST00", b"MV\0\x04NOTTHERE", b"R"];
        for more in last.into_iter().chain([&[&b"MV\0\x01"[..], &name].concat()[..]]) {
            let longer = [&roster, more].concat();
            asked.any_call(random, Files { policy: &file, roster: &longer });
        }
    }
    asked.report()
}

/// Small policies with the counts of a roster: every tree and every set is tried to find the fewest keys.
fn fewest(random: &mut Random, hash: &Sha256) -> bool {
    let mut asked = Asked::new(
        "rosters of every order of up to 4 labels and of shapes of up to 7, all trees and sets tried",
        hash,
    );
    let mut policies: Vec<Policy> = (0..12).flat_map(|turn| files::every_order(random, 1 + turn % 4)).collect();
    policies.extend((0..200).map(|turn| files::shaped(random, 5 + turn % 3, 2)));
    for policy in policies {
        let (records, joins) = (random.below(20), random.choose(&[8, 14]));
        let mut maker = Maker::new(random, &policy);
        maker.grow(records, joins);
        let (file, counted) = (policy.to_bytes(), maker.roster.policy(&policy));
        let files = Files { policy: &file, roster: &maker.file };
        let tried = brute::every_tree_tried(&counted);
        let fewest = tried.iter().map(|one| one.total).min().unwrap();
        asked.case("total of the plan", files, files.plan().map(|plan| plan.total), Ok(fewest));
        for one in tried.iter().take(40) {
            let tree = files::tree_file(&one.tree);
            asked.case("weigh", files, files.weigh(&tree), Ok((one.total, one.total == fewest)));
        }
    }
    asked.report()
}

/// The first of the faults of a call, in the order that documents 01 and 02 give.
fn first(faults: &[(bool, u8)]) -> u8 {
    faults.iter().find(|fault| fault.0).map_or(0, |fault| fault.1)
}

/// The parts of a call right and wrong in all combinations: policy, roster, tree, name, account, root secret, nonce
/// and buffer, each with the number that the papers give.
fn wrong_calls(random: &mut Random, hash: &Sha256) -> bool {
    let mut asked = Asked::new("rosters, everything that a call can be wrong in, in all combinations", hash);
    let e = files::written_e(&files::E_PAIRS);
    let policies =
        [(e.clone(), 0), (files::written_e(&files::E_PAIRS[..2]), 10), (Vec::new(), 1), (e[..63].to_vec(), 3)];
    let rosters = [
        (b"".to_vec(), 0),
        (b"HD\0\x02".to_vec(), 25),
        (b"JN\0\0".to_vec(), 3),
        (b"JN\0\x09RATES   ".to_vec(), 13),
        (b"!".to_vec(), 2),
        (b"JN\0\x01SUITE   ".to_vec(), 24),
    ];
    let begun = [WORKED, b"JN\0\x04CURVES  WD\0\x02JN\0\x05CURVES  HD\0\x05JN\x10\0CURVES  "].concat();
    let trees: [(&[u8], u8); 5] =
        [(b"TR\0\0\0\x01", 0), (b"", 2), (b"TR\0\0", 11), (b"TR\0\0\0\x03", 12), (b"TR\x01\0\0\0", 12)];
    let names: [(&[u8], u8); 4] = [(b"CURVES  ", 0), (b"RATES   ", 13), (b"CURVES", 13), (b"", 13)];
    let accounts = [
        (4, 0),
        (4096, 0),
        (1, 14),
        (2, 14),
        (3, 14),
        (0, 14),
        (6, 14),
        (4097, 14),
        (65_540, 14),
        (u32::MAX, 14),
        (5, 26),
    ];
    let roots = [(32, 0), (31, 15), (0, 15), (33, 15)];
    let nonces = [(12, 0), (11, 22), (13, 22)];
    for (policy, of_policy) in &policies {
        for (more, of_roster) in &rosters {
            let roster = &[&begun[..], more].concat()[..];
            let files = Files { policy, roster };
            let before = [(*of_policy != 0, *of_policy), (*of_roster != 0, *of_roster)];
            let number = |faults: &[u8]| {
                first(
                    &before
                        .into_iter()
                        .chain(faults.iter().map(|fault| (*fault != 0, *fault)))
                        .collect::<Vec<_>>(),
                )
            };
            let mut told = |what: &str, said: u8, expected: u8| {
                asked.answers.add(expected, 1);
                asked.group.case(|| format!("{what}, {}", shown(files)), said, expected);
            };
            told("read_roster", refusal(&files.roster()), number(&[]));
            told("plan", refusal(&files.plan()), number(&[]));
            told("growth", refusal(&files.growth()), number(&[]));
            told("text", refusal(&files.text(&mut [])), number(&[16]));
            told("count_policy", refusal(&files.count_policy(&mut [])), number(&[16]));
            told("plan_text", refusal(&files.plan_text(&mut [])), number(&[16]));
            told("plan_dot", refusal(&files.plan_dot(&mut [])), number(&[16]));
            told("growth_text", refusal(&files.growth_text(&mut [])), number(&[16]));
            for (tree, of_tree) in trees {
                told("weigh", refusal(&files.weigh(tree)), number(&[of_tree]));
            }
            for (name, of_name) in names {
                for (root, of_root) in roots {
                    let root = &vec![7; root];
                    told("key", refusal(&files.issuer_key(name, root)), number(&[of_name, of_root]));
                    for (account, of_account) in accounts {
                        for (room, of_room) in [(200, 0), (20, 16), (0, 16)] {
                            let said = files.issue(name, account, root, &mut vec![0; room]);
                            let expected = number(&[of_name, of_account, of_root, of_room]);
                            told(
                                &format!("issue to {account} on {}, {} bytes of root", hex(name), root.len()),
                                refusal(&said),
                                expected,
                            );
                        }
                    }
                    for (nonce, of_nonce) in nonces {
                        for (text, of_text) in [(3, 0), (sealing::LONGEST + 1, 22)] {
                            for (room, of_room) in [(sealing::LONGEST + 80, 0), (40, 16)] {
                                let (nonce, text) = (vec![1; nonce], vec![2; text]);
                                let said = files.seal(name, root, &nonce, &text, &mut vec![0; room]);
                                told(
                                    "seal",
                                    refusal(&said),
                                    number(&[of_name, of_root, of_nonce, of_text, of_room]),
                                );
                            }
                        }
                    }
                }
            }
        }
    }
    for _ in 0..1500 {
        let (file, of_policy) = files::refused_policy(random);
        let policy = files::any_policy(random);
        let roster = match random.below(4) {
            0 => [&b"!"[..], b"J", b"HD", b"HD\0\x01", b"JN\0\0RATES   ", b"JN\0\x01RATES   "][random.below(6)]
                .to_vec(),
            _ => accounts::any(random, &policy, &accounts::ways()),
        };
        let files = Files { policy: &file, roster: &roster };
        asked.group.case(
            || format!("second alone, {}", shown(files)),
            refusal(&rosters::read(&file, &roster)),
            of_policy,
        );
        asked.any_call(random, files);
    }
    asked.report()
}

pub fn groups(random: &mut Random, hash: &Sha256) -> Vec<bool> {
    vec![
        by_hand(random, hash),
        every_way(random, hash),
        record_by_record(random, hash),
        every_operation(random, hash),
        long_files(random, hash),
        fewest(random, hash),
        wrong_calls(random, hash),
    ]
}
