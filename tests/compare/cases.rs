//! Cases at random: each is one call of any public operation, on inputs of every kind, compared with the second
//! implementation. A seed names the cases. What is lent has bytes at random before the call, and so has the
//! memory beside it; both are compared after it.

use crate::accounts::{self, Way};
use crate::deriving;
use crate::envelope::{self, Envelope, Issuer};
use crate::files;
use crate::fingerprints;
use crate::group::{hex, Answers, Group, Hex};
use crate::growth;
use crate::issuing;
use crate::ours::{self, Files};
use crate::plans::{self, Form};
use crate::policy::{self, Policy};
use crate::random::Random;
use crate::records;
use crate::rostering;
use crate::rosters::{self, Both};
use crate::sealing;
use crate::sha256::Sha256;
use crate::tree::{self, Planned};
use std::time::Instant;

/// From so many cases on, every refusal that an operation can give has to be among its answers.
pub const ENOUGH: usize = 100_000;

/// An operation, how a case of it is drawn and compared, and the refusals that documents 01 and 02 give it, 0 for none.
/// For the operations that count records these are the refusals of the file.
struct Operation {
    name: &'static str,
    run: fn(&mut Case),
    refusals: &'static [u8],
}

const OF_POLICY: &[u8] = &[0, 1, 2, 3, 4, 5, 6, 7, 8, 9, 10];
const OF_TREE: &[u8] = &[0, 1, 2, 3, 4, 5, 6, 7, 8, 9, 10, 11, 12];
const OF_TEXT: &[u8] = &[0, 1, 2, 3, 4, 5, 6, 7, 8, 9, 10, 16];
const OF_KEY: &[u8] = &[0, 1, 2, 3, 4, 5, 6, 7, 8, 9, 10, 13, 15];
const OF_ISSUE: &[u8] = &[0, 1, 2, 3, 4, 5, 6, 7, 8, 9, 10, 13, 14, 15, 16];
const OF_SEAL: &[u8] = &[0, 1, 2, 3, 4, 5, 6, 7, 8, 9, 10, 13, 15, 16, 22];
const OF_ROSTER: &[u8] = &[0, 1, 2, 3, 4, 5, 6, 7, 8, 9, 10, 13, 24, 25];
const OF_ROSTER_TREE: &[u8] = &[0, 1, 2, 3, 4, 5, 6, 7, 8, 9, 10, 11, 12, 13, 24, 25];
const OF_ROSTER_TEXT: &[u8] = &[0, 1, 2, 3, 4, 5, 6, 7, 8, 9, 10, 13, 16, 24, 25];
const OF_ROSTER_KEY: &[u8] = &[0, 1, 2, 3, 4, 5, 6, 7, 8, 9, 10, 13, 15, 24, 25];
const OF_ROSTER_ISSUE: &[u8] = &[0, 1, 2, 3, 4, 5, 6, 7, 8, 9, 10, 13, 14, 15, 16, 24, 25, 26];
const OF_ROSTER_SEAL: &[u8] = &[0, 1, 2, 3, 4, 5, 6, 7, 8, 9, 10, 13, 15, 16, 22, 24, 25];
const OF_ENVELOPE: &[u8] = &[0, 2, 3, 5, 6, 7, 17, 18, 19];
const OF_DERIVE: &[u8] = &[0, 2, 3, 5, 6, 7, 17, 18, 19, 20];
const OF_OPEN: &[u8] = &[0, 2, 3, 5, 6, 7, 16, 17, 18, 19, 20, 22, 23];

const OPERATIONS: [Operation; 32] = [
    Operation { name: "sha256", run: sha256, refusals: &[0, 21] },
    Operation { name: "hmac_sha256", run: hmac_sha256, refusals: &[0, 21] },
    Operation { name: "read_policy", run: read_policy, refusals: OF_POLICY },
    Operation { name: "policy_records", run: policy_records, refusals: OF_POLICY },
    Operation { name: "order", run: order, refusals: OF_POLICY },
    Operation { name: "plan", run: plan, refusals: OF_POLICY },
    Operation { name: "weigh", run: weigh, refusals: OF_TREE },
    Operation { name: "plan_text", run: plan_text, refusals: OF_TEXT },
    Operation { name: "plan_dot", run: plan_dot, refusals: OF_TEXT },
    Operation { name: "growth", run: growth, refusals: OF_POLICY },
    Operation { name: "growth_text", run: growth_text, refusals: OF_TEXT },
    Operation { name: "issuer_key", run: issuer_key, refusals: OF_KEY },
    Operation { name: "issue", run: issue, refusals: OF_ISSUE },
    Operation { name: "seal", run: seal, refusals: OF_SEAL },
    Operation { name: "fingerprint", run: fingerprint, refusals: &[0, 15] },
    Operation { name: "derive", run: derive, refusals: OF_DERIVE },
    Operation { name: "labels", run: labels, refusals: OF_ENVELOPE },
    Operation { name: "envelope_records", run: envelope_records, refusals: OF_ENVELOPE },
    Operation { name: "open", run: open, refusals: OF_OPEN },
    Operation { name: "read_roster", run: read_roster, refusals: OF_ROSTER },
    Operation { name: "roster_records", run: roster_records, refusals: OF_ROSTER },
    Operation { name: "roster_text", run: roster_text, refusals: OF_ROSTER_TEXT },
    Operation { name: "count_policy", run: count_policy, refusals: OF_ROSTER_TEXT },
    Operation { name: "plan_roster", run: plan_roster, refusals: OF_ROSTER },
    Operation { name: "weigh_roster", run: weigh_roster, refusals: OF_ROSTER_TREE },
    Operation { name: "plan_text_roster", run: plan_text_roster, refusals: OF_ROSTER_TEXT },
    Operation { name: "plan_dot_roster", run: plan_dot_roster, refusals: OF_ROSTER_TEXT },
    Operation { name: "growth_roster", run: growth_roster, refusals: OF_ROSTER },
    Operation { name: "growth_text_roster", run: growth_text_roster, refusals: OF_ROSTER_TEXT },
    Operation { name: "issuer_key_roster", run: issuer_key_roster, refusals: OF_ROSTER_KEY },
    Operation { name: "issue_roster", run: issue_roster, refusals: OF_ROSTER_ISSUE },
    Operation { name: "seal_roster", run: seal_roster, refusals: OF_ROSTER_SEAL },
];

/// What one case works with.
struct Case<'a> {
    random: &'a mut Random,
    hash: &'a Sha256,
    ways: &'a [Way],
    place: &'a str,
    group: &'a mut Group,
    answers: &'a mut Answers,
}

impl Case<'_> {
    fn compare<T: PartialEq + std::fmt::Debug>(
        &mut self,
        refusal: u8,
        input: impl Fn() -> String,
        ours: T,
        second: T,
    ) {
        self.answers.add(refusal, 1);
        self.group.case(|| format!("{}, input: {}", self.place, input()), ours, second);
    }

    /// Compares what is written into so much room. `write` gives our length or refusal.
    fn compare_written(
        &mut self,
        expected: Result<Vec<u8>, u8>,
        room: usize,
        input: impl Fn() -> String,
        write: impl Fn(&mut [u8]) -> Result<usize, u8>,
    ) {
        let mut memory = self.random.bytes(BESIDE + room + BESIDE);
        let mut second = memory.clone();
        let bytes = expected.as_deref().unwrap_or(&[]);
        second[BESIDE..BESIDE + bytes.len()].copy_from_slice(bytes);
        let answer = expected.map(|bytes| bytes.len());
        let said = write(&mut memory[BESIDE..BESIDE + room]);
        let what = || format!("{room} bytes of room, {}", input());
        self.compare(refusal(&answer), what, (said, Hex(memory)), (answer, Hex(second)));
    }
}

/// So many bytes are watched on each side of a lent buffer.
const BESIDE: usize = 16;

fn refusal<T>(answer: &Result<T, u8>) -> u8 {
    *answer.as_ref().err().unwrap_or(&0)
}

/// A length of a message or key: small, about a block's, about the limit, or anything below or above it.
fn length(random: &mut Random) -> usize {
    match random.below(40) {
        0 => 65_534 + random.below(5),
        1 => random.below(65_537),
        2 => 65_537 + random.below(70_000),
        3..=9 => random.below(3000),
        10..=15 => 32,
        16..=21 => random.choose(&[55, 56, 63, 64, 65, 119, 120, 128]),
        _ => random.below(140),
    }
}

fn message(random: &mut Random) -> Vec<u8> {
    let length = length(random);
    random.bytes(length)
}

fn sha256(case: &mut Case) {
    let message = message(case.random);
    let second = case.hash.answer_hash(&message);
    case.compare(second.0, || hex(&message), ours::sha256(&message), second);
}

fn hmac_sha256(case: &mut Case) {
    let (key, message) = (message(case.random), message(case.random));
    let second = case.hash.answer_mac(&key, &message);
    let input = || format!("key {}, message {}", hex(&key), hex(&message));
    case.compare(second.0, input, ours::hmac_sha256(&key, &message), second);
}

/// A file cut anywhere, or continued by its own bytes, by another record, by noise, or by very much.
fn other_length(random: &mut Random, mut file: Vec<u8>) -> Vec<u8> {
    let many = match random.below(20) {
        0 => 70_000,
        _ => 1 + random.below(60),
    };
    match random.below(8) {
        0 => file.extend(random.bytes(many)),
        1 => file.extend_from_within(random.below(file.len())..),
        2 => file.extend(b"OV\0\x01".repeat(many)),
        3 => file.extend_from_slice(b"LBLATE    \0\x01"),
        _ => file.truncate(random.below(file.len() + 1)),
    }
    file
}

/// A file that may be no file at all: of another kind, noise, or empty.
fn no_file(random: &mut Random, hash: &Sha256) -> Vec<u8> {
    let length = random.below(3000);
    match random.below(6) {
        0 | 1 => Vec::new(),
        2 => records::any(random, hash).to_bytes(),
        3 => files::any_policy(random).to_bytes(),
        4 => files::tree_file(&vec![0; random.below(66)]),
        _ => files::noise(random, length),
    }
}

/// Half of the files are accepted policies, each eighth of these a full one.
fn policy_file(case: &mut Case) -> Vec<u8> {
    let Case { random, hash, .. } = case;
    let size = 64 + random.below(64);
    match random.below(24) {
        0 => no_file(random, hash),
        1 => files::overfull(random),
        2..=4 => {
            let whole = files::any_size(random, size).to_bytes();
            other_length(random, whole)
        }
        5..=11 => files::damaged(random),
        _ => files::any_size(random, size).to_bytes(),
    }
}

fn read_policy(case: &mut Case) {
    let file = policy_file(case);
    let second = policy::read(&file).map(|policy| ours::expected(&policy));
    case.compare(refusal(&second), || hex(&file), ours::read_policy(&file), second);
}

fn policy_records(case: &mut Case) {
    let file = policy_file(case);
    let (number, second) = (refusal(&policy::read(&file)), policy::records_read(&file));
    case.compare(number, || hex(&file), ours::policy_records(&file), second);
}

fn order(case: &mut Case) {
    let file = policy_file(case);
    let shown = |rows: [[bool; 64]; 64]| Hex(rows.iter().flatten().map(|entry| *entry as u8).collect());
    let second = tree::order(&file);
    let (number, said) = (refusal(&second), ours::order(&file));
    let expected = (number, shown(second.unwrap_or([[false; 64]; 64])));
    case.compare(number, || hex(&file), (said.0, shown(said.1)), expected);
}

fn plan(case: &mut Case) {
    let file = policy_file(case);
    let second = tree::plan(&file);
    case.compare(refusal(&second), || hex(&file), ours::plan(&file), second);
}

/// The plan's tree, another tree, one that is near the plan's, and files that are no tree of this policy.
fn offered_tree(random: &mut Random, hash: &Sha256, policy: &Policy) -> Vec<u8> {
    let planned = Planned::new(policy);
    let mut parents: Vec<usize> = planned.plan.parents.iter().map(|parent| *parent as usize).collect();
    let other = files::any_tree(random, &planned);
    match random.below(10) {
        0 => no_file(random, hash),
        1 => other_length(random, files::tree_file(&other)),
        2..=4 => files::damaged_tree(random, &planned),
        5 | 6 => files::tree_file(&parents),
        7 => {
            let label = random.below(parents.len());
            parents[label] = other[label];
            files::tree_file(&parents)
        }
        _ => files::tree_file(&other),
    }
}

fn weigh(case: &mut Case) {
    let file = policy_file(case);
    let policy = policy::read(&file).unwrap_or_else(|_| files::any_policy(case.random));
    let tree = offered_tree(case.random, case.hash, &policy);
    let second = tree::weigh(&file, &tree);
    let input = || format!("policy {}, tree {}", hex(&file), hex(&tree));
    case.compare(refusal(&second), input, ours::weigh(&file, &tree), second);
}

/// A buffer's length for so many bytes: just enough, one byte less, none, too few, or too many.
fn room(random: &mut Random, length: usize) -> usize {
    match random.below(8) {
        0 => 0,
        1 => length.saturating_sub(1),
        2 => random.below(length + 1),
        3 | 4 => length + random.below(3000),
        _ => length,
    }
}

fn written(case: &mut Case, form: &Form) {
    let file = policy_file(case);
    let text = (form.second)(&file);
    let room = room(case.random, text.as_ref().map_or(100, Vec::len));
    let expected = tree::into_room(text, room);
    case.compare_written(expected, room, || hex(&file), |buffer| (form.ours)(&file, buffer));
}

fn plan_text(case: &mut Case) {
    written(case, &plans::TEXT);
}

fn plan_dot(case: &mut Case) {
    written(case, &plans::DOT);
}

fn growth(case: &mut Case) {
    let file = policy_file(case);
    let second = growth::growth(&file);
    case.compare(refusal(&second), || hex(&file), ours::growth(&file), second);
}

fn growth_text(case: &mut Case) {
    written(case, &plans::GROWTH);
}

/// A name to ask the issuer for: of a label, more often of one with accounts, or one that the policy has not.
fn issuers_name(random: &mut Random, policy: &Policy) -> Vec<u8> {
    let others = issuing::other_names(random, policy);
    let labels = 0..policy.names.len();
    let with_accounts: Vec<usize> = labels.filter(|label| policy.counts[*label] > 0).collect();
    match random.below(12) {
        0 | 1 if !others.is_empty() => others[random.below(others.len())].clone(),
        2..=10 if !with_accounts.is_empty() => policy.names[random.choose(&with_accounts)].to_vec(),
        _ => policy.names[random.below(policy.names.len())].to_vec(),
    }
}

fn root(random: &mut Random) -> Vec<u8> {
    let length = match random.below(8) {
        0 => random.choose(&[0, 1, 8, 31, 33, 64, 65]),
        _ => 32,
    };
    random.bytes(length)
}

/// An account's number at a label with so many, or one that no account there has.
fn account(random: &mut Random, count: u16) -> u32 {
    let count = count as u32;
    match random.below(16) {
        0 => 0,
        1 => count + 1,
        2 => 65_536 + random.below(count as usize + 2) as u32,
        3 => random.next() as u32,
        4 => count,
        _ => 1 + random.below(count.max(1) as usize) as u32,
    }
}

/// What the second issuer answers for a policy file, or that file's refusal.
fn issued<T>(file: &[u8], hash: &Sha256, ask: impl Fn(&Issuer) -> Result<T, u8>) -> Result<T, u8> {
    let policy = &policy::read(file)?;
    ask(&Issuer { hash, policy, planned: &Planned::new(policy) })
}

fn issuer_key(case: &mut Case) {
    let file = policy_file(case);
    let policy = policy::read(&file).unwrap_or_else(|_| files::any_policy(case.random));
    let (name, root) = (issuers_name(case.random, &policy), root(case.random));
    let second = issued(&file, case.hash, |issuer| issuer.key(&name, &root));
    let input = || format!("policy {}, name {}, root {}", hex(&file), hex(&name), hex(&root));
    case.compare(refusal(&second), input, ours::issuer_key(&file, &name, &root), second);
}

fn issue(case: &mut Case) {
    let file = policy_file(case);
    let policy = policy::read(&file).unwrap_or_else(|_| files::any_policy(case.random));
    let (name, root) = (issuers_name(case.random, &policy), root(case.random));
    let label = policy.names.iter().position(|other| other[..] == name);
    let account = account(case.random, label.map_or(1, |label| policy.counts[label]));
    let into = |room| issued(&file, case.hash, |issuer| issuer.issue(&name, account, &root, room));
    let room = room(case.random, into(usize::MAX).map_or(100, |envelope| envelope.len()));
    let second = into(room);
    let (file, name, root) = (&file[..], &name[..], &root[..]);
    let input = || format!("policy {}, name {}, account {account}, root {}", hex(file), hex(name), hex(root));
    case.compare_written(second, room, input, |buffer| ours::issue(file, name, account, root, buffer));
}

fn nonce(random: &mut Random) -> Vec<u8> {
    let length = match random.below(10) {
        0 => random.choose(&[0, 1, 11, 13, 24]),
        _ => 12,
    };
    random.bytes(length)
}

/// A text to seal: most are short, some about the limit.
fn text(random: &mut Random) -> Vec<u8> {
    let length = match random.below(40) {
        0 => sealing::LONGEST - 1 + random.below(3),
        1 => random.below(sealing::LONGEST),
        2 => sealing::LONGEST + 1 + random.below(40_000),
        3..=10 => random.choose(&[0, 1, 15, 16, 17, 63, 64, 65, 128]),
        _ => random.below(600),
    };
    random.bytes(length)
}

fn seal(case: &mut Case) {
    let file = policy_file(case);
    let policy = policy::read(&file).unwrap_or_else(|_| files::any_policy(case.random));
    let (name, root) = (issuers_name(case.random, &policy), root(case.random));
    let (nonce, text) = (nonce(case.random), text(case.random));
    let room = room(case.random, text.len() + sealing::MORE);
    let second = issued(&file, case.hash, |issuer| sealing::seal(issuer, &name, &root, &nonce, &text, room));
    let (file, name, root, nonce, text) = (&file[..], &name[..], &root[..], &nonce[..], &text[..]);
    let shown = || [file, name, root, nonce, text].map(hex).join(", ");
    let input = || format!("policy, name, root, nonce, text {}", shown());
    case.compare_written(second, room, input, |out| ours::seal(file, name, root, nonce, text, out));
}

fn fingerprint(case: &mut Case) {
    let root = root(case.random);
    let second = fingerprints::fingerprint(case.hash, &root);
    case.compare(refusal(&second), || hex(&root), ours::fingerprint(&root), second);
}

/// An envelope's file with names that its records have or had: a third are whole, some of these full.
fn envelope_file(case: &mut Case) -> (Vec<u8>, Vec<Vec<u8>>) {
    let Case { random, hash, .. } = case;
    let length = random.below(2800);
    match random.below(16) {
        0 => (no_file(random, hash), Vec::new()),
        1 => (records::noise(random, length), Vec::new()),
        2..=9 => records::damaged(random, hash),
        kind => {
            let envelope = if kind == 11 { records::full(random) } else { records::any(random, hash) };
            let names = envelope.records.iter().map(|record| record.name.to_vec()).collect();
            let file = envelope.to_bytes();
            (if kind == 10 { other_length(random, file) } else { file }, names)
        }
    }
}

fn derive(case: &mut Case) {
    let (file, of) = envelope_file(case);
    let names = deriving::some_names(case.random, &of);
    let name = &names[case.random.below(names.len())];
    let second = envelope::derive(case.hash, &file, std::slice::from_ref(name))[0];
    let input = || format!("envelope {}, name {}", hex(&file), hex(name));
    case.compare(refusal(&second), input, ours::derive(&file, name), second);
}

fn labels(case: &mut Case) {
    let file = envelope_file(case).0;
    let second = envelope::labels(&file);
    case.compare(refusal(&second), || hex(&file), ours::labels(&file), second);
}

fn envelope_records(case: &mut Case) {
    let file = envelope_file(case).0;
    let (number, second) = (refusal(&Envelope::read(&file)), envelope::records_read(&file));
    case.compare(number, || hex(&file), ours::envelope_records(&file), second);
}

/// A file to open with an envelope: sealed under a key that the envelope gives, and whole, damaged, cut or continued;
/// or with another name or key; or no sealed file at all.
fn sealed_file(case: &mut Case, envelope: &[u8], of: &[Vec<u8>]) -> Vec<u8> {
    let names = deriving::some_names(case.random, of);
    let name = &names[case.random.below(names.len())];
    let key = envelope::derive(case.hash, envelope, std::slice::from_ref(name))[0].map_or([0; 32], |found| found.0);
    let text = text(case.random);
    let random = &mut *case.random;
    let nonce = std::array::from_fn(|_| random.byte());
    let mut file = sealing::file(&key, name, nonce, &text);
    match random.below(12) {
        0 => return no_file(random, case.hash),
        1 => file[random.below(10)] ^= 1 << random.below(8),
        2 | 3 => {
            let at = random.below(file.len());
            file[at] ^= 1 << random.below(8);
        }
        4 => return other_length(random, file),
        5 => file = sealing::file(&[1; 32], name, nonce, &text),
        _ => {}
    }
    file
}

fn open(case: &mut Case) {
    let (envelope, of) = envelope_file(case);
    let file = sealed_file(case, &envelope, &of);
    let room = room(case.random, file.len().saturating_sub(sealing::MORE));
    let second = sealing::open(case.hash, &envelope, &file, room);
    let input = || format!("envelope {}, sealed {}", hex(&envelope), hex(&file));
    case.compare_written(second, room, input, |out| ours::open(&envelope, &file, out));
}

/// A policy and a roster for it, and what the second implementation reads of the two. The roster of a refused policy
/// is one for another.
fn two_files(case: &mut Case) -> (Vec<u8>, Vec<u8>, Result<Both, u8>) {
    let file = policy_file(case);
    let policy = policy::read(&file).unwrap_or_else(|_| files::any_policy(case.random));
    let roster = match case.random.below(40) {
        0 => no_file(case.random, case.hash),
        1 => {
            let whole = accounts::accepted(case.random, &policy, 9);
            other_length(case.random, whole)
        }
        _ => accounts::any(case.random, &policy, case.ways),
    };
    let both = Both::read(&file, &roster);
    (file, roster, both)
}

fn shown(files: Files) -> String {
    format!("policy {}, roster {}", hex(files.policy), hex(files.roster))
}

/// What the second implementation answers, or the refusal of either file.
fn with<T>(both: &Result<Both, u8>, ask: impl Fn(&Both) -> Result<T, u8>) -> Result<T, u8> {
    both.as_ref().map_err(|number| *number).and_then(ask)
}

fn read_roster(case: &mut Case) {
    let (policy, roster, both) = &two_files(case);
    let (files, second) = (Files { policy, roster }, with(both, |both| Ok(both.counted())));
    case.compare(refusal(&second), || shown(files), files.roster(), second);
}

fn roster_records(case: &mut Case) {
    let (policy, roster, both) = &two_files(case);
    let files = Files { policy, roster };
    case.compare(refusal(both), || shown(files), files.records(), rosters::records_read(policy, roster));
}

fn written_roster(case: &mut Case, ours: fn(Files, &mut [u8]) -> Result<usize, u8>, second: fn(&Both) -> Vec<u8>) {
    let (policy, roster, both) = &two_files(case);
    let (files, text) = (Files { policy, roster }, with(both, |both| Ok(second(both))));
    let room = room(case.random, text.as_ref().map_or(100, Vec::len));
    case.compare_written(tree::into_room(text, room), room, || shown(files), |buffer| ours(files, buffer));
}

fn roster_text(case: &mut Case) {
    written_roster(case, |files, out| files.text(out), Both::text);
}

fn count_policy(case: &mut Case) {
    written_roster(case, |files, out| files.count_policy(out), Both::file);
}

fn plan_roster(case: &mut Case) {
    let (policy, roster, both) = &two_files(case);
    let (files, second) = (Files { policy, roster }, with(both, |both| Ok(both.plan())));
    case.compare(refusal(&second), || shown(files), files.plan(), second);
}

fn weigh_roster(case: &mut Case) {
    let (policy, roster, both) = &two_files(case);
    let offered = match both {
        Ok(both) => offered_tree(case.random, case.hash, &both.policy),
        Err(_) => no_file(case.random, case.hash),
    };
    let (files, second) = (Files { policy, roster }, with(both, |both| both.weigh(&offered)));
    let input = || format!("{}, tree {}", shown(files), hex(&offered));
    case.compare(refusal(&second), input, files.weigh(&offered), second);
}

fn plan_text_roster(case: &mut Case) {
    written_roster(case, |files, out| files.plan_text(out), Both::plan_text);
}

fn plan_dot_roster(case: &mut Case) {
    written_roster(case, |files, out| files.plan_dot(out), Both::plan_dot);
}

fn growth_roster(case: &mut Case) {
    let (policy, roster, both) = &two_files(case);
    let (files, second) = (Files { policy, roster }, with(both, |both| Ok(both.growth())));
    case.compare(refusal(&second), || shown(files), files.growth(), second);
}

fn growth_text_roster(case: &mut Case) {
    written_roster(case, |files, out| files.growth_text(out), Both::growth_text);
}

/// A name and an account to ask a roster for.
fn rosters_account(random: &mut Random, both: &Result<Both, u8>) -> (Vec<u8>, u32) {
    match both {
        Ok(both) => rostering::some_account(random, &both.policy, &both.roster),
        Err(_) => (files::name(random).to_vec(), random.below(9) as u32),
    }
}

fn issuer_key_roster(case: &mut Case) {
    let (policy, roster, both) = &two_files(case);
    let (name, root) = (rosters_account(case.random, both).0, root(case.random));
    let (files, second) = (Files { policy, roster }, with(both, |both| both.key(case.hash, &name, &root)));
    let input = || format!("{}, name {}, root {}", shown(files), hex(&name), hex(&root));
    case.compare(refusal(&second), input, files.issuer_key(&name, &root), second);
}

fn issue_roster(case: &mut Case) {
    let (policy, roster, both) = &two_files(case);
    let ((name, account), root) = (rosters_account(case.random, both), root(case.random));
    let (files, hash) = (Files { policy, roster }, case.hash);
    let into = |room| with(both, |both| both.issue(hash, &name, account, &root, room));
    let room = room(case.random, into(usize::MAX).map_or(100, |envelope| envelope.len()));
    let input = || format!("{}, name {}, account {account}, root {}", shown(files), hex(&name), hex(&root));
    case.compare_written(into(room), room, input, |out| files.issue(&name, account, &root, out));
}

fn seal_roster(case: &mut Case) {
    let (policy, roster, both) = &two_files(case);
    let (name, root) = (rosters_account(case.random, both).0, root(case.random));
    let (nonce, text) = (nonce(case.random), text(case.random));
    let room = room(case.random, text.len() + sealing::MORE);
    let second = with(both, |both| both.seal(case.hash, &name, &root, &nonce, &text, room));
    let (files, asked) = (Files { policy, roster }, [&name[..], &root, &nonce, &text]);
    let input = || format!("{}, name, root, nonce, text {}", shown(files), asked.map(hex).join(", "));
    case.compare_written(second, room, input, |out| files.seal(&name, &root, &nonce, &text, out));
}

/// The cases that were run, by operation.
pub struct Cases<'a> {
    hash: &'a Sha256,
    ways: Vec<Way>,
    groups: Vec<(Group, Answers)>,
    pub count: usize,
}

impl<'a> Cases<'a> {
    pub fn new(hash: &'a Sha256) -> Cases<'a> {
        let group = |operation: &Operation| (Group::new(operation.name), Answers::default());
        Cases { hash, ways: accounts::ways(), groups: OPERATIONS.iter().map(group).collect(), count: 0 }
    }

    pub fn differ(&self) -> bool {
        self.groups.iter().any(|(group, _)| group.differing.is_some())
    }

    /// Runs the seed's first `count` cases; given a time to end at, no more after it nor after a difference.
    pub fn run(&mut self, seed: u64, count: usize, end: Option<Instant>) {
        let random = &mut Random::new(seed);
        for number in 1..=count {
            if end.is_some_and(|end| self.differ() || Instant::now() >= end) {
                return;
            }
            let place = &format!("seed {seed}, case {number}");
            let chosen = random.below(OPERATIONS.len());
            let (group, answers) = &mut self.groups[chosen];
            (OPERATIONS[chosen].run)(&mut Case { random, hash: self.hash, ways: &self.ways, place, group, answers });
            self.count += 1;
        }
    }

    /// Reports each operation that was called, and whether it passed. Among few cases some may be missing.
    pub fn report(self) -> Vec<bool> {
        let mut all = Answers::default();
        let mut passed = Vec::new();
        for ((group, answers), operation) in self.groups.into_iter().zip(&OPERATIONS) {
            all.add_all(&answers);
            let seen = answers.seen();
            if seen.is_empty() && self.count < ENOUGH {
                continue;
            }
            let missed: Vec<&u8> = operation.refusals.iter().filter(|number| !seen.contains(number)).collect();
            let whole = missed.is_empty() || self.count < ENOUGH;
            let note = if whole { String::new() } else { format!(", NEVER REFUSED with {missed:?}") };
            passed.push(group.report(&(answers.text() + &note)) && whole);
        }
        println!("compare: {} cases of {} operations{}", self.count, OPERATIONS.len(), all.text());
        passed
    }
}
