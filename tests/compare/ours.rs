//! The proved library, through its C interface. Each wrapper takes slices and gives plain values. An empty slice is
//! passed as a null pointer.

use crate::library::*;
use crate::rosters::{Counted, Standing};
use crate::{policy, tree};
use std::ptr::{null, null_mut};

fn at(bytes: &[u8]) -> *const u8 {
    if bytes.is_empty() { null() } else { bytes.as_ptr() }
}

fn at_mut(bytes: &mut [u8]) -> *mut u8 {
    if bytes.is_empty() { null_mut() } else { bytes.as_mut_ptr() }
}

pub fn sha256(message: &[u8]) -> (u8, [u8; 32]) {
    let digest = unsafe { yendlowa_sha256(at(message), message.len()) };
    (digest.refusal, digest.bytes)
}

pub fn hmac_sha256(key: &[u8], message: &[u8]) -> (u8, [u8; 32]) {
    let digest = unsafe {
        yendlowa_hmac_sha256(at(key), key.len(), at(message), message.len())
    };
    (digest.refusal, digest.bytes)
}

/// Label count, counts and pairs, or the refusal. An entry past the counts that is not zero, any number beside
/// a refusal, or a byte of `zeros` that is none, is a difference and reported as the error 255, here and below.
pub fn read_policy(policy: &[u8]) -> Result<(Vec<u16>, Vec<(u8, u8)>), u8> {
    let read = unsafe { yendlowa_read_policy(at(policy), policy.len()) };
    let behind_zero = read.counts.iter().skip(read.labels).all(|c| *c == 0)
        && read.over.iter().skip(read.pairs).all(|p| (p.upper, p.lower) == (0, 0));
    let zero = read.labels == 0 && read.pairs == 0;
    let within = read.labels <= 64 && read.pairs <= 512 && read.zeros == [0; 7];
    if !within || !behind_zero || (read.refusal != 0 && !zero) {
        return Err(255);
    }
    if read.refusal != 0 {
        return Err(read.refusal);
    }
    let pairs = read.over[..read.pairs].iter().map(|p| (p.upper, p.lower)).collect();
    Ok((read.counts[..read.labels].to_vec(), pairs))
}

pub fn policy_records(policy: &[u8]) -> usize {
    unsafe { yendlowa_policy_records(at(policy), policy.len()) }
}

/// The order's rows, and the refusal.
pub fn order(policy: &[u8]) -> (u8, [[bool; 64]; 64]) {
    let order = unsafe { yendlowa_order(at(policy), policy.len()) };
    (order.refusal, order.rows)
}

/// What `read_policy` should give for a policy that the second implementation read.
pub fn expected(policy: &policy::Policy) -> (Vec<u16>, Vec<(u8, u8)>) {
    (policy.counts.clone(), policy.pairs.clone())
}

/// The plan, or the refusal. Entries past the label count, and all beside a refusal, have to be zero.
pub fn plan(policy: &[u8]) -> Result<tree::Plan, u8> {
    planned(unsafe { yendlowa_plan(at(policy), policy.len()) })
}

fn planned(made: Plan) -> Result<tree::Plan, u8> {
    let labels = made.labels;
    let behind_zero = made.parents.iter().skip(labels).all(|parent| *parent == 0)
        && made.weights.iter().skip(labels).all(|weight| *weight == 0)
        && made.sizes.iter().skip(labels).all(|size| *size == 0);
    let within = labels <= 64 && made.zeros == [0; 3];
    if !within || !behind_zero || (made.refusal != 0 && (labels, made.total) != (0, 0)) {
        return Err(255);
    }
    if made.refusal != 0 {
        return Err(made.refusal);
    }
    Ok(tree::Plan {
        parents: made.parents[..labels].to_vec(),
        weights: made.weights[..labels].to_vec(),
        sizes: made.sizes[..labels].to_vec(),
        total: made.total,
    })
}

/// A tree's total and whether it is least, or the refusal. Beside a refusal stand 0 and no.
pub fn weigh(policy: &[u8], tree: &[u8]) -> Result<(u32, bool), u8> {
    totalled(unsafe { yendlowa_weigh(at(policy), policy.len(), at(tree), tree.len()) })
}

fn totalled(weighed: Weighed) -> Result<(u32, bool), u8> {
    match (weighed.refusal, weighed.total, weighed.least, weighed.zeros) {
        (0, total, least, [0, 0]) => Ok((total, least)),
        (number, 0, false, [0, 0]) => Err(number),
        _ => Err(255),
    }
}

/// The length of what was written, or the refusal. Beside a refusal stands 0.
fn length(written: Written) -> Result<usize, u8> {
    match (written.refusal, written.length, written.zeros) {
        (0, length, [0, 0, 0, 0, 0, 0, 0]) => Ok(length),
        (number, 0, [0, 0, 0, 0, 0, 0, 0]) => Err(number),
        _ => Err(255),
    }
}

/// The length of the text that was written into `out`, or the refusal.
pub fn plan_text(policy: &[u8], out: &mut [u8]) -> Result<usize, u8> {
    length(unsafe { yendlowa_plan_text(at(policy), policy.len(), at_mut(out), out.len()) })
}

/// The same of the drawing.
pub fn plan_dot(policy: &[u8], out: &mut [u8]) -> Result<usize, u8> {
    length(unsafe { yendlowa_plan_dot(at(policy), policy.len(), at_mut(out), out.len()) })
}

/// For each label what one more account costs and the ceiling, or the refusal. Entries past the label count, and
/// all beside a refusal, have to be zero.
pub fn growth(policy: &[u8]) -> Result<Vec<(u8, u8)>, u8> {
    grown(unsafe { yendlowa_growth(at(policy), policy.len()) })
}

fn grown(answer: Growth) -> Result<Vec<(u8, u8)>, u8> {
    let figures: Vec<(u8, u8)> = answer.costs.into_iter().zip(answer.ceilings).collect();
    let behind_zero = figures.iter().skip(answer.labels).all(|both| *both == (0, 0)) && answer.zeros == [0; 7];
    match (answer.refusal, answer.labels) {
        (0, labels @ ..=64) if behind_zero => Ok(figures[..labels].to_vec()),
        (number, 0) if number != 0 && behind_zero => Err(number),
        _ => Err(255),
    }
}

/// The length of its text that was written into `out`, or the refusal.
pub fn growth_text(policy: &[u8], out: &mut [u8]) -> Result<usize, u8> {
    length(unsafe { yendlowa_growth_text(at(policy), policy.len(), at_mut(out), out.len()) })
}

/// The issuer's key, or the refusal. Beside a refusal stand 32 zero bytes.
pub fn issuer_key(policy: &[u8], name: &[u8], root: &[u8]) -> Result<[u8; 32], u8> {
    key(unsafe {
        let (policy, length) = (at(policy), policy.len());
        yendlowa_issuer_key(policy, length, at(name), name.len(), at(root), root.len())
    })
}

fn key(answer: IssuerKey) -> Result<[u8; 32], u8> {
    match (answer.refusal, answer.key) {
        (0, key) => Ok(key),
        (number, key) if key == [0; 32] => Err(number),
        _ => Err(255),
    }
}

/// The fingerprint of a root secret, or the refusal. Beside a refusal stand 8 zero bytes.
pub fn fingerprint(root: &[u8]) -> Result<[u8; 8], u8> {
    let answer = unsafe { yendlowa_fingerprint(at(root), root.len()) };
    match (answer.refusal, answer.bytes) {
        (0, bytes) => Ok(bytes),
        (number, [0, 0, 0, 0, 0, 0, 0, 0]) => Err(number),
        _ => Err(255),
    }
}

/// The length of the envelope that was written into the buffer, or the refusal.
pub fn issue(policy: &[u8], name: &[u8], account: u32, root: &[u8], envelope: &mut [u8]) -> Result<usize, u8> {
    length(unsafe {
        yendlowa_issue(
            at(policy),
            policy.len(),
            at(name),
            name.len(),
            account,
            at(root),
            root.len(),
            at_mut(envelope),
            envelope.len(),
        )
    })
}

/// The length of the sealed file that was written into the buffer, or the refusal.
pub fn seal(
    policy: &[u8],
    name: &[u8],
    root: &[u8],
    nonce: &[u8],
    text: &[u8],
    out: &mut [u8],
) -> Result<usize, u8> {
    length(unsafe {
        yendlowa_seal(
            at(policy),
            policy.len(),
            at(name),
            name.len(),
            at(root),
            root.len(),
            at(nonce),
            nonce.len(),
            at(text),
            text.len(),
            at_mut(out),
            out.len(),
        )
    })
}

/// The length of the text that was written into the buffer, or the refusal.
pub fn open(envelope: &[u8], sealed: &[u8], out: &mut [u8]) -> Result<usize, u8> {
    let (file, file_length) = (at(sealed), sealed.len());
    length(unsafe { yendlowa_open(at(envelope), envelope.len(), file, file_length, at_mut(out), out.len()) })
}

/// The key and the number of applications, or the refusal. Beside a refusal stand 32 zero bytes and 0.
pub fn derive(envelope: &[u8], name: &[u8]) -> Result<([u8; 32], u8), u8> {
    let derived = unsafe { yendlowa_derive(at(envelope), envelope.len(), at(name), name.len()) };
    match (derived.refusal, derived.key, derived.applications) {
        (0, key, applications) => Ok((key, applications)),
        (number, key, 0) if key == [0; 32] => Err(number),
        _ => Err(255),
    }
}

/// The account and the names, or the refusal. Names past the labels, and all beside a refusal, have to be zero.
pub fn labels(envelope: &[u8]) -> Result<(u16, Vec<[u8; 8]>), u8> {
    let read = unsafe { yendlowa_labels(at(envelope), envelope.len()) };
    let names: Vec<[u8; 8]> = read.names.chunks(8).map(|name| name.try_into().unwrap()).collect();
    let behind_zero = names.iter().skip(read.labels).all(|name| *name == [0; 8]) && read.zeros == [0; 5];
    match (read.refusal, read.account, read.labels) {
        (0, account, labels @ ..=64) if behind_zero => Ok((account, names[..labels].to_vec())),
        (number, 0, 0) if number != 0 && behind_zero => Err(number),
        _ => Err(255),
    }
}

pub fn envelope_records(envelope: &[u8]) -> usize {
    unsafe { yendlowa_envelope_records(at(envelope), envelope.len()) }
}

/// A policy file and a roster file, as each operation with a roster takes them.
#[derive(Clone, Copy)]
pub struct Files<'a> {
    pub policy: &'a [u8],
    pub roster: &'a [u8],
}

type Reads<T> = unsafe extern "C" fn(*const u8, usize, *const u8, usize) -> T;
type Writes = unsafe extern "C" fn(*const u8, usize, *const u8, usize, *mut u8, usize) -> Written;

impl Files<'_> {
    fn read<T>(self, operation: Reads<T>) -> T {
        let Files { policy, roster } = self;
        unsafe { operation(at(policy), policy.len(), at(roster), roster.len()) }
    }

    /// The length of what was written into `out`, or the refusal.
    fn write(self, operation: Writes, out: &mut [u8]) -> Result<usize, u8> {
        let Files { policy, roster } = self;
        length(unsafe {
            operation(at(policy), policy.len(), at(roster), roster.len(), at_mut(out), out.len())
        })
    }

    /// Each label's accounts and each account's standing, or the refusal. Entries past the label count, places of
    /// accounts that are on no label, and all beside a refusal, have to be zero.
    pub fn roster(self) -> Result<Counted, u8> {
        let read = self.read(yendlowa_read_roster);
        let behind_zero = read.counts.iter().skip(read.labels).all(|count| *count == 0) && read.zeros == [0; 7];
        if !behind_zero || read.labels > 64 {
            return Err(255);
        }
        if read.refusal != 0 {
            let zero = read.labels == 0 && read.states == [0; 4096] && read.places == [0; 4096];
            return Err(if zero { read.refusal } else { 255 });
        }
        let standing = |(state, place): (&u8, &u8)| match (state, place) {
            (0, 0) => Ok(Standing::Unknown),
            (1, 0) => Ok(Standing::Withdrawn),
            (2, label) => Ok(Standing::Active(*label)),
            (3, label) => Ok(Standing::Held(*label)),
            _ => Err(255),
        };
        let accounts = read.states.iter().zip(&read.places).map(standing).collect::<Result<_, _>>()?;
        Ok(Counted { counts: read.counts[..read.labels].to_vec(), accounts })
    }

    pub fn records(self) -> usize {
        self.read(yendlowa_roster_records)
    }

    pub fn text(self, out: &mut [u8]) -> Result<usize, u8> {
        self.write(yendlowa_roster_text, out)
    }

    pub fn count_policy(self, out: &mut [u8]) -> Result<usize, u8> {
        self.write(yendlowa_count_policy, out)
    }

    pub fn plan(self) -> Result<tree::Plan, u8> {
        planned(self.read(yendlowa_plan_roster))
    }

    pub fn weigh(self, tree: &[u8]) -> Result<(u32, bool), u8> {
        let Files { policy, roster } = self;
        totalled(unsafe {
            yendlowa_weigh_roster(at(policy), policy.len(), at(roster), roster.len(), at(tree), tree.len())
        })
    }

    pub fn plan_text(self, out: &mut [u8]) -> Result<usize, u8> {
        self.write(yendlowa_plan_text_roster, out)
    }

    pub fn plan_dot(self, out: &mut [u8]) -> Result<usize, u8> {
        self.write(yendlowa_plan_dot_roster, out)
    }

    pub fn growth(self) -> Result<Vec<(u8, u8)>, u8> {
        grown(self.read(yendlowa_growth_roster))
    }

    pub fn growth_text(self, out: &mut [u8]) -> Result<usize, u8> {
        self.write(yendlowa_growth_text_roster, out)
    }

    pub fn issuer_key(self, name: &[u8], root: &[u8]) -> Result<[u8; 32], u8> {
        let Files { policy, roster } = self;
        key(unsafe {
            yendlowa_issuer_key_roster(
                at(policy),
                policy.len(),
                at(roster),
                roster.len(),
                at(name),
                name.len(),
                at(root),
                root.len(),
            )
        })
    }

    pub fn issue(self, name: &[u8], account: u32, root: &[u8], out: &mut [u8]) -> Result<usize, u8> {
        let Files { policy, roster } = self;
        length(unsafe {
            yendlowa_issue_roster(
                at(policy),
                policy.len(),
                at(roster),
                roster.len(),
                at(name),
                name.len(),
                account,
                at(root),
                root.len(),
                at_mut(out),
                out.len(),
            )
        })
    }

    pub fn seal(self, name: &[u8], root: &[u8], nonce: &[u8], text: &[u8], out: &mut [u8]) -> Result<usize, u8> {
        let Files { policy, roster } = self;
        length(unsafe {
            yendlowa_seal_roster(
                at(policy),
                policy.len(),
                at(roster),
                roster.len(),
                at(name),
                name.len(),
                at(root),
                root.len(),
                at(nonce),
                nonce.len(),
                at(text),
                text.len(),
                at_mut(out),
                out.len(),
            )
        })
    }
}
