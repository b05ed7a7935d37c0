//! Keys, issuing, envelopes' labels and deriving in plain Rust, from the file's bytes to the answer. Secrets are
//! made by recursion up the tree, each once; nothing is allocated but the policy reader's lists.

use crate::hash::mac;
use crate::library::{Derived, IssuerKey, Labels, Written};
use crate::plan::{self, Policy, Rows};

/// A policy with its order and the plan's parents.
struct Issuer {
    policy: Policy,
    rows: Rows,
    parents: [u8; 64],
}

impl Issuer {
    fn new(file: &[u8]) -> Result<Issuer, u8> {
        plan::read(file).map(Issuer::of)
    }

    fn of(policy: Policy) -> Issuer {
        let rows = plan::order(&policy);
        let mut parents = [0; 64];
        for label in 1..policy.labels {
            parents[label] = plan::best_parent(&policy, &rows, label).0;
        }
        Issuer { policy, rows, parents }
    }

    /// Whether an account at the label holds the secret of `lower`, a label at or below it.
    fn holds(&self, label: usize, lower: usize) -> bool {
        lower == 0 || !self.rows[self.parents[lower] as usize][label]
    }

    fn secret(&self, known: &mut [Option<[u8; 32]>; 64], label: usize) -> [u8; 32] {
        if let Some(secret) = known[label] {
            return secret;
        }
        let secret = mac(&self.secret(known, self.parents[label] as usize), &self.policy.names[label]);
        known[label] = Some(secret);
        secret
    }

    fn label(&self, name: &[u8]) -> Result<usize, u8> {
        self.policy.names.iter().position(|other| other == name).ok_or(13)
    }

    fn length(&self, label: usize) -> usize {
        let at_or_below = (label..self.policy.labels).filter(|lower| self.rows[*lower][label]);
        12 + at_or_below.map(|lower| if self.holds(label, lower) { 42 } else { 11 }).sum::<usize>()
    }

    /// Writes the records behind the header.
    fn write(&self, label: usize, root: [u8; 32], envelope: &mut [u8]) {
        let mut known = [None; 64];
        known[0] = Some(root);
        let mut places = [0; 64];
        let (mut at, mut place) = (12, 0);
        for lower in label..self.policy.labels {
            if !self.rows[lower][label] {
                continue;
            }
            places[lower] = place;
            place += 1;
            envelope[at + 2..at + 10].copy_from_slice(&self.policy.names[lower]);
            if self.holds(label, lower) {
                envelope[at..at + 2].copy_from_slice(b"KS");
                envelope[at + 10..at + 42].copy_from_slice(&self.secret(&mut known, lower));
                at += 42;
            } else {
                envelope[at..at + 2].copy_from_slice(b"KD");
                envelope[at + 10] = places[self.parents[lower] as usize];
                at += 11;
            }
        }
    }
}

fn issued(file: &[u8], name: &[u8], account: u32, root: &[u8], envelope: &mut [u8]) -> Result<usize, u8> {
    let policy = plan::read(file)?;
    let label = policy.names.iter().position(|other| other == name).ok_or(13)?;
    if account == 0 || account > policy.counts[label] {
        return Err(14);
    }
    written(policy, label, account, root, envelope)
}

/// The envelope of an account that is at the label.
pub fn written(
    policy: Policy,
    label: usize,
    account: u32,
    root: &[u8],
    envelope: &mut [u8],
) -> Result<usize, u8> {
    let root = root.try_into().map_err(|_| 15)?;
    let issuer = Issuer::of(policy);
    let length = issuer.length(label);
    if envelope.len() < length {
        return Err(16);
    }
    envelope[..2].copy_from_slice(b"EN");
    envelope[2..4].copy_from_slice(&(account as u16).to_be_bytes());
    envelope[4..12].copy_from_slice(&issuer.policy.names[label]);
    issuer.write(label, root, envelope);
    Ok(length)
}

pub fn answer(written: Result<usize, u8>) -> Written {
    match written {
        Ok(length) => Written { refusal: 0, zeros: [0; 7], length },
        Err(refusal) => Written { refusal, zeros: [0; 7], length: 0 },
    }
}

pub fn issue(file: &[u8], name: &[u8], account: u32, root: &[u8], envelope: &mut [u8]) -> Written {
    answer(issued(file, name, account, root, envelope))
}

fn key(file: &[u8], name: &[u8], root: &[u8]) -> Result<[u8; 32], u8> {
    let issuer = Issuer::new(file)?;
    let label = issuer.label(name)?;
    let mut known = [None; 64];
    known[0] = Some(root.try_into().map_err(|_| 15)?);
    Ok(mac(&issuer.secret(&mut known, label), &issuer.policy.names[label]))
}

pub fn issuer_key(file: &[u8], name: &[u8], root: &[u8]) -> IssuerKey {
    match key(file, name, root) {
        Ok(key) => IssuerKey { refusal: 0, key },
        Err(refusal) => IssuerKey { refusal, key: [0; 32] },
    }
}

/// The records of an envelope: names, and behind each name a secret or a place.
struct Records<'a> {
    count: usize,
    names: [[u8; 8]; 64],
    sources: [&'a [u8]; 64],
}

fn well_formed(name: &[u8; 8]) -> bool {
    let length = name.iter().rposition(|byte| *byte != b' ').map_or(0, |last| last + 1);
    length > 0 && name[..length].iter().all(|byte| byte.is_ascii_uppercase() || byte.is_ascii_digit())
}

impl<'a> Records<'a> {
    /// Adds the record at the start of some bytes, and gives what follows it.
    fn add(&mut self, label: &[u8], bytes: &'a [u8]) -> Result<&'a [u8], u8> {
        let length = match bytes.get(..2) {
            Some(b"KS") => 42,
            Some(b"KD") => 11,
            _ => return Err(2),
        };
        let record = bytes.get(..length).ok_or(3)?;
        let name: [u8; 8] = record[2..10].try_into().unwrap();
        let place = self.count;
        if place == 64 {
            return Err(5);
        }
        if !well_formed(&name) {
            return Err(6);
        }
        if place == 0 && (length == 11 || name != label) {
            return Err(18);
        }
        if self.names[..place].contains(&name) {
            return Err(7);
        }
        if length == 11 && record[10] as usize >= place {
            return Err(19);
        }
        self.names[place] = name;
        self.sources[place] = &record[10..];
        self.count += 1;
        Ok(&bytes[length..])
    }

    /// Reads the header and the records up to the end or the first refused one, whose number stands beside them.
    fn begin(file: &'a [u8]) -> (Records<'a>, Result<(), u8>) {
        let mut records = Records { count: 0, names: [[0; 8]; 64], sources: [&[]; 64] };
        if file.len() < 12 || !file.starts_with(b"EN") || file[2..4] == [0, 0] {
            return (records, Err(17));
        }
        let mut rest = &file[12..];
        while !rest.is_empty() {
            match records.add(&file[4..12], rest) {
                Ok(after) => rest = after,
                Err(number) => return (records, Err(number)),
            }
        }
        (records, Ok(()))
    }

    fn read(file: &'a [u8]) -> Result<Records<'a>, u8> {
        let (records, end) = Records::begin(file);
        end?;
        if records.count == 0 {
            return Err(18);
        }
        Ok(records)
    }

    /// A record's secret, and the tree steps to it.
    fn secret(&self, place: usize) -> ([u8; 32], u8) {
        match self.sources[place] {
            [parent] => {
                let (above, steps) = self.secret(*parent as usize);
                (mac(&above, &self.names[place]), steps + 1)
            }
            held => (held.try_into().unwrap(), 0),
        }
    }
}

fn derived(envelope: &[u8], name: &[u8]) -> Result<([u8; 32], u8), u8> {
    let records = Records::read(envelope)?;
    let place = records.names[..records.count].iter().position(|other| other == name).ok_or(20)?;
    let (secret, steps) = records.secret(place);
    Ok((mac(&secret, &records.names[place]), steps + 1))
}

pub fn derive(envelope: &[u8], name: &[u8]) -> Derived {
    match derived(envelope, name) {
        Ok((key, applications)) => Derived { refusal: 0, key, applications },
        Err(refusal) => Derived { refusal, key: [0; 32], applications: 0 },
    }
}

pub fn labels(envelope: &[u8]) -> Labels {
    let mut answer = Labels { refusal: 0, zeros: [0; 5], account: 0, labels: 0, names: [0; 512] };
    match Records::read(envelope) {
        Ok(records) => {
            answer.account = u16::from_be_bytes([envelope[2], envelope[3]]);
            answer.labels = records.count;
            answer.names[..8 * records.count].copy_from_slice(records.names[..records.count].as_flattened());
        }
        Err(refusal) => answer.refusal = refusal,
    }
    answer
}

pub fn envelope_records(envelope: &[u8]) -> usize {
    Records::begin(envelope).0.count
}

/// How many secrets an envelope holds.
pub fn secrets(envelope: &[u8]) -> usize {
    let records = Records::read(envelope).unwrap_or_else(|number| panic!("refused {number}"));
    records.sources[..records.count].iter().filter(|source| source.len() == 32).count()
}
