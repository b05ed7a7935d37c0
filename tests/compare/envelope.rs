//! Secrets, keys and envelopes, from document 01. The issuer's side works on a policy with its plan, the desk's
//! on an envelope alone.

use crate::policy::{self, Policy};
use crate::sha256::Sha256;
use crate::tree::Planned;
use std::collections::HashMap;

pub const MOST_RECORDS: usize = 64;

pub type Name = [u8; 8];
pub type Key = [u8; 32];

/// Where a record's secret comes from: it is held, or it is made from that of the record at a place.
#[derive(Clone)]
pub enum Source {
    Held(Key),
    Parent(u8),
}

#[derive(Clone)]
pub struct Record {
    pub name: Name,
    pub source: Source,
}

#[derive(Clone)]
pub struct Envelope {
    pub account: u16,
    pub label: Name,
    pub records: Vec<Record>,
}

impl Record {
    pub fn to_bytes(&self) -> Vec<u8> {
        match &self.source {
            Source::Held(secret) => [b"KS", &self.name[..], &secret[..]].concat(),
            Source::Parent(place) => [b"KD", &self.name[..], &[*place]].concat(),
        }
    }

    /// The record at the start of some bytes, and what follows it.
    fn first(bytes: &[u8]) -> Result<(Record, &[u8]), u8> {
        let length = match bytes.get(..2) {
            Some(b"KS") => 42,
            Some(b"KD") => 11,
            _ => return Err(2),
        };
        if bytes.len() < length {
            return Err(3);
        }
        let (record, rest) = bytes.split_at(length);
        let source = match length {
            42 => Source::Held(record[10..].try_into().unwrap()),
            _ => Source::Parent(record[10]),
        };
        Ok((Record { name: record[2..10].try_into().unwrap(), source }, rest))
    }
}

impl Envelope {
    pub fn to_bytes(&self) -> Vec<u8> {
        let header = [b"EN", &self.account.to_be_bytes()[..], &self.label[..]].concat();
        let records = self.records.iter().map(Record::to_bytes);
        std::iter::once(header).chain(records).collect::<Vec<_>>().concat()
    }

    /// Reads a whole envelope, or gives the number of its refusal.
    pub fn read(file: &[u8]) -> Result<Envelope, u8> {
        let (mut envelope, records) = Envelope::begun(file)?;
        envelope.read_records(records)?;
        if envelope.records.is_empty() {
            return Err(18);
        }
        Ok(envelope)
    }

    /// Reads the header: an envelope without records, and the bytes of these.
    fn begun(file: &[u8]) -> Result<(Envelope, &[u8]), u8> {
        if file.len() < 12 || !file.starts_with(b"EN") || file[2..4] == [0, 0] {
            return Err(17);
        }
        let account = u16::from_be_bytes([file[2], file[3]]);
        let label = file[4..12].try_into().unwrap();
        Ok((Envelope { account, label, records: Vec::new() }, &file[12..]))
    }

    /// Adds the records up to the end of the bytes, or to the first that is refused.
    fn read_records(&mut self, mut rest: &[u8]) -> Result<(), u8> {
        while !rest.is_empty() {
            let (record, after) = Record::first(rest)?;
            self.check(&record)?;
            self.records.push(record);
            rest = after;
        }
        Ok(())
    }

    /// Whether the record may follow those that are there.
    fn check(&self, record: &Record) -> Result<(), u8> {
        let place = self.records.len();
        let well_formed = policy::well_formed(&record.name);
        let carried = self.records.iter().any(|earlier| earlier.name == record.name);
        match record.source {
            _ if place == MOST_RECORDS => Err(5),
            _ if !well_formed => Err(6),
            Source::Parent(_) if place == 0 => Err(18),
            _ if place == 0 && record.name != self.label => Err(18),
            _ if carried => Err(7),
            Source::Parent(parent) if parent as usize >= place => Err(19),
            _ => Ok(()),
        }
    }
}

/// The account of an envelope and the names of its records in order, or the refusal.
pub fn labels(file: &[u8]) -> Result<(u16, Vec<Name>), u8> {
    let envelope = Envelope::read(file)?;
    Ok((envelope.account, envelope.records.iter().map(|record| record.name).collect()))
}

/// How many records are read before the envelope's end or its first refused record.
pub fn records_read(file: &[u8]) -> usize {
    let Ok((mut envelope, records)) = Envelope::begun(file) else { return 0 };
    let _ = envelope.read_records(records);
    envelope.records.len()
}

/// The issuer: an accepted policy with its plan.
pub struct Issuer<'a> {
    pub hash: &'a Sha256,
    pub policy: &'a Policy,
    pub planned: &'a Planned<'a>,
}

impl Issuer<'_> {
    fn parent(&self, label: usize) -> usize {
        self.planned.plan.parents[label] as usize
    }

    /// Whether an account at the label holds the secret of `lower`, a label at or below it.
    fn holds(&self, label: usize, lower: usize) -> bool {
        lower == 0 || !self.planned.at_or_below(self.parent(lower), label)
    }

    /// The tree steps to `lower` from the secret that an account at the label holds, plus one for the key.
    pub fn applications(&self, label: usize, lower: usize) -> u8 {
        if self.holds(label, lower) {
            return 1;
        }
        1 + self.applications(label, self.parent(lower))
    }

    /// A label's secret, from those that are known; the root secret is known as the top's.
    fn secret(&self, known: &mut HashMap<usize, Key>, label: usize) -> Key {
        if let Some(secret) = known.get(&label) {
            return *secret;
        }
        let above = self.secret(known, self.parent(label));
        let secret = self.hash.mac(&above, &self.policy.names[label]);
        known.insert(label, secret);
        secret
    }

    /// The envelope of an account at the label.
    pub fn envelope(&self, label: usize, account: u16, root: Key) -> Envelope {
        let mut known = HashMap::from([(0, root)]);
        let listed: Vec<usize> =
            (0..self.policy.names.len()).filter(|lower| self.planned.at_or_below(*lower, label)).collect();
        let mut record = |lower: usize| {
            let place = || listed.iter().position(|other| *other == self.parent(lower)).unwrap();
            let source = match self.holds(label, lower) {
                true => Source::Held(self.secret(&mut known, lower)),
                false => Source::Parent(place() as u8),
            };
            Record { name: self.policy.names[lower], source }
        };
        let records = listed.iter().map(|lower| record(*lower)).collect();
        Envelope { account, label: self.policy.names[label], records }
    }

    fn label(&self, name: &[u8]) -> Result<usize, u8> {
        self.policy.names.iter().position(|other| other == name).ok_or(13)
    }

    /// The issuer's key for a name, or the refusal.
    pub fn key(&self, name: &[u8], root: &[u8]) -> Result<Key, u8> {
        let label = self.label(name)?;
        let root = root.try_into().map_err(|_| 15)?;
        let secret = self.secret(&mut HashMap::from([(0, root)]), label);
        Ok(self.hash.mac(&secret, name))
    }

    /// The bytes of the envelope that is issued into so much room, or the refusal.
    pub fn issue(&self, name: &[u8], account: u32, root: &[u8], room: usize) -> Result<Vec<u8>, u8> {
        let label = self.label(name)?;
        if account == 0 || account > self.policy.counts[label] as u32 {
            return Err(14);
        }
        let root = root.try_into().map_err(|_| 15)?;
        let bytes = self.envelope(label, account as u16, root).to_bytes();
        if room < bytes.len() {
            return Err(16);
        }
        Ok(bytes)
    }
}

/// The desk: an envelope that was read, the first place of each name, and for each place as far as it is known
/// the secret and the tree steps to it.
pub struct Desk<'a> {
    hash: &'a Sha256,
    envelope: Envelope,
    places: HashMap<Name, usize>,
    known: HashMap<usize, (Key, u8)>,
}

impl Desk<'_> {
    pub fn open<'a>(hash: &'a Sha256, file: &[u8]) -> Result<Desk<'a>, u8> {
        let envelope = Envelope::read(file)?;
        let mut places = HashMap::new();
        for (place, record) in envelope.records.iter().enumerate() {
            places.entry(record.name).or_insert(place);
        }
        Ok(Desk { hash, envelope, places, known: HashMap::new() })
    }

    fn secret(&mut self, place: usize) -> (Key, u8) {
        if let Some(known) = self.known.get(&place) {
            return *known;
        }
        let Record { name, source } = self.envelope.records[place].clone();
        let found = match source {
            Source::Held(secret) => (secret, 0),
            Source::Parent(parent) => {
                let (above, steps) = self.secret(parent as usize);
                (self.hash.mac(&above, &name), steps + 1)
            }
        };
        self.known.insert(place, found);
        found
    }

    /// The key for a name and the number of applications, or the refusal.
    pub fn derive(&mut self, name: &[u8]) -> Result<(Key, u8), u8> {
        let place = *Name::try_from(name).ok().and_then(|name| self.places.get(&name)).ok_or(20)?;
        let (secret, steps) = self.secret(place);
        Ok((self.hash.mac(&secret, name), steps + 1))
    }
}

/// The keys and counts for several names from one envelope; its refusal is given for each.
pub fn derive(hash: &Sha256, file: &[u8], names: &[Vec<u8>]) -> Vec<Result<(Key, u8), u8>> {
    let mut desk = Desk::open(hash, file);
    let mut one = |name: &Vec<u8>| match &mut desk {
        Ok(desk) => desk.derive(name),
        Err(number) => Err(*number),
    };
    names.iter().map(|name| one(name)).collect()
}
