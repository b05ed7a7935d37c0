//! Rosters of accounts, from Ask 4 of document 02: the file read record by record, and every operation that takes
//! one. A roster's counts are put into the policy, and the policy is then worked on as it is without a roster.

use crate::envelope::{Issuer, Key};
use crate::growth;
use crate::policy::{self, Policy};
use crate::sealing;
use crate::sha256::Sha256;
use crate::tree::{self, Plan, Planned};
use std::collections::BTreeMap;

pub const MOST_ACCOUNTS: usize = 4096;

/// How an account stands; on a label, with the label's number.
#[derive(Clone, Copy, PartialEq, Eq)]
pub enum Standing {
    Unknown,
    Withdrawn,
    Active(u8),
    Held(u8),
}

/// What is told of a roster: each label's accounts, and how each account from 1 on stands.
#[derive(Clone, PartialEq, Eq)]
pub struct Counted {
    pub counts: Vec<u16>,
    pub accounts: Vec<Standing>,
}

/// The accounts that are not unknown are shown.
impl std::fmt::Debug for Counted {
    fn fmt(&self, formatter: &mut std::fmt::Formatter) -> std::fmt::Result {
        write!(formatter, "{:?}", self.counts)?;
        for (account, standing) in (1..).zip(&self.accounts) {
            match standing {
                Standing::Unknown => {}
                Standing::Withdrawn => write!(formatter, " {account} withdrawn")?,
                Standing::Active(label) => write!(formatter, " {account} on {label}")?,
                Standing::Held(label) => write!(formatter, " {account} held on {label}")?,
            }
        }
        Ok(())
    }
}

/// The accounts that have ever joined: nothing for a withdrawn one, or the label and whether it is held.
#[derive(Clone, Default)]
pub struct Roster(BTreeMap<u16, Option<(u8, bool)>>);

impl Roster {
    /// Adds the records up to the end of the bytes, or to the first that is refused; with each its length is told.
    pub fn add(
        &mut self,
        policy: &Policy,
        mut rest: &[u8],
        mut told: impl FnMut(&Roster, usize),
    ) -> Result<(), u8> {
        while !rest.is_empty() {
            let length = self.add_first(policy, rest)?;
            told(self, length);
            rest = &rest[length..];
        }
        Ok(())
    }

    /// Adds the record at the start of the bytes, and gives its length.
    fn add_first(&mut self, policy: &Policy, bytes: &[u8]) -> Result<usize, u8> {
        let length = match bytes.get(..2) {
            Some(b"JN" | b"MV") => 12,
            Some(b"HD" | b"RL" | b"WD") => 4,
            _ => return Err(2),
        };
        let record = bytes.get(..length).ok_or(3)?;
        let number = u16::from_be_bytes([record[2], record[3]]);
        let label =
            || policy.names.iter().position(|name| name == &record[4..]).map(|label| label as u8).ok_or(13);
        if &record[..2] == b"JN" {
            if number == 0 || number as usize > MOST_ACCOUNTS || self.0.contains_key(&number) {
                return Err(24);
            }
            self.0.insert(number, Some((label()?, false)));
            return Ok(length);
        }
        let account = self.0.get_mut(&number).ok_or(25)?;
        let (on, held) = account.as_mut().ok_or(25)?;
        match &record[..2] {
            b"MV" => (*on, *held) = (label()?, false),
            b"HD" => *held = true,
            b"RL" => *held = false,
            _ => *account = None,
        }
        Ok(length)
    }

    pub fn standing(&self, account: u32) -> Standing {
        match u16::try_from(account).ok().and_then(|number| self.0.get(&number)) {
            None => Standing::Unknown,
            Some(None) => Standing::Withdrawn,
            Some(Some((label, false))) => Standing::Active(*label),
            Some(Some((label, true))) => Standing::Held(*label),
        }
    }

    /// An account that has joined and stands so, the first from a number on, around from the last to the first.
    pub fn some(&self, from: u16, wanted: impl Fn(Standing) -> bool) -> Option<u16> {
        let numbers = self.0.range(from..).chain(self.0.range(..from)).map(|(number, _)| *number);
        numbers.into_iter().find(|number| wanted(self.standing(*number as u32)))
    }

    /// How many accounts stand on each label.
    fn counts(&self, labels: usize) -> Vec<u16> {
        let mut counts = vec![0; labels];
        self.0.values().flatten().for_each(|(label, _)| counts[*label as usize] += 1);
        counts
    }

    pub fn counted(&self, labels: usize) -> Counted {
        let accounts = (1..=MOST_ACCOUNTS as u32).map(|account| self.standing(account)).collect();
        Counted { counts: self.counts(labels), accounts }
    }

    /// The policy with the roster's counts.
    pub fn policy(&self, policy: &Policy) -> Policy {
        Policy { counts: self.counts(policy.names.len()), ..policy.clone() }
    }

    pub fn text(&self, policy: &Policy) -> Vec<u8> {
        let name = |label: usize| std::str::from_utf8(&policy.names[label]).unwrap().trim_end();
        let mut text = String::new();
        for (number, account) in &self.0 {
            text += &match account {
                None => format!("{number} - withdrawn\n"),
                Some((label, held)) => {
                    format!("{number} {} {}\n", name(*label as usize), if *held { "held" } else { "active" })
                }
            };
        }
        let counts = self.counts(policy.names.len());
        for (label, count) in counts.iter().enumerate() {
            text += &format!("{} {count}\n", name(label));
        }
        text += &format!("TOTAL {}\n", counts.iter().map(|count| *count as u32).sum::<u32>());
        text.into_bytes()
    }
}

/// Policy and roster as read, the policy's refusal before the roster's.
pub fn read(policy: &[u8], roster: &[u8]) -> Result<(Policy, Roster), u8> {
    let policy = policy::read(policy)?;
    let mut read = Roster::default();
    read.add(&policy, roster, |_, _| {})?;
    Ok((policy, read))
}

/// How many records are read before the roster's end or its first refused record; none beside a refused policy.
pub fn records_read(policy: &[u8], roster: &[u8]) -> usize {
    let mut records = 0;
    if let Ok(policy) = policy::read(policy) {
        let _ = Roster::default().add(&policy, roster, |_, _| records += 1);
    }
    records
}

/// A policy and a roster that both were read, with the policy that has the roster's counts, or the refusal of either.
pub struct Both {
    pub roster: Roster,
    pub policy: Policy,
}

impl Both {
    pub fn read(policy: &[u8], roster: &[u8]) -> Result<Both, u8> {
        let (policy, roster) = read(policy, roster)?;
        Ok(Both { policy: roster.policy(&policy), roster })
    }

    pub fn counted(&self) -> Counted {
        self.roster.counted(self.policy.names.len())
    }

    pub fn text(&self) -> Vec<u8> {
        self.roster.text(&self.policy)
    }

    pub fn file(&self) -> Vec<u8> {
        self.policy.to_bytes()
    }

    pub fn plan(&self) -> Plan {
        Planned::new(&self.policy).plan
    }

    pub fn weigh(&self, tree: &[u8]) -> Result<(u32, bool), u8> {
        Planned::new(&self.policy).weigh(tree)
    }

    pub fn plan_text(&self) -> Vec<u8> {
        Planned::new(&self.policy).text()
    }

    pub fn plan_dot(&self) -> Vec<u8> {
        Planned::new(&self.policy).dot()
    }

    pub fn growth(&self) -> Vec<(u8, u8)> {
        growth::growth(&self.file()).unwrap()
    }

    pub fn growth_text(&self) -> Vec<u8> {
        growth::text(&self.file()).unwrap()
    }

    pub fn key(&self, hash: &Sha256, name: &[u8], root: &[u8]) -> Result<Key, u8> {
        let planned = Planned::new(&self.policy);
        Issuer { hash, policy: &self.policy, planned: &planned }.key(name, root)
    }

    /// The bytes of the envelope that is issued into so much room, or the refusal.
    pub fn issue(
        &self,
        hash: &Sha256,
        name: &[u8],
        account: u32,
        root: &[u8],
        room: usize,
    ) -> Result<Vec<u8>, u8> {
        let label = self.policy.names.iter().position(|other| other == name).ok_or(13)?;
        match self.roster.standing(account) {
            Standing::Active(on) if on as usize == label => {}
            Standing::Held(on) if on as usize == label => return Err(26),
            _ => return Err(14),
        }
        let root = root.try_into().map_err(|_| 15)?;
        let planned = Planned::new(&self.policy);
        let issuer = Issuer { hash, policy: &self.policy, planned: &planned };
        tree::into_room(Ok(issuer.envelope(label, account as u16, root).to_bytes()), room)
    }

    pub fn seal(
        &self,
        hash: &Sha256,
        name: &[u8],
        root: &[u8],
        nonce: &[u8],
        text: &[u8],
        room: usize,
    ) -> Result<Vec<u8>, u8> {
        let planned = Planned::new(&self.policy);
        let issuer = Issuer { hash, policy: &self.policy, planned: &planned };
        sealing::seal(&issuer, name, root, nonce, text, room)
    }
}
