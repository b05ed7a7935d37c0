//! Rosters in plain Rust: a table of 4,096 accounts is altered record by record, and the labels' accounts are counted
//! at its end. The name in a record is compared with those of the labels one after the other, as numbers of 8 bytes.

use crate::envelope;
use crate::library::{self, Plan, Written};
use crate::plan::{self, Policy};
use crate::policy;

/// How an account stands, as the library's answer tells it, and its label.
#[derive(Clone, Copy)]
struct Account {
    state: u8,
    place: u8,
}

const WITHDRAWN: u8 = 1;
const ACTIVE: u8 = 2;
const HELD: u8 = 3;

struct Roster {
    accounts: [Account; 4096],
    names: Vec<u64>,
}

impl Roster {
    fn read(names: &[[u8; 8]], mut rest: &[u8]) -> Result<Roster, u8> {
        let names = names.iter().map(|name| u64::from_ne_bytes(*name)).collect();
        let mut roster = Roster { accounts: [Account { state: 0, place: 0 }; 4096], names };
        while !rest.is_empty() {
            rest = roster.record(rest)?;
        }
        Ok(roster)
    }

    fn label(&self, name: &[u8]) -> Result<u8, u8> {
        let name = u64::from_ne_bytes(name.try_into().unwrap());
        self.names.iter().position(|other| *other == name).map(|label| label as u8).ok_or(13)
    }

    /// Takes in the record at the start of the bytes, and gives those after it.
    fn record<'a>(&mut self, bytes: &'a [u8]) -> Result<&'a [u8], u8> {
        let length = match bytes.get(..2) {
            Some(b"JN" | b"MV") => 12,
            Some(b"HD" | b"RL" | b"WD") => 4,
            _ => return Err(2),
        };
        if bytes.len() < length {
            return Err(3);
        }
        let (record, after) = bytes.split_at(length);
        let number = u16::from_be_bytes([record[2], record[3]]) as usize;
        let state = self.accounts.get(number.wrapping_sub(1)).map(|account| account.state);
        let account = match (record[0], state) {
            (b'J', Some(0)) => Account { state: ACTIVE, place: self.label(&record[4..])? },
            (b'J', _) => return Err(24),
            (_, None | Some(0 | WITHDRAWN)) => return Err(25),
            (b'M', _) => Account { state: ACTIVE, place: self.label(&record[4..])? },
            (b'H', _) => Account { state: HELD, ..self.accounts[number - 1] },
            (b'R', _) => Account { state: ACTIVE, ..self.accounts[number - 1] },
            _ => Account { state: WITHDRAWN, place: 0 },
        };
        self.accounts[number - 1] = account;
        Ok(after)
    }

    fn counts(&self) -> [u16; 64] {
        let mut counts = [0; 64];
        for account in self.accounts.iter().filter(|account| account.state >= ACTIVE) {
            counts[account.place as usize] += 1;
        }
        counts
    }

    /// The policy with the roster's counts.
    fn counted(&self, mut policy: Policy) -> Policy {
        policy.counts = self.counts().map(u32::from);
        policy
    }
}

fn both(file: &[u8], roster: &[u8]) -> Result<(Policy, Roster), u8> {
    let policy = plan::read(file)?;
    let roster = Roster::read(&policy.names, roster)?;
    Ok((policy, roster))
}

pub fn read_roster(file: &[u8], roster: &[u8]) -> library::Roster {
    let (counts, states, places) = ([0; 64], [0; 4096], [0; 4096]);
    let mut answer = library::Roster { refusal: 0, zeros: [0; 7], labels: 0, counts, states, places };
    match policy::read(file).and_then(|policy| Roster::read(&policy.names, roster)) {
        Ok(read) => {
            (answer.labels, answer.counts) = (read.names.len(), read.counts());
            answer.states = read.accounts.map(|account| account.state);
            answer.places = read.accounts.map(|account| account.place);
        }
        Err(refusal) => answer.refusal = refusal,
    }
    answer
}

pub fn plan_roster(file: &[u8], roster: &[u8]) -> Plan {
    plan::of(both(file, roster).map(|(policy, roster)| roster.counted(policy)))
}

fn issued(
    file: &[u8],
    roster: &[u8],
    name: &[u8],
    account: u32,
    root: &[u8],
    out: &mut [u8],
) -> Result<usize, u8> {
    let (policy, roster) = both(file, roster)?;
    let label = roster.label(name)?;
    match roster.accounts.get((account as usize).wrapping_sub(1)) {
        Some(Account { state: ACTIVE, place }) if *place == label => {}
        Some(Account { state: HELD, place }) if *place == label => return Err(26),
        _ => return Err(14),
    }
    envelope::written(roster.counted(policy), label as usize, account, root, out)
}

pub fn issue_roster(
    file: &[u8],
    roster: &[u8],
    name: &[u8],
    account: u32,
    root: &[u8],
    out: &mut [u8],
) -> Written {
    envelope::answer(issued(file, roster, name, account, root, out))
}
