//! Roster files to compare on: records that are accepted or refused in every way, rosters of these of any length,
//! damaged ones, and noise.

use crate::files;
use crate::issuing;
use crate::policy::Policy;
use crate::random::Random;
use crate::rosters::{Roster, Standing, MOST_ACCOUNTS};

/// The account that a record is about, told by its number or by how it stands.
#[derive(Clone, Copy, Debug, PartialEq)]
pub enum Who {
    Number(u16),
    Above,
    Unknown,
    Withdrawn,
    Active,
    Held,
}

/// The name in a join or a move: of the label that the account is on, of another, or of none.
#[derive(Clone, Copy, Debug, PartialEq)]
pub enum Named {
    Same,
    Other,
    Missing,
}

/// One way to write a record.
#[derive(Clone, Copy, Debug, PartialEq)]
pub enum Way {
    Join(Who, Named),
    Move(Who, Named),
    Hold(Who),
    Release(Who),
    Withdraw(Who),
    Cut(&'static str, usize),
    Mark(&'static str),
    Byte(u8),
}

use Way::*;
use Who::*;

/// Marks that do not belong in a roster.
const MARKS: [&str; 14] = ["LB", "OV", "TR", "EN", "KS", "KD", "SM", "jn", "NJ", "JV", "MN", "HL", "WL", "\0\0"];

/// Every way. The accounts 1 and 4,096 join, and are then on a label.
pub fn ways() -> Vec<Way> {
    let none = [Number(0), Number(4097), Number(65_535), Above, Withdrawn];
    let all = |more: &[Who]| [&none[..], more].concat();
    let on = [Active, Held, Number(1), Number(4096)];
    let mut list = Vec::new();
    for who in all(&[Unknown, Active, Held, Number(1), Number(4096)]) {
        list.extend([Join(who, Named::Other), Join(who, Named::Missing)]);
    }
    for who in all(&[Unknown]).into_iter().chain(on) {
        let names = if on.contains(&who) {
            &[Named::Same, Named::Other, Named::Missing][..]
        } else {
            &[Named::Other, Named::Missing]
        };
        list.extend(names.iter().map(|named| Move(who, *named)));
        list.extend([Hold(who), Release(who), Withdraw(who)]);
    }
    for (mark, length) in [("JN", 12), ("MV", 12), ("HD", 4), ("RL", 4), ("WD", 4)] {
        list.extend((2..length).map(|bytes| Cut(mark, bytes)));
    }
    list.extend(MARKS.map(Mark));
    list.extend(b"JMHRW\0L".map(Byte));
    list
}

impl Way {
    /// What document 02 says of it, 0 if it is accepted.
    pub fn refusal(self) -> u8 {
        match self {
            Join(Unknown | Number(1) | Number(4096), Named::Missing) => 13,
            Join(Unknown | Number(1) | Number(4096), _) => 0,
            Join(..) => 24,
            Move(Active | Held | Number(1) | Number(4096), Named::Missing) => 13,
            Move(Active | Held | Number(1) | Number(4096), _) => 0,
            Hold(who) | Release(who) | Withdraw(who)
                if matches!(who, Active | Held | Number(1) | Number(4096)) =>
            {
                0
            }
            Move(..) | Hold(_) | Release(_) | Withdraw(_) => 25,
            Cut(..) => 3,
            Mark(_) | Byte(_) => 2,
        }
    }

    /// Whether it is refused only where the file ends.
    pub fn at_the_end(self) -> bool {
        matches!(self, Cut(..))
    }

    /// Whether it can be the first record of a roster.
    pub fn first(self) -> bool {
        match self {
            Join(who, _) => !matches!(who, Active | Held | Withdrawn),
            Move(who, _) | Hold(who) | Release(who) | Withdraw(who) => self.refusal() == 25 && who != Withdrawn,
            _ => true,
        }
    }
}

/// A roster file in the making: the accounts after its records, and where each record ends.
pub struct Maker<'a> {
    pub random: &'a mut Random,
    pub policy: &'a Policy,
    pub roster: Roster,
    pub file: Vec<u8>,
    pub ends: Vec<usize>,
}

impl<'a> Maker<'a> {
    pub fn new(random: &'a mut Random, policy: &'a Policy) -> Maker<'a> {
        Maker { random, policy, roster: Roster::default(), file: Vec::new(), ends: vec![0] }
    }

    fn any_number(&mut self) -> u16 {
        1 + self.random.below(MOST_ACCOUNTS) as u16
    }

    /// The number of an account, if there is such a one. A join is of an account 1 or 4,096 that is unknown.
    fn number(&mut self, who: Who, join: bool) -> Option<u16> {
        let from = self.any_number();
        let on = |standing| matches!(standing, Standing::Active(_) | Standing::Held(_));
        match who {
            Number(number @ (1 | 4096)) => {
                let standing = self.roster.standing(number as u32);
                (if join { standing == Standing::Unknown } else { on(standing) }).then_some(number)
            }
            Number(number) => Some(number),
            Above => Some(4097 + self.random.below(65_535 - 4096) as u16),
            Unknown => (from..=4096)
                .chain(1..from)
                .find(|number| self.roster.standing(*number as u32) == Standing::Unknown),
            Withdrawn => self.roster.some(from, |standing| standing == Standing::Withdrawn),
            Active => self.roster.some(from, |standing| matches!(standing, Standing::Active(_))),
            Held => self.roster.some(from, |standing| matches!(standing, Standing::Held(_))),
        }
    }

    /// A name for a record about the account.
    fn name(&mut self, number: u16, named: Named) -> Option<Vec<u8>> {
        let labels = self.policy.names.len();
        let on = match self.roster.standing(number as u32) {
            Standing::Active(label) | Standing::Held(label) => label as usize,
            _ => labels,
        };
        let label = match named {
            Named::Same => on,
            Named::Other => (0..3).map(|_| self.random.below(labels)).find(|label| *label != on)?,
            Named::Missing => {
                let others = issuing::other_names(self.random, self.policy)
                    .into_iter()
                    .chain([b"        ".to_vec(), vec![0; 8]]);
                let others: Vec<Vec<u8>> = others.filter(|name| name.len() == 8).collect();
                return Some(others[self.random.below(others.len())].clone());
            }
        };
        Some(self.policy.names[label].to_vec())
    }

    /// A record of the way, if the accounts allow it.
    pub fn record(&mut self, way: Way) -> Option<Vec<u8>> {
        let (mark, who, named) = match way {
            Join(who, named) => (b"JN", who, Some(named)),
            Move(who, named) => (b"MV", who, Some(named)),
            Hold(who) => (b"HD", who, None),
            Release(who) => (b"RL", who, None),
            Withdraw(who) => (b"WD", who, None),
            Byte(byte) => return Some(vec![byte]),
            Mark(mark) => return Some([mark.as_bytes(), &vec![0; self.random.choose(&[0, 2, 2, 10])]].concat()),
            Cut(mark, length) => {
                let number = self.random.choose(&[0, 1, 2, 5, 4096, 4097, 65_535]) as u16;
                let name = self.policy.names[self.random.below(self.policy.names.len())];
                return Some([mark.as_bytes(), &number.to_be_bytes(), &name].concat()[..length].to_vec());
            }
        };
        let number = self.number(who, mark == b"JN")?;
        let name = named.map_or(Some(Vec::new()), |named| self.name(number, named))?;
        Some([&mark[..], &number.to_be_bytes(), &name].concat())
    }

    /// Adds a record; the roster takes it in if it is accepted.
    pub fn push(&mut self, record: &[u8]) {
        let _ = self.roster.add(self.policy, record, |_, _| {});
        self.file.extend_from_slice(record);
        self.ends.push(self.file.len());
    }

    /// Adds accepted records at random, as long as any is possible; so many of 16 are joins, as long as a number is
    /// left.
    pub fn grow(&mut self, records: usize, joins: usize) {
        let end = self.ends.len() + records;
        while self.ends.len() < end {
            let who = [Active, Active, Held, Number(1), Number(4096)][self.random.below(5)];
            let way = match self.random.below(16) {
                kind if kind < joins => {
                    Join([Unknown, Unknown, Unknown, Number(1), Number(4096)][self.random.below(5)], Named::Other)
                }
                0..=6 => Move(who, [Named::Same, Named::Other, Named::Other][self.random.below(3)]),
                7..=11 => Hold(who),
                12 | 13 => Release(who),
                _ if self.random.once_in(3) => Withdraw(who),
                _ => Join(Unknown, Named::Other),
            };
            let possible = [way, Join(Unknown, Named::Other), Hold(Active), Release(Held)];
            let Some(record) = possible.into_iter().find_map(|way| self.record(way)) else { return };
            self.push(&record);
        }
    }
}

/// How many records a roster has: mostly few, now and then as many as 5,000.
pub fn records(random: &mut Random) -> usize {
    match random.below(200) {
        0 => 1000 + random.below(4001),
        1..=4 => random.below(300),
        5..=20 => 0,
        _ => random.below(24),
    }
}

/// An accepted roster of so many records.
pub fn accepted(random: &mut Random, policy: &Policy, records: usize) -> Vec<u8> {
    let joins = random.choose(&[3, 8, 14, 16]);
    let mut maker = Maker::new(random, policy);
    maker.grow(records, joins);
    maker.file
}

/// A roster with one record that is refused, somewhere among others.
pub fn refused(random: &mut Random, policy: &Policy, ways: &[Way]) -> Vec<u8> {
    let records = 1 + records(random);
    let mut maker = Maker::new(random, policy);
    maker.grow(records, 9);
    for _ in 0..20 {
        let way = ways[maker.random.below(ways.len())];
        if way.refusal() == 0 {
            continue;
        }
        if let Some(record) = maker.record(way) {
            maker.push(&record);
            if !way.at_the_end() && maker.random.once_in(2) {
                maker.grow(3, 9);
            }
            return maker.file;
        }
    }
    maker.file
}

/// A roster with one to three injuries of any kind.
pub fn damaged(random: &mut Random, policy: &Policy) -> Vec<u8> {
    let records = 1 + random.below(30);
    let mut file = accepted(random, policy, records);
    for _ in 0..1 + random.below(3) {
        if file.is_empty() {
            return file;
        }
        let at = random.below(file.len());
        match random.below(6) {
            0 => file[at] = random.byte(),
            1 => file.truncate(at),
            2 => {
                file.remove(at);
            }
            3 => file.insert(at, random.byte()),
            4 => file.extend_from_within(at..),
            _ => file.extend_from_slice(&b"JNMVHDRLWD"[..random.below(10)]),
        }
    }
    file
}

/// A roster of any kind for the policy: half of them are accepted.
pub fn any(random: &mut Random, policy: &Policy, ways: &[Way]) -> Vec<u8> {
    let (many, length) = (records(random), random.below(200));
    match random.below(24) {
        0 => files::noise(random, length),
        1 => policy.to_bytes(),
        2..=4 => damaged(random, policy),
        5..=10 => refused(random, policy, ways),
        _ => accepted(random, policy, many),
    }
}
