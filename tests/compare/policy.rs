//! The policy file of document 01, read a second time: records, refusals 1 to 10, how far a file is read, and
//! the order.

pub const MOST_LABELS: usize = 64;
pub const MOST_PAIRS: usize = 512;

/// A policy that was read: names, counts and pairs in file order.
#[derive(Clone, Debug, Default, PartialEq, Eq)]
pub struct Policy {
    pub names: Vec<[u8; 8]>,
    pub counts: Vec<u16>,
    pub pairs: Vec<(u8, u8)>,
}

/// Capital letters and digits, then padding spaces, and not spaces alone.
pub fn well_formed(name: &[u8]) -> bool {
    let length = name.iter().rposition(|b| *b != b' ').map_or(0, |last| last + 1);
    length > 0 && name[..length].iter().all(|b| b.is_ascii_uppercase() || b.is_ascii_digit())
}

/// Reads a whole file, or gives the number of its refusal.
pub fn read(file: &[u8]) -> Result<Policy, u8> {
    if file.is_empty() {
        return Err(1);
    }
    let mut policy = Policy::empty();
    policy.read_records(file)?;
    let mut lower = [false; MOST_LABELS];
    for pair in &policy.pairs {
        lower[pair.1 as usize] = true;
    }
    if lower[..policy.names.len()].iter().skip(1).any(|placed| !placed) {
        return Err(10);
    }
    Ok(policy)
}

/// How many records are read before the file's end or its first refused record.
pub fn records_read(file: &[u8]) -> usize {
    let mut policy = Policy::empty();
    let _ = policy.read_records(file);
    policy.names.len() + policy.pairs.len()
}

impl Policy {
    fn empty() -> Policy {
        Policy {
            names: Vec::with_capacity(MOST_LABELS),
            counts: Vec::with_capacity(MOST_LABELS),
            pairs: Vec::with_capacity(MOST_PAIRS),
        }
    }

    /// Adds the records up to the end of the bytes, or to the first that is refused.
    fn read_records(&mut self, mut rest: &[u8]) -> Result<(), u8> {
        while !rest.is_empty() {
            let length = match rest.get(0..2) {
                Some(b"LB") => 12,
                Some(b"OV") => 4,
                _ => return Err(2),
            };
            if rest.len() < length {
                return Err(3);
            }
            let (record, after) = rest.split_at(length);
            if length == 12 {
                self.read_label(record)?;
            } else {
                self.read_pair(record)?;
            }
            rest = after;
        }
        Ok(())
    }

    fn read_label(&mut self, record: &[u8]) -> Result<(), u8> {
        let name: [u8; 8] = record[2..10].try_into().unwrap();
        if !self.pairs.is_empty() {
            return Err(4);
        }
        if self.names.len() == MOST_LABELS {
            return Err(5);
        }
        if !well_formed(&name) {
            return Err(6);
        }
        if self.names.contains(&name) {
            return Err(7);
        }
        self.names.push(name);
        self.counts.push(u16::from_be_bytes([record[10], record[11]]));
        Ok(())
    }

    fn read_pair(&mut self, record: &[u8]) -> Result<(), u8> {
        let (upper, lower) = (record[2], record[3]);
        if self.pairs.len() == MOST_PAIRS {
            return Err(5);
        }
        if upper.max(lower) as usize >= self.names.len() {
            return Err(8);
        }
        if upper >= lower {
            return Err(9);
        }
        self.pairs.push((upper, lower));
        Ok(())
    }

    /// The file that holds this policy.
    pub fn to_bytes(&self) -> Vec<u8> {
        let mut file = Vec::new();
        for (name, count) in self.names.iter().zip(&self.counts) {
            file.extend_from_slice(b"LB");
            file.extend_from_slice(name);
            file.extend_from_slice(&count.to_be_bytes());
        }
        for (upper, lower) in &self.pairs {
            file.extend_from_slice(&[b'O', b'V', *upper, *lower]);
        }
        file
    }

    /// Whether a chain of pairs leads down from `upper` to `lower`, or they are the same: a search from
    /// `upper` downwards.
    pub fn at_or_below(&self, lower: usize, upper: usize) -> bool {
        let mut seen = vec![false; self.names.len()];
        let mut open = vec![upper];
        while let Some(label) = open.pop() {
            if !std::mem::replace(&mut seen[label], true) {
                open.extend(self.pairs.iter().filter(|p| p.0 as usize == label).map(|p| p.1 as usize));
            }
        }
        seen[lower]
    }
}
