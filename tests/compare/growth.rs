//! What one more account costs, from Ask 3 of document 02: for each label the policy is planned anew with one
//! account more there.

use crate::policy::{self, Policy};

/// For each label the labels at or above it, as a mask with label 0 in its lowest bit. An upper label has the
/// smaller number, so its mask is complete when a lower label takes it over.
fn at_or_above(policy: &Policy) -> Vec<u64> {
    let mut above: Vec<u64> = (0..policy.names.len()).map(|label| 1 << label).collect();
    let mut pairs = policy.pairs.clone();
    pairs.sort_by_key(|pair| pair.1);
    for (upper, lower) in pairs {
        above[lower as usize] |= above[upper as usize];
    }
    above
}

/// The labels of a mask.
fn labels(mut mask: u64) -> impl Iterator<Item = usize> {
    std::iter::from_fn(move || {
        let label = mask.trailing_zeros() as usize;
        mask &= mask.wrapping_sub(1);
        (label < 64).then_some(label)
    })
}

/// The top's accounts, and for each other label the least weight of a parent.
fn least(above: &[u64], counts: &[u16]) -> u32 {
    let accounts = |mask: u64| labels(mask).map(|l| counts[l] as u32).sum::<u32>();
    let weight = |parent: usize, label: usize| accounts(above[label] & !above[parent]);
    let parents = |label: usize| labels(above[label] & !(1 << label));
    let least = |label: usize| parents(label).map(|parent| weight(parent, label)).min().unwrap();
    counts[0] as u32 + (1..above.len()).map(least).sum::<u32>()
}

/// The plan's total.
pub fn total(policy: &Policy) -> u32 {
    least(&at_or_above(policy), &policy.counts)
}

/// For each label by how much the total rises with one account more there, and the number of labels at or below it;
/// nothing for a label that has 65,535 accounts.
fn figures(policy: &Policy) -> Vec<Option<(u8, u8)>> {
    let (above, counts) = (at_or_above(policy), &policy.counts);
    let today = least(&above, counts);
    let of = |label: usize| {
        let mut more = counts.clone();
        more[label] = counts[label].checked_add(1)?;
        let below = above.iter().filter(|mask| *mask >> label & 1 == 1).count();
        Some(((least(&above, &more) - today).try_into().unwrap(), below as u8))
    };
    (0..above.len()).map(of).collect()
}

/// Cost and ceiling of each label, 0 and 0 for one that has 65,535 accounts.
pub fn growth(file: &[u8]) -> Result<Vec<(u8, u8)>, u8> {
    policy::read(file).map(|policy| figures(&policy).into_iter().map(Option::unwrap_or_default).collect())
}

/// A line for each label: its name, cost and ceiling, or `-` for both.
pub fn text(file: &[u8]) -> Result<Vec<u8>, u8> {
    let policy = policy::read(file)?;
    let line = |(name, figures): (&[u8; 8], Option<(u8, u8)>)| {
        let name = std::str::from_utf8(name).unwrap().trim_end();
        figures.map_or(format!("{name} - -\n"), |(cost, ceiling)| format!("{name} {cost} {ceiling}\n"))
    };
    Ok(policy.names.iter().zip(figures(&policy)).map(line).collect::<String>().into_bytes())
}
