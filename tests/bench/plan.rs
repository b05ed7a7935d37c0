//! Policies, the plan, its text and drawing, the weighing of a tree, and what one more account costs in plain
//! Rust. The policy is read and checked as the comparison's second implementation does it, and the order built as a
//! table of 64 rows of 64 entries closed under chains. The weight of every label strictly above each label is summed
//! from the two rows, and the least taken. For what one more account costs that is done anew for each label. There
//! are no bit sets, and the reader's lists and a text alone are allocated; the loops over rows have no branch
//! inside, so that they compile to vector instructions.

use crate::library::{self, Growth, Pair, Plan, Weighed, Written};
use crate::policy;
use std::fmt::Write;

pub type Rows = [[bool; 64]; 64];

/// Names, accounts and pairs of a policy, the accounts as summands and 0 past the labels.
pub struct Policy {
    pub labels: usize,
    pub names: Vec<[u8; 8]>,
    pub counts: [u32; 64],
    pairs: Vec<(u8, u8)>,
}

pub fn read(file: &[u8]) -> Result<Policy, u8> {
    let read = policy::read(file)?;
    let mut counts = [0; 64];
    for (summand, count) in counts.iter_mut().zip(&read.counts) {
        *summand = *count as u32;
    }
    Ok(Policy { labels: read.names.len(), names: read.names, counts, pairs: read.pairs })
}

pub fn read_policy(file: &[u8]) -> library::Policy {
    let (counts, over) = ([0; 64], [Pair { upper: 0, lower: 0 }; 512]);
    let mut answer = library::Policy { refusal: 0, zeros: [0; 7], labels: 0, pairs: 0, counts, over };
    match policy::read(file) {
        Ok(read) => {
            (answer.labels, answer.pairs) = (read.names.len(), read.pairs.len());
            answer.counts[..read.counts.len()].copy_from_slice(&read.counts);
            for (pair, (upper, lower)) in answer.over.iter_mut().zip(read.pairs) {
                *pair = Pair { upper, lower };
            }
        }
        Err(refusal) => answer.refusal = refusal,
    }
    answer
}

pub fn order_rows(file: &[u8]) -> library::Rows {
    match read(file) {
        Ok(policy) => library::Rows { refusal: 0, rows: order(&policy) },
        Err(refusal) => library::Rows { refusal, rows: [[false; 64]; 64] },
    }
}

/// Entry l of row m says that m is at or below l. An upper label has the smaller number, so the rows above
/// row m are complete when it is joined with them.
pub fn order(policy: &Policy) -> Rows {
    let mut rows = [[false; 64]; 64];
    for label in 0..policy.labels {
        rows[label][label] = true;
    }
    for (upper, lower) in &policy.pairs {
        rows[*lower as usize][*upper as usize] = true;
    }
    for lower in 0..policy.labels {
        for upper in 0..lower {
            if rows[lower][upper] {
                let above = rows[upper];
                for (entry, of_upper) in rows[lower].iter_mut().zip(above) {
                    *entry |= of_upper;
                }
            }
        }
    }
    rows
}

/// By itself and not inlined: some callers' copies of the loop had a branch.
#[inline(never)]
fn weight(counts: &[u32; 64], parent: &[bool; 64], label: &[bool; 64]) -> u32 {
    let mut sum = 0;
    for l in 0..64 {
        if label[l] & !parent[l] {
            sum += counts[l];
        }
    }
    sum
}

/// The parent of least weight, of several the one with the highest number, and its weight.
pub fn best_parent(policy: &Policy, rows: &Rows, label: usize) -> (u8, u32) {
    let mut best = (0, u32::MAX);
    for parent in 0..label {
        if rows[label][parent] {
            let weight = weight(&policy.counts, &rows[parent], &rows[label]);
            if weight <= best.1 {
                best = (parent as u8, weight);
            }
        }
    }
    best
}

/// A label is held at each label that it is at or below and its parent is not; the top is held at itself.
fn sizes(policy: &Policy, rows: &Rows, parents: &[u8; 64]) -> [u8; 64] {
    let mut sizes = [0; 64];
    sizes[0] = 1;
    for m in 1..policy.labels {
        let (row, parent) = (&rows[m], &rows[parents[m] as usize]);
        for l in 0..64 {
            sizes[l] += (row[l] & !parent[l]) as u8;
        }
    }
    sizes
}

fn total(policy: &Policy, sizes: &[u8; 64]) -> u32 {
    policy.counts.iter().zip(sizes).map(|(count, size)| count * *size as u32).sum()
}

/// The total of the plan, by the weights of the parents.
fn least_total(policy: &Policy, rows: &Rows) -> u32 {
    policy.counts[0] + (1..policy.labels).map(|label| best_parent(policy, rows, label).1).sum::<u32>()
}

const NO_PLAN: Plan =
    Plan { refusal: 0, zeros: [0; 3], total: 0, labels: 0, parents: [0; 64], weights: [0; 64], sizes: [0; 64] };

pub fn plan(file: &[u8]) -> Plan {
    of(read(file))
}

pub fn of(read: Result<Policy, u8>) -> Plan {
    read.map_or_else(|refusal| Plan { refusal, ..NO_PLAN }, |policy| planned(&policy))
}

fn planned(policy: &Policy) -> Plan {
    let mut plan = Plan { labels: policy.labels, ..NO_PLAN };
    let rows = order(policy);
    plan.weights[0] = policy.counts[0];
    for label in 1..policy.labels {
        (plan.parents[label], plan.weights[label]) = best_parent(policy, &rows, label);
    }
    plan.sizes = sizes(policy, &rows, &plan.parents);
    plan.total = total(policy, &plan.sizes);
    plan
}

const NO_GROWTH: Growth = Growth { refusal: 0, zeros: [0; 7], labels: 0, costs: [0; 64], ceilings: [0; 64] };

pub fn growth(file: &[u8]) -> Growth {
    read(file).map_or_else(|refusal| Growth { refusal, ..NO_GROWTH }, |mut policy| grown(&mut policy))
}

/// Each label's accounts are raised by one, the policy is planned, and the accounts are put back.
fn grown(policy: &mut Policy) -> Growth {
    let mut growth = Growth { labels: policy.labels, ..NO_GROWTH };
    let rows = order(policy);
    let today = least_total(policy, &rows);
    for label in 0..policy.labels {
        if policy.counts[label] < 65_535 {
            policy.counts[label] += 1;
            growth.costs[label] = (least_total(policy, &rows) - today) as u8;
            growth.ceilings[label] = rows.iter().map(|row| row[label] as u8).sum();
            policy.counts[label] -= 1;
        }
    }
    growth
}

/// The name of a label without padding.
fn name(policy: &Policy, label: usize) -> &str {
    std::str::from_utf8(&policy.names[label]).unwrap().trim_ascii_end()
}

fn write_text(text: &mut String, policy: &mut Policy) -> std::fmt::Result {
    let plan = planned(policy);
    for m in 0..policy.labels {
        let parent = if m == 0 { "-" } else { name(policy, plan.parents[m] as usize) };
        let (weight, size, accounts) = (plan.weights[m], plan.sizes[m], policy.counts[m]);
        writeln!(text, "{} {parent} {weight} {size} {accounts}", name(policy, m))?;
    }
    writeln!(text, "TOTAL {}", plan.total)
}

fn write_dot(text: &mut String, policy: &mut Policy) -> std::fmt::Result {
    let plan = planned(policy);
    text.push_str("digraph plan {\n  node [shape=box];\n");
    for m in 0..policy.labels {
        let (name_of_m, weight, size) = (name(policy, m), plan.weights[m], plan.sizes[m]);
        write!(text, "  \"{name_of_m}\" [label=\"{name_of_m}\\naccounts {}", policy.counts[m])?;
        writeln!(text, "\\nweight {weight}\\nkeys {size}\"];")?;
        if m > 0 {
            writeln!(text, "  \"{}\" -> \"{name_of_m}\";", name(policy, plan.parents[m] as usize))?;
        }
    }
    writeln!(text, "  label=\"TOTAL {}\";\n}}", plan.total)
}

fn write_growth(text: &mut String, policy: &mut Policy) -> std::fmt::Result {
    let growth = grown(policy);
    for m in 0..policy.labels {
        match growth.costs[m] {
            0 => writeln!(text, "{} - -", name(policy, m))?,
            cost => writeln!(text, "{} {cost} {}", name(policy, m), growth.ceilings[m])?,
        }
    }
    Ok(())
}

/// Writes a text into the buffer, if the policy is not refused and there is room for it.
fn written(
    file: &[u8],
    out: &mut [u8],
    write: fn(&mut String, &mut Policy) -> std::fmt::Result,
) -> Written {
    let refused = |refusal| Written { refusal, zeros: [0; 7], length: 0 };
    let mut policy = match read(file) {
        Ok(policy) => policy,
        Err(refusal) => return refused(refusal),
    };
    let mut text = String::with_capacity(8192);
    let done = write(&mut text, &mut policy);
    match out.get_mut(..text.len()) {
        Some(start) if done.is_ok() => {
            start.copy_from_slice(text.as_bytes());
            Written { refusal: 0, zeros: [0; 7], length: text.len() }
        }
        _ => refused(16),
    }
}

pub fn plan_text(file: &[u8], out: &mut [u8]) -> Written {
    written(file, out, write_text)
}

pub fn plan_dot(file: &[u8], out: &mut [u8]) -> Written {
    written(file, out, write_dot)
}

pub fn growth_text(file: &[u8], out: &mut [u8]) -> Written {
    written(file, out, write_growth)
}

fn read_tree(policy: &Policy, rows: &Rows, tree: &[u8]) -> Result<[u8; 64], u8> {
    let bytes = tree.strip_prefix(b"TR").ok_or(2)?;
    if bytes.len() != policy.labels {
        return Err(11);
    }
    let mut parents = [0; 64];
    for (label, parent) in bytes.iter().enumerate() {
        let above = (*parent as usize) < label && rows[label][*parent as usize];
        if !above && (label, *parent) != (0, 0) {
            return Err(12);
        }
        parents[label] = *parent;
    }
    Ok(parents)
}

fn weighed(file: &[u8], tree: &[u8]) -> Result<(u32, bool), u8> {
    let policy = read(file)?;
    let rows = order(&policy);
    let parents = read_tree(&policy, &rows, tree)?;
    let total = total(&policy, &sizes(&policy, &rows, &parents));
    Ok((total, total == least_total(&policy, &rows)))
}

pub fn weigh(file: &[u8], tree: &[u8]) -> Weighed {
    match weighed(file, tree) {
        Ok((total, least)) => Weighed { refusal: 0, least, zeros: [0; 2], total },
        Err(refusal) => Weighed { refusal, least: false, zeros: [0; 2], total: 0 },
    }
}
