//! The keys that a small policy needs, found by trying every derivation tree and, under each, every set of
//! labels. Weights and smallest sets are not used. A set of labels is a mask, label 0 in its lowest bit.

use crate::policy::Policy;

pub const MOST_LABELS: usize = 7;

/// A derivation tree with the least size of a sufficient set for each label, and the keys that it needs so.
pub struct Tried {
    pub tree: Vec<usize>,
    pub sizes: Vec<u8>,
    pub total: u32,
}

/// Every derivation tree: each label but the top has one parent strictly above it.
fn every_tree(policy: &Policy) -> Vec<Vec<usize>> {
    let labels = policy.names.len();
    let mut trees = vec![vec![0]];
    for label in 1..labels {
        let above = (0..labels).filter(|upper| *upper != label && policy.at_or_below(label, *upper));
        let longer = above.flat_map(|parent| trees.iter().map(move |tree| [&tree[..], &[parent]].concat()));
        trees = longer.collect();
    }
    trees
}

/// The labels in the set, and every label whose parent is reached.
fn reached(tree: &[usize], set: u8) -> u8 {
    let mut reached = set;
    loop {
        let before = reached;
        for (label, parent) in tree.iter().enumerate().skip(1) {
            if reached >> parent & 1 == 1 {
                reached |= 1 << label;
            }
        }
        if reached == before {
            return reached;
        }
    }
}

/// Tries every set: it is sufficient for a label when exactly the labels at or below it are reached. Each
/// account's set is chosen freely, so every account at a label holds a sufficient set of least size.
fn try_tree(policy: &Policy, licensed: &[u8], tree: Vec<usize>) -> Tried {
    let mut sizes = vec![u8::MAX; tree.len()];
    for set in 0..1u16 << tree.len() {
        let opened = reached(&tree, set as u8);
        for (size, licensed) in sizes.iter_mut().zip(licensed) {
            if opened == *licensed {
                *size = (*size).min(set.count_ones() as u8);
            }
        }
    }
    let total = sizes.iter().zip(&policy.counts).map(|(size, count)| *size as u32 * *count as u32).sum();
    Tried { tree, sizes, total }
}

pub fn every_tree_tried(policy: &Policy) -> Vec<Tried> {
    let labels = policy.names.len();
    assert!(labels <= MOST_LABELS);
    let below = |upper| (0..labels).filter(move |lower| policy.at_or_below(*lower, upper));
    let licensed: Vec<u8> = (0..labels).map(|upper| below(upper).map(|lower| 1 << lower).sum()).collect();
    every_tree(policy).into_iter().map(|tree| try_tree(policy, &licensed, tree)).collect()
}
