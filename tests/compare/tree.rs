//! Trees over a policy, from document 01 and Ask 1 of document 02: the order by search, weights, the plan,
//! smallest sets, totals, tree files with their refusals, the plan's text and its drawing.

use crate::policy::{self, Policy};

/// What a plan says of each label, and its total.
#[derive(Clone, Debug, PartialEq, Eq)]
pub struct Plan {
    pub parents: Vec<u8>,
    pub weights: Vec<u32>,
    pub sizes: Vec<u8>,
    pub total: u32,
}

/// Which of several parents of least weight a label hangs from: the one with the highest number, as Ask 1 of
/// document 02 has it, or the one with the lowest, as document 01 had it before.
#[derive(Clone, Copy)]
pub enum Tie {
    Highest,
    Lowest,
}

/// An accepted policy with its order and its plan. A tree is a list of parents, the top's own entry 0.
pub struct Planned<'a> {
    policy: &'a Policy,
    below: Vec<Vec<bool>>,
    pub plan: Plan,
}

/// For each label, which labels are at or below it: a search from it down the pairs.
fn search(policy: &Policy) -> Vec<Vec<bool>> {
    let labels = policy.names.len();
    let mut lowers = vec![Vec::new(); labels];
    for (upper, lower) in &policy.pairs {
        lowers[*upper as usize].push(*lower as usize);
    }
    let from = |start: usize| {
        let mut seen = vec![false; labels];
        let mut open = vec![start];
        while let Some(label) = open.pop() {
            if !std::mem::replace(&mut seen[label], true) {
                open.extend(&lowers[label]);
            }
        }
        seen
    };
    (0..labels).map(from).collect()
}

impl<'a> Planned<'a> {
    pub fn new(policy: &'a Policy) -> Planned<'a> {
        Planned::by_rule(policy, Tie::Highest)
    }

    pub fn by_rule(policy: &'a Policy, tie: Tie) -> Planned<'a> {
        let none = Plan { parents: Vec::new(), weights: Vec::new(), sizes: Vec::new(), total: 0 };
        let mut planned = Planned { policy, below: search(policy), plan: none };
        planned.plan = planned.made(tie);
        planned
    }

    pub fn labels(&self) -> usize {
        self.policy.names.len()
    }

    pub fn at_or_below(&self, lower: usize, upper: usize) -> bool {
        self.below[upper][lower]
    }

    /// The labels that may be the label's parent.
    pub fn strictly_above(&self, label: usize) -> Vec<usize> {
        (0..self.labels()).filter(|upper| *upper != label && self.at_or_below(label, *upper)).collect()
    }

    /// Whether the parent is strictly above the label and no other label lies between them.
    pub fn covers(&self, parent: usize, label: usize) -> bool {
        let above = self.strictly_above(label);
        above.contains(&parent) && above.iter().all(|x| *x == parent || !self.at_or_below(*x, parent))
    }

    /// The accounts at labels that are at or above the label and not at or above the parent.
    pub fn weight(&self, parent: usize, label: usize) -> u32 {
        let counted = |l: &usize| self.at_or_below(label, *l) && !self.at_or_below(parent, *l);
        (0..self.labels()).filter(counted).map(|l| self.policy.counts[l] as u32).sum()
    }

    /// The label's parents of least weight, in their numbers' order.
    pub fn least_parents(&self, label: usize) -> Vec<usize> {
        let above = self.strictly_above(label).into_iter();
        let weighed: Vec<(usize, u32)> = above.map(|parent| (parent, self.weight(parent, label))).collect();
        let least = weighed.iter().map(|one| one.1).min();
        weighed.iter().filter(|one| Some(one.1) == least).map(|one| one.0).collect()
    }

    fn best_parent(&self, label: usize, tie: Tie) -> usize {
        let least = self.least_parents(label);
        match tie {
            Tie::Highest => *least.last().unwrap(),
            Tie::Lowest => least[0],
        }
    }

    /// Each label at or below this one that is the top or whose parent is not at or below it.
    fn smallest(&self, tree: &[usize], label: usize) -> Vec<usize> {
        let held = |m: &usize| *m == 0 || !self.at_or_below(tree[*m], label);
        (0..self.labels()).filter(|m| self.at_or_below(*m, label)).filter(held).collect()
    }

    /// For each label, accounts times size of the smallest set, summed.
    pub fn total(&self, tree: &[usize]) -> u32 {
        let keys = |l: usize| self.policy.counts[l] as u64 * self.smallest(tree, l).len() as u64;
        let total: u64 = (0..self.labels()).map(keys).sum();
        total.try_into().unwrap()
    }

    fn made(&self, tie: Tie) -> Plan {
        let labels = self.labels();
        let tree: Vec<usize> = (0..labels).map(|m| if m == 0 { 0 } else { self.best_parent(m, tie) }).collect();
        let weight = |m: usize| if m == 0 { self.policy.counts[0] as u32 } else { self.weight(tree[m], m) };
        Plan {
            parents: tree.iter().map(|parent| *parent as u8).collect(),
            weights: (0..labels).map(weight).collect(),
            sizes: (0..labels).map(|l| self.smallest(&tree, l).len() as u8).collect(),
            total: self.total(&tree),
        }
    }

    /// The tree of a tree file, or the number of its refusal.
    pub fn read_tree(&self, file: &[u8]) -> Result<Vec<usize>, u8> {
        if file.get(..2) != Some(b"TR") {
            return Err(2);
        }
        if file.len() != 2 + self.labels() {
            return Err(11);
        }
        let tree: Vec<usize> = file[2..].iter().map(|byte| *byte as usize).collect();
        if tree[0] != 0 || (1..tree.len()).any(|m| !self.strictly_above(m).contains(&tree[m])) {
            return Err(12);
        }
        Ok(tree)
    }

    /// The total of an offered tree, and whether no tree has a smaller one.
    pub fn weigh(&self, file: &[u8]) -> Result<(u32, bool), u8> {
        let total = self.total(&self.read_tree(file)?);
        Ok((total, total == self.plan.total))
    }

    /// A label's name without padding.
    fn name(&self, label: usize) -> &str {
        std::str::from_utf8(&self.policy.names[label]).unwrap().trim_end()
    }

    /// A label's name, its parent's unless it is the top, accounts, weight and keys.
    fn row(&self, label: usize) -> (&str, Option<&str>, u16, u32, u8) {
        let Plan { parents, weights, sizes, .. } = &self.plan;
        let parent = (label > 0).then(|| self.name(parents[label] as usize));
        (self.name(label), parent, self.policy.counts[label], weights[label], sizes[label])
    }

    pub fn text(&self) -> Vec<u8> {
        let mut text = String::new();
        for label in 0..self.labels() {
            let (name, parent, accounts, weight, keys) = self.row(label);
            text += &format!("{name} {} {weight} {keys} {accounts}\n", parent.unwrap_or("-"));
        }
        text += &format!("TOTAL {}\n", self.plan.total);
        text.into_bytes()
    }

    /// The plan as a graph for Graphviz: a node for each label, and the edge to it from its parent.
    pub fn dot(&self) -> Vec<u8> {
        let mut text = String::from("digraph plan {\n  node [shape=box];\n");
        for label in 0..self.labels() {
            let (name, parent, accounts, weight, keys) = self.row(label);
            let lines = format!("{name}\\naccounts {accounts}\\nweight {weight}\\nkeys {keys}");
            text += &format!("  \"{name}\" [label=\"{lines}\"];\n");
            if let Some(parent) = parent {
                text += &format!("  \"{parent}\" -> \"{name}\";\n");
            }
        }
        text += &format!("  label=\"TOTAL {}\";\n}}\n", self.plan.total);
        text.into_bytes()
    }
}

/// The operations on files: a refusal of the policy comes first.
pub fn order(file: &[u8]) -> Result<[[bool; 64]; 64], u8> {
    let below = search(&policy::read(file)?);
    let is = |lower: usize, upper: usize| below.get(upper).is_some_and(|row| row.get(lower) == Some(&true));
    Ok(std::array::from_fn(|lower| std::array::from_fn(|upper| is(lower, upper))))
}

pub fn plan(file: &[u8]) -> Result<Plan, u8> {
    policy::read(file).map(|policy| Planned::new(&policy).plan)
}

pub fn weigh(file: &[u8], tree: &[u8]) -> Result<(u32, bool), u8> {
    policy::read(file).and_then(|policy| Planned::new(&policy).weigh(tree))
}

pub fn text(file: &[u8]) -> Result<Vec<u8>, u8> {
    policy::read(file).map(|policy| Planned::new(&policy).text())
}

pub fn dot(file: &[u8]) -> Result<Vec<u8>, u8> {
    policy::read(file).map(|policy| Planned::new(&policy).dot())
}

/// What is written into so much room: a refusal of the policy comes before one of the buffer.
pub fn into_room(text: Result<Vec<u8>, u8>, room: usize) -> Result<Vec<u8>, u8> {
    text.and_then(|text| if room < text.len() { Err(16) } else { Ok(text) })
}
